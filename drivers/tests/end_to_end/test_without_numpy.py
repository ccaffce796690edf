"""A Python without NumPy is told in a line."""

from __future__ import annotations

import subprocess
import sys
from pathlib import Path
from typing import Dict

import pytest

COMMANDS = sorted((Path(__file__).parents[2] / "bin").iterdir())


@pytest.mark.parametrize("command", COMMANDS, ids=[path.name for path in COMMANDS])
def test_a_python_without_numpy(command: Path) -> None:
    """It is told as the command starts, though NumPy is loaded later: -S leaves out what is
    installed beside Python's own modules."""
    no_variables: Dict[str, str] = {}
    ended = subprocess.run(
        [sys.executable, "-S", str(command), "-v"],
        env=no_variables,
        capture_output=True,
        text=True,
    )
    assert ended.returncode == 127
    assert ended.stderr == (
        f"{command.name}: {sys.executable} has no NumPy (Debian: apt install python3-numpy)\n"
    )
