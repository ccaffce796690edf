"""Waiting for what happens, however busy the machine is."""

from __future__ import annotations

import os
import subprocess
import time
from pathlib import Path
from typing import Callable, List, Sequence

SECONDS = 300.0  # most that anything is waited for
EVERY = 0.05  # seconds between two looks


def wait_until(is_true: Callable[[], bool], what: str) -> None:
    """Looks again and again until something is true.

    Raises:
        AssertionError: it is not true after five minutes.
    """
    end = time.monotonic() + SECONDS
    while not is_true():
        assert time.monotonic() < end, f"waited in vain: {what}"
        time.sleep(EVERY)


def wait_for_file(path: Path) -> None:
    """Until a file is there that is not empty."""
    wait_until(lambda: path.exists() and path.stat().st_size > 0, f"{path} is there")


def wait_for_end(process: int) -> None:
    """Until no process has this number, or one that has ended and that nobody asked for."""
    wait_until(lambda: not is_running(process), f"process {process} ends")


def is_running(process: int) -> bool:
    """Whether a process has not ended."""
    return any(word[0] != "Z" for word in _ps("stat=", "-p", str(process)))


def children_of(process: int) -> List[int]:
    """The processes that a process started."""
    return [int(word) for word in _ps("pid=", "--ppid", str(process))]


def _ps(*words: str) -> Sequence[str]:
    done = subprocess.run(["ps", "-o", *words], capture_output=True, text=True, env=os.environ)
    return done.stdout.split()
