"""What a command loads: a start costs what it imports, and is counted by modules, not by seconds."""

from __future__ import annotations

from typing import Set, Tuple

import pytest

from running.places import EXAMPLES
from running.workspace import Workspace

LIGHT = {"bridge_drivers.exact", "bridge_drivers.exact.evidence"}  # of the search: types alone
SEARCH = ("bridge_drivers.exact", "bridge_drivers.pages", "numpy", "ctypes", "multiprocessing")
MOST_MODULES = 85  # of the package, that a run without a certificate loads


def imported(workspace: Workspace, *words: str) -> Set[str]:
    """The modules that a command loads, as Python tells them on standard error."""
    run = workspace.run("bridge-cbc", *words, environment={"PYTHONPROFILEIMPORTTIME": "1"})
    lines = [line for line in run.err.splitlines() if line.startswith("import time:")]
    return {line.rpartition("|")[2].strip() for line in lines}


def of_search(modules: Set[str]) -> Set[str]:
    """Those that a run without a certificate does not need."""
    heavy = {name for name in modules if any(f"{name}.".startswith(f"{it}.") for it in SEARCH)}
    return heavy - LIGHT


@pytest.mark.needs("program", "cbc")
@pytest.mark.parametrize(
    "words",
    [
        ("knap", "check=0"),
        ("knap", "-AMPL", "check=0"),
        ("knap", "writesinput=1"),
        ("knap", "no_such_option=1"),
        ("no_such_model",),
        ("-v",),
        ("--help",),
    ],
    ids=" ".join,
)
def test_a_run_without_a_certificate_loads_no_search(
    workspace: Workspace, words: Tuple[str, ...]
) -> None:
    workspace.copy_files(EXAMPLES)
    modules = imported(workspace, *words)
    own = {name for name in modules if name.startswith("bridge_drivers.")}
    assert "bridge_drivers.commands.driver" in own
    assert of_search(modules) == set()
    assert len(own) <= MOST_MODULES


@pytest.mark.needs("program", "cbc", "clp_library")
def test_a_certificate_loads_the_search(workspace: Workspace) -> None:
    """So the test above sees what it looks for."""
    workspace.copy_files(EXAMPLES)
    modules = of_search(imported(workspace, "knap"))
    assert {"numpy", "bridge_drivers.exact.certifier", "ctypes"} <= modules
    assert not any(name.startswith("bridge_drivers.pages") for name in modules)
