"""What users of MiniZinc see, which drops what a solver tells where `-v` is not said."""

from __future__ import annotations

import os
import re
import subprocess
import sys
from typing import List, Sequence, Tuple

import pytest

from running.places import BIN, DRIVERS
from running.stored_runs import stored_runs
from running.workspace import Workspace

# A parent that is called minizinc, and writes on its standard error before and after.
PARENT = """
import os, subprocess
os.write(2, b'before\\n')
subprocess.run({words!r}, stdout=subprocess.DEVNULL, stderr=subprocess.DEVNULL)
os.write(2, b'%[NL DEBUG] SOLVED\\n')
"""
OPTIMAL = "% bridge-cbc: optimal 17"
REFUSED = "% bridge-cbc: m.nl line 12: constraint 0: (x0 * x1) is nonlinear"


@pytest.mark.needs("program")
@pytest.mark.parametrize("mode", ["wb", "ab"], ids=["own-place", "append"])
@pytest.mark.parametrize(
    ("model", "words", "told"),
    [
        ("knap", [], OPTIMAL),
        ("knap", ["-v"], ""),
        ("nonlinear", [], REFUSED),
        ("nonlinear", ["-v"], REFUSED),
    ],
)
def test_line_on_its_standard_error(
    workspace: Workspace, model: str, words: Sequence[str], told: str, mode: str
) -> None:
    """A verdict only where MiniZinc was not called with -v, a refusal always.

    MiniZinc writes its next line over what was appended to a file, unless it appends, too.
    """
    workspace.write_model(model)
    false_solver = workspace.false_solver("cbc", stored_runs("cbc")["knap"])
    parent = workspace.path("minizinc")
    os.symlink(os.path.realpath(sys.executable), parent)
    driver = [sys.executable, str(BIN / "bridge-cbc"), "m.nl", "-AMPL", "failexit=1", "shortest=1"]
    with open(workspace.path("told"), mode) as err:
        subprocess.run(
            [str(parent), "-c", PARENT.format(words=driver), *words],
            stderr=err,
            check=True,
            cwd=workspace.folder,
            env=workspace.environment(**false_solver),
        )
    lines = [line.rstrip() for line in workspace.read("told").decode().split("\n") if line.strip()]
    wanted = [told] if told else []
    assert sorted(lines) == sorted(["before", "%[NL DEBUG] SOLVED", *wanted])


def lines_of_driver(workspace: Workspace, model: str, mode: str) -> Tuple[int, List[str]]:
    """The status of MiniZinc, and the lines of the driver on its standard error.

    Args:
        model: in MiniZinc's language.
        mode: of the file that is its standard error; empty: it is a pipe.
    """
    workspace.write("m.mzn", model)
    words = ["minizinc", "--solver", "bridge-cbc", "--nl-flags", "prove=1", "m.mzn"]
    told = workspace.path("told")
    told.unlink(missing_ok=True)
    environment = workspace.environment(
        MZN_SOLVER_PATH=str(DRIVERS / "minizinc"), PATH=workspace.path_with_commands()
    )
    with open(told, mode or "wb") as file:
        done = subprocess.run(
            words,
            env=environment,
            stdout=subprocess.DEVNULL,
            stderr=file if mode else subprocess.PIPE,
            cwd=workspace.folder,
        )
    lines = (done.stderr or told.read_bytes()).decode().split("\n")
    return done.returncode, [line for line in lines if "bridge-cbc: " in line]


@pytest.mark.needs("program", "cbc", "minizinc")
@pytest.mark.parametrize("mode", ["wb", "ab", ""], ids=["own-place", "append", "pipe"])
def test_minizinc_itself(workspace: Workspace, mode: str) -> None:
    """The verdict of a model, and a refusal in words that help."""
    model = "var 0..7: x; var 0..5: y; constraint 3*x + 2*y <= 12; solve maximize x + y;"
    assert lines_of_driver(workspace, model, mode) == (0, ["% bridge-cbc: optimal 5"])
    status, lines = lines_of_driver(workspace, "var 0.0..5.0: x; solve maximize x;", mode)
    assert (status, len(lines)) == (1, 1), lines
    wanted = "^% bridge-cbc: .*: missing segment .*: add a constraint on two variables"
    assert re.search(wanted, lines[0])
