"""Models that mislead solvers in doubles: the first of each kind.

tools/misleading_table.py runs all of them.
"""

from __future__ import annotations

import os
import subprocess
import sys
from typing import Iterator

import pytest

from builders.misleading import Misleading
from builders.misleading_kinds import models
from running.misleading_runs import judge_run, takes
from running.places import SOLVERS, TESTS, installed_solvers
from running.workspace import Workspace

EACH = 1  # models of a kind
SECONDS = "timelim=60"  # of a solver on a machine that has much else to do


def _cases() -> Iterator[object]:
    for driver in SOLVERS:
        for model in models(EACH):
            if takes(driver, model):
                marks = pytest.mark.needs(driver)
                yield pytest.param(driver, model, id=f"{driver}-{model.name}", marks=marks)


@pytest.mark.needs("program", "clp_library")
@pytest.mark.parametrize(("driver", "model"), _cases())
def test_misleading_model(workspace: Workspace, driver: str, model: Misleading) -> None:
    """None ends with code 0 and a wrong answer; none that is right and exact is lost."""
    found = judge_run(workspace, driver, model, [SECONDS], [SECONDS])
    assert (found.wrong, found.lost) == ("", ""), found


def table(*words: str, **environment: str) -> "subprocess.CompletedProcess[str]":
    """Runs the command that takes all of them."""
    argv = [sys.executable, str(TESTS / "tools" / "misleading_table.py"), *words]
    environment = {**os.environ, **environment}
    return subprocess.run(argv, capture_output=True, text=True, env=environment)


@pytest.mark.needs("program", "clp_library", "solver")
def test_the_command_that_takes_all() -> None:
    """It runs both ways, and tells the codes of each."""
    name = next(name for name in installed_solvers())
    done = table(name, "equal_decimals", "chains", "each=1", "workers=1", "time=60")
    assert done.returncode == 0, done.stdout + done.stderr
    first, *ways, last = done.stdout.splitlines()
    assert first == "2 models, 1 infeasible, 0 unbounded" and last == "0 wrong"
    for way, told in zip((0, 1), ways, strict=True):
        assert told.startswith(f"{name} prove={way} all: code 0: 1, code 200: 1; 0 wrong, 0 lost;")


def test_nothing_is_right_where_nothing_runs() -> None:
    """Without the proved program, or for no kind that is there, the command fails."""
    assert table("each=1", BRIDGE="/nonexistent").returncode == 2
    assert table("each=1", "no_such_kind").returncode == 2
