"""Each small model through each driver: over stored runs, and with the solvers that are there."""

from __future__ import annotations

import re
from typing import List, Tuple

import pytest

from builders.known_optima import HUGE_BOUNDS
from builders.small_models import MODELS
from running.answers import judge_answer
from running.places import MIXED_INTEGER_SOLVERS, SOLVERS
from running.stored_runs import StoredRun, stored_runs
from running.workspace import Workspace

SOLVED_WORDS = "(?i)optimal|solved|value of objective"
# The size from which bounds are infinite to a solver; the others take numbers of any size.
INFINITE = {"cbc": 10**25, "clp": 10**25, "highs": 10**20, "lp_solve": 10**30}


def _is_stored(driver: str, name: str) -> bool:
    """Whether the solver of the driver is reached by the model, so that its run is stored."""
    is_taken = MODELS[name].is_linear or driver in MIXED_INTEGER_SOLVERS
    return MODELS[name].reaches_a_solver() and is_taken


def _all_pairs() -> List[Tuple[str, str]]:
    return [(driver, name) for driver in SOLVERS for name in MODELS]


@pytest.mark.needs("program")
@pytest.mark.parametrize(("driver", "name"), _all_pairs())
def test_stored_run(workspace: Workspace, driver: str, name: str) -> None:
    """The answer is right where the solver answers as it did once."""
    run = stored_runs(driver).get(name, StoredRun())
    assert bool(run.logs) == _is_stored(driver, name)
    workspace.write_model(name)
    ended = workspace.replay(driver, run, "m", "-AMPL", *MODELS[name].options)
    assert ended.status == 0, ended.text
    judge_answer(driver, name, workspace.sol())


def _with_marks(pairs: List[Tuple[str, str]]) -> List[object]:
    return [pytest.param(*pair, marks=pytest.mark.needs(pair[0])) for pair in pairs]


@pytest.mark.needs("program")
@pytest.mark.parametrize(("driver", "name"), _with_marks(_all_pairs()))
def test_solved(workspace: Workspace, driver: str, name: str) -> None:
    """The answer is right with the solver that is installed."""
    workspace.write_model(name)
    ended = workspace.run("bridge-" + driver, "m", "-AMPL", *MODELS[name].options)
    assert ended.status == 0, ended.text
    judge_answer(driver, name, workspace.sol())


EACH_DRIVER = [pytest.param(driver, marks=pytest.mark.needs(driver)) for driver in SOLVERS]


@pytest.mark.needs("program")
@pytest.mark.parametrize("driver", EACH_DRIVER)
def test_command_of_only_mps(workspace: Workspace, driver: str) -> None:
    """The command that `only=mps` prints can be run as it stands, and solves."""
    workspace.write_model("product" if driver in MIXED_INTEGER_SOLVERS else "diet")
    ended = workspace.run("bridge-" + driver, "m", "only=mps", "-e")
    assert ended.status == 0, ended.text
    lines = ended.out.split("\n")
    assert len(lines) == 3, lines
    again = workspace.run_process(["sh", "-c", lines[1]])
    assert again.status == 0, again
    assert re.search(SOLVED_WORDS, again.text)


@pytest.mark.needs("program")
@pytest.mark.parametrize("driver", EACH_DRIVER)
@pytest.mark.parametrize("name", HUGE_BOUNDS)
def test_huge_bounds(workspace: Workspace, driver: str, name: str) -> None:
    """A line says which sides and bounds a solver may take for infinite."""
    workspace.write("m.nl", HUGE_BOUNDS[name].text)
    ended = workspace.run("bridge-" + driver, "m", "-AMPL", "-e")
    assert ended.status == 0, ended.text
    sol = workspace.sol()
    if name == "whole" and driver not in MIXED_INTEGER_SOLVERS:
        assert "takes no integer variables" in sol.text
        return
    size = 10**29 if name == "near" else 10**30
    is_infinite = driver in INFINITE and INFINITE[driver] <= size
    assert ("may take for none" in sol.text) == is_infinite, sol.text
