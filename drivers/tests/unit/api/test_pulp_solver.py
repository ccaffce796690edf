"""The PuLP solver class: what needs neither a solver nor the proved program."""

from __future__ import annotations

import shutil
from pathlib import Path
from typing import Any

import pytest

pulp = pytest.importorskip("pulp")

from bridge_drivers import WrongOption, pulp_solver  # noqa: E402

Problem = Any  # PuLP has no types
Expression = Any
TEXT = (
    "*SENSE:Maximize\nNAME          MODEL\n{}ROWS\n N  OBJ\nCOLUMNS\nRHS\n{}BOUNDS\nENDATA\n"
).format


def problem_of(objective: Expression, *constraints: Expression) -> Problem:
    problem = pulp.LpProblem("p", pulp.LpMinimize)
    for part in (objective, *constraints):
        problem += part
    return problem


def test_the_sense_and_the_constant_are_put_back() -> None:
    text = TEXT("", "")
    whole = pulp_solver.with_sense_and_constant(text, "OBJ", 2.5, maximise=True)
    assert whole == TEXT("OBJSENSE\n MAX\n", "    RHS       OBJ  -2.5\n")
    assert pulp_solver.with_sense_and_constant(text, "OBJ", 0, maximise=False) == text


@pytest.mark.parametrize("low, high", [(3, 2), (0, -1)])
def test_an_empty_interval(low: int, high: int) -> None:
    """Also one that PuLP's own MPS would lose."""
    command = pulp_solver.BridgeCmd("/nonexistent", msg=False)
    problem = problem_of(1 * pulp.LpVariable("x", low, high))
    problem.solve(command)
    assert pulp.LpStatus[problem.status] == "Infeasible"
    told = f"infeasible: x has the lower bound {low} and the upper bound {high}"
    assert command.message == told


def test_no_such_driver() -> None:
    problem = problem_of(1 * pulp.LpVariable("x", 0, 1))
    with pytest.raises(pulp.PulpSolverError, match="no driver of nonexistent: cbc, "):
        problem.solve(pulp_solver.BridgeCmd("/nonexistent", msg=False))
    assert pulp_solver.BridgeCmd("/nonexistent").available() is False


@pytest.mark.parametrize("name", ["cbc", "glpsol", "esolver"])
def test_available(name: str) -> None:
    assert pulp_solver.BridgeCmd("/x/bridge-" + name).available() == (shutil.which(name) or False)


def test_no_solver() -> None:
    """What helps is told in PuLP's words."""
    problem = problem_of(1 * pulp.LpVariable("x", 0, 1))
    command = pulp_solver.BridgeCmd(msg=False, options=["solver=/no"], bridge="/bin/true")
    with pytest.raises(pulp.PulpSolverError) as caught:
        problem.solve(command)
    assert "was not found: install it or give options=['solver=PATH']" in str(caught.value)


def test_arguments_become_options() -> None:
    command = pulp_solver.BridgeCmd(
        "bridge-cbc",
        mip=False,
        timeLimit=2.5,
        gapRel=0.1,
        threads=3,
        prove=True,
        options=["outlev=1", "solver=/x/cbc"],
    )
    assert command._options() == {
        "format": "free",
        "prove": True,
        "relax": True,
        "timelim": 2.5,
        "mipgap": 0.1,
        "threads": 3,
        "outlev": 1,
        "program": "/x/cbc",
    }


@pytest.mark.parametrize("word", ["gap=1", "prove", "timelim=long"])
def test_a_wrong_word(word: str) -> None:
    with pytest.raises(WrongOption):
        pulp_solver.BridgeCmd("bridge-cbc", options=[word])._options()


@pytest.mark.parametrize(
    "last, solution",
    [
        ("feasible 3", pulp.LpSolutionIntegerFeasible),
        ("within 2 3", pulp.LpSolutionIntegerFeasible),
        ("bound 3", pulp.LpSolutionNoSolutionFound),
        ("not proved: time", pulp.LpSolutionNoSolutionFound),
    ],
)
def test_a_point_of_code_100(last: str, solution: int) -> None:
    assert pulp_solver.statuses_of(100, last) == (pulp.LpStatusNotSolved, solution)


@pytest.mark.parametrize(
    "code, status",
    [
        (0, "Optimal"),
        (100, "Not Solved"),
        (200, "Infeasible"),
        (290, "Undefined"),
        (300, "Unbounded"),
        (400, "Not Solved"),
        (450, "Not Solved"),
    ],
)
def test_statuses(code: int, status: str) -> None:
    assert pulp.LpStatus[pulp_solver.statuses_of(code).problem] == status


@pytest.mark.parametrize("name, told", [("both", "both"), ("both sides", "C0000000")])
def test_names_that_a_file_cannot_have(name: str, told: str, tmp_path: Path) -> None:
    x = pulp.LpVariable("left", 0, 9, pulp.LpInteger)
    problem = problem_of(2 * x)
    problem.addConstraint(pulp.LpConstraint(2 * x, pulp.LpConstraintGE, name, 3))
    problem.constraints = {name: next(iter(problem.constraints.values()))}
    written = pulp_solver.write_problem(problem, str(tmp_path / "p.mps"))
    assert f" G  {told}\n" in Path(written.path).read_text()
    assert list(written.names) == ["left"]


def test_a_warm_start_has_the_values_that_are_there() -> None:
    """By the names of the file, and none where no variable has a value."""
    x, y = pulp.LpVariable("x", 0, 1), pulp.LpVariable("y", 0, 1)
    problem = problem_of(x + y, x + y >= 1)
    names = {"x": "X0000000", "y": "X0000001"}
    assert pulp_solver._values_by_name(problem, names) is None
    y.setInitialValue(1)
    assert pulp_solver._values_by_name(problem, names) == {"X0000001": 1.0}
