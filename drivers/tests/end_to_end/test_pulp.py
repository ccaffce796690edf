"""The solver class for PuLP."""

from __future__ import annotations

import os
from typing import Any

import pytest

from running.places import BIN
from running.workspace import Workspace

pulp = pytest.importorskip("pulp", reason="no PuLP in this Python")
pulp_solver = pytest.importorskip("bridge_drivers.pulp_solver")

Problem = Any  # PuLP has no types
SOLVERS = ("cbc", "glpsol", "esolver")
EACH_SOLVER = [pytest.param(name, marks=pytest.mark.needs(name)) for name in SOLVERS]
MIXED_INTEGER = [pytest.param(name, marks=pytest.mark.needs(name)) for name in ("cbc", "glpsol")]
needs_mps = pytest.mark.needs("mps")


def problem_of(objective: Any, *constraints: Any, sense: int = 1) -> Problem:
    """A problem of these parts, with their names; 1: the least value is wanted, -1: the greatest."""
    problem = pulp.LpProblem("p", sense)
    for part in (objective, *constraints):
        problem += part
    return problem


def command_of(driver: str, **words: Any) -> Any:
    """The solver class over the driver of this clone."""
    return pulp_solver.BridgeCmd(str(BIN / f"bridge-{driver}"), msg=False, **words)


def solve(
    workspace: Workspace, driver: str, problem: Problem, status: str = "Optimal", **words: Any
) -> str:
    """Solves a problem, which leaves no file; the last line that is told."""
    command = command_of(driver, **words)
    command.tmpDir = str(workspace.folder)
    problem.solve(command)
    assert os.listdir(workspace.folder) == []
    assert pulp.LpStatus[problem.status] == status
    return str(command.message.split("\n")[-1])


@needs_mps
@pytest.mark.parametrize("driver", EACH_SOLVER)
def test_linear(workspace: Workspace, driver: str) -> None:
    """The verdict, values, the objective and duals."""
    x, y = pulp.LpVariable("x", 0), pulp.LpVariable("y", 0, 4)
    problem = problem_of(
        3 * x + 2 * y + 5, (3 * x + y <= 10, "first"), (x + y <= 7, "second"), sense=-1
    )
    assert solve(workspace, driver, problem) == "optimal 19"
    assert (x.value(), y.value(), pulp.value(problem.objective)) == (2, 4, 19)
    assert [problem.constraints[name].pi for name in ("first", "second")] == [1, 0]


@needs_mps
@pytest.mark.parametrize("driver", MIXED_INTEGER)
def test_order_of_variables(workspace: Workspace, driver: str) -> None:
    """Integer, binary and continuous ones, mixed, each with a value of its own."""
    a, b = pulp.LpVariable("a", 0, 9, pulp.LpInteger), pulp.LpVariable("b", cat="Binary")
    c, d = pulp.LpVariable("c", 0), pulp.LpVariable("d", None, None, pulp.LpInteger)
    problem = problem_of(a + b + c - d, 2 * a >= 5, b >= 1, 4 * c >= 10, d <= 7)
    solve(workspace, driver, problem)
    assert [variable.value() for variable in (a, b, c, d)] == [3, 1, 2.5, 7]


@needs_mps
@pytest.mark.needs("cbc")
@pytest.mark.parametrize(
    ("upper", "sense", "status"), [(2, 1, "Infeasible"), (None, -1, "Unbounded")]
)
def test_other_statuses(workspace: Workspace, upper: Any, sense: int, status: str) -> None:
    """Problems without an optimum."""
    x = pulp.LpVariable("x", 0, upper)
    solve(workspace, "cbc", problem_of(1 * x, x >= 3, sense=sense), status)


@needs_mps
@pytest.mark.parametrize("driver", EACH_SOLVER)
def test_reduced_costs_and_slacks(workspace: Workspace, driver: str) -> None:
    """Where all are 0 they are 0.0, and slacks are set as PuLP counts them.

    What another solver left of them goes, as do values where there are none.
    """
    x, y = pulp.LpVariable("left", 0), pulp.LpVariable("right", 0)
    problem = problem_of(2 * x + 3 * y, (x + y >= 4, "both"))
    solve(workspace, driver, problem)
    assert [(variable.value(), variable.dj) for variable in (x, y)] == [(4, 0), (0, 1)]
    problem += x - y == 1, "apart"
    problem += x + 2 * y <= 9, "room"
    solve(workspace, driver, problem)
    assert [variable.dj for variable in (x, y)] == [0.0, 0.0]
    slacks = {name: constraint.slack for name, constraint in problem.constraints.items()}
    assert slacks == {"both": 0, "apart": 0, "room": 3.5}
    problem += x <= 1
    solve(workspace, driver, problem, "Infeasible")
    assert [(variable.varValue, variable.dj) for variable in (x, y)] == [(None, None)] * 2
    found = {(constraint.slack, constraint.pi) for constraint in problem.constraints.values()}
    assert found == {(None, None)}


@needs_mps
@pytest.mark.needs("cbc")
@pytest.mark.parametrize(
    ("name", "in_file"), [("both", "both"), ("both sides", "C0000000")], ids=["plain", "blank"]
)
def test_names_of_constraints(workspace: Workspace, name: str, in_file: str) -> None:
    """PuLP's own, also where the MPS file cannot have them."""
    x = pulp.LpVariable("left", 0, 9, pulp.LpInteger)
    problem = problem_of(2 * x)
    problem.addConstraint(pulp.LpConstraint(2 * x, pulp.LpConstraintGE, name, 3))
    problem.constraints = {name: next(iter(problem.constraints.values()))}
    assert solve(workspace, "cbc", problem, options=["outlev=0"]) == "optimal 4"
    assert x.value() == 2
    pulp_solver.write_problem(problem, str(workspace.path("m.mps")))
    assert f" G  {in_file}\n" in workspace.path("m.mps").read_text()


@needs_mps
@pytest.mark.needs("clp")
def test_errors_in_words_of_pulp(workspace: Workspace) -> None:
    """Integer variables before clp, and what `mip=False` says of them."""
    x = pulp.LpVariable("x", 1, 5, pulp.LpInteger)
    problem = problem_of(2 * x)
    told = "takes no integer variables, and the model has 1; mip=False drops that"
    with pytest.raises(pulp.PulpSolverError, match=told):
        solve(workspace, "clp", problem)
    assert solve(workspace, "clp", problem, mip=False) == "optimal 2"
    relaxed = problem_of(2 * x, (2 * x >= 3, "both"))
    assert solve(workspace, "clp", relaxed, mip=False) == "bound 3"


@needs_mps
@pytest.mark.needs("cbc")
def test_files_that_are_kept(in_folder: Workspace) -> None:
    """keepFiles leaves the model and the report."""
    x = pulp.LpVariable("left", 1)
    problem = problem_of(1 * x, (2 * x >= 3, "both"))
    problem.name = "kept"
    problem.solve(command_of("cbc", keepFiles=True))
    assert in_folder.names() == {"kept-pulp.json", "kept-pulp.mps"}
    assert " G  both\n" in in_folder.path("kept-pulp.mps").read_text()


@needs_mps
@pytest.mark.parametrize("driver", MIXED_INTEGER)
def test_a_warm_start(workspace: Workspace, driver: str) -> None:
    """The values that variables have are where solver and search begin; names need be no words."""
    x, y = pulp.LpVariable("x", 0, 9, cat="Integer"), pulp.LpVariable("a long y", 0, 9)
    problem = problem_of(3 * x + 2 * y, 2 * x + y <= 9, x + 3 * y <= 14, sense=-1)
    x.setInitialValue(2)
    y.setInitialValue(4)
    command = command_of(driver, warmStart=True)
    command.tmpDir = str(workspace.folder)
    problem.solve(command)
    assert "start: 2 of 2 variables have a value" in command.message
    x.varValue = y.varValue = None
    problem.solve(command)
    assert "start:" not in command.message and pulp.LpStatus[problem.status] == "Optimal"
