"""A start is used: by solvers that take one, and by the search, which has it judged."""

from __future__ import annotations

from pathlib import Path

import pytest

import bridge_drivers
from running.stored_runs import StoredRun
from running.workspace import Call, SolContent, Workspace

STARTS = {
    "lines": "a 1\nb 1\n",
    "json": '{"values": {"a": "1", "b": "1"}}',
    "sol": "a message\n\nOptions\n3\n1\n1\n0\n1\n0\n3\n3\n1\n1\n0\nobjno 0 0\n",
}
# a run of CBC that stopped at its limit without a point
NO_POINT = StoredRun(
    logs={"solver.log": ["Version: 2.10.8"]},
    files={
        "answer.txt": [
            "Stopped on time (no integer solution - continuous used) - objective value 0",
            "",
        ]
    },
)
BEGINS = "the search begins with the start, whose objective is exactly 17"


def with_names(workspace: Workspace, guess: str = "") -> None:
    """The knapsack as m.nl with its names, and perhaps a guess of its own."""
    path = workspace.write_model("knap")
    text = path.read_text(encoding="ascii")
    path.write_text(text + guess, encoding="ascii")
    workspace.write("m.col", "a\nb\nz\n")


def without_point(workspace: Workspace) -> Path:
    return NO_POINT.write_false_solver(workspace.solver_folder, "cbc")


@pytest.mark.needs("program")
@pytest.mark.parametrize("kind", STARTS)
def test_a_file_goes_to_the_solver(workspace: Workspace, kind: str) -> None:
    with_names(workspace)
    workspace.write("start", STARTS[kind])
    given = 3 if kind == "sol" else 2
    workspace.check(
        Call(
            "bridge-cbc m -AMPL start=start keep=FOLDER/kept",
            stored="knap",
            solver_words="-mipstart start.txt",
            sol=SolContent(matches=[rf"\nstart: {given} of 3 variables have a value\n"]),
            contains={"kept/start.txt": ["objective value 0\n0 x0 1.0 0\n1 x1 1.0 0\n"]},
        )
    )


@pytest.mark.needs("program")
def test_the_guess_of_the_model_goes_to_the_solver(workspace: Workspace) -> None:
    """And where all of it is 0, as some systems write it, nothing does."""
    with_names(workspace, "x2\n0 1\n1 1\n")
    ended = workspace.check(
        Call("bridge-cbc m -AMPL", stored="knap", solver_words="-mipstart start.txt")
    )
    assert "start" not in ended.text
    with_names(workspace, "x2\n0 0\n1 0\n")
    workspace.check(Call("bridge-cbc m -AMPL", stored="knap"))
    assert "-mipstart" not in workspace.solver_calls()


@pytest.mark.needs("program")
def test_lp_solve_guesses_its_basis(workspace: Workspace) -> None:
    with_names(workspace)
    workspace.write("start", STARTS["lines"])
    call = Call(
        "bridge-lp_solve m start=start keep=FOLDER/kept",
        stored="knap",
        solver_words="-gbas start.txt",
        files={"kept/start.txt": "x0: 1.0;\nx1: 1.0;\n"},
    )
    workspace.check(call)


@pytest.mark.needs("program")
def test_a_solver_that_takes_none(workspace: Workspace) -> None:
    with_names(workspace)
    workspace.write("start", STARTS["lines"])
    call = Call("bridge-glpsol m start=start", stored="knap", prints=["GLPK takes no start"])
    workspace.check(call)


@pytest.mark.needs("program", "clp_library")
@pytest.mark.parametrize("words", ["", "prove=1"])
def test_the_search_begins_with_it(workspace: Workspace, words: str) -> None:
    """The solver has no point; the start is one, which the proved program says."""
    with_names(workspace)
    workspace.write("start", STARTS["lines"])
    solver = without_point(workspace)
    workspace.check(
        Call(
            f"bridge-cbc m -AMPL start=start solver={solver} {words}",
            sol=SolContent(lines=[BEGINS], last_line="optimal 17", values=[1, 1, 0]),
        )
    )


@pytest.mark.needs("program", "clp_library")
def test_the_search_begins_with_the_guess_of_the_model(workspace: Workspace) -> None:
    with_names(workspace, "x2\n0 1\n1 1\n")
    solver = without_point(workspace)
    workspace.check(Call(f"bridge-cbc m solver={solver}", prints=[BEGINS, "optimal 17"]))


@pytest.mark.needs("program", "clp_library")
def test_a_start_that_is_not_feasible(workspace: Workspace) -> None:
    with_names(workspace)
    workspace.write("start", "a 1\nb 1\nz 1\n")
    solver = without_point(workspace)
    told = "the start is no feasible point: "
    ended = workspace.check(Call(f"bridge-cbc m start=start solver={solver}", prints=[told]))
    assert BEGINS not in ended.text


@pytest.mark.needs("program")
def test_the_older_sol_is_a_start(workspace: Workspace) -> None:
    """It is read before this run removes it."""
    with_names(workspace)
    workspace.write("m.sol", STARTS["sol"])
    workspace.check(
        Call(
            "bridge-cbc m -AMPL start=m.sol",
            stored="knap",
            solver_words="-mipstart",
            sol=SolContent(matches=["\nstart: 3 of 3 variables have a value\n"]),
        )
    )


@pytest.mark.needs("program")
@pytest.mark.parametrize(
    "text, status, told",
    [
        (None, 4, "start: No such file or directory"),
        ("q 1\n", 3, "start: it has a value of no variable of the model"),
        ("a\n", 3, "start: `a` is no line NAME VALUE"),
    ],
)
def test_what_is_no_start(workspace: Workspace, text: "str | None", status: int, told: str) -> None:
    with_names(workspace)
    if text is not None:
        workspace.write("start", text)
    workspace.check(Call("bridge-cbc m start=start", stored="knap", status=status, prints=[told]))


@pytest.mark.needs("program", "clp_library")
def test_a_call_of_python(in_folder: Workspace) -> None:
    """Numbers by name; a value of another kind is told."""
    with_names(in_folder)
    solver = without_point(in_folder)
    report = bridge_drivers.solve("m", "cbc", program=solver, start={"a": 1, "b": 1.0})
    assert BEGINS in report.lines and report.text == "optimal 17"
    for wrong in (3, {"a": "one"}, {"a": float("inf")}, {1: 1}):
        with pytest.raises(bridge_drivers.WrongOption, match="a path, or numbers by name"):
            bridge_drivers.solve("m", "cbc", program=solver, start=wrong)
