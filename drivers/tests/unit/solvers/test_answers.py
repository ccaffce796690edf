"""Answers that solvers wrote, read back: `diet` is a linear program, `knap` an integer one."""

from __future__ import annotations

from fractions import Fraction
from pathlib import Path
from typing import Callable, List, Sequence

import pytest

from bridge_drivers.model.linear_program import LinearProgram
from bridge_drivers.solvers import SOLVERS, esolver, glpsol, lp_solve
from bridge_drivers.solvers.base import BasisStatus, SolverAnswer, SolverStatus
from bridge_drivers.solvers.run import Finished, SolverRun
from bridge_drivers.solvers.settings import SolverSettings
from bridge_drivers.system.errors import UnclearAnswer
from running.stored_runs import StoredRun, stored_runs

PROGRAMS = Path(__file__).parents[2] / "data" / "mps"
INTEGER_SOLVERS = ["cbc", "glpsol", "highs", "lp_solve"]
Change = Callable[[str], str]


class StoredSolver(SolverRun):
    """A run in which the solver answers as it did once."""

    stored = StoredRun()
    is_killed = False
    argv: List[str] = []

    def run_process(self, argv: Sequence[str]) -> Finished:
        type(self).argv = list(argv)
        for name in self.stored.files:
            Path(self.folder, name).write_bytes(self.stored.file_bytes(name))
        return Finished(0, self.stored.log(), self.is_killed)


def program_of(name: str) -> LinearProgram:
    return LinearProgram.of((PROGRAMS / f"{name}.mps").read_bytes())


def answer_of(
    folder: Path, solver: str, name: str, settings: SolverSettings = SolverSettings()
) -> SolverAnswer:
    """What a solver answered to a program, as it was stored."""
    StoredSolver.stored = stored_runs(solver)[name]
    run = StoredSolver(program_of(name), settings, str(folder), "/stored/" + solver)
    return SOLVERS[solver].solve(run)


@pytest.mark.parametrize("solver", list(SOLVERS))
def test_a_linear_program(solver: str, tmp_path: Path) -> None:
    """Values by column; duals by row, of the objective's own sense; reduced costs by column."""
    answer = answer_of(tmp_path, solver, "diet")
    assert answer.status is SolverStatus.OPTIMAL and answer.text == "optimal solution"
    assert answer.values is not None and answer.duals is not None
    assert answer.reduced_costs is not None
    assert list(map(float, answer.values)) == pytest.approx([4, 0.8])
    assert list(map(float, answer.duals)) == pytest.approx([0.3, 0.5])
    assert list(map(float, answer.reduced_costs)) == pytest.approx([0, 0])
    if answer.objective is not None:
        assert float(answer.objective) == pytest.approx(4.4)


@pytest.mark.parametrize("solver", ["cbc", "clp", "glpsol", "esolver"])
def test_a_basis(solver: str, tmp_path: Path) -> None:
    """Both columns are basic, both rows at their sides."""
    answer = answer_of(tmp_path, solver, "diet")
    assert list(answer.column_basis or ()) == [BasisStatus.BASIC] * 2
    assert list(answer.row_basis or ()) == [BasisStatus.AT_LOWER] * 2


@pytest.mark.parametrize("solver", INTEGER_SOLVERS)
def test_an_integer_program(solver: str, tmp_path: Path) -> None:
    """It has no duals and no basis."""
    answer = answer_of(tmp_path, solver, "knap")
    assert answer.status is SolverStatus.OPTIMAL
    assert answer.values is not None and list(map(float, answer.values)) == [1, 1, 0]
    assert answer.duals is None and answer.reduced_costs is None
    assert answer.column_basis is None and answer.row_basis is None


def test_exact_numbers(tmp_path: Path) -> None:
    answer = answer_of(tmp_path, "esolver", "diet")
    assert answer.values == [Fraction(4), Fraction(4, 5)] and answer.objective == Fraction(22, 5)


@pytest.mark.parametrize("solver", INTEGER_SOLVERS)
def test_an_infeasible_program(solver: str, tmp_path: Path) -> None:
    StoredSolver.stored = stored_runs(solver)["infeasible"]
    run = StoredSolver(program_of("diet"), SolverSettings(), str(tmp_path), "/stored/x")
    answer = SOLVERS[solver].solve(run)
    assert answer.status in (SolverStatus.INFEASIBLE, SolverStatus.INFEASIBLE_OR_UNBOUNDED)
    assert answer.values is None


@pytest.mark.parametrize("solver", ["cbc", "clp", "glpsol", "lp_solve"])
def test_an_answer_of_another_program(solver: str, tmp_path: Path) -> None:
    """It is none: `diet` has two columns, `knap` has three."""
    StoredSolver.stored = stored_runs(solver)["diet"]
    run = StoredSolver(program_of("knap"), SolverSettings(), str(tmp_path), "/stored/x")
    with pytest.raises(UnclearAnswer):
        SOLVERS[solver].solve(run)


@pytest.mark.parametrize("solver", list(SOLVERS))
def test_no_answer(solver: str, tmp_path: Path) -> None:
    """At a limit it is one without a point, else none, with the last words."""
    StoredSolver.stored = StoredRun(logs={"solver.log": ["it begins", "it breaks"]})
    for is_killed in (True, False):
        StoredSolver.is_killed = is_killed
        run = StoredSolver(program_of("diet"), SolverSettings(), str(tmp_path), "/stored/x")
        if is_killed:
            assert SOLVERS[solver].solve(run).status is SolverStatus.LIMIT
        else:
            with pytest.raises(UnclearAnswer, match="it b"):
                SOLVERS[solver].solve(run)
    StoredSolver.is_killed = False


@pytest.mark.parametrize(
    "words, told",
    [
        ("TIME_LIMIT_REACHED", "stopped at the time limit without a feasible solution"),
        ("USER_INTERRUPT", "stopped at an interrupt without a feasible solution"),
        ("INFEASIBLE", ""),
        ("OPTIMAL", ""),
    ],
)
def test_esolver_without_a_file(words: str, told: str, tmp_path: Path) -> None:
    """A limit that its log tells is one; another status without a file is no answer."""
    StoredSolver.stored = StoredRun(logs={"solver.log": ["it begins", f"status {words}"]})
    run = StoredSolver(program_of("diet"), SolverSettings(), str(tmp_path), "/stored/x")
    if told:
        answer = SOLVERS["esolver"].solve(run)
        assert (answer.status, answer.text) == (SolverStatus.LIMIT, told)
    else:
        with pytest.raises(UnclearAnswer):
            SOLVERS["esolver"].solve(run)


def test_lp_solve_says_nothing_of_a_gap(tmp_path: Path) -> None:
    """Where one was asked for, what it calls optimal may be within it."""
    answer = answer_of(tmp_path, "lp_solve", "knap", SolverSettings(mip_gap=0.1))
    assert (answer.status, answer.is_gap) == (SolverStatus.FEASIBLE, True)


@pytest.mark.parametrize(
    "value, bound, is_at_infinity", [(1e30, 1e30, False), (1e30, 5e30, True), (7.0, 9.0, False)]
)
def test_lp_solve_at_infinity(value: float, bound: float, is_at_infinity: bool) -> None:
    text = (PROGRAMS / "diet.mps").read_bytes().replace(b"BND x0 100", b"BND x0 %r" % bound)
    program = LinearProgram.of(text.replace(b"1e+30", b"1e30").replace(b"5e+30", b"5e30"))
    assert lp_solve.is_at_infinity(program, [value, 0.0]) == is_at_infinity


def test_glpk_records_in_another_order() -> None:
    program = program_of("diet")
    lines = ["i 2 l 6.4 0.5", "i 1 l 4 0.3", "j 2 b 0.8 0", "j 1 b 4 0"]
    answer = SolverAnswer(SolverStatus.OPTIMAL, "")
    glpsol.read_basic_solution(program, lines, answer)
    assert (answer.values, answer.duals) == ([4.0, 0.8], [0.3, 0.5])
    with pytest.raises(UnclearAnswer):
        glpsol.read_basic_solution(program, lines[:3], answer)


def test_esolver_prints_what_is_not_zero() -> None:
    read = esolver.read_values(program_of("knap"), ["Value = 7/2", "VARS:", "x1 = 1/2", "PI:"])
    assert read.objective == Fraction(7, 2)
    assert read.values == [Fraction(0), Fraction(1, 2), Fraction(0)]
    assert read.duals == [Fraction(0)]
