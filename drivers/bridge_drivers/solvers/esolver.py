"""QSopt_ex's esolver: linear programs in exact rational arithmetic.

It relaxes integer columns without a word, prints only what is not 0, and ignores the side of the
objective row.
"""

from __future__ import annotations

from fractions import Fraction
from typing import NamedTuple, Sequence

from ..model.linear_program import LinearProgram
from .base import (
    OPTIMAL_SOLUTION,
    TIME_LIMIT,
    Solver,
    SolverAnswer,
    SolverStatus,
    ToldStatus,
    answer_of_status,
    answer_without_file,
    limit_answer,
    read_lines,
    status_in_log,
    status_of,
)
from .mps_basis import read_mps_basis
from .run import SolverRun
from .settings import SolverSettings

# the last word of the first line of its answer; the limits also in its log
STATUSES = (
    ToldStatus("OPTIMAL", SolverStatus.OPTIMAL, OPTIMAL_SOLUTION),
    ToldStatus("INFEASIBLE", SolverStatus.INFEASIBLE, "infeasible"),
    ToldStatus("UNBOUNDED", SolverStatus.UNBOUNDED, "unbounded"),
    ToldStatus("UNDEFINED", SolverStatus.NO_ANSWER, "undefined"),
    ToldStatus("NOT_SOLVED", SolverStatus.NO_ANSWER, "not solved"),
    ToldStatus("TIME_LIMIT_REACHED", SolverStatus.LIMIT, TIME_LIMIT),
    ToldStatus("MEMORY_LIMIT_REACHED", SolverStatus.LIMIT, "the memory limit"),
    ToldStatus("USER_INTERRUPT", SolverStatus.LIMIT, "an interrupt"),
)
LIMITS = tuple(one for one in STATUSES if one.status is SolverStatus.LIMIT)
VALUES = "VARS"
REDUCED_COSTS = "REDUCED COST"
DUALS = "PI"
SLACKS = "SLACK"
SECTIONS = (VALUES, REDUCED_COSTS, DUALS, SLACKS)  # headings of its answer
ZERO = Fraction(0)


class ReadValues(NamedTuple):
    """The numbers of an answer, in the order of the program's columns and rows."""

    objective: Fraction
    values: list[Fraction]
    reduced_costs: list[Fraction]
    duals: list[Fraction]


class Esolver(Solver):
    """QSopt_ex, for linear programs in fractions."""

    name = "esolver"
    executable = "esolver"
    title = "QSopt_ex"
    package = "qsopt-ex"
    version_pattern = r"Using QSopt_ex (\S+)"
    takes_integers = False

    def arguments(self, settings: SolverSettings, *, is_retry: bool = False) -> list[str]:
        """As of `Solver`; of the settings it takes the time limit alone."""
        limit = ["-R", f"{settings.time_limit:g}"] if settings.time_limit else []
        return [*limit, *settings.arguments]

    def solve(self, run: SolverRun) -> SolverAnswer:
        """Calls esolver, and reads its answer by the status in the file's first line.

        Where it wrote no file, a limit that its log tells is what stopped it. A run that had a time limit, or was killed, and says nothing clear counts as stopped at it. Raises as
        `Solver.solve`.
        """
        solution = run.path("answer.sol")
        basis_file = run.path("answer.bas")
        path = run.write("esolver.mps", self.mps_text(run.written))
        words = [*self.arguments(run.settings), "-O", solution, "-b", basis_file, path]
        finished = run.start([run.executable, *words])
        lines = read_lines(solution)
        if lines is None:
            limit = status_in_log(LIMITS, finished.log)
            if limit is not None:
                return limit_answer(limit.text)
            return answer_without_file(finished, "error")
        head = "".join(lines[:1])  # `status OPTIMAL`
        told = status_of(STATUSES, "".join(head.split()[-1:]))
        if told is not None and told.status is SolverStatus.OPTIMAL:
            return optimal_answer(run.program, lines, basis_file)
        is_limited = finished.is_killed or bool(run.settings.time_limit)
        if is_limited and (told is None or told.status is SolverStatus.NO_ANSWER):
            return limit_answer("a limit")
        return answer_of_status(told, head, has_point=False)

    def mps_text(self, program: LinearProgram) -> bytes:
        """The text with a row and a column where there are none: without them it is a `Data Error`.

        Both are called `none`, and are not read of the answer.
        """
        text = program.text
        if not program.names.rows:
            text = text.replace(b"\nCOLUMNS\n", b"\n L none\nCOLUMNS\n", 1)
        if not program.names.columns:
            text = text.replace(b"\nCOLUMNS\n", b"\nCOLUMNS\n none obj 0\n", 1)
        return text


def optimal_answer(program: LinearProgram, lines: Sequence[str], basis_file: str) -> SolverAnswer:
    """An optimal answer: exact numbers, and the basis where there is a file of one.

    Its objective has the constant that esolver leaves out.

    Args:
        program: What was solved.
        lines: Of the answer.
        basis_file: Its path.

    Raises:
        ValueError: A number has another form.
    """
    read = read_values(program, lines)
    answer = SolverAnswer(
        SolverStatus.OPTIMAL,
        OPTIMAL_SOLUTION,
        read.values,
        read.duals,
        read.reduced_costs,
        objective=read.objective - Fraction(program.objective_rhs),
    )
    basis = read_mps_basis(program, basis_file)
    if basis is not None:
        answer.column_basis, answer.row_basis = basis
    return answer


def read_values(program: LinearProgram, lines: Sequence[str]) -> ReadValues:
    """The line `Value = p/q`, and the lines `NAME = p/q` below each heading.

    What has no line is 0; the objective is still without its constant.
    """
    sections: dict[str, dict[str, Fraction]] = {name: {} for name in SECTIONS}
    section: dict[str, Fraction] | None = None
    objective = ZERO
    for line in lines:
        word, equals, number = line.strip().partition(" = ")
        if not equals:
            section = sections.get(word.rstrip(":"), section)
        elif word == "Value":
            objective = Fraction(number)
        elif section is not None:
            section[word] = Fraction(number)

    def listed(heading: str, names: Sequence[str]) -> list[Fraction]:
        """The numbers below a heading, in the order of these names."""
        return [sections[heading].get(name, ZERO) for name in names]

    return ReadValues(
        objective,
        listed(VALUES, program.names.columns),
        listed(REDUCED_COSTS, program.names.columns),
        listed(DUALS, program.names.rows),
    )
