"""lp_solve, for linear and mixed integer programs.

Its printed answers have six digits. 1e30 is infinite to it, in what it prints too, so that a column
at 1e30 may have no end.
"""

from __future__ import annotations

import math
from typing import Mapping, NamedTuple, Sequence

from ..model.linear_program import LinearProgram
from ..system.errors import UnclearAnswer
from .base import (
    OPTIMAL_SOLUTION,
    TIME_LIMIT,
    Solver,
    SolverAnswer,
    SolverStatus,
    ToldStatus,
    answer_of_status,
    answer_without_file,
    limit_answer,
    status_in_log,
    within_gap,
)
from .run import Finished, SolverRun
from .settings import SolverOption, SolverSettings

SUBOPTIMAL = "Suboptimal solution"
# lines of their own, before the values
STATUSES = (
    ToldStatus("This problem is infeasible", SolverStatus.INFEASIBLE, "infeasible"),
    ToldStatus("This problem is unbounded", SolverStatus.UNBOUNDED, "unbounded"),
    ToldStatus(SUBOPTIMAL, SolverStatus.FEASIBLE, "suboptimal solution"),
    ToldStatus("Presolved solution", SolverStatus.FEASIBLE, "presolved solution"),
    ToldStatus("Timeout", SolverStatus.LIMIT, TIME_LIMIT),
    ToldStatus("User aborted", SolverStatus.LIMIT, "an interrupt"),
    ToldStatus("Accuracy error", SolverStatus.FEASIBLE, "accuracy error"),
    ToldStatus("Out of memory", SolverStatus.NO_ANSWER, "out of memory"),
    ToldStatus("The B&B routine failed", SolverStatus.NO_ANSWER, "the B&B routine failed"),
    ToldStatus("lp_solve failed", SolverStatus.NO_ANSWER, "lp_solve failed"),
)
OPTIMAL = ToldStatus("", SolverStatus.OPTIMAL, OPTIMAL_SOLUTION)  # values, and no words before them
INFINITE = 1e30
TELLS_PROGRESS = "-v4"  # each better point, as it is found
# in the last line that it writes so, before its answer
END_OF_PROGRESS = " seconds in simplex solver, in total "
OBJECTIVE = "Value of objective function:"
VALUES = "Actual values of the variables"
ROWS = "Actual values of the constraints"
DUALS = "Dual"
GAP_WORDS = frozenset(
    ("-g", "-ga", "-gr", "-f")
)  # with which it stops at a gap, and does not say so


class ReadHead(NamedTuple):
    """What stands before the values in the log.

    Attributes:
        objective: In the program's own sense; 0 where no line tells it.
        odd_line: The first other line; "" where there is none.
    """

    objective: float
    odd_line: str


class ReadValues(NamedTuple):
    """The numbers of a log.

    Attributes:
        values: By name of column.
        rates: Duals by name of row, reduced costs by name of column.
    """

    values: Mapping[str, float]
    rates: Mapping[str, float]


class LpSolve(Solver):
    """lp_solve, for mixed integer programs."""

    name = "lp_solve"
    executable = "lp_solve"
    title = "lp_solve"
    package = "lp-solve"
    retry_words = "without scaling"
    infinite = "1e30"
    takes_start = True
    options = (SolverOption.MIP_GAP,)
    progress_patterns = (
        r"^(?:Feasible|Improved) solution +(?P<incumbent>\S+) after +(?P<iterations>\d+) iter, "
        r"+(?P<nodes>\d+) nodes",
        r"^Relaxed solution +(?P<bound>\S+) after",
    )

    def arguments(self, settings: SolverSettings, *, is_retry: bool = False) -> list[str]:
        """As of `Solver`. Its time limit is a whole number of seconds, rounded up."""
        words = []
        if settings.relax:
            words.append("-noint")
        if settings.mip_gap:
            words += ["-gr", f"{settings.mip_gap:g}"]
        if is_retry:
            words.append("-s0")
        if settings.time_limit:
            words += ["-timeout", str(math.ceil(settings.time_limit))]
        return [*words, *settings.arguments]

    def solve(self, run: SolverRun) -> SolverAnswer:
        """Calls lp_solve, and reads its log: a status, or values without one, which are optimal.

        A run with a time limit, or that was killed, and that says nothing counts as stopped at it.
        Raises as `Solver.solve`.
        """
        path = run.write("lp_solve.mps", run.written.text)
        words = [*self.reading_arguments(run.program, path), TELLS_PROGRESS]
        words += start_arguments(run)
        words += self.arguments(run.settings, is_retry=run.is_retry)
        finished = run.start([run.executable, *words])
        finished = finished._replace(log=answer_in_log(finished.log))
        head, heading, _ = finished.log.partition(f"\n{VALUES}:\n")
        told = status_in_log(STATUSES, head) or (OPTIMAL if heading else None)
        if told is None:
            if finished.is_killed or run.settings.time_limit:
                return limit_answer("a limit")
            return answer_without_file(finished, r"\S")
        answer = answer_of_head(run, told, head, has_point=bool(heading))
        if not answer.status.has_point():
            return answer
        return read_answer(run, answer, finished, stops_at_gap=bool(GAP_WORDS.intersection(words)))

    def reading_arguments(self, program: LinearProgram, path: str) -> list[str]:
        """The path, and words for all values to be printed and for the sign of the constant.

        Without -mps_negobjconst it adds the side of the objective row, where others subtract it.
        """
        return ["-fmps", path, "-S4", "-mps_negobjconst"]


def start_arguments(run: SolverRun) -> list[str]:
    """The words by which lp_solve guesses its first basis from values, whose file is written.

    It has no way to be given an incumbent. There are none for a second question.
    """
    if not run.start_values or run.is_retry:
        return []
    pairs = zip(run.program.names.columns, run.start_values)
    lines = [f"{name}: {value!r};\n" for name, value in pairs if value is not None]
    return ["-gbas", run.write("start.txt", "".join(lines).encode("ascii"))]


def answer_of_head(run: SolverRun, told: ToldStatus, head: str, *, has_point: bool) -> SolverAnswer:
    """The answer, still without values, by the status and what stands before the values.

    What lp_solve calls suboptimal is an answer at a limit where there is one. A line before the
    values that is none of its statuses speaks against `optimal`, unless the user's own words may
    have made it.

    Args:
        run: What was asked.
        told: The entry of STATUSES that the head has, or OPTIMAL.
        head: The log as far as the values.
        has_point: There are values.

    Raises:
        UnclearAnswer: The status says little, and there are no values.
    """
    if told.words == SUBOPTIMAL and run.settings.time_limit:
        told = told._replace(status=SolverStatus.LIMIT, text=TIME_LIMIT)
    found = read_head(head)
    if found.odd_line and told is OPTIMAL and not run.settings.arguments:
        answer = answer_of_status(None, found.odd_line, has_point=has_point)
    else:
        answer = answer_of_status(told, told.words, has_point=has_point)
    if answer.status.has_point():
        answer.objective = found.objective
    return answer


def answer_in_log(log: str) -> str:
    """The log from behind what it tells of its progress; all of it where it tells nothing."""
    _, found, rest = log.rpartition(END_OF_PROGRESS)
    return rest.partition("\n")[2] if found else log


def read_head(head: str) -> ReadHead:
    """The objective, and the first line that does not tell it, of the log as far as the values."""
    lines = [line.strip() for line in head.splitlines() if line.strip()]
    objectives = [float(line.split()[-1]) for line in lines if line.startswith(OBJECTIVE)]
    others = [line for line in lines if not line.startswith(OBJECTIVE)]
    return ReadHead(next(iter(objectives), 0.0), next(iter(others), ""))


def read_answer(
    run: SolverRun, answer: SolverAnswer, finished: Finished, *, stops_at_gap: bool
) -> SolverAnswer:
    """The answer with its numbers, or `unbounded` where 1e30 stands for infinity.

    Args:
        run: What was asked.
        answer: One with a point and an objective; it is changed.
        finished: Whose log has the numbers.
        stops_at_gap: Words were given with which it may stop at a gap: an optimal answer of a
            program with integer columns is then one within the gap.

    Raises:
        UnclearAnswer: Not all columns have a value.
    """
    program = run.program
    read = read_values(finished.log)
    if set(read.values) != set(program.names.columns):
        raise UnclearAnswer("not all columns have a value")
    values = [read.values[name] for name in program.names.columns]
    assert answer.objective is not None
    if abs(float(answer.objective)) >= INFINITE and is_at_infinity(program, values):
        return SolverAnswer(SolverStatus.UNBOUNDED, "unbounded")
    answer.values = values
    answer.notes.append("lp_solve prints six digits")
    if answer.status is SolverStatus.OPTIMAL and run.is_continuous():
        take_rates(program, read, answer)
    elif answer.status is SolverStatus.OPTIMAL and stops_at_gap:
        within_gap(answer)
    return answer


def take_rates(program: LinearProgram, read: ReadValues, answer: SolverAnswer) -> None:
    """Sets duals and reduced costs of an answer, where each row has a dual; else nothing.

    Raises:
        KeyError: A column has no reduced cost.
    """
    rows = program.names.rows
    if all(name in read.rates for name in rows):
        answer.duals = [read.rates[name] for name in rows]
        answer.reduced_costs = [read.rates[name] for name in program.names.columns]


def is_at_infinity(program: LinearProgram, values: Sequence[float]) -> bool:
    """Whether a column is at 1e30 or beyond in size, and not at a bound of its own.

    Args:
        values: By column.
    """
    return any(
        abs(value) >= INFINITE and value not in (low, high)
        for value, low, high in zip(values, program.lower, program.upper)
    )


def read_values(log: str) -> ReadValues:
    """The numbers of the lines `NAME NUMBER ..` below the headings of values and of duals.

    Each list goes as far as an empty line, or the heading of the constraints' values.
    """
    values: dict[str, float] = {}
    rates: dict[str, float] = {}
    section: dict[str, float] | None = None
    for line in log.splitlines():
        words = line.split()
        if line.startswith(VALUES):
            section = values
        elif not words or line.startswith(ROWS):
            section = None
        elif words[0] == DUALS:
            section = rates
        elif section is not None and len(words) >= 2:
            section[words[0]] = float(words[1])
    return ReadValues(values, rates)
