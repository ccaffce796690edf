"""CBC, COIN-OR's branch and cut, for mixed integer programs, and CLP, its simplex method.

CLP relaxes integer columns without a word. Both read MPS by CoinUtils, and save answers as CLP
does.
"""

from __future__ import annotations

import os
import struct
from array import array
from typing import NamedTuple

from ..model.linear_program import LinearProgram
from ..system.errors import UnclearAnswer
from .base import (
    GAP_SOLUTION,
    OPTIMAL_SOLUTION,
    TIME_LIMIT,
    Solver,
    SolverAnswer,
    SolverStatus,
    ToldStatus,
    answer_of_status,
    answer_without_file,
    read_lines,
    status_of,
)
from .mps_basis import read_mps_basis
from .run import Finished, SolverRun
from .settings import SolverOption, SolverSettings

# the first line of -solution, up to the objective
STATUSES = (
    ToldStatus("Optimal", SolverStatus.OPTIMAL, OPTIMAL_SOLUTION),
    ToldStatus("Optimal (within gap tolerance)", SolverStatus.FEASIBLE, GAP_SOLUTION, is_gap=True),
    ToldStatus("Infeasible", SolverStatus.INFEASIBLE, "infeasible"),
    ToldStatus("Integer infeasible", SolverStatus.INFEASIBLE, "integer infeasible"),
    ToldStatus("Unbounded", SolverStatus.UNBOUNDED, "unbounded"),
    ToldStatus("Stopped on time", SolverStatus.LIMIT, TIME_LIMIT),
    ToldStatus(
        "Stopped on iterations",
        SolverStatus.LIMIT,
        "the limit of iterations, nodes or solutions",
    ),
    ToldStatus(
        "Stopped on iterations or time", SolverStatus.LIMIT, "the limit of iterations or time"
    ),
    ToldStatus("Stopped on difficulties", SolverStatus.FEASIBLE, "stopped on difficulties"),
    ToldStatus("Stopped on ctrl-c", SolverStatus.LIMIT, "an interrupt"),
    ToldStatus("Status unknown", SolverStatus.FEASIBLE, "status unknown"),
)
NO_POINT = "(no integer solution - continuous used)"  # behind a status of CBC
MOST_DIGITS = 22  # of a number that CoinUtils reads rightly
AS_ZEROS = bytes.maketrans(b".123456789", b"0" * 10)
WRITTEN_NAME = b"NAME nl\n"  # the first line of an exported program
FREE_NAME = b"NAME nl FREE\n"
FAULT_PATTERN = r"Bad image|No match|Unknown|Unable to open|errors? on input|infeasible bound"


class SavedSolution(NamedTuple):
    """Doubles of -saveSolution, in the order of the program's columns and rows."""

    values: array[float]
    duals: array[float]
    reduced_costs: array[float]


class Coin(Solver):
    """What CBC and CLP have in common: how they are called, and the files of their answers."""

    infinite = "1e25"  # of upper bounds; of others 1e30
    progress_patterns = (
        r"Cbc0010I After (?P<nodes>\d+) nodes, (?P<open>\d+) on tree, (?P<incumbent>\S+) best "
        r"solution, best possible (?P<bound>\S+)",
        r"Cbc00(?:04|12|16)I Integer solution of (?P<incumbent>\S+) found",
        r"Cbc0038I (?:Solution found of|Rounding solution of) (?P<incumbent>\S+)",
        r"Cbc0013I At root node, .* changed objective from \S+ to (?P<bound>\S+) in",
        r"^Continuous objective value is (?P<bound>\S+) -",
        r"Clp0006I +(?P<iterations>\d+) +Obj (?P<objective>\S+)",
    )

    def progress_of_line(self, line: str, program: LinearProgram) -> dict[str, float]:
        """As of `Solver`. CBC tells of what it minimises, so that signs of a maximum are turned."""
        known = super().progress_of_line(line, program)
        if program.maximise and "Cbc00" in line:
            for name in ("incumbent", "bound"):
                if name in known:
                    known[name] = -known[name]
        return known

    def solve(self, run: SolverRun) -> SolverAnswer:
        """Calls CBC or CLP by words that it works through in their order, and reads its answer.

        CoinUtils ignores OBJSENSE: a maximum is asked for by a word. A basis is written of a
        program without integer columns. Raises as `Solver.solve`.
        """
        path = run.write("coin.mps", self.mps_text(run.written))
        command = "-solve"
        if run.settings.relax and self.takes_integers:
            command = "-initialSolve"
        words = [run.executable, path]
        if run.program.maximise:
            words.append("-max")
        words += self.start_arguments(run)
        words += self.arguments(run.settings, is_retry=run.is_retry)
        words += [command, "-solution", run.path("answer.txt")]
        words += ["-saveSolution", run.path("answer.bin")]
        if run.is_continuous():
            words += ["-basisOut", run.path("answer.bas")]
        return read_answer(run, run.start([*words, "-quit"]))

    def start_arguments(self, run: SolverRun) -> list[str]:
        """The words that give it values to begin with, whose file is written; none where it takes
        none, or for a second question.
        """
        return []

    def mps_text(self, program: LinearProgram) -> bytes:
        """The text with another first line, and doubles in place of numbers of too many digits.

        To CoinUtils a line `NAME nl` means fixed columns. Of a number with more than MOST_DIGITS
        digits it does not read the value rightly, so that the shortest decimal of its double stands
        there.
        """
        text = FREE_NAME + program.text[len(WRITTEN_NAME) :]
        if b"0" * (MOST_DIGITS + 1) not in text.translate(AS_ZEROS):
            return text
        return b"\n".join(map(_with_double, text.split(b"\n")))

    def reading_arguments(self, program: LinearProgram, path: str) -> list[str]:
        """The path, the sense, and the words that solve and print the solution."""
        sense = ["-max"] if program.maximise else []
        return [path, *sense, "-solve", "-solution", "stdout"]


class Cbc(Coin):
    """CBC, for mixed integer programs."""

    name = "cbc"
    executable = "cbc"
    title = "CBC"
    package = "coinor-cbc"
    retry_words = "without preprocessing"
    version_pattern = r"Version: (\S+)"
    options = (SolverOption.MIP_GAP, SolverOption.THREADS)
    takes_start = True

    def start_arguments(self, run: SolverRun) -> list[str]:
        """As of `Coin`: CBC has `-mipstart`, for programs with integer columns.

        The file is as one of -solution: a first line, then a number, a name, a value and a cost of
        each column that has a value. Others are found by CBC.
        """
        if run.is_continuous() or run.is_retry or not run.start_values:
            return []
        lines = ["Feasible - objective value 0"]
        for number, (name, value) in enumerate(zip(run.program.names.columns, run.start_values)):
            if value is not None:
                lines.append(f"{number} {name} {value!r} 0")
        return ["-mipstart", run.write("start.txt", ("\n".join(lines) + "\n").encode("ascii"))]

    def arguments(self, settings: SolverSettings, *, is_retry: bool = False) -> list[str]:
        """As of `Solver`. Its time limit is one of the clock, not of the processor."""
        words = []
        if settings.time_limit:
            words += ["-timeMode", "elapsed", "-sec", f"{settings.time_limit:g}"]
        if settings.mip_gap:
            words += ["-ratio", f"{settings.mip_gap:g}"]
        if settings.threads:
            words += ["-threads", str(settings.threads)]
        if is_retry:
            words += ["-preprocess", "off", "-presolve", "off"]
        return [*words, *settings.arguments]


class Clp(Coin):
    """CLP, for linear programs."""

    name = "clp"
    executable = "clp"
    title = "CLP"
    package = "coinor-clp"
    retry_words = "without its presolve"
    version_pattern = r"Coin LP version ([0-9.]+)"
    takes_integers = False

    def arguments(self, settings: SolverSettings, *, is_retry: bool = False) -> list[str]:
        """As of `Solver`; it knows of no gap and no threads."""
        words = []
        if settings.time_limit:
            words += ["-sec", f"{settings.time_limit:g}"]
        if is_retry:
            words += ["-presolve", "off"]
        return [*words, *settings.arguments]


def _with_double(line: bytes) -> bytes:
    """A line whose last word is the shortest decimal of its double, where it has too many digits.

    A line whose last word is no number, or has at most MOST_DIGITS digits, stays.
    """
    start, blank, number = line.rpartition(b" ")
    mantissa = number.lstrip(b"+-").lower().partition(b"e")[0]
    if not blank or len(mantissa) <= MOST_DIGITS or mantissa.strip(b".0123456789"):
        return line
    return start + blank + repr(float(number)).encode()


def read_saved_solution(program: LinearProgram, path: str) -> SavedSolution:
    """The doubles of -saveSolution; what -solution prints has eight digits.

    The file has two ints, the numbers of rows and columns, then doubles: the objective, the
    activities of rows, their duals, the values of columns, their reduced costs.

    Args:
        program: What was solved.
        path: Of the file.

    Raises:
        UnclearAnswer: There is no file, or it is of another program.
    """
    try:
        with open(path, "rb") as file:
            data = file.read()
    except FileNotFoundError:
        raise UnclearAnswer("no saved answer") from None
    rows, columns = len(program.names.rows), len(program.names.columns)
    is_of_program = struct.pack("=ii", rows, columns) == data[:8]
    if len(data) != 16 + 16 * (rows + columns) or not is_of_program:
        raise UnclearAnswer("the saved answer is of another model")
    doubles = array("d", data[8:])
    first_column = 1 + 2 * rows
    first_cost = first_column + columns
    return SavedSolution(
        doubles[first_column:first_cost], doubles[1 + rows : first_column], doubles[first_cost:]
    )


def read_answer(run: SolverRun, finished: Finished) -> SolverAnswer:
    """The answer of CBC or CLP, whose status is in the first line of -solution.

    Values are those of -saveSolution. Duals, reduced costs and the basis are read of an optimal
    answer without integer columns.

    Args:
        run: Whose folder has the files.
        finished: How the process ended; its log tells what no file does.

    Raises:
        UnclearAnswer: There is no answer, or its status says little and has no point.
    """
    lines = read_lines(run.path("answer.txt"))
    if not lines:
        return answer_without_file(finished, FAULT_PATTERN)
    status, _, objective = lines[0].strip().partition(" - objective value ")
    has_point = NO_POINT not in status and os.path.exists(run.path("answer.bin"))
    status = status.replace(NO_POINT, "").strip()
    answer = answer_of_status(status_of(STATUSES, status), status, has_point=has_point)
    if status.lower() == "integer infeasible" and is_undecided(finished.log):
        status_either = SolverStatus.INFEASIBLE_OR_UNBOUNDED
        return SolverAnswer(status_either, "infeasible or unbounded")
    if answer.status.has_point():
        saved = read_saved_solution(run.program, run.path("answer.bin"))
        answer.values = saved.values
        answer.objective = float(objective) if objective else None
        if answer.status is SolverStatus.OPTIMAL and run.is_continuous():
            answer.duals = saved.duals
            answer.reduced_costs = saved.reduced_costs
            basis = read_mps_basis(run.program, run.path("answer.bas"))
            if basis is not None:
                answer.column_basis, answer.row_basis = basis
    return answer


def is_undecided(log: str) -> bool:
    """Whether CBC's log leaves open if the program is infeasible or unbounded.

    So it is where its preprocessing says of the relaxation that it is one of both, and nothing else
    was solved.
    """
    return "infeasible or unbounded" in log and "Continuous objective value is" not in log
