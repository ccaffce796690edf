"""What a solver is, and what it answers: the base class of all, and how their words are read."""

from __future__ import annotations

import contextlib
import enum
import re
import shutil
from dataclasses import dataclass, field
from typing import NamedTuple, Sequence

from ..model.linear_program import LinearProgram
from ..system.errors import UnclearAnswer
from ..formats.numbers import Number
from .run import Finished, SolverRun
from .settings import SolverOption, SolverSettings

LONGEST_LOG_LINE = 200  # characters of it that are told
NO_INCUMBENT = 1e40  # the size from which a number of a log stands for none
TIME_LIMIT = "the time limit"
OPTIMAL_SOLUTION = "optimal solution"
GAP_SOLUTION = "solution within the gap"


class BasisStatus(enum.IntEnum):
    """Where a column or row stands in a basis, in AMPL's numbers (the suffix `sstatus`)."""

    BASIC = 1
    SUPERBASIC = 2
    AT_LOWER = 3
    AT_UPPER = 4
    EQUAL = 5


class SolverStatus(enum.Enum):
    """What a solver says of a program. It is believed in nothing: see `pipeline.outcome`."""

    OPTIMAL = "optimal"
    FEASIBLE = "feasible"  # a point, of which little else is said
    INFEASIBLE = "infeasible"
    INFEASIBLE_OR_UNBOUNDED = "infeasible or unbounded"
    UNBOUNDED = "unbounded"
    LIMIT_WITH_POINT = "limit with a point"
    LIMIT = "limit"
    NO_ANSWER = "no answer"

    def has_point(self) -> bool:
        """Whether an answer of this status has values of the columns."""
        points = (SolverStatus.OPTIMAL, SolverStatus.FEASIBLE, SolverStatus.LIMIT_WITH_POINT)
        return self in points


class ToldStatus(NamedTuple):
    """One status as a solver words it.

    Attributes:
        words: The solver's own words, letters or number.
        status: What they mean where nothing else is known.
        text: What a message says; of a limit, which one.
        is_gap: A gap that was asked for is reached.
    """

    words: str
    status: SolverStatus
    text: str
    is_gap: bool = False


@dataclass
class SolverAnswer:
    """What a solver answered. Numbers stand in the order of the program's columns and rows.

    Attributes:
        status: What the solver says of the program.
        text: The same in words.
        values: One for each column; None where there is no point.
        duals: One for each row: rates of change of the objective in its own sense, as AMPL wants
            them; None where the solver tells none.
        reduced_costs: One for each column, as the duals.
        column_basis: One for each column, of `BasisStatus`.
        row_basis: One for each row, of `BasisStatus`.
        objective: As the solver computed it, in the program's own sense.
        notes: Lines for the message.
        is_gap: The search stopped at a gap that was asked for.
    """

    status: SolverStatus
    text: str
    values: Sequence[Number] | None = None
    duals: Sequence[Number] | None = None
    reduced_costs: Sequence[Number] | None = None
    column_basis: Sequence[int] | None = None
    row_basis: Sequence[int] | None = None
    objective: Number | None = None
    notes: list[str] = field(default_factory=list)
    is_gap: bool = False


class Solver:
    """A solver. `solve` writes the program as it reads it, runs it, and reads its answer.

    Attributes:
        name: That of its driver without `bridge-`.
        executable: The name of its program.
        package: Debian's package that has it.
        title: Its name in messages.
        takes_integers: Whether it takes integer columns.
        takes_start: Whether it begins with values that it is given (`SolverRun.start_values`).
        retry_words: How it is asked once more where an answer is not usable; "" where it is not.
        options: The settings that it takes beside those that all take.
        version_pattern: Matches a line of its log; the one group is the version.
        progress_patterns: Match lines of its log; the names of groups say what a number is.
        infinite: The size from which it takes sides and bounds for none, as a text; "" where no
            number is so large.
    """

    name = ""
    executable = ""
    package = ""
    title = ""
    takes_integers = True
    takes_start = False
    retry_words = ""
    options: Sequence[SolverOption] = ()
    version_pattern = ""
    progress_patterns: Sequence[str] = ()
    infinite = ""

    def solve(self, run: SolverRun) -> SolverAnswer:
        """The answer of one run: writes the program, starts the solver, and reads what it wrote.

        Raises:
            UnclearAnswer: There is none, or it is not understood.
            ValueError, LookupError, ArithmeticError: The answer is not in the form that it should
                have.
            OSError: The solver cannot be started, or its files cannot be written.
            Interrupted: A signal ended the run.
        """
        raise NotImplementedError

    def arguments(self, settings: SolverSettings, *, is_retry: bool = False) -> list[str]:
        """The solver's words for what is asked, and the user's own behind them.

        Args:
            settings: Of which those are told that the solver knows.
            is_retry: It is asked once more, in the way of `retry_words`.
        """
        return list(settings.arguments)

    def find(self, named: str = "") -> str | None:
        """The path of the executable, which may be relative; None where it is not found.

        A run asks it once, before the model is read (`SolveRun.find_solver` makes it absolute), and
        so do the words on which solvers are installed.

        Args:
            named: What the user gave, a path or a name on the PATH; "": that of the class is looked
                for.
        """
        return shutil.which(named or self.executable)

    def mps_text(self, program: LinearProgram) -> bytes:
        """The program as MPS in a form that this solver reads rightly.

        Args:
            program: With whole bounds of integer columns, unless it is relaxed.
        """
        return program.text

    def reading_arguments(self, program: LinearProgram, path: str) -> list[str]:
        """The words by which the solver reads the MPS file at a path and solves it; no settings.

        Args:
            program: What stands in the file; its sense may need a word.
            path: Of a file with `mps_text`.
        """
        return [path]

    def command_line(self, program: LinearProgram, path: str, named: str = "") -> list[str]:
        """How one calls it by hand on the MPS file at a path, where a driver only writes that.

        Args:
            program: What stands in the file.
            path: Of the file.
            named: The executable that the user gave; "" for the usual one.
        """
        return [named or self.executable, *self.reading_arguments(program, path)]

    def title_with_version(self, log: str) -> str:
        """The title of messages, with the version where the solver's log tells it: `CBC 2.10.8`."""
        found = re.search(self.version_pattern, log) if self.version_pattern else None
        return f"{self.title} {found[1]}" if found else self.title

    def huge_notes(self, program: LinearProgram) -> list[str]:
        """A line, or none, on sides or bounds of the program that this solver may take for none."""
        count = program.count_of_huge(float(self.infinite)) if self.infinite else 0
        if not count:
            return []
        ends = "side or bound" if count == 1 else "sides or bounds"
        return [
            f"the model has {count} {ends} from {self.infinite} on, which {self.title} may "
            "take for none"
        ]

    def progress_of_line(self, line: str, program: LinearProgram) -> dict[str, float]:
        """The numbers that a line of the log tells, by the names of the patterns' groups.

        Values are in the program's own sense. The first pattern that fits counts; what is no
        number, or from NO_INCUMBENT on, is left out.

        Args:
            line: Of the log.
            program: What is solved.
        """
        matches = (re.search(pattern, line) for pattern in self.progress_patterns)
        found = next(filter(None, matches), None)
        if found is None:
            return {}
        known: dict[str, float] = {}
        for name, text in found.groupdict().items():
            with contextlib.suppress(ValueError):  # a word where a number could be
                known[name] = float(text)
        return {name: value for name, value in known.items() if abs(value) < NO_INCUMBENT}


def status_of(told: Sequence[ToldStatus], words: str) -> ToldStatus | None:
    """The entry of a solver's table whose words, letters or number are exactly these.

    Capitals and outer blanks aside. None: the table has no such entry.
    """
    wanted = words.strip().lower()
    return next((one for one in told if one.words.lower() == wanted), None)


def status_in_log(told: Sequence[ToldStatus], log: str) -> ToldStatus | None:
    """The first entry of a solver's table whose words stand in a log; None where none does.

    The order of the table decides, not that of the log. Capitals count.
    """
    return next((one for one in told if one.words in log), None)


def limit_answer(why: str, *, has_point: bool = False) -> SolverAnswer:
    """The answer, still without numbers, of a solver that a limit stopped.

    Args:
        why: Which limit, as `the time limit`.
        has_point: There is a feasible solution.
    """
    status = SolverStatus.LIMIT_WITH_POINT if has_point else SolverStatus.LIMIT
    ending = "with" if has_point else "without"
    return SolverAnswer(status, f"stopped at {why} {ending} a feasible solution")


def answer_without_file(finished: Finished, fault_pattern: str) -> SolverAnswer:
    """The answer of a run that wrote none: that of its limit, where it was killed at it.

    Args:
        finished: How the run ended.
        fault_pattern: What is searched in the lines of its log, capitals aside.

    Raises:
        UnclearAnswer: It ended by itself. The text is the first line of its log that has the
            pattern, or its last line where none has.
    """
    if finished.is_killed:
        return limit_answer(TIME_LIMIT)
    lines = [line.strip() for line in finished.log.splitlines() if line.strip()]
    faults = (line for line in lines if re.search(fault_pattern, line, re.IGNORECASE))
    last = f"; its last words: {lines[-1][:LONGEST_LOG_LINE]}" if lines else ""
    raise UnclearAnswer(next(faults, "it wrote no answer" + last))


def answer_of_status(told: ToldStatus | None, words: str, *, has_point: bool) -> SolverAnswer:
    """The answer, still without numbers, of a status that the solver words so.

    A status that is not known, or that says little, is a point where there is one.

    Args:
        told: The entry of the solver's table; None: it has none.
        words: The solver's own, for a message.
        has_point: The solver gave values.

    Raises:
        UnclearAnswer: The status says little, and there is no point.
    """
    says_little = (SolverStatus.FEASIBLE, SolverStatus.NO_ANSWER)
    if told is None or told.status in says_little:
        if not has_point:
            raise UnclearAnswer(f"it ended with `{words}`")
        if told is not None and told.is_gap:
            return SolverAnswer(told.status, told.text, is_gap=True)
        return SolverAnswer(SolverStatus.FEASIBLE, f"a point, and it ended with `{words}`")
    if told.status is SolverStatus.LIMIT:
        return limit_answer(told.text, has_point=has_point)
    return SolverAnswer(told.status, told.text)


def within_gap(answer: SolverAnswer) -> None:
    """Changes an optimal answer into a feasible one, of a search that a gap may have ended."""
    answer.status = SolverStatus.FEASIBLE
    answer.text = GAP_SOLUTION
    answer.is_gap = True


def read_lines(path: str) -> list[str] | None:
    """The lines of an answer's file, without their ends; None where the solver wrote none.

    What is not UTF-8 becomes the replacement character.
    """
    try:
        with open(path, encoding="utf-8", errors="replace") as file:
            return file.read().splitlines()
    except FileNotFoundError:
        return None
