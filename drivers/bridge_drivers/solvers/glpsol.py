"""GLPK's glpsol, for linear and mixed integer programs."""

from __future__ import annotations

import math
from typing import Sequence

from ..model.linear_program import LinearProgram
from ..system.errors import UnclearAnswer
from .base import (
    GAP_SOLUTION,
    OPTIMAL_SOLUTION,
    TIME_LIMIT,
    BasisStatus,
    Solver,
    SolverAnswer,
    SolverStatus,
    ToldStatus,
    answer_of_status,
    answer_without_file,
    read_lines,
    status_in_log,
    status_of,
)
from .run import Finished, SolverRun
from .settings import SolverOption, SolverSettings

# sentences of its log
LOG_STATUSES = (
    ToldStatus("LP HAS NO PRIMAL FEASIBLE SOLUTION", SolverStatus.INFEASIBLE, "infeasible"),
    ToldStatus("PROBLEM HAS NO PRIMAL FEASIBLE SOLUTION", SolverStatus.INFEASIBLE, "infeasible"),
    ToldStatus("PROBLEM HAS NO FEASIBLE SOLUTION", SolverStatus.INFEASIBLE, "infeasible"),
    ToldStatus(
        "PROBLEM HAS NO INTEGER FEASIBLE SOLUTION", SolverStatus.INFEASIBLE, "integer infeasible"
    ),
    ToldStatus("LP HAS UNBOUNDED PRIMAL SOLUTION", SolverStatus.UNBOUNDED, "unbounded"),
    ToldStatus("PROBLEM HAS UNBOUNDED SOLUTION", SolverStatus.UNBOUNDED, "unbounded"),
    ToldStatus(
        "LP HAS NO DUAL FEASIBLE SOLUTION",
        SolverStatus.INFEASIBLE_OR_UNBOUNDED,
        "infeasible or unbounded",
    ),
    ToldStatus(
        "PROBLEM HAS NO DUAL FEASIBLE SOLUTION",
        SolverStatus.INFEASIBLE_OR_UNBOUNDED,
        "infeasible or unbounded",
    ),
    ToldStatus(
        "LP RELAXATION HAS NO DUAL FEASIBLE SOLUTION",
        SolverStatus.INFEASIBLE_OR_UNBOUNDED,
        "infeasible or unbounded",
    ),
    ToldStatus(
        "RELATIVE MIP GAP TOLERANCE REACHED; SEARCH TERMINATED",
        SolverStatus.FEASIBLE,
        GAP_SOLUTION,
        is_gap=True,
    ),
    ToldStatus("TIME LIMIT EXCEEDED; SEARCH TERMINATED", SolverStatus.LIMIT, TIME_LIMIT),
    ToldStatus(
        "ITERATION LIMIT EXCEEDED; SEARCH TERMINATED", SolverStatus.LIMIT, "the iteration limit"
    ),
    ToldStatus(
        "ITERATIONS LIMIT EXCEEDED; SEARCH TERMINATED", SolverStatus.LIMIT, "the iteration limit"
    ),
    ToldStatus("SEARCH TERMINATED BY APPLICATION", SolverStatus.LIMIT, "an interrupt"),
    ToldStatus("NO CONVERGENCE; SEARCH TERMINATED", SolverStatus.FEASIBLE, "no convergence"),
    ToldStatus(
        "NUMERIC INSTABILITY; SEARCH TERMINATED", SolverStatus.FEASIBLE, "numeric instability"
    ),
)
# letters of its file: of a basic solution those of the primal and the dual one, of a MIP one letter
FILE_STATUSES = (
    ToldStatus("ff", SolverStatus.OPTIMAL, OPTIMAL_SOLUTION),
    ToldStatus("o", SolverStatus.OPTIMAL, OPTIMAL_SOLUTION),
    ToldStatus("f", SolverStatus.LIMIT, "a limit"),
    ToldStatus("n", SolverStatus.INFEASIBLE, "infeasible"),
    ToldStatus("nf", SolverStatus.INFEASIBLE, "infeasible"),
    ToldStatus("nu", SolverStatus.INFEASIBLE, "infeasible"),
    ToldStatus("nn", SolverStatus.INFEASIBLE, "infeasible"),
    ToldStatus("ni", SolverStatus.INFEASIBLE, "infeasible"),
    ToldStatus("fn", SolverStatus.UNBOUNDED, "unbounded"),
    *(
        ToldStatus(letters, SolverStatus.FEASIBLE, f"status `{letters}`")
        for letters in ("fu", "fi", "iu", "if", "ii", "in")
    ),
    *(
        ToldStatus(letters, SolverStatus.NO_ANSWER, "undefined")
        for letters in ("u", "uu", "uf", "ui", "un")
    ),
)
BASIS_LETTERS = {
    "b": BasisStatus.BASIC,
    "l": BasisStatus.AT_LOWER,
    "u": BasisStatus.AT_UPPER,
    "f": BasisStatus.SUPERBASIC,
    "s": BasisStatus.EQUAL,
}
FAULT_PATTERN = r"glpsol\.mps:|glp_\w+:"


class Glpsol(Solver):
    """GLPK, for mixed integer programs."""

    name = "glpsol"
    executable = "glpsol"
    title = "GLPK"
    package = "glpk-utils"
    retry_words = "without its presolve, its basis checked exactly"
    version_pattern = r"GLPSOL.*?Solver,? v?(\S+)"
    options = (SolverOption.MIP_GAP, SolverOption.EXACT_CHECK)
    progress_patterns = (
        r"^\+ *(?P<iterations>\d+): (?:mip =|>>>>>) +(?P<incumbent>\S+) +[<>]= +(?P<bound>\S+) .*\((?P<open>\d+);",
        r"^\+ *(?P<iterations>\d+): mip = +not found yet +[<>]= +(?P<bound>\S+) .*\((?P<open>\d+);",
        r"^Solution found by heuristic: (?P<incumbent>\S+)",
        r"^[ *#] *(?P<iterations>\d+): obj = +(?P<objective>\S+)",
    )

    def arguments(self, settings: SolverSettings, *, is_retry: bool = False) -> list[str]:
        """As of `Solver`. Its time limit is a whole number of seconds, rounded up."""
        words = []
        if settings.relax:
            words.append("--nomip")
        if settings.time_limit:
            words += ["--tmlim", str(math.ceil(settings.time_limit))]
        if settings.mip_gap:
            words += ["--mipgap", f"{settings.mip_gap:g}"]
        if settings.exact_check:
            words.append("--xcheck")
        if is_retry:
            words.append("--nopresol")
        return [*words, *settings.arguments]

    def solve(self, run: SolverRun) -> SolverAnswer:
        """Calls glpsol, and reads its file and its log.

        Asked once more, it checks its basis in exact arithmetic. Raises as `Solver.solve`.
        """
        path = run.write("glpsol.mps", self.mps_text(run.written))
        words = [*self.reading_arguments(run.program, path), "-w", run.path("answer.txt")]
        if run.is_retry and not run.settings.exact_check:
            words.append("--xcheck")
        words += self.arguments(run.settings, is_retry=run.is_retry)
        return read_answer(run, run.start([run.executable, *words]))

    def mps_text(self, program: LinearProgram) -> bytes:
        """The text without OBJSENSE, and with another sign of the objective's right-hand side.

        OBJSENSE is an error to glpsol. The side of the objective row it adds, where others subtract
        it.
        """
        text = program.text.replace(b"OBJSENSE\n MAX\n", b"", 1)
        side = program.objective_rhs
        negated = "-" + side
        if side == "0":
            negated = "0"
        elif side.startswith("-"):
            negated = side[1:]
        return text.replace(f"\n RHS obj {side}\n".encode(), f"\n RHS obj {negated}\n".encode(), 1)

    def reading_arguments(self, program: LinearProgram, path: str) -> list[str]:
        """The path and the sense, which the text has not."""
        return ["--freemps", path, "--max" if program.maximise else "--min"]


def read_answer(run: SolverRun, finished: Finished) -> SolverAnswer:
    """The answer by the file where that says optimal, else by the log.

    The status line of the file is `s bas ROWS COLUMNS PRIMAL DUAL OBJECTIVE` of a basic solution,
    and `s mip ROWS COLUMNS STATUS OBJECTIVE` of a mixed integer program. Duals and the basis are
    read of an optimal basic solution alone.

    Raises:
        UnclearAnswer: There is no answer, its status says little and has no point, or a line is
            missing.
        ValueError, LookupError: A line has another form.
    """
    told = status_in_log(LOG_STATUSES, finished.log)
    lines = read_lines(run.path("answer.txt"))
    if lines is None:
        return answer_of_log(finished, told)
    head = next((line.split() for line in lines if line.startswith("s ")), None)
    if head is None:
        raise UnclearAnswer("no status line")
    is_mip = head[1] == "mip"
    answer = answer_of_letters(head[4] if is_mip else head[4] + head[5], told)
    if not answer.status.has_point():
        return answer
    answer.objective = float(head[-1])
    if answer.status is SolverStatus.OPTIMAL and not is_mip:
        read_basic_solution(run.program, lines, answer)
    else:
        read_point(run.program, lines, answer, place=-1 if is_mip else 3)
    return answer


def answer_of_log(finished: Finished, told: ToldStatus | None) -> SolverAnswer:
    """The answer where no file was written: by the log, or that of a limit where it was killed.

    Args:
        finished: How the process ended.
        told: The entry of LOG_STATUSES that the log has; None: it has none.

    Raises:
        UnclearAnswer: Nothing tells how it ended.
    """
    if told is not None and not finished.is_killed:
        return answer_of_status(told, told.words, has_point=False)
    return answer_without_file(finished, FAULT_PATTERN)


def answer_of_letters(letters: str, told: ToldStatus | None) -> SolverAnswer:
    """The answer, still without numbers, by the letters in a file and the sentence in the log.

    Where the letters do not say optimal, the log decides, if it has a known sentence.

    Args:
        letters: Of the status line: one of a mixed integer program, two of a basic solution.
        told: The entry of LOG_STATUSES that the log has; None: it has none.

    Raises:
        UnclearAnswer: Its status says little and has no point.
    """
    of_file = status_of(FILE_STATUSES, letters)
    points = (SolverStatus.OPTIMAL, SolverStatus.FEASIBLE, SolverStatus.LIMIT)
    has_point = of_file is None or of_file.status in points
    if of_file is None or of_file.status is not SolverStatus.OPTIMAL:
        of_file = told or of_file
    words = of_file.words if of_file else letters
    return answer_of_status(of_file, words, has_point=has_point)


def read_point(
    program: LinearProgram, lines: Sequence[str], answer: SolverAnswer, *, place: int
) -> None:
    """Sets the values of an answer: of each line `j COLUMN ..` the word at one place.

    Args:
        place: 3 of a basic solution, -1 of a mixed integer program.
    """
    columns = _records(lines, "j ", len(program.names.columns))
    answer.values = [float(words[place]) for words in columns]


def read_basic_solution(program: LinearProgram, lines: Sequence[str], answer: SolverAnswer) -> None:
    """Sets values, duals, reduced costs and the basis of an answer, by a file's lines.

    They are `i ROW letter activity dual` and `j COLUMN letter value cost`, by number from 1.
    """
    rows = _records(lines, "i ", len(program.names.rows))
    columns = _records(lines, "j ", len(program.names.columns))
    answer.values = [float(words[3]) for words in columns]
    answer.duals = [float(words[4]) for words in rows]
    answer.reduced_costs = [float(words[4]) for words in columns]
    answer.column_basis = [BASIS_LETTERS[words[2]] for words in columns]
    answer.row_basis = [BASIS_LETTERS[words[2]] for words in rows]


def _records(lines: Sequence[str], start: str, count: int) -> list[list[str]]:
    """The words of the lines of one kind, in the order of their numbers, from 1 to `count`.

    Args:
        start: What such a line begins with.

    Raises:
        UnclearAnswer: A number is missing, or stands twice.
    """
    records = [line.split() for line in lines if line.startswith(start)]
    numbers = [int(words[1]) for words in records]
    if numbers != list(range(1, count + 1)):
        records = [words for _, words in sorted(zip(numbers, records))]
        if sorted(numbers) != list(range(1, count + 1)):
            raise UnclearAnswer("not all columns and rows have a value")
    return records
