"""HiGHS, as SciPy has it, for linear and mixed integer programs.

It runs in a Python of its own, Debian's first, which `highs_script` is given to.
"""

from __future__ import annotations

import json
import os
import re
import shutil
from typing import Mapping

from ..model.linear_program import LinearProgram
from ..system.deadline import Deadline
from ..system.errors import UnclearAnswer
from ..system.processes import run as run_program
from .base import (
    OPTIMAL_SOLUTION,
    TIME_LIMIT,
    Solver,
    SolverAnswer,
    SolverStatus,
    ToldStatus,
    answer_of_status,
    answer_without_file,
    read_lines,
    status_of,
    within_gap,
)
from .run import SolverRun
from .settings import SolverOption

# the numbers of HiGHS's model statuses, which stand in SciPy's message
STATUSES = (
    ToldStatus("0", SolverStatus.NO_ANSWER, "not set"),
    ToldStatus("1", SolverStatus.NO_ANSWER, "load error"),
    ToldStatus("3", SolverStatus.NO_ANSWER, "presolve error"),
    ToldStatus("4", SolverStatus.FEASIBLE, "solve error"),
    ToldStatus("5", SolverStatus.FEASIBLE, "postsolve error"),
    ToldStatus("6", SolverStatus.FEASIBLE, "empty model"),
    ToldStatus("15", SolverStatus.FEASIBLE, "unknown"),
    ToldStatus("7", SolverStatus.OPTIMAL, OPTIMAL_SOLUTION),
    ToldStatus("2", SolverStatus.INFEASIBLE, "infeasible"),
    ToldStatus("8", SolverStatus.INFEASIBLE, "infeasible"),
    ToldStatus("9", SolverStatus.INFEASIBLE_OR_UNBOUNDED, "infeasible or unbounded"),
    ToldStatus("10", SolverStatus.UNBOUNDED, "unbounded"),
    ToldStatus("11", SolverStatus.LIMIT, "a bound of the objective"),
    ToldStatus("12", SolverStatus.LIMIT, "a target of the objective"),
    ToldStatus("13", SolverStatus.LIMIT, TIME_LIMIT),
    ToldStatus("14", SolverStatus.LIMIT, "the iteration limit"),
    ToldStatus("16", SolverStatus.LIMIT, "the limit of solutions"),
    ToldStatus("17", SolverStatus.LIMIT, "an interrupt"),
)
OF_SCIPY = {0: "7", 1: "13", 2: "8", 3: "10"}  # SciPy's own statuses, as those of HiGHS
PLACES = ("/usr/bin/python3", "python3")
SCRIPT = os.path.join(os.path.dirname(os.path.abspath(__file__)), "highs_script.py")
CLOSED_GAP = 1e-9  # a relative gap up to which there is none
LOOK_SECONDS = 60.0  # that a Python has to import SciPy
LOOKS_FOR_SCIPY = "import importlib.util as u, sys; sys.exit(u.find_spec('scipy') is None)"
STATUS_OF_HIGHS = re.compile(r"HiGHS Status (\d+)")


class Highs(Solver):
    """HiGHS of SciPy, which `highs_script` calls in another Python."""

    name = "highs"
    executable = "a python3 with SciPy"
    package = "python3-scipy"
    title = "HiGHS of SciPy"
    version_pattern = r"HiGHS of SciPy (\S+)"
    retry_words = "without presolve"
    infinite = "1e20"
    options = (SolverOption.MIP_GAP,)
    progress_patterns = (
        r"^ *(?:[A-Z] *)?(?P<nodes>\d+) +(?P<open>\d+) +\d+ +[\d.]+% +(?P<bound>\S+) "
        r"+(?P<incumbent>\S+) +\S+ ",
        r"^ +(?P<iterations>\d+) +(?P<objective>\S+) +(?:Pr|Du|Ph1):",
    )

    def progress_of_line(self, line: str, program: LinearProgram) -> dict[str, float]:
        """As of `Solver`. The script minimises, and leaves out the constant of the objective."""
        known = super().progress_of_line(line, program)
        sign = -1.0 if program.maximise else 1.0
        for name in ("incumbent", "bound", "objective"):
            if name in known:
                known[name] = sign * known[name] - float(program.objective_rhs)
        return known

    def find(self, named: str = "") -> str | None:
        """The path of a Python that has SciPy; None where there is none.

        Args:
            named: A path or a name on the PATH; "": those of PLACES are tried.
        """
        for word in (named,) if named else PLACES:
            path = shutil.which(word)
            if path and has_scipy(path):
                return path
        return None

    def command_line(self, program: LinearProgram, path: str, named: str = "") -> list[str]:
        """The script with the path alone: it solves with its usual words, and prints its answer."""
        return [self.find(named) or PLACES[0], SCRIPT, path]

    def solve(self, run: SolverRun) -> SolverAnswer:
        """Runs the script, and reads the object that it writes in JSON.

        Raises:
            UnclearAnswer: The program has no columns, or as `Solver.solve`.
        """
        if not run.program.names.columns:
            raise UnclearAnswer("it takes no program without columns")
        words = {
            "mipgap": run.settings.mip_gap,
            "seconds": run.settings.time_limit,
            "relax": run.settings.relax,
            "presolve": not run.is_retry,
            "disp": True,
        }
        path = run.write("highs.mps", self.mps_text(run.written))
        target = run.path("answer.json")
        finished = run.start([run.executable, SCRIPT, path, target, json.dumps(words)])
        lines = read_lines(target)
        if lines is None:
            return answer_without_file(finished, "Error")
        return read_answer(run, json.loads(lines[0]))


def has_scipy(path: str) -> bool:
    """Whether the Python at a path has SciPy; not where it cannot be started, or takes a minute."""
    try:
        return run_program([path, "-c", LOOKS_FOR_SCIPY], Deadline(LOOK_SECONDS)).status == 0
    except OSError:
        return False


def read_answer(run: SolverRun, told: Mapping[str, object]) -> SolverAnswer:
    """The answer by HiGHS's own status, whose number stands in SciPy's message, else by SciPy's.

    An optimal one counts as within the gap where a gap was asked for and a relative one above
    CLOSED_GAP is left.

    Args:
        run: What was asked.
        told: The object that `highs_script` writes.

    Raises:
        UnclearAnswer: There is no point and no clear status, or a list has another length.
        KeyError: A part of the object is missing.
    """
    message = str(told["message"])
    own = STATUS_OF_HIGHS.search(message)
    number = own[1] if own else OF_SCIPY.get(int(str(told["status"])), "")
    values = _numbers(told, "values", len(run.program.names.columns))
    first_line = message.strip().split("\n")[0]
    answer = answer_of_status(status_of(STATUSES, number), first_line, has_point=bool(values))
    if not answer.status.has_point():
        return answer
    answer.values = values
    answer.duals = _numbers(told, "duals", len(run.program.names.rows))
    answer.reduced_costs = _numbers(told, "costs", len(run.program.names.columns))
    is_optimal = answer.status is SolverStatus.OPTIMAL
    if is_optimal and run.settings.mip_gap and float(str(told.get("gap") or 0)) > CLOSED_GAP:
        within_gap(answer)
    return answer


def _numbers(told: Mapping[str, object], key: str, count: int) -> list[float] | None:
    """A list of `count` doubles of the script's object; None where it has none.

    Raises:
        UnclearAnswer: It has another length, or is no list.
    """
    found = told.get(key)
    if found is None:
        return None
    if not isinstance(found, list) or len(found) != count:
        raise UnclearAnswer(f"{key}: {count} numbers are wanted")
    return found
