"""PuLP through the calls of this package.

    from bridge_drivers.pulp_solver import BridgeCmd
    problem.solve(BridgeCmd("bridge-cbc", prove=True))

PuLP writes MPS, which is judged as it stands. What is told, with what is certified, is then in
`message`, with PuLP's names. PuLP writes 13 digits of each number; what is certified is of those
numbers. The class is `BridgeCmd`; PuLP calls its methods.
"""

from __future__ import annotations

import itertools
import os
from typing import Any, Iterable, Mapping, NamedTuple, Sequence

import pulp

from . import BridgeError, Report, solve
from .api import options_of_words, solver_path
from .system.files import write_new

FILES = ("mps", "json")  # the problem, and what is told of it
LONGEST_NAME = 255  # bytes of a name in an MPS file
POINT_CLAIMS = ("feasible", "within", "optimal")  # first words of last lines that have a point
ARGUMENTS_BY_WORDS = (
    ("relax=1", "mip=False"),
    ("prove=1", "prove=True"),
    ("timelim=", "timeLimit="),
    ("mipgap=", "gapRel="),
    ("solver=PATH", "options=['solver=PATH']"),
    ("bridge=PATH", "bridge='PATH'"),
)  # words of a driver, and what they are here


class Statuses(NamedTuple):
    """PuLP's status of a problem (`LpStatus..`), and of its solution (`LpSolution..`)."""

    problem: int
    solution: int


INFEASIBLE = Statuses(pulp.LpStatusInfeasible, pulp.LpSolutionInfeasible)
POINT_AT_LIMIT = Statuses(pulp.LpStatusNotSolved, pulp.LpSolutionIntegerFeasible)
STATUSES_BELOW_CODES = (
    (100, Statuses(pulp.LpStatusOptimal, pulp.LpSolutionOptimal)),
    (200, Statuses(pulp.LpStatusNotSolved, pulp.LpSolutionNoSolutionFound)),
    (290, INFEASIBLE),
    (300, Statuses(pulp.LpStatusUndefined, pulp.LpSolutionNoSolutionFound)),
    (400, Statuses(pulp.LpStatusUnbounded, pulp.LpSolutionUnbounded)),
    (401, POINT_AT_LIMIT),
    (1000, Statuses(pulp.LpStatusNotSolved, pulp.LpSolutionNoSolutionFound)),
)  # of AMPL's codes below each number


class WrittenProblem(NamedTuple):
    """A problem as a file.

    Attributes:
        path: Of the MPS file.
        names: Of the variables there, by PuLP's names.
    """

    path: str
    names: Mapping[str, str]


class BridgeCmd(pulp.LpSolver_CMD):
    """A PuLP solver, made of `solve`.

    Args:
        driver: The name of a driver, such as `bridge-cbc`.
        bridge: The words that start the proved program, where it is elsewhere.
        mip: Integer variables are integer ones; else they are relaxed.
        msg: The message is printed.
        options: Options of the driver, each a word `name=value`; they hold against the other
            arguments.
        timeLimit: Seconds of the whole run; None for no limit, but 60 seconds of a search.
        gapRel: The relative gap at which the search stops.
        threads: Of the solver's search.
        keepFiles: The MPS file and what is told, as JSON, stay in PuLP's folder.
        prove: A certificate that the answer is optimal is searched for.
        warmStart: Solver and search begin with the values that the problem's variables have.

    Attributes:
        message: What is told of the last problem, the lines joined; "" before the first.
    """

    name = "BridgeCmd"

    def __init__(
        self,
        driver: str = "bridge-cbc",
        bridge: str = "",
        mip: bool = True,
        msg: bool = True,
        options: Sequence[str] = (),
        timeLimit: float | None = None,
        gapRel: float | None = None,
        threads: int | None = None,
        keepFiles: bool = False,
        prove: bool = False,
        warmStart: bool = False,
    ) -> None:
        super().__init__(
            path=driver,
            keepFiles=keepFiles,
            mip=mip,
            msg=msg,
            options=list(options),
            timeLimit=timeLimit,
            gapRel=gapRel,
            threads=threads,
        )
        self.bridge = bridge
        self.prove = prove
        self.warm_start = warmStart
        self.message = ""

    def defaultPath(self) -> str:
        """The name of the driver that PuLP takes where none is given."""
        return str(self.executableExtension("bridge-cbc"))

    def solver(self) -> str:
        """The solver's name, with which the driver's ends: `cbc` of `/usr/bin/bridge-cbc`."""
        return os.path.basename(str(self.path)).removesuffix(".exe").removeprefix("bridge-")

    def available(self) -> str | bool:
        """The path of the solver's program, or False where it is not installed; PuLP asks it."""
        return solver_path(self.solver()) or False

    def actualSolve(self, lp: pulp.LpProblem) -> int:
        """Solves a problem, as PuLP's `problem.solve` wants it.

        Sets `message`, and prints it with `msg`.

        Values, slacks, duals and reduced costs are assigned to the problem where there are any, and
        none of an older solution stay but values; its statuses are set.

        Returns:
            PuLP's status of the problem (`LpStatus..`).

        Raises:
            pulp.PulpSolverError: There is no outcome.
        """
        _clear_values(lp)
        empty = empty_interval(lp)
        if empty:
            self.message = f"infeasible: {empty}"
            statuses = INFEASIBLE
        else:
            report, names = self._solved(lp)
            self.message = in_arguments("\n".join(report.lines))
            statuses = statuses_of(report.code or 0, report.text)
            _assign_values(lp, report, names)
        if self.msg:
            print(self.message)
        lp.assignStatus(*statuses)
        return int(statuses.problem)

    def _solved(self, lp: pulp.LpProblem) -> tuple[Report, Mapping[str, str]]:
        """What is told of a problem, and the names of the MPS file's variables by PuLP's.

        Its files stay with `keepFiles` alone.

        Raises:
            pulp.PulpSolverError: There is no outcome.
        """
        paths = dict(zip(FILES, self.create_tmp_files(self._free_name(lp.name), *FILES)))
        try:
            problem = write_problem(lp, paths["mps"])
            options = self._options()
            if self.warm_start:
                options.setdefault("start", _values_by_name(lp, problem.names))
            report = solve(problem.path, self.solver(), **options)
            if self.keepFiles:
                write_new(paths["json"], report.json().encode("ascii"))
        except BridgeError as fault:
            raise pulp.PulpSolverError(in_arguments(str(fault))) from None
        finally:
            self.delete_tmp_files(*paths.values())
        return report, problem.names

    def _free_name(self, name: str) -> str:
        """A name for files that no kept file of another run has: the problem's, else with -2, -3 ..

        behind it.
        """
        names = (name if number == 1 else f"{name}-{number}" for number in itertools.count(1))
        return next(
            free
            for free in names
            if not self.keepFiles
            or not any(map(os.path.exists, self.create_tmp_files(free, *FILES)))
        )

    def _options(self) -> dict[str, Any]:
        """The arguments of `solve` beside model and solver; a word holds against an argument.

        Raises:
            WrongOption: A word is no option.
        """
        known: dict[str, Any] = {
            "format": "free",
            "prove": self.prove,
            "bridge": self.bridge,
            "relax": not self.mip,
            "timelim": self.timeLimit,
            "mipgap": self.optionsDict.get("gapRel"),
            "threads": self.optionsDict.get("threads"),
        }
        options = {name: value for name, value in known.items() if value}
        given = dict(options_of_words(self.solver(), self.options))
        if "solver" in given:
            given["program"] = given.pop("solver")
        return {**options, **given}


def _values_by_name(lp: pulp.LpProblem, names: Mapping[str, str]) -> dict[str, float] | None:
    """The values that a problem's variables have, by the file's names; None where none has one.

    Args:
        lp: The problem.
        names: The file's names of variables by PuLP's.
    """
    values = {
        names[variable.name]: float(variable.varValue)
        for variable in lp.variables()
        if variable.varValue is not None and variable.name in names
    }
    return values or None


def write_problem(lp: pulp.LpProblem, path: str) -> WrittenProblem:
    """Writes a problem as an MPS file in free form and UTF-8.

    It has PuLP's own names where such a file can have them, else those that PuLP makes.

    Args:
        lp: The problem.
        path: Of the file.
    """
    objective = lp.objective.name or "OBJ"
    names: Mapping[str, str] | None = None
    own = [variable.name for variable in lp.variables()]
    if can_be_names([objective, *lp.constraints]) and can_be_names(own):
        try:
            lp.writeMPS(path)
            names = dict(zip(own, own))
        except UnicodeError:  # of a place that is not in UTF-8
            pass
    if names is None:
        _, names, _, objective = lp.writeMPS(path, rename=1)
    with open(path, encoding="utf-8") as file:
        text = file.read()
    is_maximum = lp.sense == pulp.LpMaximize
    constant = lp.objective.constant
    text = with_sense_and_constant(text, objective, constant, maximise=is_maximum)
    return WrittenProblem(write_new(path, text.encode("utf-8")), dict(names))


def can_be_names(names: Iterable[str]) -> bool:
    """Whether each is one printable word of at most LONGEST_NAME bytes, and none stands twice.

    An MPS file can have such names.
    """
    listed = list(names)
    return len(set(listed)) == len(listed) and all(
        name.isprintable() and name.split() == [name] and len(name.encode()) <= LONGEST_NAME
        for name in listed
    )


def in_arguments(text: str) -> str:
    """What a driver tells, with arguments in place of its words (ARGUMENTS_BY_WORDS)."""
    for word, argument in ARGUMENTS_BY_WORDS:
        text = text.replace(word, argument)
    return text


def empty_interval(lp: pulp.LpProblem) -> str:
    """The first variable whose lower bound is above its upper one, in words; "" where there is none.

    PuLP's own MPS would lose a lower bound of 0 under a negative upper one.
    """
    for variable in lp.variables():
        low, high = variable.lowBound, variable.upBound
        if low is not None and high is not None and low > high:
            return f"{variable.name} has the lower bound {low} and the upper bound {high}"
    return ""


def with_sense_and_constant(
    mps: str, objective: str, constant: float | None, *, maximise: bool
) -> str:
    """PuLP's MPS text with what it leaves out: the sense, and the objective's constant.

    Args:
        mps: The text.
        objective: The name of its row.
        constant: Is added to the objective; stands as minus itself in the right-hand sides. None is
            0.
        maximise: The sense.
    """
    lines = mps.split("\n")
    if maximise:
        name = next(place for place, line in enumerate(lines) if line.startswith("NAME"))
        lines[name + 1 : name + 1] = ["OBJSENSE", " MAX"]
    if constant:
        lines.insert(lines.index("RHS") + 1, f"    RHS       {objective}  {-constant!r}")
    return "\n".join(lines)


def statuses_of(code: int, last: str = "") -> Statuses:
    """PuLP's statuses of AMPL's code.

    Args:
        code: AMPL's code.
        last: The last line of the message. With a code from 100 to 199, a point that it says is
            feasible is that and no more; without, the point may miss the model and is none.
    """
    if 100 <= code < 200 and last.split(" ")[0] in POINT_CLAIMS:
        return POINT_AT_LIMIT
    return next(statuses for end, statuses in STATUSES_BELOW_CODES if code < end)


def _clear_values(lp: pulp.LpProblem) -> None:
    """Takes from a problem the duals, slacks and reduced costs that another solver left."""
    for variable in lp.variables():
        variable.dj = None
    for constraint in lp.constraints.values():
        constraint.pi = constraint.slack = None


def _assign_values(lp: pulp.LpProblem, report: Report, names: Mapping[str, str]) -> None:
    """Assigns values, slacks, duals and reduced costs in doubles, each where there are any.

    Without values each variable's is None.

    Args:
        lp: The problem.
        report: Its values by the file's names, duals in the order of the constraints.
        names: The file's names of variables by PuLP's.
    """
    if report.values:
        values = report.values.doubles()
        lp.assignVarsVals({name: values[own] for name, own in names.items()})
        activities = {
            name: sum(a * x.varValue for x, a in constraint.items())
            for name, constraint in lp.constraints.items()
        }
        lp.assignConsSlack(activities, activity=True)
    else:
        lp.assignVarsVals(dict.fromkeys(names))
    duals = report.duals.doubles() if report.duals else {}
    lp.assignConsPi(dict(zip(lp.constraints, duals.values())))
    if report.costs:
        costs = report.costs.doubles()
        lp.assignVarsDj({name: costs[own] for name, own in names.items()})
