"""Models that mislead solvers in doubles, through drivers: what is wrong, and what is lost."""

from __future__ import annotations

from dataclasses import dataclass
from fractions import Fraction
from typing import Optional, Sequence

from builders.misleading import Misleading
from running.places import MIXED_INTEGER_SOLVERS
from running.sol_file import SolFile
from running.workspace import Workspace

SOLVED = 0
FAILED = -1  # in place of a code
INFEASIBLE, UNBOUNDED = 200, 300
NO_BRIDGE = 503
CODES = {"infeasible": INFEASIBLE, "unbounded": UNBOUNDED}  # of last lines
PROVED = ("optimal", "within")  # first words of last lines that have code 0 with prove=1


@dataclass(frozen=True)
class JudgedRun:
    """A run of a driver over a misleading model.

    Attributes:
        code: AMPL's solve_result_num; -1 where the driver itself failed.
        wrong: what is wrong with its answer.
        lost: what the solver answered rightly and exactly, and the driver did not pass on.
        last_line: the verdict.
    """

    code: int
    wrong: str = ""
    lost: str = ""
    last_line: str = ""


def takes(driver: str, model: Misleading) -> bool:
    """Whether the solver takes the model's columns."""
    return driver in MIXED_INTEGER_SOLVERS or model.is_linear()


def judge_run(
    workspace: Workspace,
    driver: str,
    model: Misleading,
    options: Sequence[str],
    own_options: Sequence[str] = (),
) -> JudgedRun:
    """Runs a driver, and once more with `check=0`, which tells what the solver itself answered.

    Args:
        options: of the first run, which has more than a second for a certificate.
        own_options: of the second one.
    """
    return judge_runs(workspace, driver, model, [options], own_options)[0]


def judge_runs(
    workspace: Workspace,
    driver: str,
    model: Misleading,
    ways: Sequence[Sequence[str]],
    own_options: Sequence[str] = (),
) -> Sequence[JudgedRun]:
    """The same of several runs, by their options; what the solver itself answered is asked for once."""
    workspace.write("m.nl", model.text())
    found = [_judged(workspace, driver, model, options) for options in ways]
    if not any(run.sol is not None and not run.wrong for run in found):
        return [run.judged() for run in found]
    ended = workspace.run("bridge-" + driver, "m", "-AMPL", "-e", "check=0", *own_options)
    own = SolFile(workspace.path("m.sol")) if ended.status == 0 else None
    return [run.judged(_lost_by(model, own, run)) for run in found]


@dataclass(frozen=True)
class _Run:
    """What came of one run: its .sol, None where the driver failed, and what is wrong with it."""

    sol: Optional[SolFile]
    wrong: str

    def judged(self, lost: str = "") -> JudgedRun:
        """With what is lost, which nothing is of what is wrong."""
        if self.sol is None:
            return JudgedRun(FAILED, self.wrong)
        wrong = f"{self.wrong} ({self.sol.last_line})" if self.wrong else ""
        return JudgedRun(self.sol.code, wrong, "" if wrong else lost, self.sol.last_line)


def _judged(workspace: Workspace, driver: str, model: Misleading, options: Sequence[str]) -> _Run:
    words = ["m", "-AMPL", "-e", *options]
    workspace.path("m.sol").unlink(missing_ok=True)
    ended = workspace.run("bridge-" + driver, *words, without=["hurry"])
    if ended.status != 0:
        return _Run(None, f"it ended with {ended.status}")
    sol = SolFile(workspace.path("m.sol"))
    return _Run(sol, fault_of(model, sol, options))


def _lost_by(model: Misleading, own: Optional[SolFile], run: _Run) -> str:
    return "" if own is None or run.sol is None else lost_answer(model, own, run.sol)


def fault_of(model: Misleading, sol: SolFile, options: Sequence[str] = ()) -> str:
    """What is wrong: codes 0, 200 and 300 are claims, and so are `infeasible` and `unbounded`.

    With `prove=1` among the options code 0 is to be proved.
    """
    if "a fault of the driver" in sol.text:
        return "a fault of the driver"
    if sol.code == NO_BRIDGE:
        return "the proved program did not run"
    if not sol.has_allowed_code():
        return "no code above this line"
    if sol.code == SOLVED and "prove=1" in options and sol.last_line.split()[0] not in PROVED:
        return "code 0 is not proved"
    if sol.code == SOLVED:
        has_values = bool(sol.values) or not model.columns
        return model.fault(sol.values) if has_values else "no values"
    if INFEASIBLE in (sol.code, CODES.get(sol.last_line)) and model.best is not None:
        return "there is a point"
    if UNBOUNDED in (sol.code, CODES.get(sol.last_line)) and not model.is_unbounded:
        return "there is no point" if model.best is None else "there is a best point"
    return ""


def lost_answer(model: Misleading, own: SolFile, sol: SolFile) -> str:
    """What the solver itself answered rightly and exactly, and the driver did not pass on.

    Args:
        own: the solver's answer.
        sol: that of the driver.
    """
    is_infeasible = own.code == INFEASIBLE and model.best is None
    is_unbounded = own.code == UNBOUNDED and model.is_unbounded
    if (is_infeasible and sol.code != INFEASIBLE) or (is_unbounded and sol.code != UNBOUNDED):
        return f"it said so ({sol.last_line})"
    if own.code != SOLVED or sol.code == SOLVED or not own.values:
        return ""
    point = [
        Fraction(round(value)) if kind == "I" else Fraction(float(value))
        for value, (kind, _, _) in zip(own.values, model.columns)
    ]
    return f"its point is optimal ({sol.last_line})" if model.is_exact(point) else ""
