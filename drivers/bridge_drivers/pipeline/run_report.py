"""The report of a run of a solver: of its outcome, or of the error that ended it.

The calls of `api` answer it, and the commands print it with json=1.
"""

from __future__ import annotations

from ..system.codes import Code
from ..system.errors import BridgeError
from .answer import Answer
from .answered_run import Outcome
from .outcome import code_of_error
from .outputs import named_duals, named_reduced_costs, named_values
from .report import ExactNumbers, Report, ReportedCall


def report_of_outcome(
    call: ReportedCall,
    outcome: Outcome,
    status: int,
    *,
    wants_values: bool,
    wants_duals: bool,
) -> Report:
    """The report of a run that has an outcome; the call's certificate is that which was kept.

    Args:
        call: The call.
        outcome: What the run found.
        status: The exit status of the command.
        wants_values: The values are in the report, where there are any.
        wants_duals: So are duals and reduced costs.
    """
    fields = {}
    if outcome.answer is not None:
        fields = _numbers_of(outcome.answer, wants_values=wants_values, wants_duals=wants_duals)
    call.certificate = outcome.stored.path if outcome.stored else None
    return call.report(
        outcome.lines[-1],
        outcome.lines,
        outcome.said,
        status=status,
        code=int(outcome.code),
        **fields,
    )


def _numbers_of(
    answer: Answer, *, wants_values: bool, wants_duals: bool
) -> dict[str, ExactNumbers]:
    """The numbers of an answer that are wanted and there, by the fields of a report."""
    found: dict[str, ExactNumbers] = {}
    if wants_values and answer.values is not None:
        found["values"] = ExactNumbers(named_values(answer))
    if wants_duals and answer.duals is not None:
        found["duals"] = ExactNumbers(named_duals(answer))
    if wants_duals and answer.reduced_costs is not None:
        found["costs"] = ExactNumbers(named_reduced_costs(answer))
    return found


def report_of_error(call: ReportedCall, error: BridgeError, name: str) -> BridgeError:
    """The error of a run, with a report in which the command's `name` stands before the text.

    AMPL's code of it is in the report, but none after a signal.
    """
    code = code_of_error(error)
    told = None if code == Code.STOPPED else int(code)
    return call.failed(error, prefix=f"{name}: ", code=told)
