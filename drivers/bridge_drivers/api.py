"""The calls of this package that run a solver.

They are functions of values: no argument is taken apart as a command's word.

Each answers a `Report`, or raises a `BridgeError` that has one. A model is a path, as commands take
it, the bytes of such a file, or a program. No file is written but those that are named; nothing is
printed; the log `bridge_drivers` tells what goes on.

Users call `solve` and `certify`; `pulp_solver` uses the rest, too. Calls that start no solver are
in `model_calls`.
"""

from __future__ import annotations

import contextlib
import os
import signal
import threading
from typing import Any, Callable, Iterator, Mapping, Sequence

from .formats.source import Source, Workspace
from .pipeline.memory import GivenModel, Path, is_in_memory, read_given_model
from .pipeline.monitor import Monitor, ProgressEvent
from .pipeline.option_values import (
    RunSettings,
    certify_settings,
    checked_values,
    run_settings,
    values_of_words,
)
from .pipeline.outputs import exit_status, write_outputs
from .pipeline.report import Report, ReportedCall
from .pipeline.run_report import report_of_error, report_of_outcome
from .pipeline.solve import SolveRun
from .solvers import SOLVERS
from .system.codes import Code, ExitStatus
from .system.errors import (
    BridgeError,
    DriverFault,
    FileAction,
    FileFault,
    Interrupted,
    RunInterrupted,
    SolveInterrupted,
    WrongOption,
)
from .system.signals import SIGNALS

OnProgress = Callable[[ProgressEvent], None]
CERTIFY = "bridge-certify"


def solve(
    model: GivenModel,
    solver: str = "cbc",
    *,
    prove: bool = False,
    certificate: Path | None = None,
    timelim: float | None = None,
    program: Path | None = None,
    on_progress: OnProgress | None = None,
    **options: Any,
) -> Report:
    """What bridge-SOLVER answers, with values, duals and reduced costs.

    Args:
        model: A path, the bytes of a file, or a program.
        solver: The name of the solver: `cbc`, `highs` ..
        prove: A certificate that the answer is optimal is searched for.
        certificate: Where an accepted certificate is kept; None for nowhere.
        timelim: Seconds of the whole run, of which `prove` keeps one half for the search. None or
            0: no limit, but 60 seconds of the search.
        program: The solver's program, where it is not on the PATH.
        on_progress: Is called with what is known while the run goes on, such as incumbents and
            bounds.
        options: Further options of the driver, by name.

    Returns:
        With AMPL's code, the claim that is proved, and the message in `lines`.

    Raises:
        BridgeError: There is no answer. A file that is named and cannot be written is a
            `FileFault`.
        SolveInterrupted: Ctrl-C ended the run; it has the report of what was found by then.
    """
    given = {"prove": prove, "certificate": certificate, "timelim": timelim, "solver": program}
    call = ReportedCall("bridge-" + solver)
    return _solved(call, model, solver, {**given, **options}, on_progress)


def certify(
    model: GivenModel,
    *,
    solver: str = "cbc",
    certificate: Path | None = None,
    timelim: float | None = None,
    program: Path | None = None,
    on_progress: OnProgress | None = None,
    **options: Any,
) -> Report:
    """What is true of a model, as bridge-certify finds it by a solver and a search.

    The status of the report is 1 where nothing is proved.

    Args:
        model: A path, the bytes of a file, or a program.
        solver: The name of the solver.
        certificate: Where the certificate is kept; None for nowhere.
        timelim: Seconds of the whole run, of which one half is kept for the search; 0 for no
            limit, but 60 seconds of the processor for the search. None is 0 with 60 for the solver.
        program: The solver's program, where it is not on the PATH.
        on_progress: As of `solve`.
        options: Further options of the driver, by name.

    Raises:
        BridgeError, SolveInterrupted: As of `solve`.
    """
    given = {
        "prove": True,
        "certificate": certificate,
        "timelim": timelim,
        "solver": program,
    }
    return _solved(ReportedCall(CERTIFY), model, solver, {**given, **options}, on_progress)


def solver_path(solver: str) -> str | None:
    """Where the program of a solver is; None where it is not installed, or there is no such driver."""
    return SOLVERS[solver].find() if solver in SOLVERS else None


def options_of_words(solver: str, words: Sequence[str]) -> Mapping[str, object]:
    """Options for `solve`, of words `name=value` as commands and PuLP's class take them.

    Raises:
        WrongOption: There is no such driver or option, or a text cannot be read as its value.
    """
    _check_solver(solver)
    return values_of_words(solver, words)


def _solved(
    call: ReportedCall,
    model: GivenModel,
    solver: str,
    given: Mapping[str, object],
    on_progress: OnProgress | None,
) -> Report:
    """One run by values, as `solve`.

    Args:
        call: The call, of the command `bridge-SOLVER` or `bridge-certify`.
        model: A path, the bytes of a file, or a program.
        solver: The name of the solver.
        given: Options by name; None counts as not given.
        on_progress: As of `solve`.

    Raises:
        BridgeError: There is no answer. Other exceptions are a `DriverFault`, but with outlev=2.
        SolveInterrupted: Ctrl-C was pressed; it has the report of the answer or of the error.
    """
    try:
        _check_solver(solver)
        wanted = _settings_of(call, solver, given)
    except WrongOption as fault:
        raise call.failed(fault, code=int(Code.BAD_OPTION)) from None
    with Workspace() as workspace, _keyboard() as keyboard:
        try:
            source = _read(call, model, workspace)
            _check_fit(source, wanted, in_memory=is_in_memory(model))
            report = _run(call, source, wanted, on_progress)
        except Interrupted as fault:
            error: BridgeError = RunInterrupted(fault.number)
        except BridgeError as fault:
            error = fault
        except OSError as fault:
            error = FileFault.of(fault, "", FileAction.READ)
        except Exception as fault:
            if wanted.settings.shows_faults:
                raise
            error = DriverFault(repr(fault))
        else:
            if keyboard.was_pressed:
                raise SolveInterrupted(report)
            return report
    error = report_of_error(call, error, call.command)
    if keyboard.was_pressed:
        raise SolveInterrupted(error.report)
    raise error from None


def _check_solver(solver: str) -> None:
    """Raises WrongOption where there is no driver of that solver."""
    if solver not in SOLVERS:
        raise WrongOption(f"no driver of {solver}: {', '.join(SOLVERS)}")


def _read(call: ReportedCall, model: GivenModel, workspace: Workspace) -> Source:
    """Opens the model; the call is told what the user calls it, also where it cannot be read."""
    if not is_in_memory(model):
        call.model = os.fspath(model)  # type: ignore[arg-type]
    source = read_given_model(model, workspace)
    call.read_model(source)
    return source


def _settings_of(call: ReportedCall, solver: str, given: Mapping[str, Any]) -> RunSettings:
    """The settings of a call; WrongOption where an option is unknown or its value of another kind."""
    wanted = run_settings(solver, checked_values(solver, given))
    is_endless = call.command == CERTIFY and given.get("timelim") is None
    return certify_settings(wanted) if is_endless else wanted


def _check_fit(source: Source, wanted: RunSettings, *, in_memory: bool) -> None:
    """Raises WrongOption where what is wanted cannot be had of such a model."""
    settings = wanted.settings
    if settings.mps_form and not source.is_mps:
        raise WrongOption(f"format is for MPS files, and {source.name} is none")
    if source.is_mps and wanted.outputs.sol:
        raise WrongOption("a .sol is the answer to an .nl file")
    if source.is_mps and settings.shortest_numbers:
        raise WrongOption("shortest is for .nl files: an MPS file is read as it stands")
    if in_memory and (wanted.outputs.sol or wanted.writes_input_alone):
        raise WrongOption("beside a model in memory no file can stand")


def _run(
    call: ReportedCall, source: Source, wanted: RunSettings, on_progress: OnProgress | None
) -> Report:
    """Solves and writes what is wanted. The call is told what starts the proved program.

    The report of `bridge-certify` has the status 1 where nothing is proved.

    Raises:
        FileFault: A file cannot be written, or an accepted certificate could not be kept.
        BridgeError: There is no outcome.
    """
    settings = wanted.settings
    run = SolveRun(source, settings, Monitor(call.command, on_progress))
    try:
        if wanted.writes_input_alone:
            overwrite = wanted.outputs.overwrite
            outcome = run.input_outcome(overwrite=overwrite, named=settings.solver_path)
        else:
            outcome = run.outcome()
    finally:
        call.program = run.bridge_words
    write_outputs(outcome, source, wanted.outputs, settings.objective)
    if outcome.stored is not None and outcome.stored.has_failed:
        raise FileFault("", outcome.stored.line, FileAction.WRITE)
    status = exit_status(outcome)
    if call.command == CERTIFY and outcome.lines[-1].startswith("not proved"):
        status = ExitStatus.FAILED
    has_values, has_duals = wanted.wants_values, wanted.wants_duals
    return report_of_outcome(call, outcome, status, wants_values=has_values, wants_duals=has_duals)


class _Keyboard:
    """Whether Ctrl-C was pressed in a block of `_keyboard`."""

    was_pressed = False


@contextlib.contextmanager
def _keyboard() -> Iterator[_Keyboard]:
    """A block in which Ctrl-C ends first the solver or the search, in order, and then the run.

    Only where Python's own handler would raise KeyboardInterrupt, and in the main thread.
    """
    keyboard = _Keyboard()
    is_main = threading.current_thread() is threading.main_thread()
    if not is_main or signal.getsignal(signal.SIGINT) is not signal.default_int_handler:
        yield keyboard
        return

    def press(number: int, frame: object) -> None:
        """Notes that Ctrl-C was pressed, and passes it on to what is to receive it."""
        keyboard.was_pressed = True
        SIGNALS.receive(number, frame)

    signal.signal(signal.SIGINT, press)
    try:
        yield keyboard
    finally:
        signal.signal(signal.SIGINT, signal.default_int_handler)
        SIGNALS.is_ending = False
