"""The drivers: `bridge-NAME MODEL [-AMPL] [option=value ..]`.

A `DriverCommand` is one call: it reads words and model, has `pipeline.solve` solve it, writes what
is asked for and tells it. bridge-certify is made of it.
"""

from __future__ import annotations

import contextlib
import os
import sys
import traceback
from dataclasses import replace
from typing import List, Optional, Sequence

from ..formats.sol import failure_sol, short_table, value_lines
from ..formats.source import Source, Workspace, missing_source, read_model, read_source
from ..pipeline.monitor import Monitor
from ..pipeline.option_values import RunSettings
from ..pipeline.outcome import code_of_error
from ..pipeline.outputs import (
    exit_status,
    named_duals,
    named_values,
    remove_older_sol,
    write_outputs,
    write_sol,
)
from ..pipeline.report import Report, ReportedCall
from ..pipeline.run_report import report_of_error, report_of_outcome
from ..pipeline.answered_run import Outcome
from ..pipeline.solve import SolveRun
from ..program.verdict import INDENTATION
from ..solvers import SOLVERS
from ..system.codes import Code, ExitStatus
from ..system.errors import (
    BridgeError,
    DriverFault,
    FileAction,
    FileFault,
    RunInterrupted,
    WrongOption,
)
from ..system.errors import Interrupted
from ..system.files import write_new
from ..system.version import VERSION
from .console import Console, Destination, run_command
from .minizinc import tell_minizinc
from .options import (
    COMMON_OPTIONS,
    NO_MESSAGE,
    PRINT_DUALS,
    PRINT_VALUES,
    WRITE_SOL,
    Option,
    OptionValues,
    own_options,
)
from .words import DriverCall, HelpKind, parse_driver_call

MODEL_HELP = """A MODEL is a stub (knap for knap.nl), an .nl
  file or an MPS file (of which no .sol is made), packed or not (.gz, .bz2, .xz), a pipe, or - for
  standard input, which is called stdin."""
USAGE = """usage: {name} MODEL [-AMPL] [option=value ..]

  reads MODEL, runs {title}, and tells the answer. {model}
  -AMPL   called by a modelling system: stub.sol is always written, the outcome in it
  -s      without -AMPL: write stub.sol         -e  do not echo options
  -=      list the options                      -v  versions
  --      what follows is no option             -h  this text; help OPTION: one option
  Options may also stand in the variable {variable}.
"""
EXAMPLE = "\nexample: {name} knap prove=1 timelim=60\n"
LOG, LOG_AND_COMMANDS = 1, 2  # values of `outlev`
SATISFIED = (
    "optimal 0",
    "feasible 0",
)  # verdicts that say, of a model without an objective, that it has a point


class DriverCommand:
    """One call of a driver: `main` is called once.

    Tests put others in the place of what starts programs.

    Args:
        solver: The name of the solver.
        console: Where it prints; None for the standard streams at the time of the call.

    Attributes:
        solver: The solver.
        name: Of the command.
        options: What was said of its options.
        call: What the words say.
        monitor: Is told what goes on.
        workspace: Room for files of the call.
        source: The model; one without a text where there is none.
        missing: Why there is no model; None where there is one.
        outcome: What was found; None where nothing was.
        error: Why nothing was found; None where something was.
        has_sol: The .sol of this call stands.
        console: Where it prints.
    """

    solve_run_class = SolveRun
    usage_text = USAGE
    example_text = EXAMPLE
    further_options: Sequence[Option] = ()
    certifies_sol = False  # a .sol is what `bridge certified` writes, also without strict=1
    shows_short_table = True  # values are shown, where they are few, that nobody asked for

    def __init__(self, solver: str, console: Optional[Console] = None) -> None:
        """Begins with the options of the solver, of which nothing was said, and without words."""
        self.solver = SOLVERS[solver]
        self.name = "bridge-" + solver
        self.options = self._new_options()
        self.call = DriverCall()
        self.monitor = Monitor(self.name)
        self.workspace = Workspace()
        self.source = Source("", "", "")
        self.missing: Optional[BridgeError] = None
        self.outcome: Optional[Outcome] = None
        self.error: Optional[BridgeError] = None
        self.has_sol = False
        self._bridge_words: Sequence[str] = ()
        self._given_console = console
        self.console = console or Console.of_this_process()

    def _new_options(self) -> OptionValues:
        """All options of the command, of which nothing has been said yet."""
        own = own_options(self.solver.name)
        return OptionValues((*COMMON_OPTIONS, *own, *self.further_options))

    # the call -------------------------------------------------------------------------------

    def main(self, argv: Sequence[str]) -> int:
        """Runs the call.

        With json=1 what it tells goes into an object on standard output, also where other words are
        wrong, and what else it prints nowhere, or with outlev to standard error.

        Args:
            argv: The words behind the command's name.

        Returns:
            The exit status.
        """
        self.console = self._given_console or Console.of_this_process()
        self.call = parse_driver_call(argv)
        if self.call.help_kind is not None:
            self.console.output(self.help_text(self.call.help_kind, self.call.help_topic))
            return ExitStatus.DONE
        if self.call.model is None:
            self.console.error(self.usage().rstrip("\n"))
            return ExitStatus.BAD_WORDS
        for note in self.call.notes:
            self.console.error(f"{self.name}: {note}")
        said = self._said_early()
        if not said.flag("json"):
            return self.run()
        self.console.destination = Destination.NOWHERE
        if said.number("outlev"):
            self.console.destination = Destination.ERRORS
        reported = ReportedCall(self.name)
        status = self.run()
        self.console.output(self._report(reported, status).json() + "\n")
        return status

    def _said_early(self) -> OptionValues:
        """The options as far as they are right, before anything is done.

        Where one is wrong, `json` is 1 wherever json=1 stands among the words.
        """
        said = self._new_options()
        try:
            said.take_environment(self.name)
            said.take(self.call.options)
        except WrongOption:
            said.put("json", int("json=1" in self.call.options))
        return said

    def run(self) -> int:
        """The exit status of a call that has a model; a signal ends it as an error does.

        The workspace is removed at its end.
        """
        try:
            with self.workspace:
                return self._run_in_workspace()
        except Interrupted as fault:
            return self.failed(RunInterrupted(fault.number))

    def _run_in_workspace(self) -> int:
        """The exit status of a call that has a model, before what was made for it is removed.

        Faults of the driver are told as errors; outlev=2 shows where they were. What was proved has
        been told, or stands in the .sol, where one comes later.
        """
        try:
            self._read_model()
            start = self._read_start()
            self.take_options()
            if start:
                self.options.put("start", start)
            return self.deliver(self._work())
        except BridgeError as error:
            return self.failed(error)
        except Exception as fault:  # a modelling system is told, whatever it was
            if self.options.number("outlev") >= LOG_AND_COMMANDS:
                self.console.error(traceback.format_exc().rstrip("\n"))
            told = DriverFault(repr(fault))
            if self.has_sol:
                self.console.error(f"{self.name}: {told}")
                return told.status
            return self.failed(told)

    def _read_model(self) -> None:
        """Opens the model, and sets `source`.

        Where there is none, it sets `missing`, which is raised once options and an older .sol are
        seen to.
        """
        word = self.call.model or ""
        try:
            self.source = read_model(word, self.workspace)
        except BridgeError as error:
            self.missing = error
        except OSError as fault:
            self.missing = FileFault(word, str(fault.strerror), FileAction.READ)
        if self.missing is not None:
            self.source = missing_source(word)

    def _read_start(self) -> str:
        """The path of a copy of the file that `start` names, "" where it names none.

        It is read before an older .sol is removed, which may be that file.

        Raises:
            FileFault: It cannot be read.
        """
        named = self._said_early().text("start")
        if not named:
            return ""
        try:
            with open(read_source(named, self.workspace).path, "rb") as file:
                return write_new(self.workspace.new_path(), file.read())
        except OSError as fault:
            raise FileFault.of(fault, named, FileAction.READ) from None

    def take_options(self) -> None:
        """Reads the options of the variable and of the words; tells them where that is asked for.

        An older .sol goes once the model can be read, before anything else can go wrong: it must
        not pass for that of this call.

        Raises:
            WrongOption: Something is wrong with them.
        """
        options = self.options
        if (self.call.is_ampl or self.call.saves) and not self.source.is_mps:
            remove_older_sol(self.source)
        options.take_environment(self.name)
        options.take(self.call.options)
        if self.call.fault:
            raise WrongOption(self.call.fault)
        self._run_settings()
        self._check_fit()
        if options.echo and self.call.echoes and not options.flag("failexit"):
            self.console.line(f"{self.name} {VERSION}: {' '.join(options.echo)}")
        if self.writes_sol():
            remove_older_sol(self.source)

    def _check_fit(self) -> None:
        """Raises WrongOption where what is asked cannot be had of such a model."""
        name, is_mps = self.source.name, self.source.is_mps
        form = self.options.text("format")
        if form and not is_mps and self.missing is None:
            raise WrongOption(f"format={form} is for MPS files, and {name} is none")
        if is_mps and self.writes_sol():
            raise WrongOption(
                "a .sol is the answer to an .nl file: wantsol=2 prints the values of "
                f"{name}, `nl-bridge import` makes an .nl of it"
            )
        if is_mps and self.options.flag("shortest"):
            raise WrongOption("shortest=1 is for .nl files: an MPS file is read as it stands")

    def writes_sol(self) -> bool:
        """Whether MODEL.sol is written: with -AMPL, with -s, or by `wantsol`."""
        wanted = bool(self.options.number("wantsol") & WRITE_SOL)
        return self.call.is_ampl or self.call.saves or wanted

    def _run_settings(self) -> RunSettings:
        """What the options make.

        Raises:
            WrongOption: Something is wrong with them.
        """
        return self.options.run_settings(
            self.solver.name, writes_sol=self.writes_sol(), certifies_sol=self.certifies_sol
        )

    def _work(self) -> Outcome:
        """The outcome.

        What goes on is shown meanwhile on standard error, and with outlev among the messages.

        Raises:
            BridgeError: There is no model, or no outcome.
        """
        if self.missing is not None:
            raise self.missing
        level = self.options.number("outlev")
        progress = self.monitor.progress
        with self.console.progress(self.name, progress, in_place=level < LOG):
            if level < LOG:
                return self._solve()
            with self.console.logging(with_commands=level >= LOG_AND_COMMANDS):
                return self._solve()

    def _solve(self) -> Outcome:
        """The outcome by the options; sets what starts the proved program, for the report.

        Raises:
            BridgeError: There is none.
        """
        wanted = self._run_settings()
        run = self.solve_run_class(self.source, wanted.settings, self.monitor)
        try:
            if wanted.writes_input_alone:
                overwrite, named = self.options.flag("overwrite"), self.options.text("solver")
                return run.input_outcome(overwrite=overwrite, named=named)
            return run.outcome()
        finally:
            self._bridge_words = run.bridge_words

    # what is told ---------------------------------------------------------------------------

    def deliver(self, outcome: Outcome) -> int:
        """Writes what is asked for, and tells what was found. Sets `outcome` and `has_sol`.

        Returns:
            The exit status; with -AMPL it is 0, since the .sol says the outcome.

        Raises:
            FileFault: A file cannot be written.
        """
        self.outcome = outcome
        settings = self._run_settings()
        write_outputs(outcome, self.source, settings.outputs, settings.settings.objective)
        self.has_sol = self.writes_sol()
        self._tell(outcome)
        return ExitStatus.DONE if self.call.is_ampl else exit_status(outcome)

    def message_of(self, outcome: Outcome) -> List[str]:
        """The lines that are told of an outcome, the verdict last."""
        return outcome.lines

    def _tell(self, outcome: Outcome) -> None:
        """Prints the message, the numbers that are wanted, and with outlev=2 the seconds.

        With -AMPL the message is printed only for failexit=1, and with 8 in `wantsol` never. With
        failexit=1 MiniZinc's user is told the verdict.
        """
        fails_by_status = self.options.flag("failexit")
        is_silent = bool(self.options.number("wantsol") & NO_MESSAGE)
        lines = self.message_of(outcome)
        if (not self.call.is_ampl or fails_by_status) and not is_silent:
            if outcome.answer is None:  # there is no verdict
                self.console.lines(lines)
            else:
                self.console.message(lines)
        if fails_by_status:
            tell_minizinc(f"{self.name}: {self._words_for_minizinc(outcome, lines)}")
        if not self.call.is_ampl:
            self.console.lines(self._numbers())
        if self.options.number("outlev") >= LOG_AND_COMMANDS:
            self.console.line(self.monitor.summary())

    @staticmethod
    def _words_for_minizinc(outcome: Outcome, lines: Sequence[str]) -> str:
        """What MiniZinc's user is told: the verdict, with code 100 behind the message's first line.

        Args:
            outcome: What was found.
            lines: The message.
        """
        verdict = lines[-1]
        answer = outcome.answer
        if verdict in SATISFIED and answer and not answer.program.has_objective():
            verdict = "satisfied"
        return f"{lines[0]}; {verdict}" if outcome.code == Code.UNSURE else verdict

    def _numbers(self) -> List[str]:
        """The lines of values and duals that are wanted, each a name and a decimal.

        They are indented below a heading: a name may be any word. Few values are shown where nobody
        said what is wanted, as by hand.
        """
        wanted = self.options.number("wantsol")
        is_by_hand = not (
            self.call.saves
            or self.options.flag("failexit")
            or self.options.flag("json")
            or self.options.is_given("wantsol")
        )
        answer = self.outcome.answer if self.outcome else None
        values: List[str] = []
        if wanted & PRINT_VALUES:
            values = list(value_lines(named_values(answer)))
        elif self.shows_short_table and is_by_hand:
            values = list(short_table(named_values(answer)))
        duals = list(value_lines(named_duals(answer))) if wanted & PRINT_DUALS else []
        return [*_below("values", values), *_below("duals", duals)]

    def failed(self, error: BridgeError) -> int:
        """Tells why there is no outcome, on standard error and to MiniZinc's user. Sets `error`.

        With -AMPL a .sol with the code is written beside an .nl file, and the exit status is 0; not
        after a signal, nor with failexit=1.

        Returns:
            The exit status.
        """
        self.error = error
        line = f"{self.name}: {error.text}"
        self.console.error(line)
        tell_minizinc(line, is_error=True)
        wants_sol = self.call.is_ampl and not self.options.flag("failexit")
        if wants_sol and not self.source.is_mps and not isinstance(error, RunInterrupted):
            with contextlib.suppress(BridgeError, OSError):
                objective = self.options.number("objno") - 1
                code = code_of_error(error)
                write_sol(self.source, failure_sol(self.source.path, code, objective, [line]))
                return ExitStatus.DONE
        return error.status

    def _report(self, reported: ReportedCall, status: int) -> Report:
        """What is known at the end of a call with json=1, an outcome or an error.

        Args:
            reported: The call, whose seconds have gone on from its beginning.
            status: The exit status that the command ends with.
        """
        reported.program = self._bridge_words
        reported.read_model(self.source)
        reported.model = self.source.name or None
        if self.error is not None:
            told: Report = report_of_error(reported, self.error, self.name).report
            return replace(told, status=status)
        assert self.outcome is not None
        wanted = self.options.number("wantsol")
        return report_of_outcome(
            reported,
            self.outcome,
            status,
            wants_values=bool(wanted & PRINT_VALUES),
            wants_duals=bool(wanted & PRINT_DUALS),
        )

    # help -----------------------------------------------------------------------------------

    def usage(self) -> str:
        """How the command is called, in lines."""
        return self.usage_text.format(
            name=self.name,
            title=self.solver.title,
            model=MODEL_HELP,
            variable=self.name.replace("-", "_") + "_options",
        )

    def help_text(self, kind: HelpKind, topic: str = "") -> str:
        """What is told instead of a run, lines with their ends.

        Args:
            kind: Versions, options, or the whole help.
            topic: An option that help is wanted of alone; "" or any other word for none.
        """
        known = self.options.known
        if topic in known:
            return known[topic].line() + "\n"
        if kind is HelpKind.OPTIONS:
            return "".join(option.line() + "\n" for option in known.values())
        if kind is HelpKind.HELP:
            listing = "".join(option.paragraph() for option in known.values())
            return f"{self.usage()}\noptions:\n{listing}" + self.example_text.format(name=self.name)
        place = self.solver.find() or "not found"
        return f"{self.name} {VERSION} ({self.solver.title} {place})\n"


def _below(heading: str, lines: Sequence[str]) -> List[str]:
    """A heading and indented lines below it; nothing where there are none."""
    return [heading, *(INDENTATION + line for line in lines)] if lines else []


def main(solver: str = "") -> None:
    """The entry point of all drivers; it ends the process.

    Args:
        solver: The name of the solver; "" takes it from the name of the command, bridge-NAME.
    """
    command = os.path.basename(sys.argv[0]).removesuffix(".exe")
    solver = solver or command.removeprefix("bridge-")
    run_command(
        "bridge-" + solver, lambda console: DriverCommand(solver, console).main(sys.argv[1:])
    )
