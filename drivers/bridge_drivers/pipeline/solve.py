"""One run, from the source of a model to its outcome.

`SolveRun` finds the programs, reads the model and makes the folder in which an `AnsweredRun` goes
on. The drivers and the calls of the package make one each time; `solve_model` is the same in one
call.
"""

from __future__ import annotations

import contextlib
import os
import shlex
import shutil
from dataclasses import dataclass, field
from typing import Iterator, NamedTuple, Sequence

from ..exact.evidence import NOT_PROVED
from ..formats.file_kinds import kind_of_model
from ..formats.source import Source
from ..system.files import OutputFiles, new_folder_in, private_folder
from ..system.signals import SIGNALS
from ..model.linear_program import LinearProgram
from ..formats.names import NameLists
from ..formats.nl import read_header, text_of_nl
from ..program.bridge import Bridge, ModelForm, find_program
from ..program.mps_forms import program_of_mps, read_mps_text
from ..program.refusal import Refusal
from ..solvers import SOLVERS
from ..solvers.base import TIME_LIMIT, Solver
from ..solvers.run import SolverRun
from ..system.codes import Code, ExitStatus
from ..system.errors import (
    Damaged,
    DeadlineExceeded,
    FileAction,
    FileFault,
    ModelRefused,
    NotFound,
    ProgramFailed,
    TakesNoIntegers,
)
from .answered_run import AnsweredRun, Outcome
from .certification import AnswerCertifier
from .monitor import Monitor
from .settings import Settings
from .start_point import StartPoint, start_point
from .time_shares import TimeShares


@contextlib.contextmanager
def writing(path: str) -> Iterator[None]:
    """A block in which an OSError becomes a `FileFault` of writing.

    Args:
        path: Is told where the error has no file of its own.
    """
    try:
        yield
    except OSError as fault:
        raise FileFault.of(fault, path, FileAction.WRITE) from None


def solve_model(source: Source, settings: Settings, monitor: Monitor | None = None) -> Outcome:
    """Solves a model, judges the answer, and keeps its certificate where that is asked for.

    Args:
        source: The model, which has been opened.
        settings: How it is solved and judged.
        monitor: Is told what goes on; None for one of its own, which shows nothing.

    Returns:
        The outcome; no .sol and no solution's file is written yet (`outputs.write_outputs`).

    Raises:
        BridgeError: There is no outcome; its class says why.
        Interrupted: A signal ended the run before it had one.
    """
    return SolveRun(source, settings, monitor or Monitor("bridge-" + settings.solver)).outcome()


def write_solver_input(source: Source, settings: Settings, overwrite: bool, named: str) -> Outcome:
    """Writes the MPS text that a solver reads into STUB.SOLVER.mps, and solves nothing.

    Args:
        source: The model.
        settings: As for `solve_model`.
        overwrite: What stands at the place of the file is replaced.
        named: The solver's program in the line that says how it is called; "" for its usual name.

    Returns:
        An outcome of code 450, whose message says how the solver is called; or that of a refused
        empty interval.

    Raises:
        BridgeError: The model is refused, or the file cannot be written.
    """
    run = SolveRun(source, settings, Monitor("bridge-" + settings.solver))
    return run.input_outcome(overwrite=overwrite, named=named)


class ReadProgram(NamedTuple):
    """A model as it is solved.

    Attributes:
        path: The text that the proved program judges.
        program: What it exports of it, or an MPS file's own program.
        notes: Lines on how it was read.
    """

    path: str
    program: LinearProgram
    notes: Sequence[str]


@dataclass
class SolveRun:
    """One run; `outcome` or `input_outcome` is called once.

    Tests put others in the place of what starts programs.

    Attributes:
        source: The model.
        settings: How it is solved and judged.
        monitor: Is told what goes on.
        bridge_words: What starts the proved program, once it was found.
        solver: The solver that the settings name.
        bridge: The proved program, once it was found.
        folder: The absolute path of the folder for files in between, while there is one.
        shares: Of the time of the run, which began when its monitor was made.
        solver_run_class: Makes what the solver works with; tests have one of stored runs.
    """

    source: Source
    settings: Settings
    monitor: Monitor
    bridge_words: Sequence[str] = ()
    solver: Solver = field(init=False)
    bridge: Bridge = field(init=False)
    shares: TimeShares = field(init=False)
    folder: str = ""

    solver_run_class = SolverRun

    def __post_init__(self) -> None:
        self.solver = SOLVERS[self.settings.solver]
        self.shares = TimeShares.of_limit(
            self.settings.time_limit,
            self.monitor.began,
            proves=self.settings.certificate.prove,
            solver_seconds=self.settings.solver_seconds,
        )

    def find_bridge(self) -> Bridge:
        """Finds the proved program, and sets `bridge_words`. Its commands are told to the monitor.

        Raises:
            NotInstalled: It is nowhere.
        """
        self.bridge_words = find_program(self.settings.bridge)
        bridge = Bridge(self.bridge_words, self.monitor.command_starts)
        bridge.deadline = self.shares.deadline
        return bridge

    def find_solver(self) -> str:
        """The absolute path of the solver's executable, since it runs in another folder.

        Raises:
            NotFound: It is not at the path that was named, or not on the PATH.
        """
        named = self.settings.solver_path
        place = self.solver.find(named)
        if place is not None:
            return os.path.abspath(place)
        remedy = "install it"
        if self.solver.package and not named:
            remedy = f"apt install {self.solver.package} (Debian)"
        raise NotFound(named or self.solver.executable, f"{remedy} or give solver=PATH")

    def outcome(self) -> Outcome:
        """The outcome of the whole run; files in between are removed unless they are to be kept.

        Raises:
            BridgeError: There is none.
            Interrupted: A signal ended the run before it had one.
        """
        self.bridge = self.find_bridge()
        self.bridge.file_names[self.source.path] = self.source.name
        solver_path = self.find_solver()
        with self._folder() as kept_folder:
            outcome = self._solved(solver_path)
        return self._finished(outcome, kept_folder)

    def input_outcome(self, *, overwrite: bool, named: str) -> Outcome:
        """As `write_solver_input`, whose arguments these are."""
        self.bridge = self.find_bridge()
        self.bridge.file_names[self.source.path] = self.source.name
        with self._folder() as kept_folder:
            read_program = self._read()
            if isinstance(read_program, Outcome):
                return self._finished(read_program, kept_folder)
            program = read_program.program
            relax = self.settings.solver_settings.relax
            path = f"{self.source.stub}.{self.solver.name}.mps"
            text = self.solver.mps_text(program if relax else program.with_rounded_bounds())
            files = OutputFiles(self.source.reads, kind_of_model, overwrite=overwrite)
            files.write(path, text)
        title = self.solver.title
        told = f"{path} is written, and nothing was solved; {title} reads and solves it by"
        words = self.solver.command_line(program, path, named)
        return self._finished(Outcome(Code.LIMIT, [told, shlex.join(words)]), kept_folder)

    @contextlib.contextmanager
    def _folder(self) -> Iterator[str]:
        """A block with a folder for files in between, this run's alone, whose path is in `folder`.

        A signal does not come between its making and its removal but in the block. A fault of
        writing in the block becomes a `FileFault`.

        Yields:
            Its path where it is kept; else "", and it is removed at the end.
        """
        keep = self.settings.keep_folder
        with SIGNALS.deferred():
            kept = new_folder_in(keep, self.monitor.name) if keep else ""
            folder = kept or private_folder(self.monitor.name + "-")
            self.folder = os.path.abspath(folder)
            try:
                with SIGNALS.delivered(), writing(folder):
                    yield kept
            finally:
                if not keep:
                    shutil.rmtree(folder, ignore_errors=True)

    def _finished(self, outcome: Outcome, kept_folder: str) -> Outcome:
        """Sets the outcome's `kept_folder`.

        A line tells it where it is not the folder that was named itself.

        Where the outcome has no answer to return, the command's name is put in front of the
        message.

        Args:
            outcome: Is changed.
            kept_folder: Where the files in between stay; "" where they do not.

        Returns:
            The same outcome.
        """
        outcome.kept_folder = kept_folder
        if outcome.sol is None:
            outcome.lines[0] = f"{self.monitor.name}: {outcome.lines[0]}"
        if kept_folder not in ("", self.settings.keep_folder):
            outcome.lines.insert(1, f"the files in between are in {kept_folder}")
        return outcome

    def _solved(self, solver_path: str) -> Outcome:
        """Reads the model and solves it, in `folder`.

        Args:
            solver_path: The absolute path of the solver's executable.

        Returns:
            The outcome, without what `_finished` adds.
        """
        read_program = self._read()
        if isinstance(read_program, Outcome):
            return read_program
        settings, program = self.settings, read_program.program
        asked = settings.solver_settings
        run = self.solver_run_class(program, asked, self.folder, solver_path, self.monitor)
        run.stage = self.solver.name
        self.monitor.read_line = lambda line: self.solver.progress_of_line(line, program)
        self.monitor.maximise = program.maximise
        if settings.keep_folder:
            run.write("model.mps", program.text)
        notes = [*self.source.notes, *read_program.notes, *program.notes]
        nl = None if self.source.is_mps else read_program.path
        start = start_point(program, nl, settings.start)
        if start is not None:
            run.start_values = start.doubles()
            notes += self._notes_on_start(start)
        judge = AnswerCertifier(
            self.bridge, read_program.path, run, settings, self.monitor, self.shares
        )
        judge.start = start
        return AnsweredRun(self.solver, settings, run, judge, notes).outcome()

    def _notes_on_start(self, start: StartPoint) -> list[str]:
        """A line on a start that the user named: how many variables have a value, and whether the
        solver takes it.
        """
        if not start.is_named:
            return []
        told = f"start: {start.given()} of {len(start.values)} variables have a value"
        if not self.solver.takes_start:
            told += f"; {self.solver.title} takes no start, the search for a certificate does"
        return [told]

    def _read(self) -> ReadProgram | Outcome:
        """The program that is exported, or the outcome of a model that no solver is asked about.

        That is one whose empty interval is refused, or that was not read in the time of the run.
        Where files in between are kept, the model's text is copied there.

        Raises:
            BridgeError: The model is refused, or the solver does not take it.
        """
        is_mps = self.source.is_mps
        target = os.path.join(self.folder, "text.mps" if is_mps else "text.nl")
        try:
            path, notes = self._prepared(target)
        except Damaged as fault:
            raise Damaged(self.source.name, fault.reason) from None
        self.bridge.file_names[path] = self.source.name
        if self.settings.keep_folder:
            _keep_copy(path, target)
        try:
            program = self._exported(path)
        except Refusal as fault:
            return self._refused(fault, path)
        except DeadlineExceeded as fault:
            return self._late(str(fault))
        relax = self.settings.solver_settings.relax
        if program.integer_count and not self.solver.takes_integers and not relax:
            raise TakesNoIntegers(self.solver.title, program.integer_count)
        return ReadProgram(path, program, notes)

    def _prepared(self, target: str) -> tuple[str, list[str]]:
        """The path of the model as the proved program reads it, and notes for the message.

        An MPS file stands as it is. Of an .nl file that is binary, or whose numbers are to be
        shortened, a text is written.

        Args:
            target: Where such a text is written.

        Raises:
            ModelRefused: Another objective than the first is asked of an MPS file.
            Damaged: A binary .nl file cannot be read.
        """
        if not self.source.is_mps:
            shortest = self.settings.shortest_numbers
            return text_of_nl(
                self.source.path, target, shortens=bool(shortest), tells_printed=shortest is None
            )
        if self.settings.objective:
            raise ModelRefused(
                f"{self.source.name}: objno={self.settings.objective + 1}: no such "
                "objective: the first N row of an MPS file is its objective, and its only one",
            )
        return self.source.path, []

    def _exported(self, path: str) -> LinearProgram:
        """What the proved program makes of the file, with the user's own names.

        The monitor is told the seconds.

        Args:
            path: That of the text which the proved program reads.

        Raises:
            Refusal: It refuses the file.
        """
        if self.source.is_mps:
            with self.monitor.timing("reading"):
                wanted = self.settings.mps_form
                form = ModelForm(wanted) if wanted else None
                found = read_mps_text(self.bridge, path, form)
            with self.monitor.timing("export"):
                trial = os.path.join(self.folder, "trial.certificate")
                program = program_of_mps(self.bridge, path, trial, found)
            program.notes = [*found.notes, *program.notes]
            return program
        with self.monitor.timing("export"):
            program = LinearProgram.of(self.bridge.export(path, self.settings.objective))
        program.own_names = NameLists(self.source.stub)
        program.notes = [*program.notes, *filter(None, [program.own_names.note()])]
        return program

    def _late(self, command: str) -> Outcome:
        """The outcome of a model that was not read when the time of the run was over.

        Args:
            command: The command of the proved program that was ended.
        """
        is_strict = self.settings.certificate.strict
        told = f"stopped at {TIME_LIMIT}, before the model was read (bridge {command})"
        code = Code.UNSURE if is_strict else Code.LIMIT
        return Outcome(code, [told, NOT_PROVED + "time"], is_final=not is_strict)

    def _refused(self, fault: Refusal, path: str) -> Outcome:
        """The outcome of a model that is refused for an empty interval.

        It is infeasible, and nothing is proved; with `strict` that has code 100.

        Args:
            fault: The refusal.
            path: That of the text which was refused.

        Raises:
            ModelRefused: It is refused for something else. An objective that is not there is told
                by the number that the option says.
            ProgramFailed: The program ended in another way than by a refusal.
        """
        line, is_strict = fault.text, self.settings.certificate.strict
        if fault.told.endswith(": empty interval"):
            return Outcome(
                Code.UNSURE if is_strict else Code.INFEASIBLE,
                [f"infeasible: {line}", NOT_PROVED + "bridge refuses the model for this"],
                is_final=not is_strict,
            )
        if fault.told.endswith(": no such objective"):
            line = (
                f"{self.source.name}: objno={self.settings.objective + 1}: no such objective: "
                f"the file has {read_header(path).objectives}, and objno counts from 1"
            )
        raise ModelRefused(line) if fault.status == ExitStatus.REFUSED else ProgramFailed(line)


def _keep_copy(path: str, target: str) -> None:
    """Copies the model's text into a folder that is kept, unless it stands there.

    MiniZinc, for one, removes its file.

    Args:
        path: Of the text that the proved program reads.
        target: Where in that folder it is to stand.
    """
    is_there = os.path.exists(target) and os.path.samefile(path, target)
    if path != target and not is_there:
        shutil.copyfile(path, target)
