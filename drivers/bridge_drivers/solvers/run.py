"""One run of a solver: the program, a folder for files, and the process."""

from __future__ import annotations

import os
import time
from dataclasses import replace
from typing import NamedTuple, Sequence

from ..system.deadline import Deadline
from ..system.files import write_new
from ..system.processes import Streams, run
from ..model.linear_program import LinearProgram
from .settings import SolverSettings

LOG_NAME = "solver.log"
ANSWER_PREFIX = "answer."  # what the names of files begin with that solvers write


class SolverTime(NamedTuple):
    """The time of one process of a solver, which `pipeline.time_shares` makes.

    Attributes:
        share: Seconds that the solver is told; 0 for no limit.
        killed: When it is killed, if it has not ended by itself.
    """

    share: float = 0.0
    killed: Deadline = Deadline()


class Finished(NamedTuple):
    """How a solver's process ended.

    Attributes:
        status: Its exit status; minus the number of the signal that ended it.
        log: What it wrote on standard output and standard error, as it came.
        is_killed: It went on for too long, and was killed.
    """

    status: int
    log: str
    is_killed: bool


class RunObserver:
    """Is told what a run does. What is not overridden is not wanted. See `pipeline.monitor`."""

    def command_starts(self, argv: Sequence[str], folder: str) -> None:
        """A process is about to start with these words in a folder; its files have plain names."""

    def stage_begins(self, stage: str, limit: float) -> None:
        """Something is worked at from now on.

        Args:
            stage: The name of the solver; "" when it ends.
            limit: Its limit of time in seconds; 0 for none.
        """

    def log_line(self, line: str) -> None:
        """A line of the log, with its end, as it comes."""

    def process_ended(self, spent: float) -> None:
        """A process has ended, after so many seconds of the wall."""


class SolverRun:
    """What a solver works with.

    Attributes:
        program: The program as it was exported.
        written: The same as solvers get it: bounds of integer columns are whole numbers.
        settings: What is asked.
        folder: The absolute path of a folder for its files.
        executable: The absolute path of the solver.
        observer: Is told what goes on.
        stage: What the observer is told is at work; the name of the executable where nothing else
            is set.
        killed: When the process is killed that starts next.
        start_values: To begin with, one for each column of the program, None where nothing is said;
            empty: there are none. Solvers that take a start are given it.
        is_retry: It is asked once more, in another way.
        is_interrupted: It was told to end before it had ended by itself.
        log: Of the last process.
        exit_status: Of the last process.
    """

    def __init__(
        self,
        program: LinearProgram,
        settings: SolverSettings,
        folder: str,
        executable: str,
        observer: RunObserver | None = None,
    ) -> None:
        """Of a program, and how it is asked; nothing is written or started yet.

        Args:
            observer: None: nobody is told.
        """
        self.program = program
        self.written = program if settings.relax else program.with_rounded_bounds()
        self.settings = settings
        self.folder = folder
        self.executable = executable
        self.observer = observer or RunObserver()
        self.stage = os.path.basename(executable)
        self.killed = Deadline()
        self.start_values: Sequence[float | None] = ()
        self.is_retry = False
        self.is_interrupted = False
        self.log = ""
        self.exit_status = 0

    def is_continuous(self) -> bool:
        """Whether no column has to be a whole number: there is none, or they are relaxed.

        Only then are duals and a basis asked for.
        """
        return not self.program.integer_count or self.settings.relax

    def path(self, name: str) -> str:
        """The absolute path of a file of this name in the folder."""
        return os.path.join(self.folder, name)

    def write(self, name: str, data: bytes) -> str:
        """Writes a file of this name into the folder, and returns its absolute path."""
        return write_new(self.path(name), data)

    def take_time(self, time_of_process: SolverTime) -> None:
        """Sets what the process may take that starts next, and what it is told of that."""
        self.settings = replace(self.settings, time_limit=time_of_process.share)
        self.killed = time_of_process.killed

    def remove_answers(self) -> None:
        """Removes files of an older answer, which a kept folder may hold; called before a
        question.
        """
        for name in os.listdir(self.folder):
            if name.startswith(ANSWER_PREFIX):
                os.unlink(self.path(name))

    def start(self, argv: Sequence[str]) -> Finished:
        """Runs the solver to its end, in the folder, and tells the observer of it.

        Its log is kept beside its files. It is killed where it goes on for too long (`killed`).
        Sets `log`, `exit_status` and `is_interrupted`.

        Args:
            argv: The executable and its words; paths in the folder become plain names.

        Raises:
            OSError: It cannot be started.
            Interrupted: A signal other than the first interrupt came.
        """
        inside = self.folder + os.sep
        argv = [word[len(inside) :] if word.startswith(inside) else word for word in argv]
        self.observer.command_starts(argv, self.folder)
        began = time.monotonic()
        finished = self.run_process(argv)
        self.observer.process_ended(time.monotonic() - began)
        self.log = finished.log
        self.exit_status = finished.status
        return finished

    def run_process(self, argv: Sequence[str]) -> Finished:
        """Runs words in the folder, with the log in LOG_NAME. Tests put stored runs in its place.

        The first interrupt of this process is sent to the solver, which may end with an answer.
        """
        self.observer.stage_begins(self.stage, self.settings.time_limit)
        try:
            ended = run(
                argv,
                self.killed,
                on_line=self.observer.log_line,
                folder=self.folder,
                streams=Streams.MERGED,
                log=self.path(LOG_NAME),
                on_interrupt=self._note_interrupt,
                by_lines=True,
            )
        finally:  # also where a signal ends the driver
            self.observer.stage_begins("", 0.0)
        return Finished(ended.status, ended.output.decode("utf-8", "replace"), ended.is_late)

    def _note_interrupt(self) -> None:
        """Notes that the solver was told to end; what it answers then is the answer."""
        self.is_interrupted = True
