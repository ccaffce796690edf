"""All that a command prints, and how its process starts and ends.

What is told may hold anybody's words: names of files and models, lines of a solver's log. Controls
of a terminal in them are shown and not obeyed. What the console makes itself is not escaped: the
verdict's colour, and the progress line that is rewritten in place.

Each command is run by `run_command`, which gives it its `Console`.
"""

from __future__ import annotations

import contextlib
import enum
import gc
import io
import logging
import os
import sys
import threading
import traceback
from typing import Callable, Iterator, NoReturn, Sequence, TextIO

from ..program.verdict import set_apart, statement_of
from ..system.codes import ExitStatus
from ..system.progress import Progress
from ..system.errors import BrokenOutput, DriverFault, Interrupted
from ..system.signals import SIGNALS
from ..system.text import cut_to_width, printable

PROVED = ("yes ", "proved")  # verdicts of `check` and `prove` that are settled
LOGGER = logging.getLogger("bridge_drivers")
SOLVER_LOGGER = LOGGER.getChild("solver")  # the lines of a solver's log, with their ends
# how many objects a collection of garbage waits for: a run makes millions, of which few go in circles
COLLECTED = (200_000, 20, 50)
FIRST_SECONDS = 1.0  # before the progress line is shown on a terminal
EVERY_SECONDS = 0.5  # between two of its states
LINE_SECONDS = 5.0  # between two lines of progress where there is no terminal
CLEAR_LINE = "\r\x1b[K"
COLUMNS = 80  # of a terminal that does not tell its own


class Destination(enum.Enum):
    """Where the messages of a command go."""

    OUTPUT = enum.auto()
    ERRORS = enum.auto()  # standard output is wanted for something else
    NOWHERE = enum.auto()


class Colour(enum.Enum):
    """Of a verdict, by its number on terminals."""

    SETTLED = 32  # green
    PARTLY_KNOWN = 33  # yellow
    NOT_PROVED = 31  # red


class Console:
    """What one command prints to.

    A line that begins as a verdict does is the command's own: what else is told so, such as a name
    or a line of a log, is indented.

    Args:
        output: Standard output; a fault of it is `BrokenOutput`.
        errors: Standard error; a fault of it is nobody's, and what is told there is lost.

    Attributes:
        destination: Where messages go.
    """

    def __init__(self, output: TextIO, errors: TextIO) -> None:
        self._output = output
        self._errors = errors
        self.destination = Destination.OUTPUT
        self._is_line_of_log_begun = False

    @classmethod
    def of_this_process(cls) -> Console:
        """On the standard streams, as they are now."""
        return cls(sys.stdout, sys.stderr)

    # messages -------------------------------------------------------------------------------

    def line(self, text: str) -> None:
        """Prints a line of the message that is no verdict, to the destination of messages."""
        self.lines([text])

    def lines(self, texts: Sequence[str]) -> None:
        """Prints lines of the message that are no verdicts, each without its end."""
        self._message("".join(set_apart(printable(text)) + "\n" for text in texts))

    def log(self, text: str) -> None:
        """Prints a piece of a log, which has its own ends of lines, among the messages."""
        pieces = printable(text).splitlines(keepends=True)
        for number, piece in enumerate(pieces):
            if number or not self._is_line_of_log_begun:
                pieces[number] = set_apart(piece)
            self._is_line_of_log_begun = not piece.endswith("\n")
        self._message("".join(pieces))

    def verdict(self, line: str, verdict: str = "") -> None:
        """Prints a line of the message, in the colour of a verdict where the terminal has colours.

        Args:
            line: What is printed, without its end.
            verdict: The verdict whose colour it has; "" where the line is one.
        """
        line = set_apart(line) if verdict else line
        if self.is_coloured():
            colour = colour_of(verdict or line).value
            self._message(f"\x1b[{colour}m{printable(line)}\x1b[0m\n")
        else:
            self._message(printable(line) + "\n")

    def message(self, lines: Sequence[str]) -> None:
        """Prints a message whose last line is its verdict; it has one line at least."""
        self.lines(lines[:-1])
        self.verdict(lines[-1])

    def is_coloured(self) -> bool:
        """Whether messages go to a terminal whose user has not said NO_COLOR (see no-color.org)."""
        stream = {Destination.OUTPUT: self._output, Destination.ERRORS: self._errors}.get(
            self.destination
        )
        wants_none = os.environ.get("NO_COLOR") or os.environ.get("TERM") == "dumb"
        return not wants_none and stream is not None and is_terminal(stream)

    def _message(self, text: str) -> None:
        """Writes a text as it is to the destination of messages."""
        if self.destination is Destination.OUTPUT:
            self._write_output(text)
        elif self.destination is Destination.ERRORS:
            self._write_errors(text)

    # what is no message ---------------------------------------------------------------------

    def output(self, text: str) -> None:
        """Prints what was asked for on standard output, as help, a certificate or JSON.

        It goes there wherever messages go.

        Raises:
            BrokenOutput: It takes no more.
        """
        self._write_output(printable(text))

    def error(self, text: str) -> None:
        """Prints one line or several to standard error, wherever messages go, and ends the last."""
        self._write_errors(printable(text) + "\n")

    @contextlib.contextmanager
    def logging(self, *, with_commands: bool) -> Iterator[None]:
        """A block in which what the library logs is told among the messages.

        Args:
            with_commands: Also what it logs of commands and times (level DEBUG), not the solver's
                log alone.
        """
        handler = _LogHandler(self)
        level = LOGGER.level
        LOGGER.addHandler(handler)
        LOGGER.setLevel(logging.DEBUG if with_commands else logging.INFO)
        try:
            yield
        finally:
            LOGGER.setLevel(level)
            LOGGER.removeHandler(handler)

    @contextlib.contextmanager
    def progress(self, name: str, progress: Progress, *, in_place: bool) -> Iterator[None]:
        """A block whose progress is shown on standard error.

        Args:
            name: Of the command.
            progress: What the work in the block is at.
            in_place: It is one line that is rewritten, where standard error is a terminal, since
                nothing else is written there in the block.
        """
        line = ProgressLine(self._errors, name, progress, in_place=in_place)
        line.start()
        try:
            yield
        finally:
            line.stop()

    def _write_output(self, text: str) -> None:
        """Writes to standard output at once; raises BrokenOutput where that takes no more."""
        try:
            self._output.write(text)
            self._output.flush()
        except OSError as fault:
            raise BrokenOutput(fault) from None

    def _write_errors(self, text: str) -> None:
        """Writes to standard error at once; what it does not take is lost."""
        with contextlib.suppress(OSError, ValueError):
            self._errors.write(text)
            self._errors.flush()


class ProgressLine:
    """Shows what goes on, from a thread of its own; `Console.progress` starts and stops it.

    On a terminal it is one line that is rewritten in place and leaves nothing behind, elsewhere,
    and on one that cannot do that (TERM=dumb), a line each LINE_SECONDS.

    Attributes:
        stream: Standard error.
        name: Of the command.
        progress: What the work is at, read while it changes.
        in_place: One line is rewritten: that is wanted, and the stream is a terminal that can.
    """

    def __init__(self, stream: TextIO, name: str, progress: Progress, *, in_place: bool) -> None:
        self.stream = stream
        self.name = name
        self.progress = progress
        is_dumb = os.environ.get("TERM") == "dumb"  # to which CLEAR_LINE is letters
        self.in_place = in_place and is_terminal(stream) and not is_dumb
        self._is_shown = False
        self._has_ended = threading.Event()
        self._thread = threading.Thread(target=self._run, daemon=True)

    def start(self) -> None:
        """Begins to show the progress; `stop` has to follow."""
        self._thread.start()

    def stop(self) -> None:
        """Waits until nothing is shown any more; nothing of it is left on a terminal."""
        self._has_ended.set()
        self._thread.join()
        if self._is_shown:
            self._write(CLEAR_LINE)

    def _run(self) -> None:
        """Shows the progress from time to time until the end, in its own thread.

        Between two stages nothing is shown.
        """
        wait = FIRST_SECONDS if self.in_place else LINE_SECONDS
        while not self._has_ended.wait(wait):
            if self.progress.stage:
                self._show(printable(self.progress.words()))
            wait = EVERY_SECONDS if self.in_place else LINE_SECONDS

    def _show(self, words: str) -> None:
        """Shows one state of the progress: a line, in which the command stands before the words.

        On a terminal it is cut to its width, and where it is wider than that without the command.
        """
        line = f"{self.name}: {words}"
        if not self.in_place:
            self._write(line + "\n")
            return
        columns = columns_of(self.stream) - 1  # in the last one a terminal would begin another line
        if cut_to_width(line, columns) != line:
            line = cut_to_width(words, columns)
        self._write(CLEAR_LINE + line)
        self._is_shown = True

    def _write(self, text: str) -> None:
        """Writes to the stream at once; where it takes no more, nothing is shown from then on."""
        try:
            self.stream.write(text)
            self.stream.flush()
        except (OSError, ValueError):  # it is closed
            self._has_ended.set()


class _LogHandler(logging.Handler):
    """Tells what the library logs: lines of a solver, which have their own ends, and its own.

    What it logs of the progress is not told.
    """

    def __init__(self, console: Console) -> None:
        super().__init__()
        self.console = console

    def emit(self, record: logging.LogRecord) -> None:
        """Prints a record by the logger that it comes from."""
        if record.name == SOLVER_LOGGER.name:
            self.console.log(record.getMessage())
        elif record.name == LOGGER.name:
            self.console.log(record.getMessage() + "\n")


def colour_of(verdict: str) -> Colour:
    """The colour of a verdict: green if settled, yellow if known in part, red if not proved."""
    statement = statement_of(verdict)
    if statement is None:
        return Colour.SETTLED if verdict.startswith(PROVED) else Colour.NOT_PROVED
    return Colour.SETTLED if statement.claim.is_final else Colour.PARTLY_KNOWN


def is_terminal(stream: TextIO) -> bool:
    """Whether a stream is one; a closed one is none."""
    try:
        return stream.isatty()
    except (OSError, ValueError):
        return False


def columns_of(stream: TextIO) -> int:
    """The width of a terminal in columns; COLUMNS where it does not tell its own."""
    try:
        return os.get_terminal_size(stream.fileno()).columns or COLUMNS
    except (OSError, ValueError):
        return COLUMNS


def run_command(name: str, command: Callable[[Console], int]) -> NoReturn:
    """Runs a command, and ends the process with its exit status.

    A standard output that takes no more is told in one line, unless its reader has gone, and so is
    a signal; these have exit statuses of their own. So is a fault of the drivers: this is the
    outermost place of a command, and no exception leaves it.

    Args:
        name: Of the command, in these lines.
        command: Takes the console on which it prints; its answer is the exit status.
    """
    gc.set_threshold(*COLLECTED)
    SIGNALS.install()
    console = _standard_console()
    try:
        status = int(command(console))
        console.output("")
    except BrokenOutput as fault:
        if not fault.is_closed:
            console.error(f"{name}: standard output: {fault}")
        _lead_output_nowhere()
        status = ExitStatus.UNWRITTEN
    except Interrupted as signal:
        console.error(f"{name}: interrupted")
        _lead_output_nowhere()
        status = signal.status()
    except Exception as fault:  # a fault of the drivers, wherever it was: a line tells it
        if sys.flags.dev_mode:
            console.error(traceback.format_exc().rstrip("\n"))
        error = DriverFault(repr(fault), "PYTHONDEVMODE=1 shows where")
        console.error(f"{name}: {error}")
        status = error.status
    sys.exit(status)


def _standard_console() -> Console:
    """The console of this process's streams.

    Bytes of paths that are not UTF-8 are written as they are.
    """
    _open_closed_streams()
    for stream in (sys.stdout, sys.stderr):
        if hasattr(stream, "reconfigure"):
            is_utf8 = stream.encoding.lower() == "utf-8"
            stream.reconfigure(errors="surrogateescape" if is_utf8 else "backslashreplace")
    return Console.of_this_process()


def _open_closed_streams() -> None:
    """Standard streams that the caller closed lead nowhere, so that no other file takes their place.

    Nothing can be written to such an output, and what is told on standard error is lost.
    """
    for number, stream in enumerate((sys.stdin, sys.stdout, sys.stderr)):
        if stream is None:
            nowhere = os.open(os.devnull, os.O_WRONLY if number == 2 else os.O_RDONLY)
            os.dup2(nowhere, number)  # children have it too
    sys.stdout = sys.stdout or _text_stream(1)
    sys.stderr = sys.stderr or _text_stream(2)


def _text_stream(number: int) -> TextIO:
    """A text in UTF-8 over an open file by its number, which stays open at its end."""
    # by way of a buffer: an empty text is no write to an output that was closed
    buffer = io.BufferedWriter(io.FileIO(number, "wb", closefd=False))
    return io.TextIOWrapper(buffer, encoding="utf-8")


def _lead_output_nowhere() -> None:
    """Nothing is written to standard output any more, not even what waits to be."""
    nowhere = os.open(os.devnull, os.O_WRONLY)
    os.dup2(nowhere, 1)
    os.close(nowhere)
