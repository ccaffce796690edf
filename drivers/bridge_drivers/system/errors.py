"""The one hierarchy of exceptions: why a run has no answer.

Each class carries the values that it is about and makes its text of them, so that a caller can tell
errors apart without reading sentences. Each knows the exit status of a command that ends by it;
AMPL's code of each is decided by `pipeline.outcome.code_of_error`. Three more are not of it.
`Interrupted` and `BrokenOutput` end a command whatever it is at, and no `except Exception` stops
them; `SolveInterrupted` is a KeyboardInterrupt with what is known.
"""

from __future__ import annotations

import enum
import errno
from typing import Any

from .codes import ExitStatus
from .text import one_line, shortened


class BridgeError(Exception):
    """There is no answer: the solver gave none, or something is at fault.

    Attributes:
        reason: Why, in words that can stand behind what it is about.
        status: The exit status of a command that ends by this.
        report: What the command would tell with json=1 (a `Report` of the package's calls, which
            this layer does not know). None until an error leaves such a call.
    """

    status: int = ExitStatus.FAILED
    report: Any = None

    def __init__(self, reason: str) -> None:
        # `args` stay the values of the class at hand, by which a copy of it is made in another process
        """Sets `reason`, and leaves `args` to Python: those of the class at hand."""
        self.reason = reason

    @property
    def code(self) -> int | None:
        """AMPL's code where a driver failed; None of other calls, or without a report."""
        return None if self.report is None else self.report.code

    @property
    def text(self) -> str:
        """What it says of its values, with blanks for ends of lines."""
        return " ".join(self.describe().split("\n"))

    def describe(self) -> str:
        """What it says, made of its values; it may have ends of lines. Some classes override it."""
        return self.reason

    def __str__(self) -> str:
        """The text; of an error that left a call of the package that of its report."""
        return self.text if self.report is None else str(self.report.text)


class ModelRefused(BridgeError):
    """The model, or a certificate, is refused: the text says where and why."""

    status = ExitStatus.REFUSED


class Damaged(ModelRefused):
    """A packed or binary file, at `path`, that cannot be read."""

    def __init__(self, path: str, reason: str) -> None:
        """Of a file at `path`; the reason is a clause that can stand behind it."""
        super().__init__(reason)
        self.path = path

    def describe(self) -> str:
        """The path, and the reason behind a colon."""
        return f"{self.path}: {self.reason}"


class TooLarge(ModelRefused):
    """A source that goes on past its limit; `size` bytes were read of it until then."""

    def __init__(self, path: str, size: int) -> None:
        """Of a file at `path`, as the user calls it, and the bytes that were read of it."""
        super().__init__(f"it is larger than is read, {size} bytes or more")
        self.path = path
        self.size = size

    def describe(self) -> str:
        """The path, and the reason behind a colon."""
        return f"{self.path}: {self.reason}"


class TakesNoIntegers(ModelRefused):
    """The solver takes no integer variables, and the model has some.

    Attributes:
        solver: Its title.
        integers: How many the model has.
    """

    def __init__(self, solver: str, integers: int) -> None:
        """Of the solver's title, and the count of integer variables."""
        super().__init__(f"the model has {integers} integer variables")
        self.solver = solver
        self.integers = integers

    def describe(self) -> str:
        """What the solver does not take, and the option that drops it."""
        return (
            f"{self.solver} takes no integer variables, and the model has {self.integers}; "
            "relax=1 drops that they are whole"
        )


class WrongOption(BridgeError):
    """An unknown option, a value out of its range, or words that no command takes."""

    status = ExitStatus.BAD_WORDS


class WrongWords(WrongOption):
    """Words that no command takes; `meant` is ` did you mean ..?`, or ""."""

    def __init__(self, reason: str, meant: str = "") -> None:
        """Of the reason, and of ` did you mean ..?`; "" where nothing was meant."""
        super().__init__(reason)
        self.meant = meant

    def describe(self) -> str:
        """The reason, what was probably meant, and where commands are listed."""
        return f"{self.reason};{self.meant} -h lists the commands"


class FileAction(enum.Enum):
    """What was tried with a file; its value is the exit status of a command that fails so."""

    READ = ExitStatus.UNREAD
    WRITE = ExitStatus.UNWRITTEN


class FileFault(BridgeError):
    """A file cannot be read or written.

    Attributes:
        path: Of the file; "" where the reason names it.
        action: What was tried with it.
    """

    def __init__(self, path: str, reason: str, action: FileAction) -> None:
        """Of what was tried with a file, which sets `status`.

        Args:
            path: "" where the reason names it.
            reason: Why it failed.
            action: Reading or writing.
        """
        super().__init__(reason)
        self.path = path
        self.action = action
        self.status = action.value

    def describe(self) -> str:
        """The path and the reason; the reason alone where there is no path."""
        return f"{self.path}: {self.reason}" if self.path else self.reason

    @staticmethod
    def of(fault: OSError, path: str, action: FileAction) -> FileFault:
        """The error that tells of a fault of the system.

        Args:
            fault: Whose own file is told where it has one.
            path: Is told where it has none.
            action: Reading or writing.
        """
        return FileFault(str(fault.filename or path), fault.strerror or str(fault), action)


class FileStays(FileFault):
    """What stands at a place is not replaced, and nothing is written there."""

    def __init__(self, path: str, reason: str) -> None:
        """Of an output's path, and why what stands there stays (`system.files.WhyItStays`)."""
        super().__init__(path, reason, FileAction.WRITE)


class NoModel(FileFault):
    """The word of a call names no model; the reason is a whole sentence on what stands there."""

    def __init__(self, word: str, reason: str) -> None:
        """Of the word as the user gave it, and a whole sentence."""
        super().__init__(word, reason, FileAction.READ)

    def describe(self) -> str:
        """The reason alone, which is a whole sentence."""
        return self.reason


class NotInstalled(BridgeError):
    """The proved program, a solver or a library is not there, or cannot be started."""

    status = ExitStatus.NOT_THERE


class NotFound(NotInstalled):
    """A program was found nowhere.

    Attributes:
        program: Its name.
        remedy: What helps, in words behind a colon.
        other: A program of the same name on the PATH that is another one; "" where there is none.
    """

    def __init__(self, program: str, remedy: str, other: str = "") -> None:
        """Of the name of what was not found, what helps, and the path of another program of that
        name.
        """
        super().__init__("was not found")
        self.program = program
        self.remedy = remedy
        self.other = other  # a program of the same name that is another one

    def describe(self) -> str:
        """What was not found, another program of its name, and the remedy."""
        other = f" ({self.other} is another program)" if self.other else ""
        return f"{self.program} was not found{other}: {self.remedy}"


class NotStarted(NotInstalled):
    """A program that is there cannot be run.

    Attributes:
        program: Its path or name.
        tried: What was tried, as a participle: `run`.
    """

    def __init__(self, program: str, reason: str, tried: str = "run") -> None:
        """Of the program's path, why it cannot be run, and what was tried: a participle."""
        super().__init__(reason)
        self.program = program
        self.tried = tried

    def describe(self) -> str:
        """What could not be done with which program, and why."""
        return f"{self.program} could not be {self.tried}: {self.reason}"


class SolverFailed(BridgeError):
    """The solver ended without an answer that can be used.

    Attributes:
        solver: Its title, as messages tell it.
    """

    def __init__(self, solver: str, reason: str) -> None:
        """Of the solver's title, and the reason."""
        super().__init__(reason)
        self.solver = solver

    def describe(self) -> str:
        """The solver, and the reason behind a colon."""
        return f"{self.solver}: {self.reason}"


class UnclearAnswer(BridgeError):
    """What a solver wrote is no answer, or is not understood.

    The classes of `solvers` raise it; `pipeline.answered_run` makes an `UnusableAnswer` of it.
    """


class UnusableAnswer(SolverFailed):
    """The solver's answer is missing or makes no sense.

    Attributes:
        ended_by: The name of the signal that ended it, such as SIGSEGV; "" where none did.
    """

    def __init__(self, solver: str, reason: str, ended_by: str = "") -> None:
        """Of the solver's title, the reason, and the name of the signal that ended it; "" for
        none.
        """
        super().__init__(solver, reason)
        self.ended_by = ended_by

    def describe(self) -> str:
        """The solver, the reason, and the signal that ended it where one did."""
        ended = f"; it was ended by {self.ended_by}" if self.ended_by else ""
        return f"{self.solver} gave no usable answer: {self.reason}{ended}"


class ProgramFailed(BridgeError):
    """The proved program ended without its answer, or did what it should not do.

    Of one that refuses a text `program.refusal` has more to say.
    """


class NotReturned(BridgeError):
    """`bridge return` does not take the solver's answer, so that there is no .sol of it."""

    def describe(self) -> str:
        """The reason behind the name of the command."""
        return f"return: {self.reason}"


# what a fault of this package is, beside errors of the hierarchy
FAULTS = (ArithmeticError, AssertionError, LookupError, TypeError, ValueError)


class DriverFault(BridgeError):
    """A fault of the drivers themselves: an exception of no other class, told by its `repr`.

    Attributes:
        remedy: What shows where it was.
    """

    def __init__(self, reason: str, remedy: str = "outlev=2 shows where") -> None:
        """Of the exception's `repr`, and what shows where it was."""
        super().__init__(shortened(one_line(reason)))
        self.remedy = remedy

    def describe(self) -> str:
        """The reason, and what shows where it was."""
        return f"a fault of the driver: {self.reason} ({self.remedy})"


class RunInterrupted(BridgeError):
    """A signal ended a call of the package: what it raises and reports in place of `Interrupted`.

    Attributes:
        number: Of the signal; `status` is 128 more.
    """

    def __init__(self, number: int) -> None:
        """Of the signal's number; sets `status`."""
        super().__init__("interrupted")
        self.number = number
        self.status = ExitStatus(128 + number)


class NotDecimal(BridgeError):
    """A value or a text that no decimal stands for: infinite, no number, or too long."""


class UnsupportedModel(BridgeError):
    """A program that the search does not take; the reason says what it has."""


class SearchEnded(BridgeError):
    """A search ended without a tree; the reason says why."""


class SearchPaused(SearchEnded):
    """The time or the nodes that a search had are over: given more, it can go on."""


class DeadlineExceeded(SearchPaused):
    """The time of a `Deadline` is over."""


class TimeOver(BridgeError):
    """The time of exact work is over, at whatever it was; `exact.work_limit` raises it.

    What a certificate has shown by then is told.
    """

    def __init__(self) -> None:
        super().__init__("time")


class NodeLimit(SearchPaused):
    """A search has visited as many nodes as it may.

    Attributes:
        nodes: How many that were.
    """

    def __init__(self, nodes: int) -> None:
        super().__init__(f"more than {nodes} nodes")
        self.nodes = nodes


class NotSolved(BridgeError):
    """An exact system, or the exact optimum of a basis, is not found; the reason says why."""


class TooManyBits(BridgeError):
    """A solution needs numerators and denominators of more than `bits` bits; it is given up."""

    def __init__(self, bits: int) -> None:
        super().__init__(f"more than {bits} bits")
        self.bits = bits


class SolveInterrupted(KeyboardInterrupt):
    """Ctrl-C ended a call of the package.

    Attributes:
        report: The best answer that was found until then, which was kept where files are named; or
            that there is none.
    """

    def __init__(self, report: Any) -> None:
        """Of the report of the call that was interrupted, whose text is the error's."""
        super().__init__(report.text)
        self.report = report


class Interrupted(BaseException):
    """A signal ended the run: raised by `system.signals` wherever the run is.

    Attributes:
        number: Of the signal.
    """

    def __init__(self, number: int) -> None:
        super().__init__(number)
        self.number = number

    def status(self) -> int:
        """The exit status of a process that a signal ended, as a shell has it: 128 and its
        number.
        """
        return 128 + self.number


class BrokenOutput(BaseException):
    """Standard output takes no more: a closed pipe, a full disk.

    Attributes:
        is_closed: Whoever read it has gone, which nobody has to be told.
    """

    def __init__(self, fault: OSError) -> None:
        """Of the fault of the system that writing or flushing raised, whose text is the error's."""
        super().__init__(fault.strerror or str(fault))
        self.is_closed = fault.errno == errno.EPIPE
