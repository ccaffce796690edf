"""A refusal of the proved program in words: its file, line and place, the expression, what helps.

The program tells one line, such as `refused line 12: nonlinear`. What is said of it here comes from
reading the file once more, as far as that line; nothing of it is proved. Variables and constraints
have their names where AMPL wrote them beside the model (stub.col, stub.row), or in a comment.
"""

from __future__ import annotations

import itertools
import os
import re
from typing import Dict, List, Mapping, NamedTuple, Optional, Sequence, Tuple

from ..formats import file_kinds
from ..formats.names import NameLists, comment_of, numbered_name
from ..formats.nl_expressions import expression_in_words
from ..formats.numbers import read_whole
from ..system.codes import ExitStatus
from ..system.errors import (
    BridgeError,
    FileAction,
    FileFault,
    ModelRefused,
    NotDecimal,
    NotInstalled,
    ProgramFailed,
    WrongOption,
)
from ..system.text import one_line, printable
from .calls import FIRST_LINES, READERS_OF_MPS, READERS_OF_NL, Reply, files_of_call, is_utf8
from .mps_faults import word_at_fault
from .reasons import is_opcode, reason_of

HEAD_LINES = 10  # of an .nl file
SEGMENTS = b"COVLFSJGKkbrdx"  # letters that begin a segment of an .nl file
EXPRESSION_SEGMENTS = b"COVL"  # those that hold an expression
END_REASONS = (
    "end in header",
    "missing segment",
    "nonzero count",
    "column count",
)  # reasons that are about the end of a file, whatever line is told
SHAPE_REASONS = ("short", "extra", "bad line")  # those that are about lines, not expressions
LONGEST_HEAD_LINE = 1000  # bytes of a line of the header that are read
SHOWN_BEFORE = 2  # lines that are shown before one that is at fault
SHOWN_AFTER = 3
LONGEST_SHOWN = 100  # bytes of such a line
REFUSED = re.compile(
    r"refused(?: file (?P<file>\d{1,9}))?"
    r"(?: (?P<kind>line|row|column|objective) (?P<number>\d{1,10})| program)?",
    re.ASCII,
)
ENDED_WITH: Mapping[int, str] = {
    ExitStatus.UNREAD: "a file could not be read",
    ExitStatus.UNWRITTEN: "its output could not be written",
    ExitStatus.NO_MEMORY: "want of memory",
}


class Refusal(ProgramFailed):
    """The proved program ended without what was asked for.

    Attributes:
        command: The word of the command.
        words: All words of the call; empty where they are not known.
        status: Its exit status; below 0 it is minus the number of the signal that ended it.
        told: The line on its standard error.
        file_names: What the user calls files, by the paths among the words.
    """

    def __init__(
        self,
        command: str,
        reply: Reply,
        words: Sequence[str] = (),
        file_names: Optional[Mapping[str, str]] = None,
    ) -> None:
        """Of one call of the proved program; its sentence is made when it is asked for.

        Args:
            command: The word of the command.
            reply: How the call ended; its status is none that goes with an answer.
            words: All words of the call; empty where they are not known.
            file_names: What the user calls files, by the paths among the words.
        """
        super().__init__(reply.told)
        self.command = command
        self.status = reply.status
        self.told = reply.told
        self.words = list(words)
        self.file_names: Dict[str, str] = dict(file_names or {})

    def describe(self) -> str:
        """Why there is no answer, in one line."""
        if self.status == ExitStatus.BAD_WORDS:
            if not all(map(is_utf8, self.words)):
                return "a path that is not UTF-8"
            return f"this bridge does not know the command `{self.command}` (bad words)"
        if self.status < 0:
            return f"`bridge {self.command}` was stopped by signal {-self.status}"
        if self.status == ExitStatus.UNREAD and self.words:
            return why_unreadable(files_of_call(self.words), self.file_names)
        told = self.told or ENDED_WITH.get(self.status, f"ended with {self.status}")
        return RefusalText(self.words, told, self.file_names).line

    def as_error(self) -> BridgeError:
        """The error that a caller of the package gets, by the exit status."""
        line = self.describe()
        if self.status == ExitStatus.REFUSED:
            return ModelRefused(line)
        if self.status == ExitStatus.BAD_WORDS:
            return WrongOption(line)
        if self.status == ExitStatus.UNREAD:
            return FileFault("", line, FileAction.READ)
        if self.status == ExitStatus.UNWRITTEN:
            return FileFault("", line, FileAction.WRITE)
        if self.status == ExitStatus.NOT_THERE:
            return NotInstalled(line)
        error = ProgramFailed(line)
        error.status = self.status
        return error

    def details(self) -> Optional[Dict[str, object]]:
        """The refusal as report.schema.json has it; None where the program told no reason."""
        parsed = parse_refusal(self.told)
        if parsed is None or not self.words:
            return None
        text = RefusalText(self.words, self.told, self.file_names)
        return {
            "told": self.told,
            "reason": parsed.reason,
            "kind": parsed.kind or None,
            "number": parsed.number if parsed.kind else None,
            "file": text.file_name or None,
            "more": text.more(),
        }


class RefusalLine(NamedTuple):
    """A told refusal, read.

    Attributes:
        file: The place of the file among those of the call, from 1.
        kind: What the number counts: `line`, `row`, `column` or `objective`; empty for the whole.
        number: Of the line, from 1, or of the row, column or objective, from 0.
        reason: In the program's own words.
    """

    file: int
    kind: str
    number: int
    reason: str


def parse_refusal(told: str) -> Optional[RefusalLine]:
    """A line of the proved program, read as a refusal; None where it is none.

    Args:
        told: The whole line without its end, such as `refused line 12: nonlinear`.
    """
    head, colon, reason = told.partition(": ")
    found = REFUSED.fullmatch(head)
    if found is None or not colon:
        return None
    return RefusalLine(
        int(found["file"] or 1), found["kind"] or "", int(found["number"] or 0), reason
    )


class RefusalText:
    """One refusal in words.

    Attributes:
        line: All of it in one line.
        file_name: What the user calls the file; empty where it is not known which one it is.
    """

    def __init__(self, words: Sequence[str], told: str, file_names: Mapping[str, str]) -> None:
        """
        Args:
            words: Those of the call; the first is the command.
            told: The line of the program.
            file_names: What the user calls files, by the paths among the words. Lists of names are
                looked for beside the first file as the user calls it.
        """
        self.command = "".join(words[:1])
        self.told = told
        self.files = files_of_call(words)
        self.shown_files = [file_names.get(file, file) for file in self.files]
        self.parsed = parse_refusal(told)
        self.is_about_nl = self.command in READERS_OF_NL and bool(self.files)
        counts = counts_of_nl(self.files[0]) if self.is_about_nl else (None, None)
        self.names = NameLists(file_kinds.stub_of("".join(self.shown_files[:1])), *counts)
        self.file_name = self._file_name()
        self.segment: Optional[Segment] = None
        self.line = one_line(self._text())

    def _file_name(self) -> str:
        """What the user calls the file that is refused; "" where the line names none of the call."""
        if self.parsed is None or not 1 <= self.parsed.file <= len(self.files):
            return ""
        return self.shown_files[self.parsed.file - 1]

    def _text(self) -> str:
        """The whole sentence: file, place, expression, reason; the told line where it is no refusal."""
        parsed = self.parsed
        if parsed is None or not self.file_name:
            return self.told + meaning_of(self.told.rpartition(": ")[2])
        if parsed.kind == "line":
            return f"{self.file_name} line {parsed.number}: {self._at_line(parsed)}"
        subject = self._subject(parsed)
        return f"{self.file_name}: {subject}{parsed.reason}{meaning_of(parsed.reason)}"

    def _subject(self, parsed: RefusalLine) -> str:
        """`constraint 3 (Cap): ` for a row of the model; rows of an MPS text have no names here."""
        if not parsed.kind:
            return ""
        if self.is_about_nl and parsed.kind == "row":
            return self.names.constraint(parsed.number) + ": "
        if self.is_about_nl and parsed.kind == "objective":
            return self.names.objective(parsed.number) + ": "
        return f"{parsed.kind} {parsed.number}: "

    def _at_line(self, parsed: RefusalLine) -> str:
        """What is wrong at a line of a file, with what stands there."""
        if parsed.file == 1:
            return self._at_line_of_model(parsed)
        reason = parsed.reason
        if reason == "bad first line" and parsed.file == 2 and self.command in FIRST_LINES:
            return f"{reason} (it does not begin with `{FIRST_LINES[self.command]}`)"
        return reason + meaning_of(reason)

    def _at_line_of_model(self, parsed: RefusalLine) -> str:
        """The same of the first file of a call."""
        reason, other_kind = parsed.reason, self._as_another_kind(parsed)
        if other_kind:
            return f"{reason}: it {other_kind}"
        if self.command in READERS_OF_MPS:
            word = word_at_fault(self.files[0], parsed.number, reason)
            return f"{reason} {word}" if word else reason + meaning_of(reason)
        if self.is_about_nl and reason not in END_REASONS:
            return self._in_segment(parsed)
        return reason + meaning_of(reason)

    def _as_another_kind(self, parsed: RefusalLine) -> str:
        """What the model's file is where its first line says that it is something else."""
        is_mps = self.command in READERS_OF_MPS
        is_wrong_start = self.is_about_nl and parsed.reason == "bad first line"
        if not is_wrong_start and not (is_mps and parsed.number == 1):
            return ""
        kind = file_kinds.kind_of_file(self.files[0])
        if kind is None or is_mps and kind is file_kinds.MPS:
            return ""
        return file_kinds.describe(self.files[0], kind, self.shown_files[0])

    def _in_segment(self, parsed: RefusalLine) -> str:
        """What is wrong at a line of an .nl file: its place in the model, and the expression."""
        reason = parsed.reason
        try:
            self.segment = segment = segment_at(self.files[0], parsed.number)
        except OSError:
            return reason + meaning_of(reason)
        start, expression = parsed.number - segment.head_line - 1, ""
        if segment.head and start >= 0 and not reason.startswith(SHAPE_REASONS):
            expression = expression_in_words(segment.body[start:], self.names)
        place = place_of(segment, parsed.number, self.names)
        return f"{place}: {fault_in_words(reason, expression)}"

    def more(self) -> List[str]:
        """Further lines: the whole expression with the fault marked, what helps, the lines around."""
        parsed = self.parsed
        if parsed is None or not self.file_name:
            return []
        lines = []
        if self.segment is not None and self.segment.body:
            mark = parsed.number - self.segment.head_line - 1
            text = expression_in_words(self.segment.body, self.names, mark)
            if text and mark > 0:
                lines.append("in: " + text)
        remedy = reason_of(parsed.reason).remedy
        if remedy:
            lines.append("what helps: " + remedy)
        if parsed.kind == "line":
            lines += context_lines(self.files[parsed.file - 1], parsed.number)
        return [printable(line) for line in lines]


def meaning_of(reason: str) -> str:
    """What a reason means, in brackets behind a blank; nothing where there is no more to say."""
    if is_opcode(reason):
        return " (an operator that is not linear)"
    text = reason_of(reason).text
    return f" ({text})" if text else ""


def fault_in_words(reason: str, expression: str) -> str:
    """`(x0 * x1) is nonlinear`, or the reason with its meaning.

    Args:
        reason: In the program's own words.
        expression: The one at fault, in words; empty where the reason is about none.
    """
    if is_opcode(reason):
        return f"{expression or 'an operator'} is not linear ({reason})"
    if expression and reason == "nonlinear":
        return f"{expression} is nonlinear"
    return (f"{expression}: " if expression else "") + reason + meaning_of(reason)


def why_unreadable(files: Sequence[str], file_names: Mapping[str, str]) -> str:
    """Which file of a call cannot be read, and why, and what is there that may be meant.

    Args:
        files: The files of the call.
        file_names: What the user calls them.
    """
    for file in files:
        fault = read_fault(file)
        if not fault:
            continue
        nearby = ""
        if not os.path.lexists(file):
            nearby = file_kinds.explain_missing_model(file).partition("; ")[2]
        text = f"{file_names.get(file, file)}: input fault ({fault})"
        return f"{text}; {nearby}" if nearby else text
    shown = " or ".join(file_names.get(file, file) for file in files)
    return f"input fault: {shown} could not be read"


def read_fault(path: str) -> str:
    """Why a file cannot be read; nothing where it can.

    What is no plain file is not opened, since what is taken from a pipe is gone.
    """
    try:
        if os.path.isfile(path) or os.path.isdir(path) or not os.path.exists(path):
            with open(path, "rb"):
                pass
    except OSError as fault:
        return fault.strerror or str(fault)
    except ValueError as fault:  # a byte 0 in the path
        return str(fault)
    return ""


def counts_of_nl(path: str) -> Tuple[Optional[int], Optional[int]]:
    """How many variables and constraints an .nl file has, by its second line.

    Returns:
        The two numbers; None for both where the line does not tell them.
    """
    try:
        with open(path, "rb") as file:
            file.readline(LONGEST_HEAD_LINE)
            words = file.readline(LONGEST_HEAD_LINE).split()
        return read_whole(words[0]), read_whole(words[1])
    except (OSError, NotDecimal, IndexError):
        return None, None


class Segment(NamedTuple):
    """The segment of an .nl file that a line stands in.

    Attributes:
        head_line: The number of its first line; 0 for the header.
        head: Its first line; empty for the header.
        body: The lines behind the head, of segments that hold an expression.
    """

    head_line: int
    head: bytes
    body: List[bytes]


def segment_at(path: str, line: int) -> Segment:
    """The segment of an .nl file that a line stands in.

    Raises:
        OSError: The file cannot be read.
    """
    head_line, head = 0, b""
    body: List[bytes] = []
    with open(path, "rb") as file:
        for number, text in enumerate(file, 1):
            if number > HEAD_LINES and text[:1].strip() and text[:1] in SEGMENTS:
                if number > line:
                    break
                head_line, head = number, text
                body = []
            elif head and head[:1] in EXPRESSION_SEGMENTS:
                body.append(text)
            elif number > line:
                break
    return Segment(head_line, head, body)


PLACES: Mapping[str, str] = {
    "": "header",
    "b": "bounds",
    "r": "sides of constraints",
    "k": "column counts",
    "K": "column counts",
    "S": "suffix",
    "d": "guesses of duals",
    "x": "guesses of values",
    "F": "imported function",
}  # what a segment is called by its letter, where its head has no number of a row or column


def place_of(segment: Segment, line: int, names: NameLists) -> str:
    """What a line of an .nl file is about, such as `constraint 0 (Cap)`."""
    letter, inside = segment.head[:1].decode("latin-1"), line - segment.head_line - 1
    if letter == "b" and inside >= 0:
        return names.variable(inside)
    if letter == "r" and inside >= 0:
        return names.constraint(inside)
    if letter in PLACES:
        return PLACES[letter]
    found = re.match(rb"[A-Za-z](\d+)", segment.head)
    try:
        number = read_whole(found.group(1) if found else b"0")
    except NotDecimal:  # of more digits than anything is counted by
        return "a segment"
    return _numbered_place(letter, number, comment_of(segment.head), names)


def _numbered_place(letter: str, number: int, comment: str, names: NameLists) -> str:
    """What a segment is about whose head has a number; the comment of an expression may name it."""
    if letter == "C":
        return names.constraint(number, comment)
    if letter == "J":
        return names.constraint(number)
    if letter == "O":
        return names.objective(number, comment)
    if letter == "G":
        return names.objective(number)
    if letter == "V":
        return numbered_name(f"defined variable {number}", comment)
    return f"logical constraint {number}"


def context_lines(path: str, line: int) -> List[str]:
    """The lines about one line of a text, each with its number, that one marked.

    Returns:
        Nothing where the file holds a byte 0, or cannot be read.
    """
    lines = []
    try:
        with open(path, "rb") as file:
            for number, text in enumerate(itertools.islice(file, line + SHOWN_AFTER), 1):
                if b"\0" in text:
                    return []
                if number >= line - SHOWN_BEFORE:
                    start = text.rstrip(b"\r\n")[:LONGEST_SHOWN]
                    shown = start.decode("utf-8", "surrogateescape")
                    lines.append(f"{'>' if number == line else ' '} {number:6} {shown}")
    except OSError:
        return []
    return lines
