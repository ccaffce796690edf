"""The commands of the proved program, the words of one call, and how a call ended."""

from __future__ import annotations

import enum
from typing import FrozenSet, List, Mapping, NamedTuple, Sequence


class Command(enum.Enum):
    """A command of the proved program. The value is its word."""

    EXPORT = "export"  # the MPS text of an .nl file
    RETURN = "return"  # the .sol text of an answer to what `export` wrote
    CHECK = "check"  # one verdict on the point and the duals of a .sol file
    PROVE = "prove"  # one verdict on a proof by branches
    VERIFY = "verify"  # one verdict on a certificate
    CERTIFIED = "certified"  # the .sol text of a claim whose certificate holds
    VERIFY_MPS = "verify_mps"  # the same over an MPS text in free form
    VERIFY_FIXED = "verify_fixed"  # the same over an MPS text in fixed columns
    NL = "nl"  # an .nl text in its one written form
    MPS = "mps"  # an MPS text in its one written form
    FIXED = "fixed"  # an MPS text of fixed columns in the one written form, which is free
    SOL = "sol"  # a .sol text in its one written form
    IMPORT = "import"  # the .nl text of an MPS text
    MAKE = "make"  # an instance that is made of two numbers; it reads no file


READERS_OF_NL: FrozenSet[str] = frozenset(
    command.value
    for command in (
        Command.EXPORT,
        Command.NL,
        Command.RETURN,
        Command.CHECK,
        Command.PROVE,
        Command.VERIFY,
        Command.CERTIFIED,
    )
)  # words of the commands whose first file is an .nl text
READERS_OF_MPS: FrozenSet[str] = frozenset(
    command.value
    for command in (
        Command.MPS,
        Command.FIXED,
        Command.IMPORT,
        Command.VERIFY_MPS,
        Command.VERIFY_FIXED,
    )
)  # words of the commands whose first file is an MPS text
FIRST_LINES: Mapping[str, str] = {
    Command.VERIFY.value: "certificate 1",
    Command.CERTIFIED.value: "certificate 1",
    Command.VERIFY_MPS.value: "certificate 1",
    Command.VERIFY_FIXED.value: "certificate 1",
    Command.PROVE.value: "proof 1",
    Command.RETURN.value: "answer 1",
}  # what the second file of a command begins with


class TextShape(NamedTuple):
    """By what a text that a command writes is told from other output.

    Attributes:
        name: What kind of text it is.
        start, end: What it begins and ends with.
        within: What stands somewhere in it.
    """

    name: str
    start: bytes
    end: bytes
    within: bytes = b""

    def is_of(self, text: bytes) -> bool:
        """Whether a text looks like one of the kind."""
        is_whole = text.startswith(self.start) and text.endswith(self.end)
        return is_whole and self.within in text


MPS_SHAPE = TextShape("MPS", b"NAME", b"ENDATA\n")
SOL_SHAPE = TextShape(".sol", b"", b"\n", b"\nOptions\n")
NL_SHAPE = TextShape(".nl", b"g", b"\n")
TEXT_SHAPES: Mapping[Command, TextShape] = {
    Command.EXPORT: MPS_SHAPE,
    Command.MPS: MPS_SHAPE,
    Command.FIXED: MPS_SHAPE,
    Command.IMPORT: NL_SHAPE,
    Command.RETURN: SOL_SHAPE,
}  # of the commands that write a text which the drivers read


class Reply(NamedTuple):
    """How one call of the proved program ended.

    Attributes:
        status: Its exit status; below 0 it is minus the number of the signal that ended it.
        out: All of its standard output.
        told: The line on its standard error; empty where there is none.
    """

    status: int
    out: bytes
    told: str


def files_of_call(words: Sequence[str]) -> List[str]:
    """The files among the words of a call, in order; the first word is the command."""
    command = "".join(words[:1])
    if command == Command.MAKE.value:
        return []
    first_other = 3 if command == Command.EXPORT.value else 2  # `export FILE K ROWS COLS`
    return [*words[1:2], *words[first_other:]]


def is_utf8(word: str) -> bool:
    """Whether the proved program takes a word: it takes words of UTF-8 alone.

    Bytes of a path that are none stand in a Python text as lone surrogates.
    """
    return not any("\ud800" <= letter <= "\udfff" for letter in word)
