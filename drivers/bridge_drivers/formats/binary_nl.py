"""Binary .nl files as text, for `formats.nl`.

The proved program reads text alone, and AMPL's `solve` writes binary files. They are read after
Gay, "Writing .nl Files" (2005), and tested against pairs that AMPL's own library wrote. A file has
ten lines of text, then segments whose counts are 4-byte integers and whose values are doubles, in
the byte order that the third number of line 6 names (2: big endian). No double changes.
"""

from __future__ import annotations

import struct
from typing import Any, Dict, List

from ..system.errors import NotDecimal
from .nl_operators import COUNTED, PIECEWISE_LINEAR, operator_of
from .numbers import read_whole, shortest_decimal

HEAD_LINES = 10
BIG_ENDIAN = "2"  # in the head's line 6
# The numbers at the head of each segment: i a number, n the count of what follows.
SEGMENT_HEADS = {
    "C": "i",
    "L": "i",
    "O": "ii",
    "V": "ini",
    "J": "in",
    "G": "in",
    "S": "in",
    "F": "iii",
    "d": "n",
    "x": "n",
    "k": "n",
    "r": "",
    "b": "",
}
WITH_NAME = "FS"  # segments whose head ends with a name
WITH_PAIRS = "VJGSdx"  # segments with lines `index value`
WITH_EXPRESSION = "CLOV"
# What follows the kind of an interval of r or b: d a double, i a number.
INTERVALS = {"0": "dd", "1": "d", "2": "d", "3": "", "4": "d", "5": "ii"}
REAL_SUFFIX = 4  # this bit of a suffix's kind says that its values are doubles


def text_of_binary(data: bytes) -> bytes:
    """The same program as text.

    Args:
        data: The whole file.

    Raises:
        ValueError: It is no binary .nl file, or is one that is cut or damaged; the text says how.
    """
    try:
        return _BinaryReader(data).text()
    except (struct.error, IndexError, NotDecimal) as fault:
        raise ValueError(str(fault)) from None


class _BinaryReader:
    """Reads segments in their order into lines of text, from the place `at` on.

    Attributes:
        at: The byte of `data` that is read next.
        order: The byte order, in the letters of `struct`.
        lines: The lines of text so far, without their ends; at first the head's ten.
        intervals: How many intervals the segments b (one a variable) and r (one a constraint) have.
    """

    def __init__(self, data: bytes) -> None:
        """Reads the head; ValueError, NotDecimal or IndexError where it is none."""
        self.data = data
        self.at = 0
        for _ in range(HEAD_LINES):
            self.at = data.index(b"\n", self.at) + 1
        head = data[: self.at].decode("latin-1").split("\n")
        is_big = head[5].split("#")[0].split()[2:3] == [BIG_ENDIAN]
        self.order = ">" if is_big else "<"
        self.lines: List[str] = ["g" + head[0][1:], *head[1:HEAD_LINES]]
        counts = [read_whole(word) for word in head[1].split("#")[0].split()]
        self.intervals: Dict[str, int] = {"b": counts[0], "r": counts[1]}

    def text(self) -> bytes:
        """Reads all segments; the whole text in bytes.

        Raises:
            ValueError: A segment, node, count or kind of interval is unknown.
            struct.error: The file ends too soon.
        """
        while self.at < len(self.data):
            self._segment(self._letter())
        return ("\n".join(self.lines) + "\n").encode("latin-1")

    def _take(self, form: str) -> Any:
        """Reads one value in a form of `struct`, such as `i` or `d`, and goes on behind it."""
        value = struct.unpack_from(self.order + form, self.data, self.at)[0]
        self.at += struct.calcsize(self.order + form)
        return value

    def _letter(self) -> str:
        """Reads one byte that names a segment, a node or a kind of interval."""
        return str(self._take("c"), "latin-1")

    def _count(self) -> int:
        """Reads how many things follow, each of at least a byte, so that a damaged count ends here.

        Raises:
            ValueError: It is negative, or larger than the file.
        """
        count: int = self._take("i")
        if not 0 <= count <= len(self.data):
            raise ValueError(f"a count of {count}")
        return count

    def _double(self) -> str:
        """Reads a double, and returns its shortest decimal."""
        return shortest_decimal(self._take("d"))

    def _name(self) -> str:
        """Reads a count and a name of so many bytes; the name without zero bytes at its end."""
        return str(self._take(f"{self._count()}s").rstrip(b"\0"), "latin-1")

    def _segment(self, letter: str) -> None:
        """Reads the segment of this letter, with its head and all that follows, into `lines`.

        Raises:
            ValueError: The letter is none of a segment.
        """
        if letter not in SEGMENT_HEADS:
            raise ValueError(f"an unknown segment {letter!r}")
        head = SEGMENT_HEADS[letter]
        numbers = [self._count() if kind == "n" else self._take("i") for kind in head]
        words = list(map(str, numbers))
        if letter in WITH_NAME:
            words.append(self._name())
        self.lines.append(letter + " ".join(words))
        self._body(letter, numbers)

    def _body(self, letter: str, numbers: List[int]) -> None:
        """Reads what follows the head of a segment into `lines`.

        Args:
            letter: The segment's.
            numbers: Those of its head, as SEGMENT_HEADS lists them. The kind of a suffix stands
                first.
        """
        count = numbers[SEGMENT_HEADS[letter].find("n")] if numbers else 0
        if letter in WITH_PAIRS:
            self._pairs(count, is_whole=letter == "S" and not numbers[0] & REAL_SUFFIX)
        if letter in WITH_EXPRESSION:
            self._expression()
        if letter in self.intervals:
            self.lines += [self._interval() for _ in range(self.intervals[letter])]
        if letter == "k":
            self.lines += [str(self._take("i")) for _ in range(count)]

    def _pairs(self, count: int, *, is_whole: bool) -> None:
        """Reads so many pairs into lines `index value`.

        Args:
            is_whole: Values are 4-byte integers, else doubles.
        """
        for _ in range(count):
            index = self._take("i")
            value = self._take("i") if is_whole else self._double()
            self.lines.append(f"{index} {value}")

    def _expression(self) -> None:
        """Reads an expression in prefix form, a line a node, until no operand is missing.

        Nothing recurses.
        """
        missing = 1
        while missing:
            missing += self._node() - 1

    def _node(self) -> int:
        """Reads one node of an expression into `lines`, and returns how many operands follow it.

        Raises:
            ValueError: Its letter is unknown, or it is a piecewise linear term.
        """
        letter = self._letter()
        if letter == "o":
            return self._operator(self._take("i"))
        if letter == "f":
            function = self._take("i")
            count = self._count()
            self.lines.append(f"f{function} {count}")
            return count
        if letter == "h":
            name = self._name()
            self.lines.append(f"h{len(name)}:{name}")
        elif letter == "v":
            self.lines.append(f"v{self._take('i')}")
        elif letter in "nsl":
            number = self._double() if letter == "n" else self._take("h" if letter == "s" else "i")
            self.lines.append(f"n{number}")
        else:
            raise ValueError(f"an unknown node {letter!r}")
        return 0

    def _operator(self, opcode: int) -> int:
        """Writes the line of an operator, and that of its count of operands where the file has one.

        Returns:
            How many operands follow it.

        Raises:
            ValueError: It is a piecewise linear term, which is not turned into text.
        """
        if opcode == PIECEWISE_LINEAR:
            raise ValueError("piecewise-linear terms")
        self.lines.append(f"o{opcode}")
        operands = operator_of(opcode).operands
        if operands == COUNTED:
            operands = self._count()
            self.lines.append(str(operands))
        return operands

    def _interval(self) -> str:
        """Reads one interval of r or b; its line: the kind, and its ends (see INTERVALS).

        Raises:
            ValueError: The kind is unknown.
        """
        kind = self._letter()
        if kind not in INTERVALS:
            raise ValueError(f"an unknown side {kind!r}")
        ends = [self._double() if form == "d" else str(self._take("i")) for form in INTERVALS[kind]]
        return " ".join([kind, *ends])
