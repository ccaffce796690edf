"""The head of an .nl file, and the text form of one that the proved program does not take as it is.

AMPL's `solve` writes binary files, and MiniZinc writes 0.9 as 0.90000000000000002. What is made
here stands outside of what is proved; no double changes.
"""

from __future__ import annotations

import os
import re
from typing import BinaryIO, List, NamedTuple, Tuple

from ..system.files import write_new
from ..system.errors import Damaged, ModelRefused, NotDecimal
from .binary_nl import text_of_binary
from .numbers import read_whole, shortest_decimal

HEAD_LINE_LIMIT = 1 << 17  # bytes of a line of the head: more than the proved program takes
MOST_OPTIONS = 9
LOOKED_THROUGH = 1 << 20  # bytes that are looked through for printed doubles
PRINTED_DIGITS = 16  # a decimal of so many digits or more may be a printed double
# a decimal with a point that is a word, or stands behind the n of a constant
DECIMAL = re.compile(rb"(?<![^\sn])-?\d+\.\d+(?:[eE][-+]?\d+)?(?!\S)")


class NlHeader(NamedTuple):
    """What the first two lines of an .nl file say.

    Attributes:
        options: Numbers behind the g or b of the first line, as texts, which a .sol repeats.
        constraints: The count of rows.
        variables: The count of columns.
        objectives: How many there are; 0 where the file does not say it.
    """

    options: List[str]
    constraints: int
    variables: int
    objectives: int = 0


def read_header(path: str) -> NlHeader:
    """What the first two lines say, which are text in both forms, text and binary.

    As in the proved program lines without words, or with a comment alone, do not count.

    Raises:
        OSError: The file cannot be read.
        Damaged: They are not those of an .nl file.
    """
    with open(path, "rb") as file:
        first, second = _words_of_line(file), _words_of_line(file)
    try:
        count = read_whole(first[0][1:])
        options = [str(read_whole(word)) for word in first[1 : 1 + count]]
        variables, constraints = read_whole(second[0]), read_whole(second[1])
        objectives = read_whole(second[2]) if len(second) > 2 else 0
    except (NotDecimal, IndexError):
        raise Damaged(path, "its first two lines are not those of an .nl file") from None
    if len(options) != count or count > MOST_OPTIONS:
        raise Damaged(path, "its first line has other options than it says")
    return NlHeader(options, constraints, variables, objectives)


def _words_of_line(file: BinaryIO) -> List[bytes]:
    """The words of the next line that has some, without its comment; none at the file's end."""
    while True:
        line = file.readline(HEAD_LINE_LIMIT)
        words = line.split(b"#")[0].split()
        if words or not line:
            return words


class TextOfNl(NamedTuple):
    """An .nl file as the proved program reads it.

    Attributes:
        path: The file itself, or the text that was made of it.
        notes: What there is to tell of that.
    """

    path: str
    notes: List[str]


def text_of_nl(
    path: str, target: str, *, shortens: bool = False, tells_printed: bool = True
) -> TextOfNl:
    """The file itself where it can be read as it is, else a text of the same program.

    A driver calls it before each `export`, and a binary file is turned into text so.

    Args:
        path: A plain file.
        target: Where a text is written, if one is made.
        shortens: Printed doubles are replaced by their shortest decimals.
        tells_printed: Where nothing is replaced, a note tells of the first printed double that
            stands in the first LOOKED_THROUGH bytes.

    Raises:
        OSError: The file cannot be read, or the target not be written.
        Damaged: It is a binary file that is cut or damaged.
        ModelRefused: The target is the file itself.
    """
    with open(path, "rb") as file:
        is_binary = file.read(1) == b"b"
        if not is_binary and not shortens:
            notes = printed_doubles_note(file.read(LOOKED_THROUGH)) if tells_printed else []
            return TextOfNl(path, notes)
        file.seek(0)
        data = file.read()
    if os.path.exists(target) and os.path.samefile(path, target):
        raise ModelRefused(
            f"{target} is the model itself, and would be overwritten: give another keep"
        )
    if is_binary:
        return _text_of_binary_file(path, data, target)
    text, count = with_shortest_decimals(data)
    if not count:
        return TextOfNl(path, [])
    note = f"{count} numbers of the .nl file were read in their shortest spelling"
    return TextOfNl(write_new(target, text), [note])


def _text_of_binary_file(path: str, data: bytes, target: str) -> TextOfNl:
    """The text of a binary file, written to `target`, and the note on it; `data` is the whole file.

    Raises:
        Damaged: It ends too soon or is damaged.
    """
    try:
        text = text_of_binary(data)
    except ValueError as fault:
        reason = f"the binary .nl file ends too soon or is damaged ({fault})"
        raise Damaged(path, reason) from None
    note = "the binary .nl file was turned into text, which is not proved"
    return TextOfNl(write_new(target, text), [note])


def with_shortest_decimals(data: bytes) -> Tuple[bytes, int]:
    """The text with shortest decimals in place of printed doubles, and how many it changed.

    A decimal with a point and PRINTED_DIGITS digits or more is read as a double, and written as the
    shortest decimal of that double.
    """
    changed = 0

    def shortened(found: re.Match[bytes]) -> bytes:
        """What stands in place of one decimal; counted in `changed` where it is another text."""
        nonlocal changed
        text = found.group()
        if _significant_digits(text) < PRINTED_DIGITS:
            return text
        shortest = shortest_decimal(float(text)).encode()
        changed += shortest != text
        return shortest

    return DECIMAL.sub(shortened, data), changed


def printed_doubles_note(data: bytes) -> List[str]:
    """A note, or none, on the first decimal of PRINTED_DIGITS digits or more of an .nl text.

    There is one where the shortest decimal of its double is at least three characters shorter,
    which speaks for a double that was printed with too many digits. Later decimals are not looked
    at.
    """
    decimals = (found[0] for found in DECIMAL.finditer(data))
    text = next((word for word in decimals if _significant_digits(word) >= PRINTED_DIGITS), b"0")
    shortest = shortest_decimal(float(text))
    if len(shortest) >= len(text) - 2:
        return []
    return [
        f"{text.decode()} in the .nl looks like a printed double: shortest=1 reads such numbers "
        f"as {shortest}"
    ]


def _significant_digits(decimal: bytes) -> int:
    """How many digits a decimal has in front of its exponent, without zeros at its start.

    Those at its end count.
    """
    mantissa = re.split(rb"[eE]", decimal)[0].lstrip(b"-0.")
    return sum(c in b"0123456789" for c in mantissa)
