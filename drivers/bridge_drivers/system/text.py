"""Words as they are told: what a terminal would obey is escaped; lists, counts, and near words."""

from __future__ import annotations

import difflib
import itertools
import re
import unicodedata
from typing import Iterable, Mapping, Sequence

CONTROLS = re.compile(
    "[\x00-\x08\x0b-\x1f\x7f-\x9f"  # of C0 all but the tab and the line's end, DEL, C1
    "\udc80-\udc9f"  # single bytes that stand for C1
    "\u2028\u2029"  # ends of lines and of paragraphs
    "\u061c\u200e\u200f\u202a-\u202e\u2066-\u206f"  # the direction in which text runs
    "\u00ad\u115f\u1160\u180e\u200b-\u200d\u2060-\u2065\u3164\ufeff\uffa0"  # nothing that is seen
    "\ufff9-\ufffb\U000e0000-\U000e007f"  # notes between lines, and tags
    "\ufdd0-\ufdef"
    + "".join(chr((plane << 16) + end) for plane in range(17) for end in (0xFFFE, 0xFFFF))
    + "]"  # and what no text has
)
LINE_CONTROLS = re.compile("[\t\n]")
MOST_NAMES = 1000  # that a word is compared with: a comparison takes some microseconds
LONGEST_WORD = 100  # characters; a comparison takes time by the product of two lengths
WIDE = "WF"  # the widths of letters that take two columns of a terminal
LEAST_LIKENESS = 0.7  # of 1, as difflib counts it: less is another word


def printable(text: str) -> str:
    """The text with its controls as `\\x1b` or `\\u202e`: a terminal shows and does not obey them.

    So is what cannot be seen, which would make two names look the same. Ends of lines and tabs stay.
    """
    return CONTROLS.sub(_escaped, text)


def one_line(text: str) -> str:
    r"""The text with its controls escaped as `\x1b`, and ends of lines and tabs too.

    For names, words and lines of a model or a solver that stand in a message.
    """
    return LINE_CONTROLS.sub(_escaped, printable(text))


def alternatives(words: Sequence[str]) -> str:
    """The words as `a, b or c`; "" of none."""
    if len(words) < 2:
        return "".join(words)
    return f"{', '.join(words[:-1])} or {words[-1]}"


def first_of(items: Sequence[str], most: int) -> str:
    """The first `most` items of a list, and how many more there are: `a, b and 3 more`."""
    more = len(items) - most
    return ", ".join(items[:most]) + (f" and {more} more" if more > 0 else "")


def counted(count: int, thing: str) -> str:
    """A count with its thing, in the plural where it is not 1: `1 row`, `2 rows`, `3 classes`."""
    if count == 1:
        return f"{count} {thing}"
    return f"{count} {thing}{'es' if thing.endswith('s') else 's'}"


def shortened(word: str) -> str:
    """A word as a message shows it: of a long one the first LONGEST_WORD characters, and `..`."""
    return word if len(word) <= LONGEST_WORD else word[:LONGEST_WORD] + ".."


def nearest(word: str, known: Iterable[str]) -> str:
    """The known word that was probably meant, by difflib's likeness; "" where none is near.

    Args:
        word: As the user wrote it; none is near to one of more than LONGEST_WORD characters.
        known: Of which only the first MOST_NAMES are looked at, and none that is long.
    """
    if len(word) > LONGEST_WORD:
        return ""
    names = [name for name in itertools.islice(known, MOST_NAMES) if len(name) <= LONGEST_WORD]
    return "".join(difflib.get_close_matches(word, names, 1, LEAST_LIKENESS))


def did_you_mean(word: str, known: Iterable[str], other_names: Mapping[str, str] = {}) -> str:
    """` did you mean `prove`?`, to stand behind a refusal of a word; "" where nothing is near.

    Args:
        word: As the user wrote it.
        known: The words that are taken here.
        other_names: By what other programs call something, what it is called here; a value may
            stand behind an equals sign.
    """
    names = list(known)
    meant = other_names.get(word, "")
    if meant.partition("=")[0] not in names:
        meant = nearest(word, names)
    return f" did you mean `{meant}`?" if meant else ""


def cut_to_width(text: str, columns: int) -> str:
    """As much of a line as a terminal shows in so many columns.

    Letters of East Asia are two columns wide, and marks upon a letter have none of their own.

    Args:
        text: Of one line, without controls.
        columns: Of the terminal.
    """
    width = 0
    for place, letter in enumerate(text):
        if not unicodedata.combining(letter):
            width += 2 if unicodedata.east_asian_width(letter) in WIDE else 1
        if width > columns:
            return text[:place]
    return text


def _escaped(found: re.Match[str]) -> str:
    r"""A control as `\x1b`, `\u202e` or `\U000e0041`, as Python writes it.

    Of a byte that is no UTF-8 (a surrogate) it is the byte's own number.
    """
    number = ord(found.group())
    if number <= 0xFF or 0xDC80 <= number <= 0xDCFF:
        return f"\\x{number & 0xff:02x}"
    return f"\\u{number:04x}" if number <= 0xFFFF else f"\\U{number:08x}"
