"""Changes of texts that a program should not fall over, chosen by a generator of numbers."""

from __future__ import annotations

import bz2
import gzip
import lzma
import random
from typing import Callable, List, Sequence

# numbers that are at an edge of some reader
NUMBERS = (
    b"0",
    b"-0",
    b"1e400",
    b"1e-320",
    b"-1e99999",
    b"9" * 40,
    b"9" * 5000,
    b"0." + b"3" * 400,
    b"1/0",
    b"2147483648",
    b"18446744073709551616",
    b"nan",
    b"inf",
    b"1_0",
    b"0x10",
    "\u0663".encode(),
)
# pieces of texts that stand where they should not
PIECES = (
    b"\n",
    b"\n" * 300,
    b"\0",
    b"\xff\xfe",
    b"\xef\xbb\xbf",
    b" " * 300,
    b"#",
    b"/**/" * 30,
    b"\r\n",
    b"optimal 99\n",
    b"\x1b[2K",
    "\u202e".encode(),
    b"x" * 70_000,
)
PACKINGS: Sequence[Callable[[bytes], bytes]] = (gzip.compress, bz2.compress, lzma.compress)
LONGEST = 1 << 20  # bytes of a text that is changed further
Mutation = Callable[[random.Random, bytes], bytes]


def _cut(chance: random.Random, text: bytes) -> bytes:
    """Without its end."""
    return text[: chance.randrange(len(text) + 1)]


def _without_lines(chance: random.Random, text: bytes) -> bytes:
    """Without some of its lines."""
    lines = text.split(b"\n")
    at = chance.randrange(len(lines))
    del lines[at : at + chance.randrange(1, 4)]
    return b"\n".join(lines)


def _with_line_again(chance: random.Random, text: bytes) -> bytes:
    """With one of its lines at another place, once or many times."""
    lines = text.split(b"\n")
    line = chance.choice(lines)
    lines[chance.randrange(len(lines)) : 0] = [line] * chance.choice((1, 2, 200))
    return b"\n".join(lines)


def _swapped(chance: random.Random, text: bytes) -> bytes:
    """With two lines in each other's place."""
    lines = text.split(b"\n")
    one, other = chance.randrange(len(lines)), chance.randrange(len(lines))
    lines[one], lines[other] = lines[other], lines[one]
    return b"\n".join(lines)


def _with_number(chance: random.Random, text: bytes) -> bytes:
    """With another number in place of a word."""
    words = text.split(b" ")
    at = chance.randrange(len(words))
    end = b"\n" + words[at].partition(b"\n")[2] if b"\n" in words[at] else b""
    words[at] = chance.choice(NUMBERS) + end
    return b" ".join(words)


def _with_digits(chance: random.Random, text: bytes) -> bytes:
    """With another number in place of a digit."""
    places = [at for at, byte in enumerate(text[:LONGEST]) if byte in b"0123456789"]
    if not places:
        return text
    at = chance.choice(places)
    return text[:at] + chance.choice(NUMBERS) + text[at + 1 :]


def _with_piece(chance: random.Random, text: bytes) -> bytes:
    """With something in between."""
    at = chance.randrange(len(text) + 1)
    return text[:at] + chance.choice(PIECES) + text[at:]


def _with_byte(chance: random.Random, text: bytes) -> bytes:
    """With another byte in place of one."""
    at = chance.randrange(len(text) + 1)
    return text[:at] + bytes([chance.randrange(256)]) + text[at + 1 :]


MUTATIONS: Sequence[Mutation] = (
    _cut,
    _without_lines,
    _with_line_again,
    _swapped,
    _with_number,
    _with_digits,
    _with_piece,
    _with_byte,
)


def mutated(chance: random.Random, text: bytes) -> bytes:
    """A text with a few changes; sometimes none."""
    for _ in range(chance.choice((0, 1, 1, 2, 3, 6))):
        if len(text) < LONGEST:
            text = chance.choice(MUTATIONS)(chance, text)
    return text


def _value_changed(chance: random.Random, line: bytes) -> bytes:
    """A line whose last word is another number, where it was one."""
    front, blank, word = line.rpartition(b" ")
    is_number = word[:1] in b"-.0123456789" if word else False
    if not blank and line[:1] == b"n":
        return b"n" + chance.choice(NUMBERS)
    return front + blank + chance.choice(NUMBERS) if blank and is_number else line


def gently_mutated(chance: random.Random, text: bytes, head_lines: int) -> bytes:
    """A text that is mostly still a model: with other values, and lines that say nothing.

    Args:
        chance: Chooses.
        text: Of a model.
        head_lines: In which no value is changed.
    """
    lines = text.split(b"\n")
    for _ in range(chance.choice((1, 1, 2, 4))):
        at = chance.randrange(len(lines))
        if chance.random() < 0.4:
            lines[at:at] = [chance.choice((b"", b"  ", b"\t", b"# said", b"*"))]
        elif at >= head_lines:
            lines[at] = _value_changed(chance, lines[at])
    return b"\n".join(lines)


def packed(chance: random.Random, text: bytes) -> bytes:
    """A text that is packed, sometimes twice or with a change of the packed bytes."""
    text = chance.choice(PACKINGS)(text)
    if chance.random() < 0.2:
        text = chance.choice(PACKINGS)(text)
    return mutated(chance, text) if chance.random() < 0.5 else text


def names(chance: random.Random, count: int) -> bytes:
    """A list of names, of which some are the same, empty, or not to be seen."""
    choices: List[bytes] = [
        b"",
        b"a",
        b"a",
        b"x1",
        *(b"optimal", b"not proved: x", b"unbounded") * 5,
    ]
    choices += [*PIECES, *NUMBERS]
    return b"\n".join(chance.choice(choices) for _ in range(chance.randrange(count + 3)))
