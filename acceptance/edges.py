#!/usr/bin/env python3
"""Runs two builds of the program on generated texts of MPS readers, and compares what they write, what they tell and the status.

    edges.py PROGRAM OTHER [COUNT [SEED]]

The texts have what readers take in different ways: names of lengths around 8 and 16 bytes and at the limit of 255, names
that begin alike or differ by one byte, bytes that no name may have, the word of a marker line as a name, CR, blanks, tabs,
comments, empty lines, lines around 65,536 bytes, and a piece of input that ends at each byte of a line. Text number N of
a seed is always the same. The last line is `N texts, M differ, K accepted`; the status is 0 where none differs.
"""
from __future__ import annotations

import random
import subprocess
import sys
import tempfile
from collections.abc import Callable
from dataclasses import dataclass, field
from pathlib import Path

sys.path.append(str(Path(__file__).resolve().parents[1] / "dev"))
from shared import asked  # noqa: E402

COUNT, SEED = 20_000, 1
PIECE = 65_536  # bytes that the program asks for at once
LENGTHS = (1, 2, 6, 7, 8, 9, 10, 15, 16, 17, 18, 30, 254, 255, 256)
ODD_BYTES = (0, 1, 9, 13, 32, 33, 35, 36, 48, 57, 127, 128, 255)
LETTERS = b"abcdefghijklmnopqrstuvwxyzABCDEF0123456789_.[],"
ROW_KINDS = (b"L", b"G", b"E") * 9 + (b"N",)
KINDS = (b"UP", b"LO", b"FX", b"FR", b"MI", b"PL", b"BV", b"LI", b"UI") * 9 + (b"SC",)
NUMBERS = (b"1", b"2.5", b"0.125", b"3e2", b"1e-3", b"7", b"100", b"12.75", b"4", b"9")
ODD_NUMBERS = (b"-1", b"+7", b"0", b".5", b"6.", b"x", b"1e99", b"00012", b"12345678901234567890")
EXTRAS: list[list[bytes]] = [[], [b"\n"], [b"* note\n"], [b"\r\n", b"*\n", b"  \n"]]
SET_NAMES: list[list[bytes]] = [[b"BND"], [b"B" * 8], []]
CERTIFICATE = b"certificate 1\nfeasible 0\npoint 0\n"
MARKER = b"'MARKER'"


def number(rnd: random.Random) -> bytes:
    """A number, now and then one that readers take otherwise or refuse."""
    return rnd.choice(ODD_NUMBERS if rnd.random() < 0.01 else NUMBERS)


def numbered(rnd: random.Random, length: int, first: bytes, index: int) -> bytes:
    """A name of a prefix and a number, padded to a length."""
    digits = b"%d" % index
    return first + b"0" * (length - len(first) - len(digits)) + digits


def drawn(rnd: random.Random, length: int, first: bytes, index: int) -> bytes:
    """A name of letters drawn at random."""
    return (first + bytes(rnd.choices(LETTERS, k=length)))[:length]


def alike(rnd: random.Random, length: int, first: bytes, index: int) -> bytes:
    """A name that differs from its neighbours in few bytes alone."""
    name = bytearray(b"Q" * length)
    name[rnd.randrange(length)] = rnd.choice(b"RSTUV019")
    return bytes(name)


def digits(rnd: random.Random, length: int, first: bytes, index: int) -> bytes:
    """A name of digits alone."""
    return b"%0*d" % (length, index)


STYLES: tuple[Callable[[random.Random, int, bytes, int], bytes], ...] = (
    numbered,
    drawn,
    alike,
    digits,
)


def with_odd_byte(rnd: random.Random, name: bytes) -> bytes:
    """The name with one byte replaced, put in front or behind."""
    odd = bytes([rnd.choice(ODD_BYTES)])
    at = rnd.choice((0, len(name) - 1, rnd.randrange(len(name))))
    return rnd.choice((name[:at] + odd + name[at + 1 :], odd + name, name + odd))


def names(rnd: random.Random, count: int, first: bytes) -> list[bytes]:
    """Names of one or several lengths and styles, in some order."""
    lengths = rnd.choices(LENGTHS[:-1], k=rnd.choice((1, 1, 2, 4)))
    styles = rnd.choices(STYLES, k=rnd.choice((1, 1, 2)))
    start = rnd.choice((0, 1, 8, 95, 998, 99_999_990))
    drawn_names = (
        rnd.choice(styles)(rnd, rnd.choice(lengths), first, start + i) for i in range(count)
    )
    made = [*dict.fromkeys(drawn_names)]
    count = len(made)
    if rnd.random() < 0.1:
        made[rnd.randrange(count)] = rnd.choice(
            (MARKER, b"OBJ", b"RHS", b"x" * LENGTHS[-1], made[0], b"$", b"*a", b"#a", b"5")
        )
    if rnd.random() < 0.2:
        rnd.shuffle(made)
    return made


@dataclass
class Layout:
    """How the lines of a text are written."""

    between: bytes = b" "
    before: bytes = b" "
    end: bytes = b"\n"
    two_pairs: bool = False
    extras: list[bytes] = field(default_factory=list)

    def line(self, rnd: random.Random, *words: bytes) -> bytes:
        """A data line of these words, at times with something else before it."""
        extra = rnd.choice(self.extras) if self.extras and rnd.random() < 0.1 else b""
        return extra + self.before + self.between.join(words) + self.end


def layout(rnd: random.Random) -> Layout:
    """A plain layout, or one that readers take by another way."""
    if rnd.random() < 0.4:
        return Layout()
    return Layout(
        between=rnd.choice((b" ", b"  ", b"\t", b" \t ", b"     ")),
        before=rnd.choice((b" ", b"  ", b"\t", b"    ")),
        end=rnd.choice((b"\n", b"\n", b"\r\n", b" \n", b"\t\n", b"\r\r\n")),
        two_pairs=rnd.random() < 0.2,
        extras=rnd.choice(EXTRAS),
    )


def pair_lines(
    rnd: random.Random, form: Layout, head: bytes, pairs: list[tuple[bytes, bytes]]
) -> bytes:
    """The data lines of a head and pairs of a name and a number."""
    step = 2 if form.two_pairs else 1
    groups = [pairs[at : at + step] for at in range(0, len(pairs), step)]
    return b"".join(
        form.line(rnd, head, *(word for pair in group for word in pair)) for group in groups
    )


def marker(rnd: random.Random, form: Layout, place: int, word: bytes) -> bytes:
    """A marker line, now and then with another word at its end."""
    end = rnd.choice((b"5", b"'INTORG'")) if rnd.random() < 0.05 else word
    return form.line(rnd, b"M%d" % place, MARKER, end)


def columns_section(
    rnd: random.Random, form: Layout, rows: list[bytes], columns: list[bytes]
) -> bytes:
    """The section COLUMNS, some columns between markers."""
    lines, is_marked = [b"COLUMNS\n"], False
    for place, column in enumerate(columns):
        if rnd.random() < 0.1:
            is_marked = not is_marked
            lines.append(marker(rnd, form, place, b"'INTORG'" if is_marked else b"'INTEND'"))
        chosen = rnd.sample(rows, rnd.randint(1, min(4, len(rows))))
        lines.append(pair_lines(rnd, form, column, [(row, number(rnd)) for row in chosen]))
    if is_marked:
        lines.append(form.line(rnd, b"M", MARKER, b"'INTEND'"))
    return b"".join(lines)


def bounds_section(rnd: random.Random, form: Layout, columns: list[bytes]) -> bytes:
    """The section BOUNDS on some columns."""
    lines = [b"BOUNDS\n"]
    set_name = rnd.choice(SET_NAMES)
    for column in rnd.sample(columns, rnd.randint(1, len(columns))):
        kind = rnd.choice(KINDS)
        has_number = kind not in (b"FR", b"MI", b"PL", b"BV") or rnd.random() < 0.02
        words = [number(rnd)] if has_number else []
        lines.append(form.line(rnd, kind, *set_name, column, *words))
    return b"".join(lines)


def free_text(rnd: random.Random) -> bytes:
    """An MPS text whose words are apart by blanks."""
    form = layout(rnd)
    rows, columns = names(rnd, rnd.randint(1, 40), b"R"), names(rnd, rnd.randint(1, 40), b"C")
    parts = [
        b"NAME x FREE\n" if rnd.random() < 0.8 else b"NAME x\n",
        b"ROWS\n",
        form.line(rnd, b"N", b"OBJ"),
    ]
    parts += [form.line(rnd, rnd.choice(ROW_KINDS), row) for row in rows]
    parts.append(columns_section(rnd, form, [b"OBJ", *rows], columns))
    for section in (b"RHS", b"RANGES"):
        if rnd.random() < 0.6:
            chosen = rnd.sample(rows, rnd.randint(1, len(rows)))
            pairs = [(row, number(rnd)) for row in chosen]
            parts += [
                section + b"\n",
                pair_lines(rnd, form, rnd.choice((section, b"S" * 8)), pairs),
            ]
    if rnd.random() < 0.7:
        parts.append(bounds_section(rnd, form, columns))
    return b"".join([*parts, b"ENDATA\n"])


def fixed_line(*fields: bytes) -> bytes:
    """A line whose fields begin at columns 2, 5, 15, 25, 40 and 50."""
    line = bytearray(b" " * 61)
    for word, start in zip(fields, (1, 4, 14, 24, 39, 49)):
        line[start : start + len(word)] = word
    return bytes(line).rstrip(b" ") + b"\n"


def fixed_text(rnd: random.Random) -> bytes:
    """An MPS text whose words stand in columns."""
    rows, columns = (
        [name[:8] for name in names(rnd, rnd.randint(1, 20), first)] for first in (b"R", b"C")
    )
    lines = [b"NAME          x\n", b"ROWS\n", fixed_line(b"N", b"OBJ")]
    lines += [fixed_line(rnd.choice(ROW_KINDS), row) for row in rows] + [b"COLUMNS\n"]
    for column in columns:
        for row in rnd.sample(rows, rnd.randint(1, min(3, len(rows)))):
            lines.append(fixed_line(b"", column, row, number(rnd)))
    lines += [b"RHS\n", *(fixed_line(b"", b"RHS", row, b"4") for row in rows), b"BOUNDS\n"]
    lines += [fixed_line(b"UP", b"BND", column, b"9") for column in columns]
    return b"".join([*lines, b"ENDATA\n"])


def changed(rnd: random.Random, text: bytes) -> bytes:
    """The text with a byte replaced, put in, taken out, or a line twice, away or cut."""
    at = rnd.randrange(len(text))
    odd = bytes([rnd.choice((*ODD_BYTES, 10))])
    lines = text.splitlines(keepends=True)
    line = rnd.randrange(len(lines))
    word = rnd.choice(text.split() or [b"x"])
    changes: list[Callable[[], bytes]] = [
        lambda: text[:at] + odd + text[at + 1 :],
        lambda: text[:at] + odd + text[at:],
        lambda: text[:at] + text[at + 1 :],
        lambda: text[:at],
        lambda: b"".join(lines[: line + 1] + lines[line:]),
        lambda: b"".join(lines[:line] + lines[line + 1 :]),
        lambda: text.replace(word, with_odd_byte(rnd, word), rnd.choice((1, -1))),
        lambda: text.replace(word, rnd.choice((MARKER, word[:8], word[:16], word + b"0"))),
    ]
    return rnd.choice(changes)()


def moved(rnd: random.Random, text: bytes) -> bytes:
    """The text behind comments, so that a piece of input ends at some byte of it."""
    at = rnd.randrange(min(len(text), PIECE))
    wanted = PIECE - at
    longest = rnd.choice((70, 700, 65_535, 65_536, 65_537))
    lines = []
    while wanted > 0:
        size = min(wanted, longest + 1)
        size -= 1 if wanted - size == 1 else 0
        lines.append(b"*" * (size - 1) + b"\n")
        wanted -= size
    return b"".join(lines) + text


def with_long_line(rnd: random.Random, text: bytes) -> bytes:
    """The text with a line that is made about 65,536 bytes long by blanks or a comment."""
    lines = text.splitlines(keepends=True)
    at = rnd.randrange(len(lines))
    body = lines[at].rstrip(b"\n")
    size = PIECE + rnd.choice((-1, 0, 1)) - len(body)
    lines[at] = body + rnd.choice((b" ", b"\t", b" $", b"0")) * 1 + b" " * max(size - 1, 0) + b"\n"
    return b"".join(lines)


def text_of(rnd: random.Random, is_fixed: bool) -> bytes:
    """A generated text, most with some changes."""
    text = fixed_text(rnd) if is_fixed else free_text(rnd)
    for _ in range(rnd.choice((0, 0, 0, 0, 1, 1, 2))):
        text = changed(rnd, text) or text
    if rnd.random() < 0.2:
        text = moved(rnd, text)
    if rnd.random() < 0.05:
        text = with_long_line(rnd, text)
    return text


def command(rnd: random.Random, is_fixed: bool, text: str, certificate: str) -> list[str]:
    """The words of a run on a text."""
    if is_fixed:
        return rnd.choice((["fixed", text], ["verify_fixed", text, certificate]))
    words = rnd.choice((["mps", text], ["import", text], ["verify_mps", text, certificate]))
    return ["fixed", text] if rnd.random() < 0.1 else words


def answer(program: str, words: list[str]) -> tuple[int, bytes, bytes]:
    """The status of a run, what it wrote and what it told."""
    done = subprocess.run([program, *words], capture_output=True, stdin=subprocess.DEVNULL)
    return done.returncode, done.stdout, done.stderr


def compared(programs: tuple[str, str], count: int, seed: int, folder: Path) -> tuple[int, int]:
    """How many texts are answered in two ways, which are printed and kept, and how many are accepted."""
    text, certificate = folder / "text", folder / "certificate"
    certificate.write_bytes(CERTIFICATE)
    differ = accepted = 0
    for number in range(count):
        rnd = random.Random(f"{seed} {number}")
        is_fixed = rnd.random() < 0.2
        text.write_bytes(text_of(rnd, is_fixed))
        words = command(rnd, is_fixed, str(text), str(certificate))
        first, second = (answer(program, words) for program in programs)
        accepted += first[0] in (0, 1)
        if first != second:
            differ += 1
            kept = f"edges.{seed}.{number}.mps"
            Path(kept).write_bytes(text.read_bytes())
            print(
                f"{words[0]} {kept}: {first[0]} {first[2]!r}, {second[0]} {second[2]!r}", flush=True
            )
    return differ, accepted


def main(words: list[str]) -> int:
    count, seed = (int(word) for word in (words[2:] + [str(COUNT), str(SEED)][len(words) - 2 :]))
    programs = (str(Path(words[0]).resolve()), str(Path(words[1]).resolve()))
    with tempfile.TemporaryDirectory() as folder:
        differ, accepted = compared(programs, count, seed, Path(folder))
    print(f"{count} texts, {differ} differ, {accepted} accepted")
    return 1 if differ else 0


if __name__ == "__main__":
    sys.exit(main(asked(__doc__, least=2, most=4)))
