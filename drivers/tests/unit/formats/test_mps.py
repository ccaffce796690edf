"""MPS text in its written form, against a reader that goes line by line."""

from __future__ import annotations

from fractions import Fraction
from pathlib import Path
from typing import Dict, Iterator, Tuple
from unittest import mock

import pytest

from bridge_drivers.formats import mps
from bridge_drivers.formats.mps import (
    EXTRA_OBJECTIVE,
    OBJECTIVE,
    MpsColumns,
    canonical,
    read_mps,
    write_mps,
)
from builders.plain_mps import Plain, random_text
from timing import assert_linear

DATA = Path(__file__).parents[2] / "data" / "mps"
SEEDS = range(150)
HEAD = b"NAME nl\nROWS\n N obj\n L c0\nCOLUMNS\n x0 obj 1\n x0 c0 1\nRHS\n"


def entries_of(read: MpsColumns) -> Dict[Tuple[str, str], Fraction]:
    """By the names of row and column, without those of other N rows."""
    rows = {place: name.decode() for place, name in enumerate(read.rows)}
    rows[OBJECTIVE] = read.objective.decode()
    places = zip(read.entry_rows, read.entry_columns, read.entry_numbers)
    return {
        (rows[row], read.columns[column].decode()): Fraction(read.numbers[number].decode())
        for row, column, number in places
        if row != EXTRA_OBJECTIVE
    }


def check_against_plain(text: bytes) -> None:
    plain, read = Plain(text), read_mps(text)
    rows = plain.constraints()
    assert [name.decode() for name in read.rows] == rows
    assert [name.decode() for name in read.columns] == list(plain.ends)
    assert read.maximise == plain.maximise
    assert read.objective.decode() == plain.objective()
    assert read.is_integer == list(plain.whole.values())
    kept = (*rows, plain.objective())
    assert entries_of(read) == {at: a for at, a in plain.entries.items() if at[0] in kept}
    lower, upper, denominator = read.row_bounds()
    pairs = [
        tuple(None if v is None else Fraction(v, denominator) for v in pair)
        for pair in zip(lower, upper)
    ]
    assert pairs == list(plain.sides().values())
    bounds = [
        tuple(Fraction(text.decode()) if text else None for text in pair)
        for pair in zip(*read.bounds())
    ]
    assert bounds == list(plain.bounds().values())


def check_canonical(text: bytes) -> None:
    """It is the same program, in other names and without other N rows."""
    plain = Plain(text)
    own = Plain(write_mps(canonical(read_mps(text))))
    row = {f"c{i}": name for i, name in enumerate(plain.constraints())}
    column = {f"x{j}": name for j, name in enumerate(plain.ends)}
    assert own.maximise == plain.maximise
    assert {row[i]: pair for i, pair in own.sides().items()} == plain.sides()
    assert {column[j]: pair for j, pair in own.bounds().items()} == plain.bounds()
    assert {column[j]: whole for j, whole in own.whole.items()} == plain.whole
    row["obj"] = plain.objective()
    assert own.rhs.get("obj", 0) == plain.rhs.get(plain.objective(), 0)
    found = {(row[i], column[j]): a for (i, j), a in own.entries.items() if a}
    kept = set(row.values())
    assert found == {at: a for at, a in plain.entries.items() if at[0] in kept and a}


@pytest.mark.parametrize("seed", SEEDS)
def test_random_texts(seed: int) -> None:
    check_against_plain(random_text(seed))
    check_canonical(random_text(seed))


@pytest.mark.parametrize("seed", SEEDS)
def test_what_is_written_is_read_back(seed: int) -> None:
    text = write_mps(canonical(read_mps(random_text(seed))))
    again = read_mps(text)
    assert write_mps(canonical(again)) == text
    check_against_plain(text)


@pytest.mark.parametrize("size", [1, 10, 20, 100])
def test_blocks(size: int) -> None:
    """Columns and bounds that go on in the next one, and long lines."""
    name = "a" * 1000
    with mock.patch.object(mps, "BLOCK", size):
        for seed in range(20):
            check_against_plain(random_text(seed))
        check_against_plain(f"ROWS\n N {name}\nCOLUMNS\n x {name} 1\nRHS\nENDATA\n".encode())


def test_all_sections_as_export_writes_them() -> None:
    read = read_mps((DATA / "named.mps").read_bytes())
    assert write_mps(canonical(read)) == (DATA / "named-exported.mps").read_bytes()


def test_names_that_look_like_other_words() -> None:
    """A column 'MARKER', and names with blanks that are none to the proved program."""
    text = (
        "ROWS\n N 'MARKER'\n L a\u00a0b\nCOLUMNS\n 'MARKER' 'MARKER' 2\n 'MARKER' a\u00a0b 3\n"
        "RHS\nENDATA\n"
    ).encode()
    read = read_mps(text)
    assert [name.decode() for name in read.rows] == ["a\u00a0b"]
    assert read.columns == [b"'MARKER'"]
    assert entries_of(read)["'MARKER'", "'MARKER'"] == 2


def test_a_text_without_columns() -> None:
    read = read_mps(b"NAME nl\nROWS\n N obj\nCOLUMNS\nRHS\nENDATA\n")
    assert (read.rows, read.columns, len(read.entry_rows)) == ([], [], 0)


def texts() -> Iterator[Tuple[bytes, bytes]]:
    yield b"", b"\n"
    yield b"", b" "
    yield b"", b"ROWS\n"
    yield b"NAME nl\nROWS\n N obj\n", b" L c\n"
    yield HEAD, b" RHS c0 1\n"
    yield HEAD + b" RHS c0 ", b"9"
    yield HEAD + b"BOUNDS\n", b" UP BND x0 1\n"
    yield HEAD + b"BOUNDS\n", b" FR BND x0\n"
    yield HEAD[:-4], b" x0 c0 1\n"
    yield HEAD[:-4], b" x0 c0 1\n M0 'MARKER' 'INTORG'\n"


@pytest.mark.parametrize("front, piece", texts())
def test_texts_take_linear_time(front: bytes, piece: bytes) -> None:
    def read(text: bytes) -> None:
        try:
            read_mps(text + b"\nENDATA\n").bounds()
        except (ValueError, IndexError, KeyError):
            pass

    assert_linear(lambda n: front + piece * n, read, 20_000)


@pytest.mark.parametrize("kind", [b"rows", b"columns", b"numbers", b"shuffled"])
def test_many_names_take_linear_time(kind: bytes) -> None:
    def made(count: int) -> bytes:
        rows = b"".join(b" L c%d\n" % i for i in range(count))
        columns = b"".join(b" x%d c%d %d\n" % (i, i, i) for i in range(count))
        order = range(count - 1, -1, -1) if kind == b"shuffled" else range(count)
        bounds = b"".join(b" UP BND x%d 1\n" % i for i in order)
        return b"ROWS\n N obj\n%sCOLUMNS\n%sRHS\nBOUNDS\n%sENDATA\n" % (rows, columns, bounds)

    assert_linear(made, lambda text: write_mps(canonical(read_mps(text))), 3_000)
