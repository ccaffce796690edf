"""Each repair of a layout that has one meaning: what it makes of generated texts, and in what time."""

from __future__ import annotations

from typing import Callable, List, Tuple

import pytest
from hypothesis import given
from hypothesis import strategies as st

from bridge_drivers.formats.mps import MpsColumns, read_mps
from bridge_drivers.formats.mps_repair import repair_mps
from timing import assert_linear

CHANGED = "what is judged is the text with these changes"
Table = List[Tuple[int, int, int]]  # column, row and number of each entry, by column


@st.composite
def tables(draw: st.DrawFn) -> Table:
    """Entries of two to five columns in up to four rows."""
    found = []
    for column in range(draw(st.integers(2, 5))):
        rows = draw(st.lists(st.integers(0, 3), min_size=1, max_size=4, unique=True))
        found += [(column, row, draw(st.integers(1, 99))) for row in rows]
    return found


def fixed(name: str, pairs: List[str]) -> str:
    """A line in fixed columns, with one or two pairs of a row and a number."""
    return f"    {name:<10}" + "   ".join(pairs)


def text_of(
    lines: List[str], rows: List[str], bounds: List[str], head: str = "NAME      p"
) -> bytes:
    return "\n".join(
        [head, "ROWS", " N  COST", *rows, "COLUMNS", *lines, "RHS"]
        + ["    RHS       R0               4.0", "BOUNDS", *bounds, "ENDATA", ""]
    ).encode()


ROWS = [f" L  R{k}" for k in range(4)]


def plain_lines(table: Table) -> List[str]:
    return [fixed(f"X{column}", [f"R{row:<7}  {number:>12}"]) for column, row, number in table]


def plain_text(table: Table) -> bytes:
    return text_of(plain_lines(table), ROWS, [])


def words_of(text: bytes) -> List[List[bytes]]:
    return [line.split() for line in text.split(b"\n")]


@given(tables(), st.sampled_from(["$", "$ pounds of zinc", "$x $ y", "$ N 3 $"]), st.booleans())
def test_comments(table: Table, comment: str, is_dos: bool) -> None:
    """Behind whole lines of ROWS, COLUMNS and BOUNDS."""
    lines = [f"{line}   {comment}" for line in plain_lines(table)]
    given_text = text_of(lines, [f"{row}  {comment}" for row in ROWS], [f" UP BND X0 3 {comment}"])
    plain = text_of(plain_lines(table), ROWS, [" UP BND X0 3"])
    if is_dos:
        given_text, plain = (t.replace(b"\n", b"\r\n") for t in (given_text, plain))
    got, notes = repair_mps(given_text)
    assert words_of(got) == words_of(plain)
    assert got.count(b"\r") == plain.count(b"\r")
    count = len(table) + len(ROWS) + 1
    assert notes == [f"comments behind `$` are left out, in {count} lines", CHANGED]


def test_names_that_begin_as_comments_do() -> None:
    """A row of such a name is a row; a line that a comment would leave too short stays."""
    lines = [fixed("X0", ["$R0             5", "$R1             6"]), fixed("X1", ["$R1   7"])]
    given_text = text_of(lines, [" L  $R0", " L  $R1"], [" UP BND $R0 3"])
    assert repair_mps(given_text) == (given_text, [])


@given(tables())
def test_blank_names(table: Table) -> None:
    """Where a column goes on, its name may be blank."""
    last, lines = -1, []
    for column, row, number in table:
        name = f"X{column}" if column != last else ""
        lines.append(fixed(name, [f"R{row:<7}  {number:>12}"]))
        last = column
    got, notes = repair_mps(text_of(lines, ROWS, []))
    assert got == plain_text(table)
    count = len(table) - len({column for column, _, _ in table})
    lines_have = "1 line has" if count == 1 else f"{count} lines have"
    told = f"{lines_have} a blank where a name stands: that of the line before is read"
    assert notes == ([told, CHANGED] if count else [])


def test_a_long_name_and_a_set() -> None:
    """A name without room in its field is put in front; a set of right-hand sides goes on, too."""
    lines = ["    LONGER_NAME  R0  5  R1  6", " " * 14 + "R2        7"]
    text = text_of(lines, ROWS, []).replace(
        b"BOUNDS", b" " * 14 + b"R1        9\n" + b" " * 14 + b"R2        8\nBOUNDS"
    )
    got, notes = repair_mps(text)
    assert b"\n LONGER_NAME R2        7\n" in got
    assert b"\n    RHS       R1        9\n    RHS       R2        8\n" in got
    assert notes[0].startswith("3 lines have a blank")


@given(st.lists(st.sampled_from(["UP", "LO", "FR", "MI"]), min_size=1, max_size=5))
def test_blank_sets(kinds: List[str]) -> None:
    """In BOUNDS, where a line before names the set."""

    def line(kind: str, name: str) -> str:
        return f" {kind} {name:<10}X0" + ("        3" if kind in ("UP", "LO") else "")

    first = " UP BND1      X9        3"
    got, notes = repair_mps(text_of([], ROWS, [first, *(line(kind, "") for kind in kinds)]))
    assert got == text_of([], ROWS, [first, *(line(kind, "BND1") for kind in kinds)])
    have = "1 line of BOUNDS has" if len(kinds) == 1 else f"{len(kinds)} lines of BOUNDS have"
    told = f"{have} a blank where the set stands: that of the line before is read"
    assert notes == [told, CHANGED]
    unnamed = text_of([], ROWS, [line(kind, "") for kind in kinds])
    assert repair_mps(unnamed) == (unnamed, [])


@pytest.mark.parametrize(
    "head, left",
    [
        ("NAME      p\nNAME      q", "NAME      p"),
        ("NAME\nNAME      p", "NAME"),
        ("NAME      p\n* comment\nNAME      p", "NAME      p\n* comment"),
    ],
)
def test_name_twice(head: str, left: str) -> None:
    got, notes = repair_mps(text_of([], ROWS, [], head))
    assert notes == ["NAME stands twice: the second is left out", CHANGED]
    if "*" not in left:
        assert got == text_of([], ROWS, [], left)
    assert got.count(b"NAME") == 1


def test_name_behind_the_end() -> None:
    """What stands behind it is not lost: it is a section that is read, or refused by its name."""
    text = text_of([], ROWS, []) + b"NAME      p\nQUADOBJ\n    X0  X0  1\nENDATA\n"
    got, notes = repair_mps(text)
    assert got == text_of([], ROWS, []).replace(b"ENDATA\n", b"QUADOBJ\n    X0  X0  1\nENDATA\n")
    assert notes[0] == "NAME stands twice: the second is left out"


@given(st.lists(st.sampled_from("abcd"), max_size=4, unique=True), st.sampled_from([" BND", ""]))
def test_no_end_and_then_an_end(columns: List[str], label: str) -> None:
    """PL before UP says nothing; PL behind UP stays, for the proved program to refuse."""
    ends = [f" UP{label} {name} 3" for name in columns]
    bounds = [f" PL{label} {name}" for name in columns]
    got, notes = repair_mps(text_of([], ROWS, [*bounds, *ends]))
    assert got == text_of([], ROWS, ends)
    have = "1 column has" if len(columns) == 1 else f"{len(columns)} columns have"
    assert notes == ([f"{have} PL and then UP: PL is left out", CHANGED] if columns else [])
    reverse = text_of([], ROWS, [*ends, *bounds])
    assert repair_mps(reverse) == (reverse, [])


def test_what_is_read_is_the_same() -> None:
    """A repaired text, in the written form, is read as the plain one."""

    def read(bounds: str) -> MpsColumns:
        text = f"NAME p\nROWS\n N o\n L c\nCOLUMNS\n x o 1\n x c 2\nRHS\nBOUNDS\n{bounds}ENDATA\n"
        return read_mps(repair_mps(text.encode()).text)

    assert read(" PL B x\n UP B x 3\n").bounds() == read(" UP B x 3\n").bounds()


def repeated(front: bytes, piece: bytes) -> Callable[[int], bytes]:
    return lambda n: front + piece * n


@pytest.mark.parametrize(
    "front, piece",
    [
        (b"ROWS\n", b" L r $ c\n"),
        (b"COLUMNS\n", b" x r 1 $\n"),
        (b"COLUMNS\n", b"$"),
        (b"COLUMNS\n x r 1\n", b" " * 14 + b"r 1\n"),
        (b"COLUMNS\n x r 1\n", b" " * 14),
        (b"", b"NAME\n"),
        (b"NAME\nENDATA\n", b"NAME\n"),
        (b"BOUNDS\n", b" PL BND x\n UP BND x 1\n"),
        (b"BOUNDS\n PL x\n", b"\n"),
        (b"BOUNDS\n UP B x 3\n", b" UP           x  3\n"),
        (b"ROWS\n", b"ROWS $\n"),
    ],
)
def test_hostile_texts_take_linear_time(front: bytes, piece: bytes) -> None:
    assert_linear(repeated(front, piece), repair_mps, 10_000)
