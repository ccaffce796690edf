"""Names with blanks in fixed columns are written as words, and only where that has one meaning."""

from __future__ import annotations

from typing import List

import pytest
from hypothesis import given
from hypothesis import strategies as st

from bridge_drivers.formats.mps_repair import repair_mps
from bridge_drivers.formats.mps_spaced_names import spaced_names_repair
from timing import assert_linear

NAMES = st.lists(
    st.from_regex(r"[A-Z]( |  )?[A-Z0-9]{1,2} ?[A-Z0-9]{1,2}", fullmatch=True),
    min_size=4,
    max_size=8,
    unique_by=lambda name: name.replace(" ", "_"),
)


def text_of(rows: List[str], columns: List[str], numbers: List[str]) -> bytes:
    """Each column stands in the objective and in one row, with a bound and a right-hand side."""
    lines = ["NAME          A B  (A B1)", "ROWS", " N  COST", *(f" L  {name}" for name in rows)]
    lines.append("COLUMNS")
    for place, (name, number) in enumerate(zip(columns, numbers)):
        row = rows[place % len(rows)]
        lines.append(f"    {name:<8}  {'COST':<8}  {number:>12}   {row:<8}  {number:>12}")
    lines += ["RHS", *(f"    {'RHS 1':<8}  {name:<8}  {'4.5':>12}" for name in rows)]
    lines += ["BOUNDS", *(f" UP {'BND-1':<8}  {name:<8}  {'3.':>12}" for name in columns)]
    return "\n".join([*lines, "ENDATA", ""]).encode()


def as_words(names: List[str]) -> List[str]:
    return [name.replace(" ", "_") for name in names]


@given(NAMES, st.lists(st.sampled_from(["1.", "-.25", "2e3", "17"]), min_size=2, max_size=2))
def test_blanks_within_names(names: List[str], numbers: List[str]) -> None:
    """The text is that with the other names, to the byte but for the set of right-hand sides."""
    rows, columns = [*names[2:], "D 1"], names[:2]
    got, notes = repair_mps(text_of(rows, columns, numbers))
    wanted = text_of(as_words(rows), as_words(columns), numbers).replace(b"RHS 1", b"RHS_1")
    assert got == wanted
    count = sum(" " in name for name in {*rows, *columns, "RHS 1"})
    assert (
        notes[0]
        == f"{count} names with blanks in fixed columns have `_` in the place of each blank"
    )
    assert repair_mps(got).notes == []


@pytest.mark.parametrize(
    "rows",
    [
        ["A B", "A_B"],  # two names would be one
        ["A B", " A B"],  # as above: they differ in the blanks in front of them
        ["A B C DEF", "R1"],  # beyond the field
        ["A\tB", "A C"],  # a tab shifts columns
        ["R1", "R2"],  # no name has a blank
    ],
)
def test_what_stays(rows: List[str]) -> None:
    """No repair is made where it may have two meanings, or there is nothing to repair."""
    text = text_of(rows, ["X1", "X2"], ["1.", "2."]).replace(b"RHS 1", b"RHS-1")
    assert spaced_names_repair(text) is None


def test_no_number_in_its_field() -> None:
    """What stands in the place of a number is a word, so that the file is in other columns."""
    text = text_of(["A B", "R1"], ["X1", "X2"], ["1.", "2."])
    assert spaced_names_repair(text) is not None
    assert spaced_names_repair(text.replace(b"   4.5", b" 4. 5 ", 1)) is None


@pytest.mark.parametrize(
    "front, piece",
    [
        (b"ROWS\n", b" L  A B\n"),
        (b"NAME\nROWS\n L  A B\nCOLUMNS\n", b"    A B       C D  \n"),
        (b"NAME\nROWS\n", b" L  A"),
        (b"NAME\nROWS\n L  ", b"A "),
    ],
)
def test_hostile_texts_take_linear_time(front: bytes, piece: bytes) -> None:
    assert_linear(lambda n: front + piece * n, repair_mps, 10_000)
