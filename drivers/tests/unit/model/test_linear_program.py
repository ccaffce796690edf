"""A linear program of an MPS text: names, doubles, bounds, notes."""

from __future__ import annotations

import math
from fractions import Fraction
from pathlib import Path
from typing import Callable, List, Optional, Sequence, Tuple

import pytest
from hypothesis import given
from hypothesis import strategies as st

from bridge_drivers.model.linear_program import LinearProgram, ObjectiveTerms
from builders.plain_mps import Plain, random_text

Pair = Tuple[Optional[Fraction], Optional[Fraction]]  # a lower and an upper bound
Entry = Tuple[Tuple[str, str], Fraction]  # a row and a column by name, and a coefficient

DATA = Path(__file__).parents[2] / "data" / "mps"
BOUNDED = (
    b"NAME nl\nROWS\n N obj\n G c0\nCOLUMNS\n M0 'MARKER' 'INTORG'\n x0 obj 1\n x0 c0 1\n"
    b" M1 'MARKER' 'INTEND'\n x1 obj 1\nRHS\nBOUNDS\n LO BND x0 %s\n UP BND x0 %s\n"
    b" UP BND x1 2.5\nENDATA\n"
)


def read(name: str) -> LinearProgram:
    return LinearProgram.of((DATA / name).read_bytes())


def test_a_program() -> None:
    p = read("epigraph-column.mps")
    assert (p.names.rows, p.names.columns) == (["c0"], ["x0", "x1", "x2", "z"])
    assert (p.m, p.n, p.integer_count, p.is_integer) == (1, 4, 2, [False, True, True, False])
    assert p.names.has_epigraph_column
    assert p.maximise
    assert p.cost_texts == {0: b"2", 2: b"5"}
    assert p.objective_rhs == "-3"
    assert p.objective_terms([1, 9, 0.5, 9]).value == 7.5


def test_a_program_without_columns() -> None:
    p = LinearProgram.of(b"NAME nl\nROWS\n N obj\nCOLUMNS\nRHS\nENDATA\n")
    assert (p.m, p.n, p.integer_count) == (0, 0, 0)
    assert not p.has_objective()
    assert p.objective_terms([]).value == 0.0
    assert p.matrix.activities_in_doubles([]) == []


@pytest.mark.parametrize("seed", range(100))
def test_doubles_are_the_nearest(seed: int) -> None:
    """Of each number of a text; bounds that are not there are infinite."""
    text = random_text(seed)
    plain, p = Plain(text), LinearProgram.of_named(text)

    def doubles(pairs: Sequence[Pair], at: int) -> List[float]:
        none = (-math.inf, math.inf)[at]
        ends = [pair[at] for pair in pairs]
        return [none if end is None else float(end) for end in ends]

    bounds, sides = list(plain.bounds().values()), list(plain.sides().values())
    assert p.lower == doubles(bounds, 0)
    assert p.upper == doubles(bounds, 1)
    assert p.row_lower == doubles(sides, 0)
    assert p.row_upper == doubles(sides, 1)
    names = list(plain.ends)
    rows = [[(names[j], a) for j, a in row] for row in p.matrix.rows]
    assert rows == [
        [
            (x, float(a))
            for (i, x), a in sorted(plain.entries.items(), key=_place(names))
            if i == row and a
        ]
        for row in plain.constraints()
    ]
    columns, values = p.costs
    assert {names[j]: v for j, v in zip(columns, values)} == {
        x: float(a) for (i, x), a in plain.entries.items() if i == plain.objective() and a
    }


def _place(names: List[str]) -> Callable[[Entry], int]:
    """The place of an entry's column among the names of all columns."""
    return lambda entry: names.index(entry[0][1])


def test_names_of_a_file() -> None:
    p = LinearProgram.of_named((DATA / "named.mps").read_bytes())
    assert p.text == (DATA / "named-exported.mps").read_bytes()
    assert not p.is_exported
    assert (p.own_names.row(1), p.own_names.column(4)) == ("l", "f")
    assert p.own_names.objective(0) == "objective 0 (cost)"


def test_notes_on_what_other_readers_take_otherwise() -> None:
    assert LinearProgram.of_named((DATA / "notes.mps").read_bytes()).notes == [
        "whole columns without bounds go from 0 on: a, e, f and 1 more; cbc and glpsol, where they "
        "read the file, take 0 and 1 for their bounds",
        "columns with an upper bound below 0 and no lower one have no lower end: x",
    ]
    assert LinearProgram.of_named((DATA / "named.mps").read_bytes()).notes != []


def test_nothing_but_an_objective() -> None:
    p = LinearProgram.of_named(b"ROWS\n N o\nCOLUMNS\nRHS\n RHS o 0\nENDATA\n")
    assert (p.n, p.m, p.objective_rhs, p.has_objective()) == (0, 0, "0", False)


def test_names_that_look_like_other_words() -> None:
    p = LinearProgram.of_named(
        "ROWS\n N 'MARKER'\n L a\u00a0b\nCOLUMNS\n 'MARKER' 'MARKER' 2\n"
        " 'MARKER' a\u00a0b 3\nRHS\nENDATA\n".encode()
    )
    assert (p.cost_texts, p.own_names.row(0)) == ({0: b"2"}, "a\u00a0b")


@pytest.mark.parametrize("size, count", [(1e20, 4), (1e21, 2), (1e25, 2), (1e30, 1), (1e31, 0)])
def test_huge_numbers(size: float, count: int) -> None:
    assert read("huge.mps").count_of_huge(size) == count


@pytest.mark.parametrize(
    "lower, upper, rounded",
    [
        (b"0.5", b"2.5", (b"1", b"2")),
        (b"-0.5", b"-0.25", (b"0", b"-1")),
        (b"1e1", b"12", (b"10", b"12")),
        (b"-1e400", b"1e30", (b"-1" + b"0" * 400, b"1" + b"0" * 30)),
    ],
)
def test_rounded_bounds(lower: bytes, upper: bytes, rounded: Tuple[bytes, bytes]) -> None:
    """Those of integer columns alone; the numbers of the program stay."""
    p = LinearProgram.of(BOUNDED % (lower, upper))
    other = p.with_rounded_bounds()
    assert other.text == BOUNDED % rounded
    assert other.written is p.written


def test_whole_bounds_stay() -> None:
    p = LinearProgram.of(BOUNDED % (b"1", b"2"))
    assert p.with_rounded_bounds() is p


@given(st.fractions(-9, 9, max_denominator=8), st.fractions(-9, 9, max_denominator=8))
def test_an_empty_domain(lower: Fraction, upper: Fraction) -> None:
    p = LinearProgram.of(BOUNDED % (b"%.6f" % float(lower), b"%.6f" % float(upper)))
    low, high = Fraction(f"{float(lower):.6f}"), Fraction(f"{float(upper):.6f}")
    has_point = any(low <= v <= high for v in range(-10, 11))
    assert p.has_empty_domain() is not has_point


def test_terms_of_an_objective() -> None:
    terms = ObjectiveTerms(-3.0, [1e30, 2.0, -1e30])
    assert (terms.value, terms.largest, terms.total) == (-1.0, 1e30, 2e30)
