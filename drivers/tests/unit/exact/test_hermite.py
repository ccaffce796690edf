"""Refutations by one split disjunction are right: checked over all points of small boxes."""

from __future__ import annotations

import itertools
from fractions import Fraction
from typing import Dict, Iterator, List

import pytest
from hypothesis import given
from hypothesis import strategies as st

from bridge_drivers.exact.dual_bound import MultiplierKind, dual_bound
from bridge_drivers.exact.hermite import IntegerRefutation, empty_interval, hermite_refutation
from bridge_drivers.exact.leaf_proofs import from_fractions
from bridge_drivers.model.integer_form import IntegerProgram
from bridge_drivers.model.integer_form import Row as AddedRow
from programs import Column, Row, box_of, program

HALVES = st.integers(-9, 9).map(lambda k: Fraction(k, 2))
COEFFICIENTS = st.sampled_from([Fraction(k, 2) for k in (-6, -4, -3, -2, -1, 1, 2, 3, 4, 6)])


def decimal(value: Fraction) -> str:
    return str(float(value))


@st.composite
def equations(draw: st.DrawFn) -> IntegerProgram:
    """One to three equations of two or three integer columns without bounds."""
    count = draw(st.integers(2, 3))
    rows = []
    for _ in range(draw(st.integers(1, 3))):
        coefficients = {j: decimal(draw(COEFFICIENTS)) for j in range(count)}
        side = decimal(draw(HALVES))
        rows.append(Row(side, side, coefficients))
    return program([Column(None, None, is_integer=True) for _ in range(count)], rows)


@st.composite
def intervals(draw: st.DrawFn) -> IntegerProgram:
    """Rows with one form up to a factor, and bounds."""
    form = {j: draw(st.integers(1, 4)) for j in range(draw(st.integers(1, 2)))}
    rows = []
    for _ in range(draw(st.integers(1, 3))):
        factor = draw(COEFFICIENTS)
        lower = draw(HALVES)
        upper = draw(st.none() | st.sampled_from([lower, lower + 1]))
        ends = (lower, upper) if draw(st.booleans()) else (None, lower)
        least, most = (None if end is None else decimal(end) for end in ends)
        rows.append(Row(least, most, {j: decimal(a * factor) for j, a in form.items()}))
    return program([Column(-3, 3, is_integer=True) for _ in form], rows)


def points(p: IntegerProgram, reach: int) -> Iterator[List[Fraction]]:
    for point in itertools.product(range(-reach, reach + 1), repeat=p.n):
        yield [Fraction(v) for v in point]


def check(p: IntegerProgram, found: IntegerRefutation) -> None:
    """Both branches of the disjunction are contradicted by the multipliers or by bounds."""
    branches = (
        (AddedRow(found.form, None, found.floor), found.lower_multipliers, -1),
        (AddedRow(found.form, found.floor + 1, None), found.upper_multipliers, 1),
    )
    for row, multipliers, sign in branches:
        branch = p.with_rows([row])
        weights: Dict[int, Fraction] = {i: -sign * u for i, u in multipliers.items()}
        weights[p.m] = Fraction(sign)
        farkas = from_fractions(branch, weights, MultiplierKind.FARKAS)
        bound = dual_bound(branch, farkas, box_of(branch))
        assert bound.is_finite and bound.numerator > 0


@given(equations())
def test_equations_that_are_refuted_have_no_integer_solution(p: IntegerProgram) -> None:
    found = hermite_refutation(p)
    if found is not None:
        check(p, found)
        assert not any(p.is_feasible(point) for point in points(p, 4))


@given(st.lists(st.integers(-20, 20).filter(bool), min_size=2, max_size=3), st.integers(-50, 50))
def test_one_equation_is_refuted_where_its_divisor_does_not_divide_its_side(
    numbers: List[int], side: int
) -> None:
    columns = [Column(None, None, is_integer=True) for _ in numbers]
    p = program(columns, [Row(side, side, dict(enumerate(numbers)))])
    common = abs(numbers[0])
    for number in numbers[1:]:
        common = next(d for d in range(common, 0, -1) if common % d == 0 and number % d == 0)
    assert (hermite_refutation(p) is None) == (side % common == 0)


def test_an_equation_by_hand() -> None:
    """12 x + 21 y + 33 z = 500: a third of it has whole coefficients, and 500 / 3 is not whole."""
    columns = [Column(is_integer=True) for _ in range(3)]
    found = hermite_refutation(program(columns, [Row(500, 500, {0: 12, 1: 21, 2: 33})]))
    third = {0: Fraction(1, 3)}
    assert found == IntegerRefutation({0: 4, 1: 7, 2: 11}, 166, third, third)


def test_two_equations_together() -> None:
    """Each of 2 x + 4 y = 6 and x / 2 - y = 1 / 2 has integer solutions."""
    columns = [Column(is_integer=True) for _ in range(2)]
    rows = [Row(6, 6, {0: 2, 1: 4}), Row("0.5", "0.5", {0: "0.5", 1: -1})]
    found = hermite_refutation(program(columns, rows))
    assert found is not None
    check(program(columns, rows), found)
    for row in rows:
        assert hermite_refutation(program(columns, [row])) is None


@given(intervals())
def test_intervals_that_are_refuted_are_empty(p: IntegerProgram) -> None:
    found = empty_interval(p)
    if found is not None:
        check(p, found)
        assert not any(p.is_feasible(point) for point in points(p, 3))


@pytest.mark.parametrize(
    "columns, rows, form, floor",
    [
        ([Column("0.2", "0.8", is_integer=True)], [], {0: 1}, 0),
        ([Column("-0.8", "-0.2", is_integer=True)], [], {0: 1}, -1),
        ([Column(0, 5, is_integer=True)], [Row("1.2", "1.8", {0: 1})], {0: 1}, 1),
        ([Column(2, 5, is_integer=True)], [Row(None, "2.5", {0: 2})], {0: 1}, 1),
        (
            [Column(0, 5, is_integer=True), Column(0, 5, is_integer=True)],
            [Row("2.5", None, {0: 1, 1: 1}), Row(None, "5.6", {0: 2, 1: 2})],
            {0: 1, 1: 1},
            2,
        ),
        (
            [Column(0, 5, is_integer=True), Column(0, 5, is_integer=True)],
            [Row("2.2", "2.8", {0: 1, 1: 2})],
            {0: 1, 1: 2},
            2,
        ),
    ],
)
def test_empty_intervals_by_hand(
    columns: List[Column], rows: List[Row], form: Dict[int, int], floor: int
) -> None:
    """Of a column, of one row, and of two rows with the same form."""
    p = program(columns, rows)
    found = empty_interval(p)
    assert found is not None
    assert (found.form, found.floor) == (form, floor)
    check(p, found)


@pytest.mark.parametrize(
    "columns, rows",
    [
        ([Column("0.2", "1.8", is_integer=True)], []),
        ([Column("0.2", "0.8")], []),
        ([Column(0, 5, is_integer=True), Column(0, 5)], [Row("2.2", "2.8", {0: 1, 1: 1})]),
        (
            [Column(0, 5, is_integer=True), Column(0, 5, is_integer=True)],
            [Row("2.2", "3.2", {0: 1, 1: 2})],
        ),
    ],
)
def test_intervals_that_are_not_empty(columns: List[Column], rows: List[Row]) -> None:
    assert empty_interval(program(columns, rows)) is None
