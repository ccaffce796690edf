"""The rule of weak duality, exactly and in doubles."""

from __future__ import annotations

from fractions import Fraction

from typing import List, Tuple

import pytest
from hypothesis import given
from hypothesis import strategies as st

from bridge_drivers.exact.dual_bound import (
    MultiplierKind,
    Multipliers,
    dual_bound,
    fits_certificate,
    is_optimal_in_doubles,
    row_residuals,
)
from bridge_drivers.model.integer_form import IntegerProgram
from programs import Column, Row, box_of, program

DUAL, FARKAS = MultiplierKind.DUAL, MultiplierKind.FARKAS
SMALL = st.integers(-5, 5)


@pytest.mark.parametrize(
    "value, fits",
    [
        (Fraction(2**127 - 1, 2**127 - 2), True),
        (Fraction(2**127), False),
        (Fraction(1, 2**127), False),
    ],
)
def test_what_fits_a_certificate(value: Fraction, fits: bool) -> None:
    assert fits_certificate(value) is fits


def test_a_bound_by_hand() -> None:
    """min x + y, x + 2 y >= 3, x and y from 0 to 4: the dual 1/2 leaves x the cost 1/2."""
    p = program([Column(0, 4, cost=1), Column(0, 4, cost=1)], [Row(3, None, {0: 1, 1: 2})])
    bound = dual_bound(p, Multipliers({0: 1}, 2, DUAL), box_of(p))
    assert bound.is_finite
    assert bound.value == Fraction(3, 2)


def test_a_column_without_the_bound_that_it_needs() -> None:
    p = program([Column(0, None, cost=1)], [Row(3, None, {0: 1})])
    bound = dual_bound(p, Multipliers({0: 2}, 1, DUAL), box_of(p))
    assert bound.unbounded_columns == [0]


Case = Tuple[IntegerProgram, List[int], Multipliers]


@st.composite
def boxed_programs(draw: st.DrawFn) -> Case:
    """Programs of bounded columns, an integer point of each, and any dual multipliers."""
    count = draw(st.integers(1, 4))
    columns, point = [], []
    for _ in range(count):
        lower, size = draw(SMALL), draw(st.integers(0, 4))
        columns.append(Column(lower, lower + size, cost=draw(SMALL)))
        point.append(draw(st.integers(lower, lower + size)))
    rows, numerators = [], {}
    for i in range(draw(st.integers(0, 3))):
        coefficients = {j: draw(SMALL) for j in range(count)}
        activity = sum(a * point[j] for j, a in coefficients.items())
        rows.append(
            Row(
                activity - draw(st.integers(0, 3)), activity + draw(st.integers(0, 3)), coefficients
            )
        )
        numerators[i] = draw(SMALL)
    multipliers = {i: v for i, v in numerators.items() if v}
    return program(columns, rows), point, Multipliers(multipliers, draw(st.integers(1, 5)), DUAL)


@given(boxed_programs())
def test_no_feasible_point_is_below_the_bound(case: Case) -> None:
    """Weak duality, for any multipliers at all: the rule on which every leaf rests."""
    p, point, multipliers = case
    bound = dual_bound(p, multipliers, box_of(p))
    assert bound.is_finite
    assert bound.value <= p.value([Fraction(v) for v in point])


@given(boxed_programs())
def test_farkas_multipliers_do_not_refute_a_feasible_program(case: Case) -> None:
    p, _, multipliers = case
    assert dual_bound(p, multipliers._replace(kind=FARKAS), box_of(p)).numerator <= 0


@given(boxed_programs())
def test_equal_multipliers_have_equal_bounds(case: Case) -> None:
    p, _, multipliers = case
    numerators = {row: 6 * v for row, v in multipliers.numerators.items()}
    other = Multipliers(numerators, 6 * multipliers.denominator, DUAL)
    assert dual_bound(p, other, box_of(p)).value == dual_bound(p, multipliers, box_of(p)).value
    assert other.reduced() == multipliers.reduced()


@given(boxed_programs())
def test_doubles_say_optimal_only_near_the_exact_bound(case: Case) -> None:
    """A point that duals bound in doubles is hardly above their exact bound."""
    p, point, multipliers = case
    x = [float(v) for v in point]
    duals = {row: v / multipliers.denominator for row, v in multipliers.numerators.items()}
    if is_optimal_in_doubles(p, x, duals):
        size = sum(abs(float(c) * v) for c, v in zip(p.cost_fractions, x))
        gap = p.value([Fraction(v) for v in point]) - dual_bound(p, multipliers, box_of(p)).value
        assert gap <= 2e-6 * max(1.0, size)


def test_a_point_that_misses_a_row_is_not_optimal_in_doubles() -> None:
    p = program([Column(0, 4, cost=1)], [Row(3, None, {0: 1})])
    assert is_optimal_in_doubles(p, [3.0], {0: 1.0})
    assert not is_optimal_in_doubles(p, [3.0 - 1e-6], {0: 1.0})
    assert not is_optimal_in_doubles(p, [3.1], {0: 1.0})
    assert row_residuals(p, [2.9]) is None
