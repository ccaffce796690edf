"""Points in few decimals are feasible, near the optimum, and narrow enough for the judge."""

from __future__ import annotations

from fractions import Fraction

import pytest
from hypothesis import assume, given
from hypothesis import strategies as st

from bridge_drivers.exact.clp import LpStatus, library
from bridge_drivers.exact.evidence import AnswerClaim
from bridge_drivers.exact.relaxation import relaxation
from bridge_drivers.exact.short_points import (
    NEAR_OF_DOUBLES,
    NEAR_OF_EXACT,
    ShortPoint,
    fixed_points,
    short_point,
)
from bridge_drivers.exact.sum_width import running_sum
from bridge_drivers.formats.numbers import LARGEST_INTEGER
from bridge_drivers.model.integer_form import IntegerProgram
from bridge_drivers.system.deadline import Deadline
from judging import certified
from programs import Column, Row, program

NEEDS_CLP = pytest.mark.skipif(library() is None, reason="no library of CLP")
F = Fraction


def near_clp(p: IntegerProgram) -> ShortPoint | None:
    """From CLP's optimum."""
    clp = relaxation(p)
    assume(clp.solve_by_either() is LpStatus.OPTIMAL)
    return short_point(p, fixed_points(clp.values()), NEAR_OF_DOUBLES, Deadline(20.0))


@NEEDS_CLP
def test_a_point_near_the_optimum() -> None:
    """Its exact optimum is (17/13, 1/26), with the value 71/26."""
    p = program(
        [Column(cost=2), Column(0, 7, cost=3)],
        [Row(4, None, {0: 3, 1: 2}), Row(None, "1.25", {0: 1, 1: "-1.5"})],
    )
    found = near_clp(p)
    assert found is not None and found.value == p.value(found.point)
    assert p.is_feasible(found.point)
    assert 0 <= found.value - F(71, 26) < F(2, 10**9)
    assert all(10**14 % v.denominator == 0 for v in found.point)


@NEEDS_CLP
def test_rows_without_room_are_met_exactly() -> None:
    """An equation as two rows; another one without a column of its own."""
    p = program(
        [Column(cost=c) for c in ("1.1", "2.3", "3.1", "0.3")],
        [
            Row(None, "2.9", {0: "1.3", 1: "0.7"}),
            Row("2.9", None, {0: "1.3", 1: "0.7"}),
            Row(13, None, {0: "7.1", 1: "3.3", 2: 1}),
            Row("0.1", "0.1", {2: "1.9", 3: "-0.7"}),
        ],
    )
    found = near_clp(p)
    assert found is not None and p.is_feasible(found.point)
    x = found.point
    assert F("1.3") * x[0] + F("0.7") * x[1] == F("2.9")
    assert F("1.9") * x[2] - F("0.7") * x[3] == F("0.1")


@NEEDS_CLP
def test_an_optimum_of_many_bits() -> None:
    """x' = 3.7 x - 0.27 ten times over has no short solution but those near it: each row is met."""
    count = 10
    columns = [Column(0, None, cost="0.1" if j == 0 else 0) for j in range(count)]
    rows = [Row("-0.27", "-0.27", {j + 1: 1, j: "-3.7"}) for j in range(count - 1)]
    p = program(columns, [*rows, Row(None, 50, {count - 1: 3}), Row("0.4", None, {0: 7, 1: 1})])
    found = near_clp(p)
    assert found is not None and p.is_feasible(found.point)


DECIMALS = st.integers(1, 60).map(lambda k: f"{k / 10}")


@st.composite
def decimal_programs(draw: st.DrawFn) -> IntegerProgram:
    """Equations and inequalities of decimals, through a point of whole numbers."""
    count = draw(st.integers(3, 6))
    point = [draw(st.integers(1, 5)) for _ in range(count)]
    columns = [Column(0, draw(st.none() | st.just(20)), cost=draw(DECIMALS)) for _ in point]
    rows = []
    for _ in range(draw(st.integers(1, 3))):
        coefficients = {j: draw(DECIMALS) for j in range(count) if draw(st.booleans())}
        value = str(float(sum(F(a) * point[j] for j, a in coefficients.items())))
        kinds = [(value, value), (value, None), (None, value)]
        rows.append(Row(*draw(st.sampled_from(kinds)), coefficients))
    return program(columns, rows)


@NEEDS_CLP
@given(decimal_programs())
def test_each_point_is_feasible_and_near_and_fits(p: IntegerProgram) -> None:
    """So do the sums that the judge makes of it, in fractions."""
    found = near_clp(p)
    assert found is not None
    assert p.is_feasible(found.point) and found.value == p.value(found.point)
    clp = relaxation(p)
    clp.solve_by_either()
    assert abs(float(found.value) - clp.objective()) <= 1e-6 * max(1.0, abs(clp.objective()))
    assert all(abs(v.numerator) <= LARGEST_INTEGER for v in found.point)
    assert all(v.denominator <= LARGEST_INTEGER for v in found.point)
    for row in p.rows:
        total = F(0)
        for j, a in row:
            total += F(a, p.row_scale) * found.point[j]
            assert max(abs(total.numerator), total.denominator) <= LARGEST_INTEGER


@NEEDS_CLP
@given(decimal_programs())
def test_what_is_certified_is_judged_in_fractions(p: IntegerProgram) -> None:
    """By a judge in Python that shares nothing with the search."""
    found = certified(p, AnswerClaim.UNKNOWN)
    assert found.claim == "optimal"


def test_from_an_exact_point() -> None:
    """Bounds that it meets stay met where they can have no room."""
    p = program([Column(0, 1, cost=1), Column(0, 1, cost=-1)], [Row("0.5", "0.5", {0: 1, 1: 1})])
    base = fixed_points([F(0), F(1, 2)])
    if library() is None:
        return
    found = short_point(p, base, NEAR_OF_EXACT, Deadline(20.0))
    assert found is not None and p.is_feasible(found.point)
    assert abs(found.value + F(1, 2)) < F(1, 10**9)


@given(st.lists(st.fractions(-1000, 1000, max_denominator=10**6), max_size=6))
def test_running_sums_that_fit(terms: list[Fraction]) -> None:
    """Terms need not be in lowest terms."""
    found = running_sum((3 * v.numerator, 3 * v.denominator) for v in terms)
    assert found is not None and F(*found) == sum(terms, F(0))


@pytest.mark.parametrize(
    "terms, fits",
    [
        ([(LARGEST_INTEGER, 1)], True),
        ([(LARGEST_INTEGER, 1), (1, 1)], False),
        ([(LARGEST_INTEGER, 1), (1, 1), (-1, 1)], False),
        ([(1, LARGEST_INTEGER), (1, 2)], False),
        ([(1, 3**40), (1, 3**80), (-1, 3**80)], True),
        ([(2 * LARGEST_INTEGER, 2)], True),
    ],
)
def test_running_sums_at_the_limit(terms: list[tuple[int, int]], fits: bool) -> None:
    assert (running_sum(terms) is not None) == fits
