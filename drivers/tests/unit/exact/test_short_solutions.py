"""The steps that make solutions short: directions, the order of rows, and what is left of them."""

from __future__ import annotations

from fractions import Fraction
from math import gcd

import pytest
from hypothesis import assume, given
from hypothesis import strategies as st

from bridge_drivers.exact.clp import library
from bridge_drivers.exact.inside_direction import InsideDirection, inside_direction
from bridge_drivers.exact.peeling_order import PeelingOrder, without_twos_and_fives
from bridge_drivers.exact.row_system import (
    BASE_BITS,
    fixed_point,
    is_met,
    system_of_duals,
    system_of_points,
)
from bridge_drivers.exact.shared_remainders import RoundedSolution, Rounder, Rounding, shared
from bridge_drivers.exact.short_solutions import GOAL, Judged, ShortSolutions, Trial
from bridge_drivers.model.integer_form import IntegerProgram
from bridge_drivers.system.deadline import Deadline
from programs import Column, Row, program

NEEDS_CLP = pytest.mark.skipif(library() is None, reason="no library of CLP")
F = Fraction


def test_the_system_of_duals() -> None:
    """Signs by the bounds of rows, and sides by those of columns."""
    p = program(
        [Column(0, None, cost=3), Column(None, 1, cost=4), Column(None, None), Column(0, 1)],
        [Row(1, None, {0: 1, 1: 2}), Row(None, 5, {2: 1}), Row(2, 2, {3: 1})],
    )
    duals = system_of_duals(p)
    assert (duals.lower, duals.upper) == ([0, None, None], [None, 0, None])
    assert (duals.row_lower, duals.row_upper) == ([None, 4, 0, None], [3, None, 0, None])
    assert duals.matrix.rows[1] == [(0, 2)]


@given(st.integers(-(10**6), 10**6), st.integers(1, 10**4))
def test_bounds_that_are_met(side: int, scale: int) -> None:
    value = fixed_point(F(side, scale))
    assert is_met(side, scale, value, 1, 1e-15)
    assert not is_met(side, scale, value + (1 << BASE_BITS), 1, 1e-15 / scale)
    assert not is_met(None, scale, value, 1, 1e-15)


@NEEDS_CLP
def test_a_direction_gives_room_to_all_that_can_have_it() -> None:
    """Two rows are an equation, and the last column can only stay where it is."""
    p = program(
        [Column(0, None), Column(0, 9), Column(0, 0), Column(0, None)],
        [
            Row(None, 5, {0: 1, 1: 1}),
            Row(5, None, {0: 1, 1: 1}),
            Row(0, None, {0: 1, 2: 1}),
            Row(None, 0, {3: 2, 2: 1}),
        ],
    )
    base = [fixed_point(v) for v in (F(0), F(5), F(0), F(0))]
    found = inside_direction(system_of_points(p), base, 10.0, 1e-15, Deadline())
    assert found is not None
    assert set(found.exact_rows) >= {0, 1} and 2 not in found.exact_rows
    assert found.direction[0] > 0 and abs(found.direction[0] + found.direction[1]) < 1e-9
    assert found.fixed == {2: F(0), 3: F(0)}


@given(st.integers(-(10**30), 10**30))
def test_without_twos_and_fives(number: int) -> None:
    found = without_twos_and_fives(number)
    assert found == 0 if not number else (found % 2 and found % 5 and number % found == 0)


@given(
    st.lists(st.integers(-(10**6), 10**6).filter(bool), min_size=1, max_size=6),
    st.integers(-(10**12), 10**12),
)
def test_remainders_are_shared(coefficients: list[int], factor: int) -> None:
    """Wherever the common factor divides what is left, and nowhere else."""
    pairs = list(enumerate(coefficients))
    total = factor * gcd(*coefficients)
    found = shared(pairs, total)
    assert found is not None
    assert sum(coefficients[j] * k for j, k in found.items()) == total
    if gcd(*coefficients) > 1:
        assert shared(pairs, total + 1) is None


@given(st.lists(st.integers(1, 50), min_size=2, max_size=5), st.integers(-(10**9), 10**9))
def test_shares_are_near_the_least_norm(coefficients: list[int], total: int) -> None:
    """No unknown moves by much more than it must."""
    assume(gcd(*coefficients) == 1)
    found = shared(list(enumerate(coefficients)), total)
    assert found is not None
    norm = sum(a * a for a in coefficients)
    for j, a in enumerate(coefficients):
        assert abs(found.get(j, 0) - total * a / norm) <= 51 * 51


@st.composite
def systems(draw: st.DrawFn) -> IntegerProgram:
    """Equations of whole numbers through a whole point, in free columns."""
    count = draw(st.integers(2, 7))
    point = [draw(st.integers(-9, 9)) for _ in range(count)]
    rows = []
    for _ in range(draw(st.integers(1, count - 1))):
        row = {j: draw(st.integers(-6, 6)) for j in range(count) if draw(st.booleans())}
        row = {j: a for j, a in row.items() if a}
        side = sum(a * point[j] for j, a in row.items())
        rows.append(Row(side, side, row))
    return program([Column(None, None) for _ in point], rows)


@given(systems(), st.booleans(), st.lists(st.fractions(-10, 10), min_size=7, max_size=7))
def test_equations_are_met_exactly(p: IntegerProgram, eager: bool, moves: list[Fraction]) -> None:
    """Whatever the base is: rounding moves each row by its own unknowns alone."""
    sides = {i: side for i, side in enumerate(p.row_lower) if side is not None}
    inside = InsideDirection([0.0] * p.n, {}, sides)
    order = PeelingOrder(system_of_points(p), inside, Deadline(), eager=eager)
    assert order.is_whole
    own = [j for step in order.steps for j in step.own]
    assert len(own) == len(set(own))
    base = [fixed_point(v) for v in moves[: p.n]]
    for grid, shares in ((1, True), (10**7, True), (1, False)):
        rounder = Rounder(base, inside, order, Deadline())
        found = rounder.rounded(Rounding(6, 4, grid, shares))
        assert found is not None
        values = found.fractions()
        for i, row in enumerate(p.rows):
            activity = sum(F(a, p.row_scale) * values[j] for j, a in row)
            assert activity == F(sides[i], p.bound_scale)


@NEEDS_CLP
@pytest.mark.parametrize("wide", range(3, 27, 2))
@pytest.mark.parametrize("enough", range(3, 27, 2))
def test_the_fewest_decimals_by_halving(enough: int, wide: int) -> None:
    """A judge that takes decimals from `enough` on, and finds those from `wide` on too long.

    The step is 1e-3, with which 4, 6, .. 18 decimals are the numbers that there are: at most
    five of them are tried, and the first that holds is found.
    """
    p = program([Column(0, None, cost=1)], [Row(1, None, {0: 3})])
    tried: list[int] = []

    def judge(solution: RoundedSolution) -> Judged[int] | Trial:
        places = len(str(solution.unit)) - 1
        tried.append(places)
        if places >= wide:
            return Trial(is_wide=True)
        return Judged(GOAL, places) if places >= enough else Trial(is_wide=False)

    base = [fixed_point(F(1, 3))]
    system = system_of_points(p)
    search = ShortSolutions(system, base, 1e-15, judge, lambda _: 0.0, Deadline(60.0))
    found = search.find()
    first = min((k for k in range(4, 19, 2) if enough <= k < wide), default=None)
    if first is None:
        assert found is None or found.solution in range(enough, wide)
    else:
        assert found is not None and found.solution == first
        assert len(tried) <= 5
