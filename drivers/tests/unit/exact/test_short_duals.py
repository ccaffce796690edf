"""Duals in few digits have finite bounds that are near the optimum, and fit the judge."""

from __future__ import annotations

from fractions import Fraction

import pytest
from hypothesis import assume, given
from hypothesis import strategies as st

from bridge_drivers.exact.certificate import ROOT, Node, NodeKind
from bridge_drivers.exact.clp import LpStatus, library
from bridge_drivers.exact.dual_bound import dual_bound
from bridge_drivers.exact.relaxation import relaxation
from bridge_drivers.exact.short_duals import (
    ShortDuals,
    box_bound,
    rounded_bound,
    rounded_duals,
    short_duals,
)
from bridge_drivers.exact.short_points import NEAR_OF_DOUBLES, fixed_points
from bridge_drivers.model.integer_form import IntegerProgram
from bridge_drivers.system.deadline import Deadline
from judging import Judge, leaf_fault
from programs import Column, Row, box_of, program

NEEDS_CLP = pytest.mark.skipif(library() is None, reason="no library of CLP")
F = Fraction


def two_rows() -> IntegerProgram:
    """min 2 x + 3 y, 3 x + 2 y >= 4, x - 1.5 y <= 1.25; the optimum is 71/26."""
    return program(
        [Column(cost=2), Column(0, 7, cost=3)],
        [Row(4, None, {0: 3, 1: 2}), Row(None, "1.25", {0: 1, 1: "-1.5"})],
    )


def near_clp(p: IntegerProgram) -> ShortDuals | None:
    """From CLP's optimum."""
    clp = relaxation(p)
    assume(clp.solve_by_either() is LpStatus.OPTIMAL)
    value = F(clp.objective()) + p.constant_fraction
    base = fixed_points(clp.duals())
    return short_duals(p, base, value, NEAR_OF_DOUBLES, Deadline(20.0))


def test_rounded_duals_are_near_the_optimum() -> None:
    p = two_rows()
    best = max(one.value for one in rounded_duals(p, {0: 12 / 13, 1: -10 / 13}))
    assert 0 < F(71, 26) - best < F(1, 10**9)


@NEEDS_CLP
def test_columns_without_the_bound_that_rounding_needs() -> None:
    """Both columns have no upper bound, so that no reduced cost may fall below 0."""
    p = two_rows().with_bounds([0, 0], [None, None])
    found = near_clp(p)
    assert found is not None
    assert found.bound == dual_bound(p, found.multipliers, box_of(p))
    assert 0 <= F(71, 26) - found.value < F(2, 10**9)


@NEEDS_CLP
def test_free_columns_have_the_reduced_cost_0() -> None:
    """Their duals are thirds."""
    p = program(
        [Column(None, None, cost=1), Column(None, None, cost=2)],
        [Row(1, None, {0: 3, 1: 1}), Row(2, None, {0: 0, 1: 3}), Row(-5, None, {0: 1})],
    )
    found = near_clp(p)
    assert found is not None
    assert found.bound.reduced_costs == [0, 0]


DECIMALS = st.integers(1, 90).map(lambda k: f"{k / 10}")


@st.composite
def covering_programs(draw: st.DrawFn) -> IntegerProgram:
    """Columns without upper bounds, whose duals must not be rounded upwards."""
    count = draw(st.integers(1, 5))
    rows = []
    for _ in range(draw(st.integers(1, 4))):
        coefficients = {j: draw(DECIMALS) for j in range(count)}
        side = draw(DECIMALS)
        rows.append(Row(side, draw(st.sampled_from([None, None, side])), coefficients))
    return program([Column(cost=draw(DECIMALS)) for _ in range(count)], rows)


@NEEDS_CLP
@given(covering_programs())
def test_short_duals_prove_a_bound_near_the_optimum(p: IntegerProgram) -> None:
    """By the rule in fractions, which shares nothing with the search."""
    found = near_clp(p)
    assert found is not None
    assert found.bound == dual_bound(p, found.multipliers, box_of(p))
    duals = [
        (i, str(p.sign * F(v, found.multipliers.denominator)))
        for i, v in found.multipliers.numerators.items()
    ]
    part = Judge(p).root(p.sign * found.value)
    goal = part.goal._replace(bound=found.value)
    leaf = Node(NodeKind.DUALS, 1, ROOT, 0, 0)
    leaf.entries = duals
    assert leaf_fault(leaf, part._replace(goal=goal)) == ""
    assert found.multipliers.fits_certificate()
    clp = relaxation(p)
    clp.solve_by_either()
    apart = clp.objective() - float(found.value)
    assert abs(apart) <= 1e-8 * max(1.0, abs(clp.objective()))


def test_the_bound_of_a_box() -> None:
    p = two_rows()
    assert box_bound(p) == 0
    unbounded = p.with_costs([F(1), F(-1)]).with_bounds([0, 0], [None, None])
    assert box_bound(unbounded) is None


@given(st.fractions(-(10**9), 10**9))
def test_a_rounded_bound_is_a_little_worse(bound: Fraction) -> None:
    p = program([Column(None, None, cost=1)])
    found = rounded_bound(p, bound)
    assert bound - max(F(1), abs(bound)) / 10**11 <= found <= bound


def test_a_rounded_bound_is_no_worse_than_the_box() -> None:
    assert rounded_bound(two_rows(), F(1, 10**15)) == 0
    assert rounded_bound(two_rows(), F(10, 3)) == F("3.333333333333")


@pytest.mark.parametrize("exponent", [0, 15, 307, 309, 400, 5000])
@pytest.mark.parametrize("sign", [1, -1])
def test_bounds_beyond_doubles_are_rounded(exponent: int, sign: int) -> None:
    """Without an own bound of columns the rounded one is below by 1e-12 of its size at most."""
    p = two_rows().with_bounds([None, None], [None, None])
    bound = sign * F(10**exponent * 22, 7)
    short = rounded_bound(p, bound)
    assert 0 < bound - short <= abs(bound) / 10**12
    assert abs(short.numerator) // 10 ** max(0, exponent - 12) < 10**14
