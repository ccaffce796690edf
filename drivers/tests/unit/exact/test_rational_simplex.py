"""The simplex method in whole numbers: what it answers is proved."""

from __future__ import annotations

import itertools
from typing import List, Tuple

import pytest
from hypothesis import given, settings
from hypothesis import strategies as st

from bridge_drivers.exact.clp import LpStatus
from bridge_drivers.exact.dual_bound import MultiplierKind
from bridge_drivers.exact.leaf_proofs import LeafProver, from_fractions
from bridge_drivers.exact.points import is_ray
from bridge_drivers.exact.rational_simplex import RationalSimplex, SimplexResult, is_small
from bridge_drivers.model.integer_form import IntegerProgram
from programs import Column, Row, box_of, program

MOST_STEPS = 3000

BOUNDS = st.sampled_from([(None, None), (0, "4"), (0, "1e20"), (0, "0.5"), (-3, 7), (0, None)])
COSTS = st.sampled_from(["1", "-2", "0.5", "3", "-1e-12", "0"])
COEFFICIENTS = st.sampled_from(["1", "-1", "2", "0.3", "-7", "1e-9"])
SIDES = st.sampled_from([0, 1, 5, -2, 2.5])


@st.composite
def programs(draw: st.DrawFn) -> IntegerProgram:
    """With ranges, free columns, equations and small numbers."""
    columns = [Column(*draw(BOUNDS), cost=draw(COSTS)) for _ in range(draw(st.integers(1, 8)))]
    rows = []
    for _ in range(draw(st.integers(1, 7))):
        entries = st.dictionaries(st.integers(0, len(columns) - 1), COEFFICIENTS, max_size=5)
        side = draw(SIDES)
        width = draw(st.sampled_from([1, 3]))
        bounds = draw(
            st.sampled_from([(side, side), (None, side), (side, None), (side, side + width)])
        )
        rows.append(Row(*bounds, draw(entries)))
    return program(columns, rows, draw(st.sampled_from(["min", "max"])))


Start = Tuple[List[int], List[float]]


@st.composite
def starts(draw: st.DrawFn, p: IntegerProgram) -> Start:
    """Any columns, which need not be a basis, and any values."""
    columns = draw(st.lists(st.integers(0, p.n - 1), unique=True, max_size=p.m))
    return columns, [draw(st.integers(-4, 12)) / 2 for _ in range(p.n)]


def result(p: IntegerProgram, start: Start) -> SimplexResult:
    steps = itertools.count()

    def check() -> None:
        assert next(steps) < MOST_STEPS

    simplex = RationalSimplex(p, check)
    simplex.install_basis(*start)
    return simplex.run()


@settings(max_examples=300)
@given(st.data())
def test_what_is_answered_is_proved(data: st.DataObject) -> None:
    """A point with duals that meet it, multipliers that refute, or a point and a ray."""
    p = data.draw(programs())
    found = result(p, data.draw(starts(p)))
    if found.status is LpStatus.INFEASIBLE:
        multipliers = from_fractions(p, found.multipliers, MultiplierKind.FARKAS)
        assert LeafProver(p, None).prove(multipliers, box_of(p)) is not None
        return
    assert found.point is not None
    assert p.is_feasible(found.point)
    if found.status is LpStatus.UNBOUNDED:
        assert found.ray is not None
        assert is_ray(p.recession_cone(), found.ray)
    else:
        assert found.status is LpStatus.OPTIMAL
        multipliers = from_fractions(p, found.multipliers, MultiplierKind.DUAL)
        prover = LeafProver(p, p.value(found.point))
        assert prover.prove(multipliers, box_of(p)) is not None


@given(st.data())
def test_each_start_comes_to_the_same_end(data: st.DataObject) -> None:
    p = data.draw(programs())
    found = [result(p, data.draw(starts(p))) for _ in range(3)]
    assert len({one.status for one in found}) == 1
    if found[0].status is LpStatus.OPTIMAL:
        assert len({p.value(one.point or []) for one in found}) == 1


def test_a_program_that_cycles_without_a_rule() -> None:
    """Beale's example (1955): all steps are degenerate."""
    p = program(
        [Column(cost="-0.75"), Column(cost=150), Column(cost="-0.02"), Column(cost=6)],
        [
            Row(None, 0, {0: "0.25", 1: -60, 2: "-0.04", 3: 9}),
            Row(None, 0, {0: "0.5", 1: -90, 2: "-0.02", 3: 3}),
            Row(None, 1, {2: 1}),
        ],
    )
    found = result(p, ([], [0.0] * 4))
    assert found.status is LpStatus.OPTIMAL
    assert found.point is not None
    assert p.value(found.point) * 20 == -1


def test_a_check_that_raises_ends_the_run() -> None:
    p = program([Column(cost=-1, upper=3)], [Row(None, 2, {0: 1})])

    def check() -> None:
        raise TimeoutError

    with pytest.raises(TimeoutError):
        RationalSimplex(p, check).run()


@pytest.mark.parametrize("count, wanted", [(250, True), (251, False)])
def test_small_programs(count: int, wanted: bool) -> None:
    p = program([Column()], [Row(0, None, {0: 1})] * count)
    assert is_small(p) is wanted
