"""Exact optima of bases, and refinement where CLP's basis is not the exact one."""

from __future__ import annotations

from fractions import Fraction
from typing import List

import pytest
from hypothesis import assume, given
from hypothesis import strategies as st

from bridge_drivers.exact import basis as basis_module
from bridge_drivers.exact.basis import IterativeRefinement, can_lift, exact_optimum
from bridge_drivers.exact.clp import Basis, LpStatus, library
from bridge_drivers.exact.dual_bound import bit_width, dual_bound
from bridge_drivers.exact.relaxation import relaxation
from bridge_drivers.model.integer_form import IntegerProgram
from bridge_drivers.system.deadline import Deadline
from bridge_drivers.system.errors import NotSolved
from programs import Column, Row, box_of, program

NEEDS_CLP = pytest.mark.skipif(library() is None, reason="no library of CLP")
F = Fraction


@pytest.fixture(params=["lifted", "eliminated"])
def systems(request: pytest.FixtureRequest, monkeypatch: pytest.MonkeyPatch) -> None:
    """With SciPy, and as without it."""
    if request.param == "eliminated":
        monkeypatch.setattr(basis_module, "scipy_or_none", lambda: None)
    elif not can_lift():
        pytest.skip("no SciPy")


def two_rows() -> IntegerProgram:
    """min 2 x + 3 y, 3 x + 2 y >= 4, x - 1.5 y <= 1.25: both are tight at the optimum."""
    return program(
        [Column(cost=2), Column(0, 7, cost=3)],
        [Row(4, None, {0: 3, 1: 2}), Row(None, "1.25", {0: 1, 1: "-1.5"})],
    )


@pytest.mark.usefixtures("systems")
def test_the_optimum_of_a_basis() -> None:
    point, duals = exact_optimum(two_rows(), Basis([0, 1], [0, 1]), [1.3, 0.04])
    assert point == [F(17, 13), F(1, 26)]
    values = {i: F(v, duals.denominator) for i, v in duals.numerators.items()}
    assert values == {0: F(12, 13), 1: F(-10, 13)}
    assert bit_width(point) == 5


@pytest.mark.usefixtures("systems")
@pytest.mark.parametrize(
    "columns, rows, x, why",
    [
        ([0], [0], [1.3, 0.0], "row 1 is missed"),
        ([1], [0], [0.0, 2.0], "column 0 could improve"),
        ([0, 1], [1], [1.3, 0.0], "not square"),
        ([0], [1], [1.25, 0.0], "row 0 is missed"),
    ],
)
def test_bases_that_are_not_optimal(
    columns: List[int], rows: List[int], x: List[float], why: str
) -> None:
    with pytest.raises(NotSolved, match=why):
        exact_optimum(two_rows(), Basis(columns, rows), x)


@pytest.mark.usefixtures("systems")
def test_a_singular_basis() -> None:
    p = program([Column(), Column()], [Row(1, 1, {0: 1, 1: 2}), Row(3, 3, {0: 2, 1: 4})])
    with pytest.raises(NotSolved, match="singular"):
        exact_optimum(p, Basis([0, 1], [0, 1]), [0.5, 0.25])


SMALL = st.integers(-5, 5)


@st.composite
def bounded_programs(draw: st.DrawFn) -> IntegerProgram:
    count = draw(st.integers(1, 5))
    columns = [Column(0, draw(st.integers(1, 6)), cost=draw(SMALL)) for _ in range(count)]
    rows = []
    for _ in range(draw(st.integers(1, 4))):
        lower = draw(st.integers(-9, 3))
        upper = lower + draw(st.integers(0, 6))
        rows.append(Row(lower, upper, {j: draw(SMALL) for j in range(count)}))
    return program(columns, rows)


@NEEDS_CLP
@given(bounded_programs())
def test_the_point_and_the_duals_of_an_optimal_basis_meet(p: IntegerProgram) -> None:
    """The point is feasible, and the duals' bound is its value: strong duality."""
    clp = relaxation(p)
    assume(clp.solve_by_either() is LpStatus.OPTIMAL)
    try:
        point, duals = exact_optimum(p, clp.basis(), clp.values())
    except NotSolved:
        return  # CLP's basis is singular, or not optimal within its tolerances
    assert p.is_feasible(point)
    bound = dual_bound(p, duals, box_of(p))
    assert bound.is_finite
    assert bound.value == p.value(point)
    assert float(bound.value) == pytest.approx(clp.objective(), abs=1e-6)


def nearly_parallel(count: int) -> IntegerProgram:
    """Pairs of rows that differ by 1e-11, of which CLP's tolerances see one."""
    columns: List[Column] = []
    rows: List[Row] = []
    for k in range(count):
        columns += [Column(cost=1), Column(cost="1.00000000001")]
        rows += [
            Row(1, None, {2 * k: 1, 2 * k + 1: 1}),
            Row("1.00000000002", None, {2 * k: "1.00000000001", 2 * k + 1: 1}),
        ]
    return program(columns, rows)


@NEEDS_CLP
@pytest.mark.parametrize("count", [1, 2, 5])
def test_refinement_finds_an_optimal_basis(count: int) -> None:
    p = nearly_parallel(count)
    clp = relaxation(p)
    assert clp.solve() is LpStatus.OPTIMAL
    found = None
    for near in IterativeRefinement(p, clp, Deadline()).bases():
        try:
            found = exact_optimum(p, near.basis, near.values)
            break
        except NotSolved:
            continue
    assert found is not None
    assert p.is_feasible(found.point)
    assert dual_bound(p, found.duals, box_of(p)).value == p.value(found.point)


@NEEDS_CLP
@given(bounded_programs())
def test_refinement_brings_the_point_near_the_exact_optimum(p: IntegerProgram) -> None:
    """Far nearer than doubles are, where a basis is exactly optimal."""
    clp = relaxation(p)
    assume(clp.solve_by_either() is LpStatus.OPTIMAL)
    refinement = IterativeRefinement(p, clp, Deadline())
    for near in refinement.bases():
        try:
            point, _ = exact_optimum(p, near.basis, near.values)
        except NotSolved:
            continue
        for v, refined in zip(point, near.values):
            assert refined == pytest.approx(float(v), abs=1e-6)
    scale = 1 << basis_module.PRECISION_BITS
    value = p.value([F(v, scale) for v in refinement.point])
    assert float(value) == pytest.approx(clp.objective() + float(p.constant_fraction), abs=1e-6)
