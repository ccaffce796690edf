"""Points that are found are feasible and exact, and near what they are looked for."""

from __future__ import annotations

from fractions import Fraction
from typing import List, Optional, Tuple, Union

import pytest
from hypothesis import assume, given
from hypothesis import strategies as st

from bridge_drivers.exact.clp import Basis, LpStatus, library
from bridge_drivers.exact.points import (
    best_nearby_point,
    find_ray,
    integer_residual,
    integers_are_infeasible,
    is_ray,
    nearby_points,
    nearest_bound,
    point_with_integers,
    restricted_to,
    vertex,
    with_fixed,
)
from bridge_drivers.exact.relaxation import relaxation
from bridge_drivers.model.integer_form import IntegerProgram
from bridge_drivers.system.deadline import Deadline
from programs import Column, Row, program

NEEDS_CLP = pytest.mark.skipif(library() is None, reason="no library of CLP")
F = Fraction


def mixed() -> IntegerProgram:
    """max x + 2 y, 3/2 x + 2 y - z <= 3, 1 <= 2 y + 4 z <= 5, y and z whole."""
    return program(
        [
            Column(None, None, cost=1),
            Column(0, "2.5", is_integer=True, cost=2),
            Column(0, 3, is_integer=True),
        ],
        [Row(None, 3, {0: "1.5", 1: 2, 2: -1}), Row(1, 5, {1: 2, 2: 4})],
        "max",
    )


@pytest.mark.parametrize(
    "lower, upper, value, nearest",
    [
        (None, None, 1.0, None),
        (None, 7, 1.0, 7),
        (3, None, 9.0, 3),
        (0, 10, 4.9, 0),
        (0, 10, 6, 10),
    ],
)
def test_the_nearest_bound(
    lower: Optional[int], upper: Optional[int], value: float, nearest: Optional[int]
) -> None:
    assert nearest_bound(lower, upper, value) == nearest


@pytest.mark.parametrize(
    "x, point",
    [
        ([0.66666666, 1.0000001, 0.0], [F(2, 3), F(1), F(0)]),
        ([F(1, 7), F(1), F(0)], [F(1, 7), F(1), F(0)]),
        ([5.0, 1.0, 0.0], None),
    ],
)
def test_points_near_doubles(x: List[Union[float, F]], point: Optional[List[F]]) -> None:
    assert next(nearby_points(mixed(), x), None) == point


def test_a_value_near_a_bound_that_is_not_feasible_there() -> None:
    """Doubles do not tell 999999999999.5 from its bound."""
    p = program([Column(0, "1e12", cost=1)], [Row(None, 1999999999999, {0: 2})], "max")
    assert best_nearby_point(p, [999999999999.5]) == [F(1999999999999, 2)]


def test_the_vertex_of_a_basis() -> None:
    p = with_fixed(mixed(), {1: F(1), 2: F(0)})
    assert vertex(p, Basis([0], [0]), [0.6666, 1.0, 0.0]) == [F(2, 3), F(1), F(0)]
    assert vertex(p, Basis([], []), [0.6666, 1.0, 0.0]) == [F(0), F(1), F(0)]


SMALL = st.integers(-4, 4)


@st.composite
def bounded_programs(draw: st.DrawFn) -> IntegerProgram:
    """Of bounded columns, with a feasible point: the origin."""
    count = draw(st.integers(1, 4))
    columns = [
        Column(0, draw(st.integers(1, 5)), draw(st.booleans()), cost=draw(SMALL))
        for _ in range(count)
    ]
    rows = []
    for _ in range(draw(st.integers(1, 3))):
        side = draw(st.integers(0, 9))
        rows.append(Row(None, side, {j: draw(SMALL) for j in range(count)}))
    return program(columns, rows)


@NEEDS_CLP
@given(bounded_programs())
def test_the_vertex_of_an_optimal_basis_is_optimal(p: IntegerProgram) -> None:
    p = p.with_integers([False] * p.n)
    clp = relaxation(p)
    assert clp.solve() is LpStatus.OPTIMAL
    point = vertex(p, clp.basis(), clp.values())
    assert point is not None
    assert p.is_feasible(point)
    assert p.value(point) == pytest.approx(clp.objective() + float(p.constant_fraction))


@NEEDS_CLP
@given(bounded_programs(), st.data())
def test_points_with_integers_keep_them_and_are_the_best(
    p: IntegerProgram, data: st.DataObject
) -> None:
    x: List[float] = [0.0] * p.n
    for j, upper in enumerate(p.upper):
        assert upper is not None
        if p.is_integer[j]:
            x[j] = float(data.draw(st.integers(0, upper // p.bound_scale)))
    point = point_with_integers(p, x, Deadline())
    if point is None:
        assert not p.is_feasible([F(v) for v in x])
        return
    assert p.is_feasible(point)
    assert all(point[j] == x[j] for j in range(p.n) if p.is_integer[j])
    origin = [F(v) for v in x]
    if p.is_feasible(origin):
        assert p.value(point) <= p.value(origin)


def test_integers_far_from_whole_numbers_have_no_point() -> None:
    assert point_with_integers(mixed(), [0.0, 0.9, 0.0], Deadline()) is None


@NEEDS_CLP
def test_integers_without_values_of_the_other_columns() -> None:
    p = program(
        [Column(0, 1), Column(0, 9, is_integer=True)],
        [Row(7, None, {0: 1, 1: 1})],
    )
    assert integers_are_infeasible(p, [0.0, 5.0], Deadline())
    assert not integers_are_infeasible(p, [0.0, 6.0], Deadline())


def test_programs_near_an_answer() -> None:
    """Values of more digits than solvers print have room for those."""
    equation = [Row(0, 0, {0: 1, 1: -1})]
    columns = [
        Column(0, 10**9, is_integer=True, cost=1),
        Column(0, 10**9, is_integer=True),
        Column(0, 9),
    ]
    p = program(columns, equation)
    near = restricted_to(p, [12345678.0, 3.0, 1.0], frees_equations=False)
    assert (near.lower[0], near.upper[0]) == (12345678 - 124, 12345678 + 124)
    assert (near.lower[1:], near.upper[1:]) == ([3, 0], [3, 9])
    free = restricted_to(p, [12345678.0, 3.0, 1.0], frees_equations=True)
    assert (free.lower, free.upper) == ([0, 3, 0], [10**9, 3, 9])


@pytest.mark.parametrize(
    "side, is_missed",
    [
        ("3.000001", True),
        ("3.00000000001", True),
        ("2.9999999999999", False),
        ("3.0000000000000004", False),
    ],
)
def test_residuals_of_integer_columns(side: str, is_missed: bool) -> None:
    """1 + 2 >= side: what is missed by more than 1e-12 is no rounding."""
    p = program(
        [Column(0, 9, is_integer=True), Column(0, 9, is_integer=True)],
        [Row(side, None, {0: 1, 1: 1})],
    )
    assert (integer_residual(p, [1.0, 2.0]) > F(1, 10**12)) is is_missed


def test_residuals_of_bounds_and_of_other_rows() -> None:
    p = program([Column(0, 4, is_integer=True), Column(0, 4)], [Row(9, None, {0: 1, 1: 1})])
    assert integer_residual(p, [4.0, 0.0]) == 0  # the row has a column that is not integer
    assert integer_residual(p, [5.0, 0.0]) == F(1, 5)


@given(
    st.lists(st.tuples(SMALL, SMALL), min_size=1, max_size=3),
    st.tuples(SMALL, SMALL),
    st.integers(0, 3),
)
@NEEDS_CLP
def test_rays_have_no_end_and_improve(
    coefficients: List[Tuple[int, int]], costs: Tuple[int, int], steps: int
) -> None:
    columns = [Column(0, None, cost=c) for c in costs]
    p = program(columns, [Row(None, 0, dict(enumerate(row))) for row in coefficients])
    ray = find_ray(p.recession_cone())
    assume(ray is not None)
    assert ray is not None
    assert p.is_feasible([steps * v for v in ray])
    assert p.value(ray) < 0


def test_what_is_no_ray() -> None:
    cone = mixed().with_costs([F(1), F(0), F(0)]).recession_cone()
    assert is_ray(cone, [F(-1), F(0), F(0)])
    for direction in ([F(1), F(0), F(0)], [F(0), F(0), F(0)], [F(-1), F(1), F(0)]):
        assert not is_ray(cone, direction)
