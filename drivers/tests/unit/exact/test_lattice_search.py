"""What a search over the lattice of equations finds is the optimum, and its certificate is accepted."""

from __future__ import annotations

from fractions import Fraction
from math import floor
from typing import Iterable, List

import pytest
from hypothesis import given
from hypothesis import strategies as st

from bridge_drivers.exact.certificate import claim_lines
from bridge_drivers.exact.hermite import hermite_refutation
from bridge_drivers.exact.lattice_search import (
    MOST_ROWS,
    LatticeOptimum,
    is_small_lattice,
    lattice_forms,
    lattice_optimum,
)
from bridge_drivers.model.integer_form import IntegerProgram
from bridge_drivers.system.errors import SearchEnded
from integer_programs import optimum_of, points_of
from judging import Judge
from programs import Column, Row, program


def goes_on() -> None:
    """No limit of time."""


@st.composite
def boxed_equations(draw: st.DrawFn) -> IntegerProgram:
    """Two to four integer columns in small boxes, under one or two equations and perhaps a row."""
    count = draw(st.integers(2, 4))
    columns = [
        Column(
            draw(st.integers(-3, 0)),
            draw(st.integers(1, 4)),
            is_integer=True,
            cost=draw(st.integers(-9, 9)),
        )
        for _ in range(count)
    ]
    rows = []
    for _ in range(draw(st.integers(1, 2))):
        side = draw(st.integers(-9, 9))
        numbers = {j: draw(st.integers(-6, 6)) for j in range(1, count)}
        terms = {0: draw(st.integers(1, 6)), **{j: a for j, a in numbers.items() if a}}
        rows.append(Row(side, side, terms))
    if draw(st.booleans()):
        rows.append(Row(None, draw(st.integers(-4, 9)), {0: 3, 1: draw(st.integers(1, 5))}))
    return program(columns, rows, draw(st.sampled_from(["min", "max"])))


def judged(p: IntegerProgram, found: LatticeOptimum) -> str:
    """What a judge says of the certificate of what was found."""
    assert found.tree is not None
    if found.point is None:
        head: Iterable[str] = claim_lines("infeasible", None)
    else:
        head = claim_lines("optimal", 0, None, found.point)
    return Judge(p)([*head, *found.tree.lines()]).line


@given(boxed_equations())
def test_small_programs(p: IntegerProgram) -> None:
    """As enumeration has it; where nothing is found, no equation has an integer solution."""
    found = lattice_optimum(p, goes_on)
    best = optimum_of(p)
    if found is None:
        assert best is None
        return
    if best is None:
        assert found.point is None and judged(p, found) == "infeasible"
    else:
        assert found.point is not None and p.is_feasible(found.point)
        assert p.sign * p.value(found.point) == best
        assert judged(p, found).startswith("optimal ")


@given(boxed_equations())
def test_forms_are_whole_at_all_points(p: IntegerProgram) -> None:
    forms = lattice_forms(p)
    if forms is None:
        return
    for point in points_of(p):
        assert all(sum(a * point[j] for j, a in form.items()).denominator == 1 for form in forms)


def remainders(moduli: List[int], rests: List[int], most: int) -> IntegerProgram:
    """The least x below `most` with these remainders: x = m k + r for each pair."""
    columns = [Column(0, most, is_integer=True, cost=1)]
    columns += [Column(0, most, is_integer=True) for _ in moduli]
    rows = [Row(r, r, {0: 1, k + 1: -m}) for k, (m, r) in enumerate(zip(moduli, rests))]
    return program(columns, rows)


@pytest.mark.parametrize(
    "moduli, x",
    [
        ([9, 10, 7, 11], 3127),
        ([97, 101, 103, 107, 109], 123456789),
        ([1000003, 1000033, 999983], 999_999_999_999),
        ([2**31 - 1, 2**31 + 11], 2**61 + 7),
    ],
)
def test_remainders(moduli: List[int], x: int) -> None:
    """The least number with given remainders, whatever doubles hold."""
    period = 1
    for m in moduli:
        period *= m
    p = remainders(moduli, [x % m for m in moduli], 4 * x)
    found = lattice_optimum(p, goes_on)
    assert found is not None and found.point is not None
    assert found.point[0] == x % period
    assert judged(p, found) == f"optimal {x % period}"


@pytest.mark.parametrize(
    "a, b", [(1000000007, 998244353), (10**12 + 39, 10**12 + 61), (37, 21)]
)
@pytest.mark.parametrize("has_room", [True, False], ids=["point", "none"])
def test_two_coprime_numbers(a: int, b: int, has_room: bool) -> None:
    """a x - b y = 1: the least x is the inverse of a; in a smaller box there is no point."""
    x = pow(a, -1, b)
    most = x if has_room else x - 1
    columns = [Column(0, most, is_integer=True, cost=1), Column(0, None, is_integer=True)]
    p = program(columns, [Row(1, 1, {0: a, 1: -b})])
    found = lattice_optimum(p, goes_on)
    assert found is not None
    assert found.point == ([x, floor(Fraction(a * x - 1, b))] if has_room else None)
    assert judged(p, found) == (f"optimal {x}" if has_room else "infeasible")


def test_a_frobenius_number_has_no_sum() -> None:
    """Of coins without a common divisor the largest number that is no sum of them, and the next."""
    coins = {0: 12223, 1: 12224, 2: 36674}
    columns = [Column(0, None, is_integer=True, cost=1) for _ in coins]
    for side, is_sum in ((89643481, False), (12223 * 5 + 36674 * 3, True)):
        found = lattice_optimum(program(columns, [Row(side, side, coins)]), goes_on)
        assert found is not None and found.tree is not None
        assert (found.point is not None) == is_sum


@given(
    st.sampled_from([10**19, 10**20, 3 * 10**21 + 1]),
    st.lists(st.integers(1, 9), min_size=3, max_size=3),
    st.integers(0, 30),
)
def test_wide_rows(size: int, numbers: List[int], rest: int) -> None:
    """A row with a coefficient beside which doubles lose the other one."""
    a, cost, most = numbers
    p = program(
        [Column(0, 5, is_integer=True, cost=cost), Column(0, 6, is_integer=True, cost=1)],
        [Row(None, most % 5 * size + rest, {0: size, 1: a})],
        "max",
    )
    found = lattice_optimum(p, goes_on)
    assert found is not None and found.point is not None
    assert p.sign * p.value(found.point) == optimum_of(p)
    assert judged(p, found).startswith("optimal ")


def test_what_is_left_alone() -> None:
    """Programs without equations of integer columns, without a solution, and large ones."""
    free = Column(None, None, is_integer=True)
    assert lattice_optimum(program([free], [Row(1, None, {0: 2})]), goes_on) is None
    contradicted = program([free, free], [Row(1, 1, {0: 2, 1: 4})])
    assert hermite_refutation(contradicted) is not None
    assert lattice_optimum(contradicted, goes_on) is None
    rows = [Row(0, None, {0: 1}) for _ in range(MOST_ROWS)]
    assert not is_small_lattice(program([free, free], [*rows, Row(1, 1, {0: 1, 1: 2})]))


def test_a_search_that_is_ended_has_its_best_point() -> None:
    steps = iter(range(10**6))

    def ends_late() -> None:
        if next(steps) > 200:
            raise SearchEnded("time")

    columns = [Column(0, 60, is_integer=True, cost=cost) for cost in (5, 7, 11, 13, 17, 19)]
    p = program(columns, [Row(997, 997, dict(enumerate((3, 17, 19, 23, 29, 31))))])
    found = lattice_optimum(p, ends_late)
    assert found is not None
    assert found.point is None or p.is_feasible(found.point)
