"""A program in whole numbers: it has the same feasible points and values as the text."""

from __future__ import annotations

import itertools
import random
from fractions import Fraction
from typing import Dict, List, Optional, Sequence, Tuple, Union

import pytest
from hypothesis import given, settings
from hypothesis import strategies as st

from bridge_drivers.model.integer_form import (
    Box,
    IntegerProgram,
    Row,
    over_common_denominator,
    scaled,
    violations,
)
from bridge_drivers.model.linear_program import LinearProgram
from bridge_drivers.system.errors import UnsupportedModel
from builders.plain_mps import Plain, random_text
from programs import Column, program
from programs import Row as GivenRow

F = Fraction
TEXT = (
    b"NAME nl\nOBJSENSE\n MAX\nROWS\n N obj\n L c0\n G c2\nCOLUMNS\n x0 obj 1\n x0 c0 3\n"
    b" M0 'MARKER' 'INTORG'\n x1 obj 2\n x1 c0 4\n x1 c2 2\n x2 c0 -2\n x2 c2 4\n"
    b" M1 'MARKER' 'INTEND'\nRHS\n RHS obj -0.5\n RHS c0 6\n RHS c2 1\nRANGES\n RNG c2 4\n"
    b"BOUNDS\n FR BND x0\n UP BND x1 2.5\n UP BND x2 3\nENDATA\n"
)
TIED = (
    b"NAME nl\n%sROWS\n N obj\n E c0\n E zdef\nCOLUMNS\n x0 zdef 6\n x1 zdef -3\n"
    b" x1 c0 1\n z obj 1\n z zdef -3\nRHS\n RHS zdef -15\nBOUNDS\n FR BND x0\n"
    b" FR BND x1\n FR BND z\nENDATA\n"
)


def integer_form(text: bytes, factors: Dict[int, int], constraints: int) -> IntegerProgram:
    return IntegerProgram.of(LinearProgram.of(text), factors, constraints)


@pytest.fixture
def maximised() -> IntegerProgram:
    """max x0 + 2 x1 + 1/2; the row c0 was written times 2, the row c1 has no bounds."""
    return integer_form(TEXT, {0: 2}, 3)


def over(bounds: Sequence[Optional[int]], scale: int) -> List[Optional[Fraction]]:
    return [None if bound is None else F(bound, scale) for bound in bounds]


def test_a_program(maximised: IntegerProgram) -> None:
    p = maximised
    assert (p.n, p.m, p.constraint_count, p.sign) == (3, 3, 3, -1)
    assert p.is_integer == [False, True, True]
    rows = [[(j, F(a, p.row_scale)) for j, a in row] for row in p.rows]
    assert rows == [[(0, F(3, 2)), (1, 2), (2, -1)], [], [(1, 2), (2, 4)]]
    assert over(p.row_lower, p.bound_scale) == [None, None, 1]
    assert over(p.row_upper, p.bound_scale) == [3, None, 5]
    assert p.value([F(1), F(1), F(0)]) == F(-7, 2)
    assert p.objective_lattice() is None
    assert p.finite_bounds(1) == [F(0), F(5, 2)]
    assert p.finite_bounds(0) == []


@pytest.mark.parametrize(
    "x, is_feasible",
    [
        ([F(2, 3), F(1), F(0)], True),
        ([F(2, 3), F(1, 2), F(0)], False),  # not whole
        ([F(1), F(1), F(0)], False),  # c0
        ([F(0), F(0), F(0)], False),  # c2
        ([F(-9), F(3), F(0)], False),  # the bound of x1
    ],
)
def test_feasible_points(maximised: IntegerProgram, x: List[Fraction], is_feasible: bool) -> None:
    assert maximised.is_feasible(x) is is_feasible


def test_columns_of_another_file() -> None:
    with pytest.raises(UnsupportedModel):
        integer_form(TEXT.replace(b" x2 ", b" x7 "), {}, 3)


@pytest.mark.parametrize("sense, sign", [(b"", 1), (b"OBJSENSE\n MAX\n", -1)])
def test_a_tied_objective(sense: bytes, sign: int) -> None:
    """3 (2 x0 - x1 + 5 - z) = 0."""
    p = integer_form(TIED % sense, {}, 1)
    assert (p.n, p.rows) == (2, [[(1, 1)]])
    assert p.cost_fractions == [2 * sign, -sign]
    assert p.constant_fraction == 5 * sign


def test_rows_times_factors() -> None:
    text = (
        b"NAME nl\nROWS\n N obj\n L c1\n G c2\nCOLUMNS\n x0 c1 3\n x0 c2 0.5\n x1 c1 1\n"
        b"RHS\n RHS c1 4\nENDATA\n"
    )
    p = integer_form(text, {1: 6}, 3)
    rows = [[(j, F(a, p.row_scale)) for j, a in row] for row in p.rows]
    assert rows == [[], [(0, F(1, 2)), (1, F(1, 6))], [(0, F(1, 2))]]
    assert over(p.row_upper, p.bound_scale) == [None, F(2, 3), None]
    assert (p.row_scale, p.bound_scale) == (6, 3)


@pytest.mark.parametrize("seed", range(150))
def test_random_texts(seed: int) -> None:
    """All numbers are those of the text, over the least scales."""
    plain = Plain(random_text(seed))
    p = IntegerProgram.of(LinearProgram.of_named(random_text(seed)), {}, len(plain.constraints()))
    sign, names = p.sign, list(plain.ends)
    costs = [plain.entries.get((plain.objective(), name), F(0)) for name in names]
    assert [sign * c for c in p.cost_fractions] == costs
    assert sign * p.constant_fraction == -plain.rhs.get(plain.objective(), 0)
    assert [{names[j]: F(a, p.row_scale) for j, a in row} for row in p.rows] == [
        {j: a for (i, j), a in plain.entries.items() if i == row and a}
        for row in plain.constraints()
    ]
    bounds = zip(over(p.lower, p.bound_scale), over(p.upper, p.bound_scale))
    assert list(bounds) == list(plain.bounds().values())
    sides = zip(over(p.row_lower, p.bound_scale), over(p.row_upper, p.bound_scale))
    assert list(sides) == list(plain.sides().values())


SMALL = st.integers(-3, 3)
TENTHS = st.integers(-30, 30).map(lambda v: f"{v / 10:.1f}")


Case = Tuple[List[Column], List[GivenRow], str]  # with min or max


@st.composite
def small_programs(draw: st.DrawFn) -> Case:
    """Columns of integer and of continuous kind, with decimals, and rows of each kind."""
    count = draw(st.integers(1, 3))
    columns = []
    for _ in range(count):
        least = draw(SMALL)
        columns.append(Column(least, least + 2, draw(st.booleans()), draw(TENTHS)))
    rows = []
    for _ in range(draw(st.integers(0, 3))):
        lower = draw(st.one_of(st.none(), SMALL))
        upper = draw(st.one_of(st.none(), SMALL)) if lower is not None else draw(SMALL)
        if lower is not None and upper is not None:
            upper = max(lower, upper)
        rows.append(GivenRow(lower, upper, {j: draw(TENTHS) for j in range(count)}))
    return columns, rows, draw(st.sampled_from(["min", "max"]))


def is_within(bounded: Union[Column, GivenRow], value: Fraction) -> bool:
    """Whether a value keeps the bounds of a column or a row."""
    is_above = bounded.lower is None or value >= F(bounded.lower)
    return is_above and (bounded.upper is None or value <= F(bounded.upper))


@settings(max_examples=50)
@given(small_programs(), st.integers(0, 10**6))
def test_the_same_points_are_feasible(case: Case, seed: int) -> None:
    """And have the same values, at halves."""
    chance = random.Random(seed)
    columns, rows, sense = case
    p = program(columns, rows, sense)
    for _ in range(30):
        x = [F(chance.randint(-8, 8), 2) for _ in columns]
        fits = all(
            is_within(column, v) and (v.denominator == 1 or not column.is_integer)
            for column, v in zip(columns, x)
        )
        for row in rows:
            terms = (F(a) * x[j] for j, a in row.coefficients.items())
            fits &= is_within(row, sum(terms, F(0)))
        assert p.is_feasible(x) is fits
        assert p.sign * p.value(x) == sum(F(c.cost) * v for c, v in zip(columns, x))


@settings(max_examples=50)
@given(small_programs())
def test_the_lattice_of_the_objective(case: Case) -> None:
    """Each value is the constant and a whole multiple of the spacing; there is none where a
    continuous column costs something, or nothing does.
    """
    columns, rows, sense = case
    p = program(columns, rows, sense)
    lattice = p.objective_lattice()
    if lattice is None:
        assert not any(p.costs) or any(
            cost and not is_integer for cost, is_integer in zip(p.costs, p.is_integer)
        )
        return
    for x in itertools.product((-2, 0, 1), repeat=p.n):
        form = sum(a * x[j] for j, a in lattice.coefficients.items())
        value = p.value([F(v) for v in x])
        assert value == p.constant_fraction + lattice.spacing * form


def test_other_costs(maximised: IntegerProgram) -> None:
    p = maximised.with_costs([F(0), F(3, 2), F(-9, 4)])
    assert p.objective_lattice() == (F(3, 4), {1: 2, 2: -3})
    x = [F(1), F(2), F(3)]
    assert p.value(x) == 3 - F(27, 4)
    assert maximised.with_integer_costs({0: 2, 2: -1}).value(x) == -1
    assert maximised.without_costs().value(x) == F(-1, 2)
    assert maximised.value(x) == -F(11, 2)


def test_added_rows(maximised: IntegerProgram) -> None:
    p = maximised.with_rows([Row({2: 1, 0: -2}, None, 1), Row({1: 1}, 1, 1)])
    assert (p.m, p.constraint_count) == (5, 3)
    assert maximised.m == 3
    assert [[(j, F(a, p.row_scale)) for j, a in row] for row in p.rows[3:]] == [
        [(0, F(-2)), (2, F(1))],
        [(1, F(1))],
    ]
    assert over(p.row_lower[3:], p.bound_scale) == [None, 1]
    assert over(p.row_upper[3:], p.bound_scale) == [1, 1]
    assert len(p.in_doubles().row_lower) == 5


def test_other_bounds_and_integers(maximised: IntegerProgram) -> None:
    bounds = Box([0, 0, 0], [None, None, None])
    p = maximised.with_bounds(*bounds).with_integers([True] * 3)
    assert (p.lower, p.upper, p.is_integer) == (*bounds, [True] * 3)


def test_the_recession_cone(maximised: IntegerProgram) -> None:
    """x0 alone has no lower and no upper bound."""
    cone = maximised.recession_cone()
    assert (cone.lower, cone.upper) == ([-1, 0, 0], [1, 0, 0])
    assert cone.row_upper == [0, None, 0]
    assert max(abs(cost) for cost in cone.cost_fractions) == 1
    assert cone.is_feasible([F(-1), F(0), F(0)])
    assert not cone.is_feasible([F(1), F(0), F(0)])


def test_violations() -> None:
    found = violations([3, -1, 5], [0, 0, None], [1, None, 9], 2)
    assert list(found) == [(0, 1), (1, 0)]
    assert scaled(None, 3) is None
    assert scaled(2, 3) == 6


@given(st.lists(st.fractions(), max_size=5))
def test_a_common_denominator(x: List[Fraction]) -> None:
    numerators, denominator = over_common_denominator(x)
    assert [F(v, denominator) for v in numerators] == x


@pytest.mark.parametrize("is_large", [False, True])
def test_in_doubles(
    maximised: IntegerProgram, is_large: bool, monkeypatch: pytest.MonkeyPatch
) -> None:
    """Of few entries and of many."""
    if is_large:
        monkeypatch.setattr("bridge_drivers.model.sparse_rows.LARGE", -1)
    doubles = maximised.in_doubles()
    assert (doubles.lower, doubles.upper) == ([None, 0.0, 0.0], [None, 2.5, 3.0])
    assert doubles.costs == [-1.0, -2.0, 0.0]
    assert (doubles.row_lower, doubles.row_upper) == ([None, None, 1.0], [3.0, None, 5.0])
    columns = doubles.columns
    assert list(columns.starts) == [0, 1, 3, 5]
    assert list(columns.rows) == [0, 0, 2, 0, 2]
    assert list(columns.values) == [1.5, 2.0, 2.0, -1.0, 4.0]
    assert maximised.in_doubles(has_costs=False).costs == [0.0] * 3
    more = columns.with_units([(1, -1.0)])
    assert (list(more.starts)[-2:], more.rows[-1], more.values[-1]) == ([5, 6], 1, -1.0)
    assert list(columns.over([2.0, 1.0, 4.0]).values) == [0.75, 2.0, 2.0, -0.25, 1.0]
    assert columns.over([1.0] * 3) is columns
