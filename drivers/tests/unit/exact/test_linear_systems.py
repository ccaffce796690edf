"""Linear systems in whole numbers: by elimination, and by lifting where SciPy is installed."""

from __future__ import annotations

import functools
import operator
from fractions import Fraction
from typing import Dict, List, Optional, Tuple

import pytest
from hypothesis import given
from hypothesis import strategies as st

from bridge_drivers.exact.linear_systems import (
    Equation,
    LiftedSystem,
    reconstructed,
    scipy_or_none,
    solve_exactly,
)
from bridge_drivers.system.errors import NotSolved, TooManyBits

NEEDS_SCIPY = pytest.mark.skipif(scipy_or_none() is None, reason="no SciPy")
FRACTIONS = st.fractions(-9, 9, max_denominator=5)
COEFFICIENTS = st.fractions(-3, 3, max_denominator=3)
MOST_BITS = 20_000  # enough for each system here


def activity(coefficients: Dict[int, Fraction], values: Dict[int, Fraction]) -> Fraction:
    return sum((a * values.get(k, 0) for k, a in coefficients.items()), Fraction(0))


@st.composite
def solvable_systems(draw: st.DrawFn) -> List[Equation]:
    """Equations that hold at a point: there may be more or fewer of them than unknowns."""
    point = dict(enumerate(draw(st.lists(FRACTIONS, min_size=1, max_size=7))))
    rows = st.dictionaries(st.integers(0, len(point) - 1), COEFFICIENTS, max_size=len(point))
    return [(row, activity(row, point)) for row in draw(st.lists(rows, max_size=9))]


@given(solvable_systems())
def test_a_solution_satisfies_each_equation(system: List[Equation]) -> None:
    found = solve_exactly(system)
    assert found is not None
    for coefficients, rhs in system:
        assert activity({j: Fraction(a) for j, a in coefficients.items()}, found) == rhs


@given(solvable_systems(), st.data())
def test_a_contradiction_is_found(system: List[Equation], data: st.DataObject) -> None:
    """A combination of the equations with another right-hand side is behind them."""
    factors = data.draw(st.lists(COEFFICIENTS, min_size=len(system), max_size=len(system)))
    total: Dict[int, Fraction] = {}
    rhs = Fraction(1)
    for factor, (coefficients, side) in zip(factors, system):
        rhs += factor * side
        for k, a in coefficients.items():
            total[k] = total.get(k, Fraction(0)) + factor * a
    assert solve_exactly([*system, (total, rhs)]) is None


@pytest.mark.parametrize(
    "system, solution",
    [
        ([], {}),
        ([({}, 0)], {}),
        ([({}, 1)], None),
        ([({0: 1, 1: 1}, 1), ({0: 2, 1: 2}, 3)], None),
        ([({0: 1, 1: 1}, 1), ({0: 2, 1: 2}, 2)], {0: 1}),
        ([({3: 2}, 5)], {3: Fraction(5, 2)}),
    ],
)
def test_systems_by_hand(system: List[Equation], solution: Optional[Dict[int, Fraction]]) -> None:
    found = solve_exactly(system)
    assert (found is None) == (solution is None)
    assert {k: v for k, v in (found or {}).items() if v} == (solution or {})


def test_an_elimination_ends_where_it_takes_too_much_work() -> None:
    dense = [({j: i + j + (i == j) for j in range(9)}, i) for i in range(9)]
    assert solve_exactly(dense) is not None
    assert solve_exactly(dense, most_work=10) is None


Pairs = List[List[Tuple[int, int]]]


@st.composite
def square_systems(draw: st.DrawFn) -> Tuple[Pairs, List[int]]:
    """Matrices whose diagonal outweighs the other entries of its rows, so that they are regular."""
    size = draw(st.integers(1, 12))
    rows = []
    for i in range(size):
        others = st.integers(0, size - 1).filter(functools.partial(operator.ne, i))
        entries = draw(st.dictionaries(others, st.integers(-50, 50).filter(bool), max_size=4))
        largest = 1 + sum(abs(a) for a in entries.values())
        rows.append([*entries.items(), (i, draw(st.sampled_from((-1, 1))) * largest)])
    return rows, draw(st.lists(st.integers(-99, 99), min_size=size, max_size=size))


def transposed(rows: Pairs) -> Pairs:
    columns: Pairs = [[] for _ in rows]
    for i, row in enumerate(rows):
        for j, a in row:
            columns[j].append((i, a))
    return columns


@NEEDS_SCIPY
@given(square_systems())
def test_lifting_finds_the_solution_of_elimination(case: Tuple[Pairs, List[int]]) -> None:
    """Of the matrix, and of its transpose."""
    rows, rhs = case
    lifted = LiftedSystem(rows, MOST_BITS)
    for found, matrix in (
        (lifted.solve(rhs), rows),
        (lifted.solve_transposed(rhs), transposed(rows)),
    ):
        wanted = solve_exactly([(dict(row), side) for row, side in zip(matrix, rhs)])
        assert wanted is not None
        values = [Fraction(v, found.denominator) for v in found.numerators]
        assert values == [wanted.get(k, 0) for k in range(len(rows))]


@NEEDS_SCIPY
def test_a_solution_of_many_bits_takes_several_tries() -> None:
    """A chain whose solution has the denominator 97 to the power of 60, and a bit."""
    rows = [[(0, 97), (59, 1)]] + [[(k - 1, 1), (k, 97)] for k in range(1, 60)]
    found = LiftedSystem(rows, MOST_BITS).solve([1] + [0] * 59)
    assert found.denominator.bit_length() > 300
    for k, row in enumerate(rows):
        assert sum(a * found.numerators[j] for j, a in row) == found.denominator * (k == 0)


@NEEDS_SCIPY
def test_a_solution_of_more_bits_than_are_wanted() -> None:
    rows = [[(0, 97), (9, 1)]] + [[(k - 1, 1), (k, 97)] for k in range(1, 10)]
    with pytest.raises(TooManyBits, match="^more than 30 bits$"):
        LiftedSystem(rows, 60).solve([1] + [0] * 9)


@NEEDS_SCIPY
@pytest.mark.parametrize(
    "rows, rhs, why",
    [
        ([[(0, 1), (1, 2)], [(0, 2), (1, 4)]], [1, 0], "singular"),
        ([[(0, 2**70)]], [1], "too wide for 64 bits"),
        ([[(0, 3)]], [2**60], "a right side is too wide"),
    ],
)
def test_systems_that_are_not_lifted(rows: Pairs, rhs: List[int], why: str) -> None:
    with pytest.raises(NotSolved, match=why):
        LiftedSystem(rows, 400).solve(rhs)


DENOMINATORS = st.sampled_from((1, 7, 91, 360))


@given(st.lists(st.builds(Fraction, st.integers(-999, 999), DENOMINATORS), max_size=6))
def test_fractions_are_told_from_their_digits(wanted: List[Fraction]) -> None:
    found = reconstructed([round(v * 2**80) for v in wanted], bits=80, error=1)
    assert found is not None
    assert [Fraction(v, found.denominator) for v in found.numerators] == wanted


def test_too_few_digits_tell_no_fraction() -> None:
    assert reconstructed([round(Fraction(10007, 20011) * 2**20)], bits=20, error=1) is None
