"""Reduced bases of lattices, and thin directions of programs."""

from __future__ import annotations

import itertools
from fractions import Fraction
from typing import Dict, List

import pytest
from hypothesis import assume, given
from hypothesis import strategies as st

from bridge_drivers.exact.lattice import LLLReduction, reduced_modulo, thin_directions
from bridge_drivers.exact.linear_systems import solve_exactly
from programs import Column, Row, program

NUMBERS = st.integers(-60, 60)
Vectors = List[List[int]]


@st.composite
def vectors(draw: st.DrawFn) -> Vectors:
    """Fewer vectors than numbers in each of them."""
    count = draw(st.integers(1, 5))
    length = draw(st.integers(count, 6))
    return [draw(st.lists(NUMBERS, min_size=length, max_size=length)) for _ in range(count)]


def product(one: List[int], other: List[int]) -> int:
    return sum(x * y for x, y in zip(one, other))


@given(vectors())
def test_a_reduced_basis_spans_the_same_lattice(given_vectors: Vectors) -> None:
    """Each vector of the one is a whole combination of those of the other."""
    reduction = LLLReduction(given_vectors)
    assume(reduction.run())
    for i, vector in enumerate(given_vectors):
        shares = [coordinate[i] for coordinate in reduction.coordinates]
        found = [sum(s * b[c] for s, b in zip(shares, reduction.basis)) for c in range(len(vector))]
        assert found == vector
    for vector in reduction.basis:
        equations = [
            ({i: given_vectors[i][c] for i in range(len(given_vectors))}, vector[c])
            for c in range(len(vector))
        ]
        shares_back = solve_exactly(equations)
        assert shares_back is not None
        assert all(v.denominator == 1 for v in shares_back.values())


@given(vectors())
def test_a_reduced_basis_is_nearly_orthogonal(given_vectors: Vectors) -> None:
    """By definition of the reduction, over a Gram-Schmidt basis that is made here anew."""
    reduction = LLLReduction(given_vectors)
    assume(reduction.run())
    squares: List[Fraction] = []
    orthogonal: List[List[Fraction]] = []
    for k, vector in enumerate(reduction.basis):
        left = [Fraction(v) for v in vector]
        shares = []
        for other, square in zip(orthogonal, squares):
            share = sum((x * y for x, y in zip(vector, other)), Fraction(0)) / square
            shares.append(share)
            left = [x - share * y for x, y in zip(left, other)]
        assert all(abs(share) <= Fraction(1, 2) for share in shares)
        squares.append(sum((x * x for x in left), Fraction(0)))
        orthogonal.append(left)
        d = reduction.determinants
        assert squares[k] == Fraction(d[k + 1], d[k])
        if k:
            assert squares[k] >= (Fraction(99, 100) - shares[-1] ** 2) * squares[k - 1]


@given(vectors(), st.lists(NUMBERS, min_size=5, max_size=5))
def test_dependent_vectors_are_not_reduced(given_vectors: Vectors, shares: List[int]) -> None:
    combined = [sum(s * v for s, v in zip(shares, column)) for column in zip(*given_vectors)]
    assert not LLLReduction([*given_vectors, combined]).run()


def test_a_knapsack_of_large_numbers_has_a_thin_direction() -> None:
    """12223 x + 12224 y + 36674 z = 89643481 (Cornuejols and others 1997), x, y, z >= 0.

    The numbers are nearly multiples of each other, so that few values of the first form are left:
    few enough to be gone through one by one.
    """
    coefficients = {0: 12223, 1: 12224, 2: 36674}
    p = program(
        [Column(0, 9000, is_integer=True) for _ in range(3)],
        [Row(89643481, 89643481, coefficients)],
    )
    form = thin_directions(p)[0]
    assert len(form) > 1
    ends = []
    for j, a in coefficients.items():  # the vertices of the simplex
        ends.append(Fraction(89643481, a) * form.get(j, 0))
    assert max(ends) - min(ends) < 900 < 89643481 / 36674


SMALL = st.integers(-9, 9)


@given(
    st.dictionaries(st.integers(0, 4), st.integers(-(10**6), 10**6).filter(bool), min_size=1),
    st.lists(st.dictionaries(st.integers(0, 4), SMALL.filter(bool), min_size=1), max_size=3),
)
def test_forms_differ_by_multiples_of_equations(
    form: Dict[int, int], equations: List[Dict[int, int]]
) -> None:
    """At each point where the equations have the value 0, the form has the value it had."""
    found = reduced_modulo(form, equations)
    difference = {j: found.get(j, 0) - form.get(j, 0) for j in {**form, **found}}
    system = [
        ({e: Fraction(a[j]) for e, a in enumerate(equations) if j in a}, v)
        for j, v in difference.items()
    ]
    assert solve_exactly(system) is not None
    assert sum(v * v for v in found.values()) <= sum(v * v for v in form.values())


@pytest.mark.parametrize(
    "form, equations, reduced",
    [
        ({0: 128 * 12134 + 1, 1: 128 * 12202 + 1}, [{0: 12134, 1: 12202}], {0: 1, 1: 1}),
        ({0: 6, 1: 10}, [{0: 3, 1: 5}], {}),
        ({2: 7}, [], {2: 7}),
    ],
)
def test_forms_modulo_equations_by_hand(
    form: Dict[int, int], equations: List[Dict[int, int]], reduced: Dict[int, int]
) -> None:
    assert reduced_modulo(form, equations) == reduced


@given(st.lists(st.integers(1, 40), min_size=3, max_size=3), st.integers(20, 200))
def test_directions_are_whole_forms_of_several_columns(numbers: List[int], side: int) -> None:
    p = program(
        [Column(0, 6, is_integer=True) for _ in numbers],
        [Row(side, side + 3, dict(enumerate(numbers)))],
    )
    found = thin_directions(p, {0: 1, 1: 2}, Fraction(3))
    for form in found:
        assert len(form) > 1 and form[min(form)] > 0
        assert all(isinstance(a, int) and a for a in form.values())
    for one, other in itertools.combinations(found, 2):
        assert one != other


def test_too_few_columns_have_no_directions() -> None:
    columns = [Column(0, 5, is_integer=True), Column(2, 2, is_integer=True), Column(0, 5)]
    assert thin_directions(program(columns, [Row(1, 7, {0: 3, 1: 5})])) == []
