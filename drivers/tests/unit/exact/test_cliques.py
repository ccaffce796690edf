"""Clique cuts and conflicts are right: by enumeration."""

from __future__ import annotations

import itertools
from fractions import Fraction
from typing import List

import pytest
from hypothesis import given
from hypothesis import strategies as st

from bridge_drivers.exact.cliques import Literal, clique_cuts, conflict_graph, knapsack_rows
from bridge_drivers.exact.cuts import is_parallel
from bridge_drivers.model.integer_form import IntegerProgram
from integer_programs import PIGEONS, points_of
from programs import Column, Row, program


@st.composite
def binary_programs(draw: st.DrawFn) -> IntegerProgram:
    """Rows over binary columns, and one other integer column."""
    count = draw(st.integers(3, 5))
    columns = [Column(0, 1, is_integer=True) for _ in range(count)] + [
        Column(-1, 2, is_integer=True)
    ]
    rows = []
    for _ in range(draw(st.integers(1, 4))):
        weights = {j: draw(st.integers(-4, 5)) for j in range(count + 1)}
        at = draw(st.integers(-2, 6))
        sides = draw(st.sampled_from([(None, at), (at, None), (at - 3, at)]))
        rows.append(Row(*sides, {j: a for j, a in weights.items() if a}))
    return program(columns, rows)


def value_of(literal: Literal, point: List[Fraction]) -> Fraction:
    return point[literal.column] if literal.sign > 0 else 1 - point[literal.column]


@given(binary_programs())
def test_conflicts_exclude_each_other(p: IntegerProgram) -> None:
    graph = conflict_graph(p)
    for point in points_of(p):
        for literal, others in graph.items():
            assert all(value_of(literal, point) + value_of(other, point) <= 1 for other in others)
    assert all(literal in graph[other] for literal, others in graph.items() for other in others)


@given(binary_programs(), st.lists(st.floats(0, 1), min_size=6, max_size=6))
def test_cuts_hold_at_all_points(p: IntegerProgram, x: List[float]) -> None:
    cuts = [cut for one in clique_cuts(p, x[: p.n]) for cut in (*one.smaller, one)]
    for point in points_of(p):
        for cut in cuts:
            assert sum(a * point[j] for j, a in cut.coefficients.items()) <= cut.rhs


@given(binary_programs())
def test_knapsack_rows_hold_at_all_points(p: IntegerProgram) -> None:
    for items, capacity in knapsack_rows(p):
        for point in points_of(p):
            total = sum(weight * value_of(literal, point) for weight, literal in items)
            assert total <= capacity


def test_complements() -> None:
    """x0 + (1 - x1) + x2 is at most 1, as three rows of pairs say."""
    pairs = [Row(None, 0, {0: 1, 1: -1}), Row(None, 1, {0: 1, 2: 1}), Row(None, 0, {2: 1, 1: -1})]
    p = program([Column(0, 1, is_integer=True) for _ in range(3)], pairs)
    found = [cut for cut in clique_cuts(p, [0.5, 0.5, 0.5]) if len(cut.coefficients) == 3]
    assert [(cut.coefficients, cut.rhs) for cut in found] == [({0: 1, 1: -1, 2: 1}, 0)]
    assert found[0].violation == 0.5


def test_cliques_grow_literal_by_literal() -> None:
    """Of five pigeons in one hole at most one: cuts of three and four of them come before."""
    cut = next(iter(clique_cuts(PIGEONS, [0.25] * PIGEONS.n)))
    sizes = [len(one.coefficients) for one in (*cut.smaller, cut)]
    assert sizes == [3, 4, 5] and cut.violation == 0.25
    for one, other in itertools.combinations((*cut.smaller, cut), 2):
        assert one.coefficients.items() <= other.coefficients.items()


@pytest.mark.parametrize(
    "one, other, wanted",
    [
        ({0: 1, 1: 1}, {0: 2, 1: 2}, True),
        ({0: 1, 1: 1}, {0: 1, 1: -1}, False),
        ({0: 1, 1: 1}, {0: 1, 2: 1}, False),
        ({0: 10, 1: 1}, {0: 10, 2: 1}, True),
    ],
)
def test_parallel_cuts(one: dict[int, int], other: dict[int, int], wanted: bool) -> None:
    assert is_parallel(one, other) == wanted
