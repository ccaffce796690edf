"""Pseudocosts learn means; columns are ranked by them, and tried where they are unreliable."""

from __future__ import annotations

import math
from typing import List

import pytest
from hypothesis import given
from hypothesis import strategies as st

from bridge_drivers.exact import branching
from bridge_drivers.exact.branching import (
    PseudocostBranching,
    Pseudocosts,
    Relaxed,
    product_score,
)
from bridge_drivers.exact.clp import LpStatus, library
from bridge_drivers.exact.node import DOWN, UP, Node
from integer_programs import KNAPSACK

NEEDS_CLP = pytest.mark.skipif(library() is None, reason="CLP's library is not there")


@given(st.lists(st.tuples(st.floats(0, 100), st.floats(0.1, 1)), min_size=1))
def test_means(gains: List[tuple[float, float]]) -> None:
    """By unit of what the column was moved by."""
    known = Pseudocosts()
    for gain, distance in gains:
        known.learn(3, UP, gain, distance)
    total, times = known.gains[UP][3]
    assert times == len(gains)
    assert total / times == pytest.approx(sum(g / d for g, d in gains) / len(gains))
    assert known.mean(UP) == pytest.approx(total / times)


def test_what_is_not_learnt() -> None:
    """A column that was hardly moved says nothing; a loss counts as no gain."""
    known = Pseudocosts()
    known.learn(0, DOWN, 5.0, 1e-9)
    assert known.gains == ({}, {}) and known.mean(DOWN) == 1.0
    known.learn(0, DOWN, -5.0, 0.5)
    assert known.gains[DOWN][0] == (0.0, 1)
    assert known.least_count(0) == 0


def test_copies_are_apart() -> None:
    known = Pseudocosts()
    known.learn(0, DOWN, 1.0, 0.5)
    own = PseudocostBranching(4, known)
    own.pseudocosts.learn(0, DOWN, 3.0, 0.5)
    assert known.gains[DOWN][0] == (2.0, 1) and own.pseudocosts.gains[DOWN][0] == (8.0, 2)


@given(st.floats(0, 1e5), st.floats(0, 1e5), st.floats(1e-3, 1e5))
def test_score(down: float, up: float, gap: float) -> None:
    """It grows with both gains, up to the gap, and a direction without gain does not make it 0."""
    score = product_score(down, up, gap)
    assert 0 < score <= product_score(gap, gap, gap) == pytest.approx(gap * gap)
    assert product_score(down + 1, up, gap) >= score
    assert product_score(up, down, gap) == pytest.approx(score)


@NEEDS_CLP
def test_strong_branching() -> None:
    """Each direction gains what its relaxation has more; all is undone."""
    node = Node(KNAPSACK, has_objective=True)
    assert node.clp.solve() is LpStatus.OPTIMAL
    bound, values = node.relaxation_bound(), dict(enumerate(node.clp.values()))
    fractional = [j for j, v in values.items() if abs(v - round(v)) > 1e-6]
    chooser = PseudocostBranching(16)
    relaxed = Relaxed(values, bound, math.inf)
    down, up = chooser.strong_branch(node, relaxed, fractional[0])
    assert down > 0 and up > 0 and node.depth == 0
    assert chooser.pseudocosts.least_count(fractional[0]) == 1
    node.clp.solve()
    assert node.relaxation_bound() == pytest.approx(bound)
    column, direction = chooser.choose(node, relaxed, fractional)
    assert column in fractional and direction == (DOWN if down >= up else UP)


@NEEDS_CLP
def test_reliable_columns_are_not_tried(monkeypatch: pytest.MonkeyPatch) -> None:
    node = Node(KNAPSACK, has_objective=True)
    chooser = PseudocostBranching(16)
    for column in range(KNAPSACK.n):
        for direction in (DOWN, UP):
            for _ in range(branching.RELIABLE):
                chooser.pseudocosts.learn(column, direction, float(column), 0.5)
    monkeypatch.setattr(chooser, "strong_branch", None)
    relaxed = Relaxed({0: 0.5, 1: 0.5, 2: 0.5}, 0.0, 100.0)
    assert chooser.choose(node, relaxed, [0, 1, 2]) == (2, DOWN)
    ranked = chooser.ranked(node, relaxed, [0, 1, 2])
    assert [candidate.column for candidate in ranked] == [2, 1, 0]
