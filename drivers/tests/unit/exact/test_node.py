"""The node of a search: its bounds, and the branches that gave them."""

from __future__ import annotations

from typing import List, Optional, Tuple

import pytest
from hypothesis import given
from hypothesis import strategies as st

from bridge_drivers.exact.clp import library
from bridge_drivers.exact.node import DOWN, UP, Branch, Node
from programs import Column, program

pytestmark = pytest.mark.skipif(library() is None, reason="CLP's library is not there")


def branch(at: int, direction: int) -> Branch:
    return Branch(0, at, direction, at + 0.5, 0.0, b"")


def bounds_with_depths(node: Node) -> List[Tuple[Optional[int], Optional[int]]]:
    return [(bound[0], depth[0]) for bound, depth in zip(node.box, node.bound_depths)]


def test_a_looser_branch_gives_no_bound() -> None:
    """What stands stays, with the depth of the branch that gave it."""
    node = Node(program([Column(0, 9, is_integer=True)]), has_objective=False)
    node.apply(branch(2, DOWN))
    node.apply(branch(5, DOWN))
    node.apply(branch(2, DOWN))
    assert bounds_with_depths(node) == [(0, None), (2, 0)]
    node.apply(branch(1, DOWN))
    assert bounds_with_depths(node) == [(0, None), (1, 3)]


@given(st.lists(st.tuples(st.integers(-1, 9), st.sampled_from([DOWN, UP])), max_size=6))
def test_bounds_are_those_of_their_branches(branches: List[Tuple[int, int]]) -> None:
    """Each bound is the one that the branch of its depth asks for; undone, all is as before."""
    node = Node(program([Column(0, 9, is_integer=True)]), has_objective=False)
    states = []
    for at, direction in branches:
        states.append(bounds_with_depths(node))
        node.apply(branch(at, direction))
    low, high = bounds_with_depths(node)
    asked_low = [at + 1 for at, direction in branches if direction == UP]
    asked_high = [at for at, direction in branches if direction == DOWN]
    assert low[0] == max([0, *asked_low]) and high[0] == min([9, *asked_high])
    for (bound, depth), own in ((low, 0), (high, 9)):
        if depth is None:
            assert bound == own
        else:
            at, direction = branches[depth]
            assert bound == at + direction
    while states:
        node.undo()
        assert bounds_with_depths(node) == states.pop()
