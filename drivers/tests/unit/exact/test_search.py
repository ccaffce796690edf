"""Branch and bound: trees are well-formed and judged; a search that is paused has a bound, and goes on."""

from __future__ import annotations

import contextlib
import itertools
from fractions import Fraction
from typing import Callable, Iterable, Optional, Sequence, Set, Union
from unittest import mock

import pytest
from hypothesis import given, settings
from hypothesis import strategies as st

from bridge_drivers.exact import search as search_module
from bridge_drivers.exact.clp import library
from bridge_drivers.exact.fathoming import Cutoff, Fathomer
from bridge_drivers.exact.node import DOWN, UP, Branch, Node, OpenNode, ProvedSubtree, join
from bridge_drivers.exact.node import least_open_bound
from bridge_drivers.exact.points import point_with_integers
from bridge_drivers.exact.portfolio import Portfolio
from bridge_drivers.exact.search import BranchAndBound, ImprovedIncumbent, no_point
from bridge_drivers.exact.search_deadline import SearchDeadline
from bridge_drivers.exact.work_limit import limit_work
from bridge_drivers.exact.tree import EmptyDomain, Leaf, Split, Tree, node_count
from bridge_drivers.exact.strategies import PLAIN
from bridge_drivers.model.integer_form import IntegerProgram, Point
from bridge_drivers.system.deadline import Deadline
from bridge_drivers.system.errors import NodeLimit, SearchEnded, TimeOver
from integer_programs import COVER, EQUATION, KNAPSACK, KNAPSACKS, SHORT_EQUATION
from integer_programs import boxed_programs, mixed_programs, optimum_of
from judging import Judge

pytestmark = pytest.mark.skipif(library() is None, reason="CLP's library is not there")
LEAF = Leaf(b"0 1", ())


def value_of(p: IntegerProgram) -> Optional[Fraction]:
    """The optimum, minimised."""
    best = optimum_of(p)
    return None if best is None else p.sign * best


def is_well_formed(tree: Tree) -> bool:
    """Each split has two subtrees, and nothing stands behind the last."""
    waiting = 1
    for node in tree:
        if not waiting:
            return False
        waiting += 1 if isinstance(node, Split) else -1
    return waiting == 0


def branch(column: int, direction: int, bound: float = 0.0) -> Branch:
    return Branch(column, 0, direction, 0.5, bound, b"")


@given(st.sampled_from([DOWN, UP]), st.sets(st.integers(0, 5)), st.sets(st.integers(0, 5)))
def test_join(direction: int, depths: Set[int], others: Set[int]) -> None:
    """The lower branch comes first in the text, whichever was searched first."""
    low, high = ProvedSubtree([LEAF], frozenset(depths)), ProvedSubtree(
        [EmptyDomain(0, 1)], frozenset(others)
    )
    proved, sibling = (low, high) if direction == DOWN else (high, low)
    joined = join(branch(7, direction), 3, proved, sibling)
    assert joined.tree == [Split(7, 0), LEAF, EmptyDomain(0, 1)]
    assert joined.needed_depths == (depths | others) - {3}
    assert is_well_formed(joined.tree) and node_count(joined.tree) == 5


def test_bound_of_what_is_open() -> None:
    closed = ProvedSubtree([LEAF], frozenset())
    nodes = [OpenNode(branch(0, UP, 1.0)), OpenNode(branch(1, UP, 2.0), closed)]
    assert least_open_bound([], 7.0) == 7.0
    assert least_open_bound(nodes, 7.0) == 1.0
    assert least_open_bound(nodes[1:], 7.0) == 2.0


def test_a_node_and_its_bounds() -> None:
    """Branches are undone; a bound that is tighter already stays, with its depth."""
    node = Node(EQUATION, has_objective=True)
    before = [list(part) for part in node.box]
    node.apply(Branch(0, 10, DOWN, 10.5, 0.0, b""))
    node.apply(Branch(0, 20, DOWN, 20.5, 0.0, b""))
    assert node.box.upper[0] == 10 * EQUATION.bound_scale
    with node.trying(Branch(0, 10, UP, 10.5, 0.0, b"")):
        assert node.column_without_integers([0]) == 0
    assert node.column_without_integers(range(3)) is None and node.depth == 2
    node.undo()
    node.undo()
    assert [list(part) for part in node.box] == before
    assert node.bound_depths == ([None] * 4, [None] * 4)


@given(boxed_programs())
@settings(max_examples=30)
def test_trees(p: IntegerProgram) -> None:
    """At the optimum there is a tree, whose claim the judge accepts; above it a better point."""
    value = value_of(p)
    portfolio = Portfolio(p, value, no_point, SearchDeadline(60.0))
    strategy = portfolio.begin(PLAIN)
    if value is None:
        with contextlib.suppress(SearchEnded):
            assert portfolio.resume(strategy, 60.0) is None
        return
    assert portfolio.resume(strategy, 60.0) is None
    assert strategy.tree is not None, strategy.report
    assert is_bound(p, value, strategy.tree.lines())
    worse = BranchAndBound(p, Cutoff(value + 1), SearchDeadline(60.0)).run()
    if isinstance(worse, ImprovedIncumbent):
        assert p.is_feasible(worse.point) and value <= worse.value < value + 1
    else:
        assert value == value_of(p)


def is_bound(p: IntegerProgram, value: Fraction, lines: Iterable[str]) -> bool:
    head = ["certificate 1", f"bound 0 {p.sign * value}"]
    return Judge(p)([*head, *lines]).is_proved


@pytest.mark.parametrize("p", [KNAPSACK, EQUATION, COVER, KNAPSACKS])
def test_pauses(p: IntegerProgram) -> None:
    """A search of few nodes at a time finds the same tree, and has a bound meanwhile."""
    value = Fraction({id(EQUATION): 14}.get(id(p), 0)) or value_of(p)
    assert value is not None
    at_once = BranchAndBound(p, Cutoff(value), SearchDeadline()).run()
    paused = BranchAndBound(p, Cutoff(value), SearchDeadline())
    found = None
    for paused.most_nodes in itertools.count(1, 2):
        with contextlib.suppress(NodeLimit):
            found = paused.run()
            break
        assert paused.dual_bound <= float(value) + 1e-6
    assert found == at_once and not isinstance(at_once, ImprovedIncumbent)
    assert is_well_formed(at_once.tree)


@pytest.mark.parametrize("p", [EQUATION, COVER, KNAPSACKS])
@pytest.mark.parametrize("most", [1, 4, 8])
def test_bound_of_a_stopped_search(p: IntegerProgram, most: int) -> None:
    """It is proved, and no point is better."""
    value = Fraction(14) if p is EQUATION else value_of(p)
    assert value is not None
    portfolio = Portfolio(p, value, no_point, SearchDeadline(60.0))
    portfolio.resume(portfolio.begin(PLAIN), 60.0, most)
    found = portfolio.prove_bound()
    if found is not None:
        assert found.value <= value and is_bound(p, found.value, found.tree.lines())


@pytest.mark.parametrize("p", [KNAPSACK, SHORT_EQUATION, COVER])
def test_time_that_is_over_anywhere(p: IntegerProgram) -> None:
    """Wherever exact work sees that its time is over, what is left has a bound that holds."""
    value = value_of(p)
    for last in itertools.count():
        looks = itertools.count()
        portfolio = Portfolio(p, value, no_point, SearchDeadline(60.0))
        strategy = portfolio.begin(PLAIN)
        over = mock.Mock(is_over=lambda: next(looks) >= last)
        limit_work(over)
        with contextlib.suppress(TimeOver):
            portfolio.resume(strategy, 60.0)
        limit_work(Deadline())
        if strategy.tree is not None:
            break
        found = portfolio.prove_bound()
        if found is not None:
            assert is_bound(p, found.value, found.tree.lines())
    assert last > 0


@given(st.one_of(boxed_programs(), mixed_programs()))
@settings(max_examples=25)
def test_leaves_in_fractions_alone(p: IntegerProgram) -> None:
    """Where doubles show nothing of a node whose integer columns are fixed, fractions do."""
    with mock.patch.multiple(
        Fathomer,
        by_row=lambda self: None,
        by_phase_one=lambda self, least=0.0: None,
        by_farkas=lambda self: None,
    ):
        search = BranchAndBound(p, Cutoff(None), SearchDeadline(60.0), vertex_near(p))
        found = without_pause(search)
    usual = without_pause(BranchAndBound(p, Cutoff(None), SearchDeadline(60.0), vertex_near(p)))
    if found is None or usual is None:
        return
    assert isinstance(found, ImprovedIncumbent) == isinstance(usual, ImprovedIncumbent)
    if isinstance(found, ImprovedIncumbent):
        assert p.is_feasible(found.point)
    else:
        assert is_well_formed(found.tree)


def without_pause(search: BranchAndBound) -> Union[ProvedSubtree, ImprovedIncumbent, None]:
    """What a search finds; None where it has no end."""
    search.most_nodes = 2000
    try:
        return search.run()
    except SearchEnded:
        return None


def vertex_near(p: IntegerProgram) -> Callable[[Sequence[float]], Optional[Point]]:
    return lambda x: point_with_integers(p, x, Deadline(9.0))


def test_limits(monkeypatch: pytest.MonkeyPatch) -> None:
    monkeypatch.setattr(search_module, "MOST_DEPTH", -1)
    with pytest.raises(SearchEnded, match="too deep"):
        BranchAndBound(KNAPSACK, Cutoff(Fraction(-17)), SearchDeadline()).run()
    interrupted = SearchDeadline()
    interrupted.is_interrupted = True
    with pytest.raises(SearchEnded, match="interrupted"):
        BranchAndBound(KNAPSACK, Cutoff(Fraction(-17)), interrupted).run()


def test_cutoffs() -> None:
    assert Cutoff(None).is_improved_by(Fraction(1))
    assert not Cutoff(Fraction(1)).is_improved_by(Fraction(1))
    assert Cutoff(Fraction(1), is_strict=True).is_improved_by(Fraction(1))
