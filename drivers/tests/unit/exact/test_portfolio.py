"""The portfolio: forecasts, time for others, what is paused goes on; bounds in few digits."""

from __future__ import annotations

import math
from fractions import Fraction
from types import SimpleNamespace
from typing import Iterable, Optional, cast

import pytest
from hypothesis import given, settings

from bridge_drivers.exact import portfolio as portfolio_module
from bridge_drivers.exact.clp import library
from bridge_drivers.exact.cuts import CutKind, ObjectiveCutoff
from bridge_drivers.exact.fathoming import Cutoff
from bridge_drivers.exact.node import Branch
from bridge_drivers.exact.parallel import ParallelSearch
from bridge_drivers.exact.portfolio import Portfolio
from bridge_drivers.exact.preparing import CUTS_SHARE
from bridge_drivers.exact.search import (
    BranchAndBound,
    ImprovedIncumbent,
    NodeNotClosed,
    no_point,
)
from bridge_drivers.exact.search_deadline import SearchDeadline, SearchProgress
from bridge_drivers.exact.strategies import MIR, PLAIN, TURN_SECONDS, Preparation, Strategy
from bridge_drivers.exact.tree import Tree
from bridge_drivers.model.integer_form import IntegerProgram, Point
from bridge_drivers.system.errors import NodeLimit, SearchEnded
from integer_programs import COVER, KNAPSACK, KNAPSACKS, LOTS, PIGEONS, boxed_programs, optimum_of
from integer_programs import points_of
from judging import Judge
from programs import Column, Number, Row, program

NEEDS_CLP = pytest.mark.skipif(library() is None, reason="CLP's library is not there")


def strategy_with(search: object, name: str = "", spent: float = 0.0) -> Strategy:
    objective = ObjectiveCutoff(KNAPSACK, Fraction(-17), None)
    found = cast(ParallelSearch, search)  # it has those methods alone that a test calls
    return Strategy(name, [], [], found, objective, spent)


def strategy_of(share: float, spent: float) -> Strategy:
    """One whose tree is proved to that share."""
    return strategy_with(SimpleNamespace(proved_share=lambda: share), spent=spent)


class After(SearchDeadline):
    """A deadline of which ten seconds are spent."""

    def spent(self) -> float:
        return 10.0


def after_ten_seconds() -> Portfolio:
    portfolio = Portfolio(KNAPSACK, Fraction(-17), no_point, After())
    portfolio.clock.started = 0.0
    return portfolio


def test_estimates() -> None:
    """By the share that is proved; before there is one by a guess; times a correction."""
    assert strategy_of(0.25, 2.0).estimated_seconds() == 6.0
    strategy = strategy_of(0.0, 2.0)
    assert strategy.estimated_seconds() == math.inf
    strategy.first_estimate = 3.0
    strategy.correction = 4.0
    assert strategy.estimated_seconds() == 12.0


@pytest.mark.parametrize(
    "share, spent, seconds",
    [(0.5, 10.0, 2.0), (0.5, 9.0, 0.9), (0.9999, 10.0, 0.0005), (0.0, 10.0, 3.0), (0.0, 8.0, 1.0)],
)
def test_time_for_others(share: float, spent: float, seconds: float) -> None:
    """A tenth of what the first needs in all, and not more than half of what is left of it."""
    first = strategy_of(share, spent)
    assert after_ten_seconds().time_for_others(first) == pytest.approx(seconds, abs=1e-3)


def test_time_without_a_first_strategy() -> None:
    assert after_ten_seconds().time_for_others(None) == math.inf


def test_a_strategy_that_takes_longer_than_it_seemed(monkeypatch: pytest.MonkeyPatch) -> None:
    portfolio, strategy = after_ten_seconds(), strategy_of(0.9999, 10.0)
    monkeypatch.setattr(portfolio, "resume", lambda strategy, seconds: None)
    portfolio.take_turn(strategy, strategy, 0.0)
    assert strategy.estimated_seconds() == pytest.approx(2 * TURN_SECONDS)


class Scripted:
    """A search whose turns end as they are told."""

    def __init__(self, *ends: object) -> None:
        self.ends = list(ends)

    def resume(self, until: float, most_nodes: int) -> object:
        end = self.ends.pop(0)
        if isinstance(end, Exception):
            raise end
        return end


def test_what_is_paused_goes_on() -> None:
    """And what failed, or has its tree, does not."""
    portfolio = Portfolio(KNAPSACK.without_costs(), None, no_point, SearchDeadline())
    found = ImprovedIncumbent([Fraction(1)] * 3, Fraction(-29))
    paused = strategy_with(Scripted(NodeLimit(3), found), PLAIN)
    assert portfolio.resume(paused, 1.0) is None
    assert not paused.has_ended and paused.report == "plain: more than 3 nodes"
    assert portfolio.resume(paused, 1.0) is found
    failed = strategy_with(Scripted(SearchEnded("a leaf does not close")), PLAIN)
    assert portfolio.resume(failed, 1.0) is None and failed.has_ended
    assert portfolio.resume(failed, 1.0) is None


@NEEDS_CLP
@pytest.mark.parametrize("p", [KNAPSACK, COVER, KNAPSACKS])
@pytest.mark.parametrize("shortens", [False, True])
def test_races(p: IntegerProgram, shortens: bool, monkeypatch: pytest.MonkeyPatch) -> None:
    """The first tree is told; where a shorter one is wanted, the shortest."""
    monkeypatch.setattr(portfolio_module, "SHORT_TREE", 1)
    value = minimised_optimum(p)
    portfolio = Portfolio(p, value, no_point, SearchDeadline(60.0), shortens=shortens)
    assert portfolio.race() is None and portfolio.best is not None
    trees = [strategy.tree for strategy in portfolio.strategies if strategy.tree is not None]
    assert portfolio.best.size == min(tree.size for tree in trees)
    assert is_bound(p, value, portfolio.best.lines())
    assert len(portfolio.reports()) >= 1


def feasible_value(p: IntegerProgram) -> Fraction:
    """The worst value of a point, minimised."""
    return max(p.value(point) for point in points_of(p))


@NEEDS_CLP
@given(boxed_programs())
@settings(max_examples=20)
def test_better_points(p: IntegerProgram) -> None:
    """Strategies go on where they stand; the tree that is told is for the best of them."""
    if optimum_of(p) is None:
        return
    value, better = minimised_optimum(p), list[Point]()
    worst = feasible_value(p)
    portfolio = Portfolio(p, worst, no_point, SearchDeadline(60.0))
    portfolio.on_improved = better.append
    assert portfolio.race() is None and portfolio.best is not None
    assert portfolio.objective.value == value
    assert [p.value(point) for point in better[-1:]] == ([value] if value < worst else [])
    assert is_bound(p, value, portfolio.best.lines())


@NEEDS_CLP
def test_a_tree_for_worse_values_is_searched_once_more() -> None:
    """And the shorter of both texts is told."""
    worst = feasible_value(KNAPSACKS)
    portfolio = Portfolio(KNAPSACKS, worst, no_point, SearchDeadline(60.0))
    portfolio.run_plain()
    trees = [strategy.tree for strategy in portfolio.strategies if strategy.tree is not None]
    assert len(trees) == 2 and portfolio.best is not None
    assert portfolio.best.size == min(tree.size for tree in trees)
    assert is_bound(KNAPSACKS, minimised_optimum(KNAPSACKS), portfolio.best.lines())


@NEEDS_CLP
def test_a_node_that_does_not_close(monkeypatch: pytest.MonkeyPatch) -> None:
    """All else is searched without it; then a bound that is a little worse is proved."""
    value, failed = Fraction(143, 10), list[int]()
    solve_node = BranchAndBound.solve_node

    def failing(search: BranchAndBound, branch: Optional[Branch]) -> object:
        if search.cutoff.value == value and search.node.depth == 2 and not failed:
            failed.append(id(search))
        if failed and search.cutoff.value == value and search.node.depth == 2:
            raise NodeNotClosed("a leaf does not close")
        return solve_node(search, branch)

    monkeypatch.setattr(BranchAndBound, "solve_node", failing)
    portfolio = Portfolio(LOTS, value, no_point, SearchDeadline(60.0))
    assert portfolio.race() is None and portfolio.best is None and portfolio.bound is not None
    assert failed and value * (1 - Fraction(1, 10**9)) <= portfolio.bound.value < value
    found = portfolio.prove_bound()
    assert found is not None and is_bound(LOTS, found.value, found.tree.lines())


@NEEDS_CLP
def test_a_node_that_never_closes(monkeypatch: pytest.MonkeyPatch) -> None:
    """The strategy ends, after all bounds that are tried, and says why."""

    def failing(search: BranchAndBound, branch: Optional[Branch]) -> object:
        raise NodeNotClosed("a leaf does not close")

    monkeypatch.setattr(BranchAndBound, "solve_node", failing)
    portfolio = Portfolio(LOTS, Fraction(143, 10), no_point, SearchDeadline(60.0))
    assert portfolio.run_plain() is None
    assert portfolio.best is None and portfolio.bound is None
    assert portfolio.strategies[0].has_ended
    assert portfolio.reports() == ["plain: a leaf does not close"]


def test_time_for_cuts() -> None:
    """A share of all seconds, whatever others took; twice as much at a time where it was in vain."""
    preparer = after_ten_seconds().preparer
    share = 10.0 * CUTS_SHARE
    assert preparer.time_for_cuts() == share
    preparer.preparation.seconds = share - 0.1
    assert preparer.time_for_cuts() == -math.inf
    preparer.preparation.seconds = share - 0.5
    assert preparer.time_for_cuts() == pytest.approx(0.5)
    preparer.preparation.add([], 0.0)
    assert preparer.time_for_cuts() == pytest.approx(0.5)
    preparer.preparation.add([], 0.0)
    assert preparer.time_for_cuts() == -math.inf
    preparer.preparation.names[:] = ["thin"]
    assert preparer.time_for_cuts() == -math.inf


def test_vain_attempts() -> None:
    """Of MIR cuts alone one ends their making; what closes more of the gap begins a new count."""
    preparation = Preparation([MIR, "clique"])
    preparation.add([], 0.5)
    assert not preparation.is_in_vain()
    preparation.add([], 0.505)
    assert preparation.is_in_vain()
    preparation.names.pop(0)
    assert not preparation.is_in_vain()


@NEEDS_CLP
@pytest.mark.parametrize("p", [COVER, KNAPSACKS])
@pytest.mark.parametrize("kinds", [{CutKind.MIR}, {CutKind.MIR, CutKind.CLIQUE}])
def test_trees_below_cuts(p: IntegerProgram, kinds: set[CutKind]) -> None:
    value = minimised_optimum(p)
    portfolio = Portfolio(p, value, no_point, SearchDeadline(60.0))
    cuts = portfolio.preparer.cut_loop.run(frozenset(kinds), [], 30.0)
    strategy = portfolio.begin("cuts", cuts)
    assert portfolio.resume(strategy, 60.0) is None
    assert strategy.tree is not None, strategy.report
    assert strategy.tree.cuts <= len(cuts)
    assert is_bound(p, value, strategy.tree.lines())


@NEEDS_CLP
def test_cliques_refute_pigeons() -> None:
    """Each clique is a chain of disjunctions whose violators are refuted by one leaf."""
    p = PIGEONS.without_costs()
    portfolio = Portfolio(p, None, no_point, SearchDeadline(60.0))
    cuts = portfolio.preparer.cut_loop.run(frozenset({CutKind.CLIQUE}), [], 30.0)
    strategy = portfolio.begin("cuts", cuts)
    portfolio.resume(strategy, 60.0)
    assert strategy.tree is not None and strategy.tree.nodes <= 2 * 4 * 3 + 1
    lines = ["certificate 1", "infeasible", *strategy.tree.lines()]
    assert Judge(p)(lines).line == "infeasible"


@pytest.mark.parametrize(
    "costs, bound, wanted",
    [
        ((3, 6), -16.2, Fraction(-15)),  # a multiple of 3
        ((3, 6), math.inf, Fraction(-9)),
        ((3, 6), -1e9, Fraction(-90)),  # what the bounds of columns say
        (("0.5", "0.25"), -3.01, Fraction(-3)),
    ],
)
def test_bounds_in_few_digits(costs: tuple[Number, ...], bound: float, wanted: Fraction) -> None:
    columns = [Column(0, 10, is_integer=True, cost=cost) for cost in costs]
    p = program(columns, [Row(None, 3, {0: 1, 1: 1})], "max")
    value: Optional[Fraction] = Fraction(-9) if costs[0] == 3 else Fraction(-1)
    assert Portfolio(p, value, no_point, SearchDeadline()).rounded_bound(bound) == wanted


def minimised_optimum(p: IntegerProgram) -> Fraction:
    best = optimum_of(p)
    assert best is not None
    return p.sign * best


def is_bound(p: IntegerProgram, value: Fraction, lines: Iterable[str]) -> bool:
    head = ["certificate 1", f"bound 0 {p.sign * value}"]
    return Judge(p)([*head, *lines]).is_proved


@NEEDS_CLP
def test_mir_cuts_of_lots() -> None:
    value = Fraction(143, 10)
    portfolio = Portfolio(LOTS, value, no_point, SearchDeadline(60.0))
    strategy = portfolio.begin(
        "cuts", portfolio.preparer.cut_loop.run(frozenset({CutKind.MIR}), [], 30.0)
    )
    assert portfolio.resume(strategy, 60.0) is None and strategy.tree is not None
    assert "\nlemma " in "\n" + strategy.tree.text
    assert is_bound(LOTS, value, strategy.tree.lines())


@NEEDS_CLP
def test_a_bound_that_does_not_close_is_lowered(monkeypatch: pytest.MonkeyPatch) -> None:
    portfolio = Portfolio(LOTS, Fraction(143, 10), no_point, SearchDeadline(60.0))
    strategy = portfolio.begin(PLAIN)
    portfolio.resume(strategy, 60.0, 4)
    finish, tried = ParallelSearch.finish_at_cutoff, list[Fraction]()

    def finishing(search: ParallelSearch, cutoff: Cutoff) -> Optional[Tree]:
        assert cutoff.value is not None
        tried.append(cutoff.value)
        return None if len(tried) < 2 else finish(search, cutoff)

    monkeypatch.setattr(ParallelSearch, "finish_at_cutoff", finishing)
    found = portfolio.prove_bound()
    assert found is not None and is_bound(LOTS, found.value, found.tree.lines())
    assert len(tried) > 1 and sorted(tried, reverse=True) == tried


@NEEDS_CLP
@pytest.mark.parametrize("kind", [KNAPSACK, COVER])
def test_progress_never_goes_back(kind: IntegerProgram, monkeypatch: pytest.MonkeyPatch) -> None:
    """Whose turn it is, is not seen: nodes and what is closed grow, and a forecast is a time."""
    monkeypatch.setattr(SearchDeadline, "is_progress_due", lambda deadline: True)
    deadline = SearchDeadline(60.0)
    told: "list[SearchProgress]" = []
    deadline.on_progress = told.append
    portfolio = Portfolio(kind, optimum_of(kind), no_point, deadline)
    portfolio.race()
    assert portfolio.best is not None
    states = [progress.numbers for progress in told if "closed" in progress.numbers]
    for before, after in zip(states, states[1:]):
        assert before["nodes"] <= after["nodes"] and before["closed"] <= after["closed"]
    for state in states:
        assert 0 <= state["closed"] <= 1 and state["open"] >= 0
        assert ("left" in state) == (state["closed"] > 0)
        assert state.get("left", 0.0) >= 0


def test_progress_is_that_of_all_strategies() -> None:
    """Nodes of both, and the forecast of the one that is further: 0.2 closed in 5 s leave 20 s."""
    portfolio = after_ten_seconds()
    told: "list[SearchProgress]" = []
    portfolio.deadline.on_progress = told.append
    for nodes, share, bound, spent in ((7, 0.1, -20.0, 8.0), (30, 0.2, -19.0, 5.0)):
        search = SimpleNamespace(
            search=SimpleNamespace(nodes=nodes),
            proved_share=lambda share=share: share,
            open_count=lambda nodes=nodes: nodes // 2,
            dual_bound=bound,
        )
        portfolio.strategies.append(strategy_with(search, spent=spent))
    portfolio.tell_progress()
    known = {"nodes": 37.0, "open": 15.0, "closed": 0.2, "bound": 19.0, "left": 20.0}
    assert [dict(progress.numbers) for progress in told] == [pytest.approx(known)]
