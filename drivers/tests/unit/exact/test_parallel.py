"""Searches that are worked in units: here, by this process; by processes; and where these die."""

from __future__ import annotations

import contextlib
import importlib
import importlib.util
import json
import multiprocessing
import os
import pickle
import signal
import subprocess
import sys
import time
from concurrent.futures import Executor, Future
from fractions import Fraction
from pathlib import Path
from typing import Callable, Iterator, List, Union
from unittest import mock

import pytest
from hypothesis import given, settings

from bridge_drivers.exact import parallel, worker_pools
from bridge_drivers.exact.clp import library
from bridge_drivers.exact.evidence import AnswerClaim
from bridge_drivers.exact.node import DOWN, UP, Branch, OpenNode, ProvedSubtree
from bridge_drivers.exact.parallel import ParallelSearch
from bridge_drivers.exact.portfolio import Portfolio
from bridge_drivers.exact.search import no_point
from bridge_drivers.exact.search_deadline import SearchDeadline
from bridge_drivers.exact.strategies import PLAIN
from bridge_drivers.exact.tree import Leaf, Split, Tree, node_count, with_remote
from bridge_drivers.exact.worker_pools import (
    ProcessPool,
    SearchProblem,
    UnitResult,
    WorkerPool,
    WorkUnit,
    open_pool,
)
from bridge_drivers.model.integer_form import IntegerProgram, Point
from bridge_drivers.system.errors import SearchEnded, SearchPaused
from integer_programs import KNAPSACKS, PIGEONS, boxed_programs, optimum_of
from judging import Judge, certified

pytestmark = pytest.mark.skipif(library() is None, reason="CLP's library is not there")
LONG = 600.0  # seconds, on a busy machine
LEAF = Leaf(b"0 1", ())


class PoolHere(WorkerPool):
    """Works at once, on a copy of what it is given."""

    units = 0

    def submit(self, unit: WorkUnit) -> Future[UnitResult]:
        self.units += 1
        future: Future[UnitResult] = Future()
        try:
            result = worker_pools.work(pickle.loads(pickle.dumps(unit)))
            future.set_result(pickle.loads(pickle.dumps(result)))
        except SearchEnded as fault:
            future.set_exception(pickle.loads(pickle.dumps(fault)))
        return future


class FewLooks(SearchDeadline):
    """Pauses a unit at its sixth node."""

    looks = 0

    def check_search(self, nodes: int, until: float) -> None:
        self.looks += 1
        if self.looks > 5:
            raise SearchPaused("looks")


@contextlib.contextmanager
def small_units(before: int = 3) -> Iterator[None]:
    """Of few nodes, as soon as this process has worked so many."""
    with mock.patch.object(parallel, "NODES_BEFORE_PARALLEL", before), mock.patch.object(
        worker_pools, "SearchDeadline", FewLooks
    ):
        yield


def minimised_optimum(p: IntegerProgram) -> Fraction:
    best = optimum_of(p)
    assert best is not None
    return p.sign * best


def searched(p: IntegerProgram, pool: WorkerPool, value: Fraction) -> Portfolio:
    """The plain search at a value, to its end, which the judge has accepted."""
    portfolio = Portfolio(p, value, no_point, SearchDeadline(LONG), pool=pool)
    strategy = portfolio.begin(PLAIN)
    assert portfolio.resume(strategy, LONG) is None
    assert strategy.tree is not None, strategy.report
    assert is_bound(p, value, strategy.tree.lines())
    search = strategy.search
    assert search.search.nodes == node_count(search.proved[""].tree)  # without what fell away
    return portfolio


def is_bound(p: IntegerProgram, value: Fraction, lines: Iterator[str]) -> bool:
    head = ["certificate 1", f"bound 0 {p.sign * value}"]
    return Judge(p)([*head, *lines]).is_proved


@given(boxed_programs())
@settings(max_examples=25)
def test_units_come_together(p: IntegerProgram) -> None:
    if optimum_of(p) is not None:
        with small_units(1):
            searched(p, PoolHere(3), minimised_optimum(p))


@pytest.mark.parametrize("workers", [1, 2, 4])
def test_units_of_a_larger_tree(workers: int) -> None:
    pool = PoolHere(workers)
    with small_units():
        searched(KNAPSACKS, pool, minimised_optimum(KNAPSACKS))
    assert pool.units > 4 and pool.fault == ""


def test_a_pause_has_a_bound() -> None:
    value, most = minimised_optimum(KNAPSACKS), 8
    portfolio = Portfolio(KNAPSACKS, value, no_point, SearchDeadline(LONG), pool=PoolHere(2))
    bounds = 0
    with small_units():
        while portfolio.best is None:
            portfolio.resume(portfolio.begin(PLAIN), LONG, most)
            most += 8
            found = portfolio.prove_bound() if portfolio.best is None else None
            if found is not None:
                assert found.value <= value
                assert is_bound(KNAPSACKS, found.value, found.tree.lines())
                bounds += 1
    assert bounds > 0


def test_a_better_point_comes_through() -> None:
    """And the search goes on where it stands, for its value."""
    value, better = minimised_optimum(KNAPSACKS), list[Point]()
    portfolio = Portfolio(KNAPSACKS, value + 3, no_point, SearchDeadline(LONG), pool=PoolHere(2))
    portfolio.on_improved = better.append
    with small_units(0):
        assert portfolio.resume(portfolio.begin(PLAIN), LONG) is None
    assert better and all(map(KNAPSACKS.is_feasible, better))
    values = list(map(KNAPSACKS.value, better))
    assert values == sorted(set(values), reverse=True) and values[-1] == value
    assert portfolio.objective.value == value and portfolio.best is not None
    assert is_bound(KNAPSACKS, value, portfolio.best.lines())


def test_a_refutation_by_units() -> None:
    pool = PoolHere(3)
    with small_units(1), mock.patch("bridge_drivers.exact.portfolio.FIRST_CUT_SECONDS", -1.0):
        assert certified(PIGEONS, AnswerClaim.INFEASIBLE, pool=pool).line == "infeasible"


class KillingPool(ProcessPool):
    """Kills all workers before each of its first executors takes a unit."""

    def __init__(self, workers: int, kills: int) -> None:
        super().__init__(workers)
        self.kills = kills

    def executor(self) -> Executor:
        executor = super().executor()
        if self.kills:
            self.kills -= 1
            for _ in range(self.workers):
                executor.submit(_die)
        return executor


def _die() -> None:
    os.kill(os.getpid(), signal.SIGKILL)


@pytest.mark.parametrize("kills", [0, 1, 99])
def test_dead_workers_cost_their_units_alone(kills: int) -> None:
    """Where all of them die, this process goes on alone, and says so."""
    pool = KillingPool(2, kills)
    with mock.patch.object(parallel, "NODES_BEFORE_PARALLEL", 3):
        try:
            searched(KNAPSACKS, pool, minimised_optimum(KNAPSACKS))
        finally:
            pool.close()
    assert bool(pool.fault) == (kills == 99), pool.fault
    assert multiprocessing.active_children() == []


def test_no_processes() -> None:
    """Where none can be started this process goes on alone."""
    pool, fault = ProcessPool(2), BlockingIOError("no more processes")
    with mock.patch("os.fork", side_effect=fault), mock.patch.object(
        parallel, "NODES_BEFORE_PARALLEL", 3
    ):
        searched(KNAPSACKS, pool, minimised_optimum(KNAPSACKS))
    assert "no more processes" in pool.fault


class Unreachable(Executor):
    """Takes no unit."""

    # whatever it is: Executor.submit names its parts
    def submit(self, *args: object, **keywords: object) -> Future[object]:  # type: ignore[override]
        raise ConnectionError("the scheduler is gone")


def test_a_pool_that_takes_nothing() -> None:
    """Of whatever error an executor raises the search hears that the pool failed."""
    pool = WorkerPool(2)
    pool._started = Unreachable()
    with mock.patch.object(parallel, "NODES_BEFORE_PARALLEL", 3):
        searched(KNAPSACKS, pool, minimised_optimum(KNAPSACKS))
    assert "the scheduler is gone" in pool.fault


def test_pseudocosts_of_all_units_count() -> None:
    """Also of units that were worked at once, each of which knows nothing of the other."""
    search = parallel_search()
    search.search.branching.pseudocosts.learn(9, UP, 5.0, 0.5)
    search.waiting[0].open_nodes = split_nodes([4])
    search._split_subtree(search.waiting[0])
    given = search.search.branching.pseudocosts
    for column in (1, 2):
        unit = given.copy()
        unit.learn(column, DOWN, 3.0, 0.5)
        unit.learn(9, UP, 1.0, 0.5)
        subtree = search.waiting.pop()
        future: Future[UnitResult] = Future()
        future.set_result(UnitResult(None, [], unit.less(given), 2))
        search.running[future] = subtree
    search._collect()
    known = search.search.branching.pseudocosts
    assert known.gains[DOWN] == {1: (6.0, 1), 2: (6.0, 1)}
    assert known.gains[UP] == {9: (14.0, 3)}


class Broken(WorkerPool):
    """Each unit ends by a fault."""

    def submit(self, unit: WorkUnit) -> Future[UnitResult]:
        future: Future[UnitResult] = Future()
        future.set_exception(ValueError("broken"))
        return future


def test_units_that_always_fail() -> None:
    pool = Broken(2)
    with mock.patch.object(parallel, "NODES_BEFORE_PARALLEL", 3):
        searched(KNAPSACKS, pool, minimised_optimum(KNAPSACKS))
    assert pool.fault == "processes of the search fail (broken)" and pool.workers == 0


def test_pools_that_are_asked_for() -> None:
    assert open_pool(1, "") is None
    several = open_pool(3, "")
    assert isinstance(several, ProcessPool) and several.workers == 3
    with mock.patch.object(worker_pools, "CONNECT_SECONDS", 0.5):
        absent = open_pool(0, "tcp://127.0.0.1:9")
    assert absent is not None and absent.workers == 0 and absent.fault


def parallel_search() -> ParallelSearch:
    problem = SearchProblem(KNAPSACKS)
    return ParallelSearch(problem, no_point, SearchDeadline())


def split_nodes(columns: List[int]) -> List[OpenNode]:
    return [OpenNode(Branch(j, 0, DOWN, 0.5, float(j), b"")) for j in columns]


def test_the_widest_part_becomes_a_subtree() -> None:
    search = parallel_search()
    subtree = search.waiting[0]
    subtree.open_nodes = split_nodes([4, 5])
    assert search._split_subtree(subtree)
    assert [(s.place, s.bound, len(s.open_nodes)) for s in search.waiting] == [
        ("0", 4.0, 1),
        ("1", 4.0, 0),
    ]
    assert search.dual_bound == 4.0


@pytest.mark.parametrize("depths", [set(), {0}])
def test_a_branch_that_is_not_needed_falls_away(depths: set[int]) -> None:
    """With what is worked of its sibling; else both come together."""
    search = parallel_search()
    search.waiting[0].open_nodes = split_nodes([4])
    search._split_subtree(search.waiting[0])
    sibling = search.waiting[1]
    search._close("0", ProvedSubtree([LEAF], frozenset(depths)))
    if depths:
        assert "" not in search.proved and not sibling.is_dropped
        search._close("1", ProvedSubtree([LEAF], frozenset({0})))
        assert search.proved[""].tree == [Split(4, 0), LEAF, LEAF]
    else:
        assert search.proved[""].tree == [LEAF] and sibling.is_dropped
    assert search.proved_share() == 1.0


@pytest.mark.parametrize("depths", [set(), {0}])
@pytest.mark.parametrize("sibling_depths", [set(), {0}])
def test_nodes_that_fall_away_do_not_count(depths: set[int], sibling_depths: set[int]) -> None:
    """What is open of a sibling does not, nor a proof that its sibling makes needless."""
    search = parallel_search()
    sibling_proof = ProvedSubtree([Split(6, 0), LEAF, LEAF], frozenset({1}))
    search.waiting[0].open_nodes = split_nodes([4])
    search._split_subtree(search.waiting[0])
    sibling = search.waiting[1]
    sibling.open_nodes = [OpenNode(Branch(5, 0, DOWN, 0.5, 0.0, b""), sibling_proof)]
    search.search.nodes = 1 + 1 + 3 + 1  # two branching nodes, what is proved of the sibling, LEAF
    search._close("0", ProvedSubtree([LEAF], frozenset(depths)))
    assert search.search.nodes == (6 if depths else 1)
    if depths:
        search.waiting.remove(sibling)
        sibling_tree: Tree = [Split(5, 0), LEAF, *sibling_proof.tree]
        search.search.nodes += 1
        search._close("1", ProvedSubtree(sibling_tree, frozenset(sibling_depths)))
        assert search.search.nodes == node_count(search.proved[""].tree)


def test_trees_that_stay_here() -> None:
    """A unit has a place in their stead."""
    tree: Tree = [Split(0, 0), LEAF, LEAF]
    proved = ProvedSubtree(tree, frozenset({1}))
    remote = parallel._remote(7, proved)
    assert node_count(remote.tree) == node_count(tree) and len(remote.tree) == 1
    whole: Union[Tree, None] = with_remote([Split(3, UP), *remote.tree, LEAF], {7: tree})
    assert whole == [Split(3, UP), *tree, LEAF]


def is_there(process: int) -> bool:
    """Whether a process goes on; one that ended and is not waited for does not."""
    try:
        return Path(f"/proc/{process}/stat").read_text().rpartition(")")[2].split()[0] != "Z"
    except OSError:
        return False


def wait_until(is_so: Callable[[], bool]) -> None:
    end = time.monotonic() + LONG
    while not is_so():
        assert time.monotonic() < end
        time.sleep(0.02)


@pytest.mark.skipif(not Path("/proc/self/stat").exists(), reason="no /proc")
@pytest.mark.parametrize(
    "number, told",
    [
        (signal.SIGINT, "not proved: interrupted"),
        (signal.SIGTERM, "signal 15"),
        (signal.SIGKILL, ""),
    ],
)
def test_all_processes_end_with_the_first(number: int, told: str) -> None:
    """An interrupt of a terminal ends the search, and tells so; another signal ends all."""
    script = Path(__file__).parent.parent / "long_search.py"
    child = subprocess.Popen(
        [sys.executable, str(script)],
        stdin=subprocess.DEVNULL,
        stdout=subprocess.PIPE,
        text=True,
        start_new_session=True,
    )
    try:
        assert child.stdout is not None
        workers = [int(word) for word in child.stdout.readline().split()]
        assert len(workers) == 2 and all(map(is_there, workers))
        (os.killpg if number == signal.SIGINT else os.kill)(child.pid, number)
        out, _ = child.communicate(timeout=LONG)
        assert out.strip() == told
        wait_until(lambda: not any(map(is_there, workers)))
    finally:
        child.kill()
        child.communicate()


DRIVERS = Path(worker_pools.__file__).resolve().parent.parent.parent


def dask(folder: Path, module: str, *words: str, path: Path = DRIVERS) -> subprocess.Popen[bytes]:
    """A process of Dask that looks for packages at a path."""
    return subprocess.Popen(
        [sys.executable, "-m", "distributed.cli." + module, *words],
        cwd=folder,
        stdin=subprocess.DEVNULL,
        stdout=subprocess.DEVNULL,
        stderr=subprocess.DEVNULL,
        env={**os.environ, "PYTHONPATH": str(path)},
    )


@pytest.mark.skipif(not importlib.util.find_spec("distributed"), reason="no distributed of Dask")
def test_a_cluster(tmp_path: Path) -> None:
    """The tree of one process; a worker that lacks the package is told, one that dies is missed."""
    place, children = tmp_path / "scheduler.json", []
    words = ("--host=127.0.0.1", "--port=0", "--no-dashboard", f"--scheduler-file={place}")
    try:
        children.append(dask(tmp_path, "dask_scheduler", *words))
        wait_until(lambda: place.exists() and place.stat().st_size > 0)
        address = json.loads(place.read_text())["address"]
        options = ("--no-nanny", "--nthreads", "1", "--no-dashboard")
        for path in (DRIVERS, DRIVERS, tmp_path):
            children.append(dask(tmp_path, "dask_worker", address, *options, path=path))
        with importlib.import_module("distributed").Client(address) as client:
            client.wait_for_workers(3, timeout=LONG)
        pool = open_pool(0, address)
        assert pool is not None and (pool.workers, pool.fault) == (2, "")
        assert pool.note.startswith("1 of 3 workers of the cluster lack bridge_drivers")
        with mock.patch.object(parallel, "NODES_BEFORE_PARALLEL", 3):
            searched(KNAPSACKS, pool, minimised_optimum(KNAPSACKS))
            children[1].kill()
            searched(KNAPSACKS, pool, minimised_optimum(KNAPSACKS))
        assert pool.fault == ""
        pool.close()
    finally:
        for child in reversed(children):
            child.kill()
            child.wait()
