"""One search by several processes: units of it are worked for some seconds each, by a pure function
that a `concurrent.futures.Executor` runs.

A unit is what is left below some branches, with the nodes that are open in it. Where there are
fewer units than are wanted, the widest subtree of one that comes back, in which nobody is, becomes
a unit of its own. What is proved comes together here: a branching node whose proof does not rest on
one of its branches falls away, with what is worked of the sibling.

A `ParallelSearch` is what each strategy of `portfolio` runs, and what searches a point beside an
answer; without a pool it is one search in this process. A subtree is named by its place: the
directions of the branches from the root to it, as digits.
"""

from __future__ import annotations

import math
import pickle
import weakref
from concurrent.futures import FIRST_COMPLETED, Future, wait
from dataclasses import dataclass
from functools import cached_property
from typing import Callable, Dict, Iterator, List, Optional, Union

from .search_deadline import SearchDeadline
from ..system.errors import SearchEnded, SearchPaused
from .fathoming import Cutoff
from .node import Branch, OpenNode, ProvedSubtree, join, least_open_bound
from .search import MOST_NODES, ExactPoint, ImprovedIncumbent, NodeNotClosed
from .tree import RemoteSubtree, Tree, node_count, with_remote
from .worker_pools import PoolFailed, SearchProblem, UnitResult, WorkerPool, WorkUnit

NODES_BEFORE_PARALLEL = 100  # that this process works first: small trees start no process
WAITING_UNITS = 2  # for each process, so that none is idle
LEAST_UNIT_SECONDS = 0.2
MOST_UNIT_SECONDS = 5.0
UNIT_SHARE = 0.1  # of the seconds of the search so far
POLL_SECONDS = 0.2  # between looks at the limits
MOST_FAULTS = 3  # of processes with one subtree, before this process goes on alone
GRACE_SECONDS = 1.0  # more for units that are worked when the time is over

Found = Union[ProvedSubtree, ImprovedIncumbent]


@dataclass(eq=False)
class Subtree:
    """A part of the tree that is not proved.

    Attributes:
        place: The directions of the branches that lead to it from the root, as digits 0 and 1.
        open_nodes: From its root to where its search stands; none where nobody was in it yet.
        bound: The dual bound of the node above it, minimised; minus infinity at the root.
        seconds: That its next unit gets at least: above 0 after a unit that made no node.
        faults: Processes that died with it in a row.
        is_dropped: Whether nothing rests on it any more, so that what comes back of it is not
            taken.
        why_not_closed: Of one that was set aside, why its node does not close; else empty.
    """

    place: str
    open_nodes: List[OpenNode]
    bound: float = -math.inf
    seconds: float = 0.0
    faults: int = 0
    is_dropped: bool = False
    why_not_closed: str = ""

    def node_count(self) -> int:
        """The nodes that its search has so far, branching ones and proved ones."""
        siblings = (node.sibling for node in self.open_nodes if node.sibling is not None)
        return len(self.open_nodes) + sum(node_count(sibling.tree) for sibling in siblings)

    def dual_bound(self) -> float:
        """No point in it is better than this, minimised, as far as its relaxations say."""
        return least_open_bound(self.open_nodes, self.bound)


class ParallelSearch:
    """One search, which this process begins and a pool goes on with, where there is one.

    Attributes:
        search: What this process works; it also closes what is left for a bound. Its `nodes` count
            the whole tree so far, without what fell away.
        branches: By place, the branching nodes between the root and the subtrees; the direction of
            each counts nothing.
        proved: By place, subtrees that are proved; all of the tree is at "".
        waiting: Subtrees that nobody works; the last is worked next.
        set_aside: Subtrees whose first node was neither closed nor branched on, for the cutoff of
            now.
        running: Those that the pool works; none between two calls of `resume`.
        reports_progress: Whether its progress is told.
        on_progress: Tells it, in place of `tell_progress`: a portfolio tells that of all its
            searches together.
        began: The second of the deadline.
    """

    def __init__(
        self,
        problem: SearchProblem,
        exact_point: ExactPoint,
        deadline: SearchDeadline,
        pool: Optional[WorkerPool] = None,
    ) -> None:
        """A search of all of the problem, at its root.

        Args:
            exact_point: Makes exact points in this process; processes of the pool have one of their
                own.
            pool: None: this process searches alone.
        """
        self.problem = problem
        self.deadline = deadline
        self.pool = pool or WorkerPool(0)
        self.search = problem.search(deadline, exact_point)
        this: ParallelSearch = weakref.proxy(self)  # so that CLP's memory is free with the last use
        self.search.on_node = lambda: this.report_progress()
        self.reports_progress = True
        self.on_progress: Optional[Callable[[], None]] = None
        self.running: Dict[Future[UnitResult], Subtree] = {}
        self.waiting = [Subtree("", [])]
        self.set_aside: List[Subtree] = []
        self.branches: Dict[str, Branch] = {}
        self.proved: Dict[str, ProvedSubtree] = {}
        self.began = deadline.spent()

    @cached_property
    def packed_problem(self) -> bytes:
        """The problem's pickle, which all units have: by it a process knows a problem again."""
        return pickle.dumps(self.problem, pickle.HIGHEST_PROTOCOL)

    @property
    def dual_bound(self) -> float:
        """That of what is not proved, as it was last seen: no better point is there, minimised.

        It is infinite where all is proved, and minus infinity before the root has branched.
        """
        return min((subtree.dual_bound() for subtree in self.subtrees()), default=math.inf)

    def resume(
        self, until: float = math.inf, most_nodes: int = MOST_NODES
    ) -> Union[Tree, ImprovedIncumbent]:
        """Goes on, until a second of the deadline or a count of nodes.

        The first NODES_BEFORE_PARALLEL nodes are this process's own, then the pool goes on. Where
        the pool fails, it is told so, and this process goes on alone.

        Args:
            until: As `SearchDeadline.spent` counts, from the deadline's own start.
            most_nodes: Of the whole tree, not of this call.

        Returns:
            The whole tree, or a point that is better than the cutoff. After a point the search
            stands where it was found.

        Raises:
            SearchPaused: The seconds or nodes are over; it can go on.
            NodeNotClosed: Nothing is left but nodes that do not close.
            SearchEnded: It cannot: an interrupt, MOST_NODES, a tree that is too deep.
        """
        search, is_alone = self.search, not self.pool.workers
        search.until = until
        search.most_nodes = most_nodes if is_alone else min(most_nodes, NODES_BEFORE_PARALLEL)
        if is_alone or search.nodes < NODES_BEFORE_PARALLEL:
            try:
                return self._run_here(search.run)
            except SearchPaused:
                is_over = most_nodes <= NODES_BEFORE_PARALLEL or self.deadline.spent() >= until
                if is_alone or is_over:
                    raise
        search.most_nodes = most_nodes
        try:
            return self._run_in_pool(until)
        except PoolFailed as fault:
            self.pool.failed(fault)
        return self._run_here(search.run)

    def set_cutoff(self, cutoff: Cutoff) -> None:
        """Goes on for another cutoff: that of a better point, or a less demanding one, for both of
        which all that is proved holds. Between two calls of `resume`.

        Nodes that did not close are tried again.
        """
        self.problem = self.problem._replace(cutoff=cutoff)
        self.search.set_cutoff(cutoff)
        vars(self).pop("packed_problem", None)
        self.waiting, self.set_aside = [*self.set_aside, *self.waiting], []

    def subtrees(self) -> List[Subtree]:
        """All that is not proved, whether it waits, is set aside or is worked."""
        return [*self.waiting, *self.set_aside, *self.running.values()]

    def close_and_bound(self) -> float:
        """The least dual bound of what is open, minimised, each open node solved once more.

        Called between two calls of `resume`, for a bound that is to be proved. The node of `search`
        stands elsewhere then; the subtrees keep their open nodes, so that it can still end at
        another cutoff. Infinite where nothing is open that has a point.
        """

        def bound(subtree: Subtree) -> float:
            """That of one subtree, to which the node of `search` moves."""
            self.search.node.move_to(self._path(subtree.place), subtree.open_nodes)
            return self.search.close_and_bound()

        return min(map(bound, self.subtrees()), default=math.inf)

    def finish_at_cutoff(self, cutoff: Cutoff) -> Optional[Tree]:
        """The whole tree for a cutoff that is not better, where few nodes more are enough.

        All that goes on afterwards is for that cutoff, and without a limit of time.

        Returns:
            None where more nodes would be needed, the search cannot go on, or a point is better
            even than this cutoff.
        """
        try:
            self.set_cutoff(cutoff)
            found = self._run_here(lambda: self.search.finish_at_cutoff(cutoff))
        except SearchEnded:
            return None
        return None if isinstance(found, ImprovedIncumbent) else found

    def proved_share(self) -> float:
        """The share of the tree that is proved, from 0 to 1, where both branches of a node count
        alike.

        A portfolio forecasts by it how long a search still takes.
        """
        open_nodes = (
            (len(subtree.place) + depth, node)
            for subtree in self.subtrees()
            for depth, node in enumerate(subtree.open_nodes, 1)
        )
        return sum(0.5 ** len(place) for place in self.proved) + sum(
            0.5**depth for depth, node in open_nodes if node.sibling is not None
        )

    def open_count(self) -> int:
        """How many nodes are open: known, and neither proved nor branched on."""
        return sum(1 + len(subtree.open_nodes) for subtree in self.subtrees())

    def report_progress(self) -> None:
        """Has the progress told, unless `reports_progress` is not set.

        The search calls it at nodes where the progress is due.
        """
        if self.reports_progress:
            (self.on_progress or self.tell_progress)()

    def tell_progress(self) -> None:
        """Tells the deadline of nodes, open nodes, the share of the tree that is closed, and the
        bound, in the objective's own sense.

        Without a cutoff no bound is told.
        """
        known = {
            "nodes": float(self.search.nodes),
            "open": float(self.open_count()),
            "closed": self.proved_share(),
        }
        if self.search.cutoff.value is not None:
            known["bound"] = self.search.program.sign * self.dual_bound
        self.deadline.tell_numbers(**known)

    def _run_here(self, run: Callable[[], Found]) -> Union[Tree, ImprovedIncumbent]:
        """Works one subtree after the other in this process.

        Args:
            run: Works the subtree where the node of `search` then stands; what it raises goes on to
                the caller, and the subtree waits with its open nodes. A node that does not close is
                set aside.

        Returns:
            The whole tree, or the first better point.

        Raises:
            NodeNotClosed: The last that was set aside, where nothing else is open.
        """
        while "" not in self.proved:
            self._check_open()
            subtree = self.waiting[-1]
            self.search.node.move_to(self._path(subtree.place), subtree.open_nodes)
            subtree.open_nodes = self.search.node.open_nodes  # which change as it is worked
            try:
                found = run()
            except NodeNotClosed as fault:
                self._set_aside(subtree, fault.reason)
                continue
            if isinstance(found, ImprovedIncumbent):
                return found
            self.waiting.pop()
            self._close(subtree.place, found)
        return self.proved[""].tree

    def _run_in_pool(self, until: float) -> Union[Tree, ImprovedIncumbent]:
        """Works the subtrees by the pool; what is still worked when it ends goes back to where it
        was.

        Args:
            until: A second of the deadline; units that are worked then have GRACE_SECONDS more to
                come back.

        Returns:
            The whole tree, or the first better point.

        Raises:
            SearchPaused: The seconds or nodes are over; it can go on.
            PoolFailed: The pool does not work; this process can go on alone.
            NodeNotClosed: Nothing is left but nodes that were set aside.
            SearchEnded: It cannot go on.
        """
        improved = None
        try:
            while "" not in self.proved and improved is None:
                self.search.check_limits()
                self._check_open()
                self._submit_units(until)
                improved = self._collect()
        except SearchPaused:
            while (
                self.running and improved is None and self.deadline.spent() < until + GRACE_SECONDS
            ):
                improved = self._collect()
            if "" not in self.proved and improved is None:
                raise
        finally:
            self._withdraw()
        return self.proved[""].tree if improved is None else improved

    def _path(self, place: str) -> List[Branch]:
        """The branches that lead to a place, from the root, each in the direction that the place
        says."""
        return [
            self.branches[place[:depth]]._replace(direction=int(direction))
            for depth, direction in enumerate(place)
        ]

    def _split_subtree(self, subtree: Subtree) -> bool:
        """Makes the widest part of a subtree in which nobody is a subtree of its own, which waits.

        That is the open sibling nearest to its root. The subtree itself becomes what is below the
        other branch; on the way down proved siblings go to `proved`, and the nodes to `branches`.

        Returns:
            Whether there was such a part.
        """
        while subtree.open_nodes:
            branch, sibling = subtree.open_nodes[0]
            place = subtree.place
            beside = f"{place}{1 - branch.direction}"
            self.branches[place] = branch
            subtree.place = f"{place}{branch.direction}"
            subtree.bound = branch.bound
            subtree.open_nodes = subtree.open_nodes[1:]
            if sibling is None:
                self.waiting.append(Subtree(beside, [], branch.bound))
                return True
            self.proved[beside] = sibling
        return False

    def _check_open(self) -> None:
        """Looks whether there is something to be worked.

        Raises:
            NodeNotClosed: All that is open was set aside.
        """
        if not self.waiting and not self.running:
            raise NodeNotClosed(self.set_aside[-1].why_not_closed)

    def _set_aside(self, subtree: Subtree, reason: str) -> None:
        """Sets the node aside where the search of a subtree stands, which was waiting; what else is
        open in it waits as subtrees of their own, the deepest as the next."""
        self.waiting.remove(subtree)
        while self._split_subtree(subtree):
            pass
        subtree.why_not_closed = reason
        self.set_aside.append(subtree)

    def _close(self, place: str, proved: ProvedSubtree) -> None:
        """Puts a proof into `proved`: of the subtree at this place, which waits no more, joined
        upwards as far as siblings are proved.

        A branch that a proof does not rest on falls away: then it proves the node above too. What
        stands at and below each node that is proved so is dropped, also where it is worked.
        """
        while place:
            above, direction = place[:-1], int(place[-1])
            depth, sibling = len(above), self.proved.get(f"{above}{1 - direction}")
            if depth in proved.needed_depths:
                if sibling is None:
                    break
                branch = self.branches[above]._replace(direction=direction)
                if depth in sibling.needed_depths:
                    proved = join(branch, depth, proved, sibling)
                else:
                    self.search.nodes -= 1 + node_count(proved.tree)
                    proved = sibling
            else:
                self.search.nodes -= sum(self._node_counts(above))
            self._drop(above)
            place = above
        self.proved[place] = proved

    def _node_counts(self, place: str) -> Iterator[int]:
        """The nodes at a place and below it that `nodes` counts, part by part: branching nodes,
        proofs, and what is open of subtrees."""
        yield from (1 for at in self.branches if at.startswith(place))
        yield from (node_count(p.tree) for at, p in self.proved.items() if at.startswith(place))
        for subtree in self.subtrees():
            if subtree.place.startswith(place) and not subtree.is_dropped:
                yield subtree.node_count()

    def _drop(self, place: str) -> None:
        """Forgets the branches and proofs at a place and below it, and marks the subtrees there as
        dropped."""
        self.branches = {at: v for at, v in self.branches.items() if not at.startswith(place)}
        self.proved = {at: v for at, v in self.proved.items() if not at.startswith(place)}
        for subtree in self.subtrees():
            subtree.is_dropped = subtree.is_dropped or subtree.place.startswith(place)
        self._cancel_dropped()

    def _cancel_dropped(self) -> None:
        """Takes dropped subtrees out of `waiting` and `set_aside`, and cancels their units that no process has
        begun. The others are not taken when they end."""
        self.waiting = [subtree for subtree in self.waiting if not subtree.is_dropped]
        self.set_aside = [subtree for subtree in self.set_aside if not subtree.is_dropped]
        for future, subtree in self.running.items():
            if subtree.is_dropped:
                future.cancel()

    def _submit_units(self, until: float) -> None:
        """Gives units to the pool, so that each process has one, and splits subtrees so that some
        wait.

        The least dual bounds go first, of equal ones the widest.

        Args:
            until: The second of the deadline at which units pause.
        """

        def rank(subtree: Subtree) -> tuple[float, int]:
            """What is least is split, and worked, first: by its dual bound, minimised, then by its
            depth."""
            return subtree.dual_bound(), len(subtree.place)

        wanted = self.pool.workers * (1 + WAITING_UNITS) - len(self.running)
        divisible = sorted(self.waiting, key=rank)
        while len(self.waiting) < wanted and divisible:
            if not self._split_subtree(divisible[0]):
                divisible.pop(0)
        self.waiting.sort(key=rank, reverse=True)
        while self.waiting and len(self.running) < self.pool.workers:
            future = self.pool.submit(self._unit(self.waiting[-1], until))
            self.running[future] = self.waiting.pop()

    def _unit(self, subtree: Subtree, until: float) -> WorkUnit:
        """What a process gets of a subtree: for UNIT_SHARE of the seconds of the search so far,
        within the limits of units, at least what the subtree asks, and not beyond `until`; all by
        the clock of the deadline.

        What is proved of siblings stays here; a RemoteSubtree stands for it, with its place among
        the open nodes as the key, by which `_take` puts it back.
        """
        so_far = self.deadline.spent() - self.began
        seconds = max(UNIT_SHARE * so_far, LEAST_UNIT_SECONDS)
        seconds = max(min(seconds, MOST_UNIT_SECONDS), subtree.seconds)
        seconds = min(seconds, max(until - self.deadline.spent(), 0.0))
        open_nodes = [
            node if node.sibling is None else OpenNode(node.branch, _remote(key, node.sibling))
            for key, node in enumerate(subtree.open_nodes)
        ]
        pseudocosts = self.search.branching.pseudocosts
        path = self._path(subtree.place)
        of_processor = self.deadline.of_processor
        return WorkUnit(self.packed_problem, path, open_nodes, pseudocosts, seconds, of_processor)

    def _collect(self) -> Optional[ImprovedIncumbent]:
        """Waits up to POLL_SECONDS for a unit to end, and takes what ended.

        Returns:
            A better point where one was found; what else ended with it is worked again.

        Raises:
            SearchEnded: A unit cannot be worked.
            PoolFailed: Too many processes died with a subtree.
        """
        ended = wait(self.running, POLL_SECONDS, FIRST_COMPLETED).done
        for future in ended:
            subtree = self.running.pop(future)
            if future.cancelled() or subtree.is_dropped:
                continue
            self.waiting.append(subtree)  # until it is known to be proved
            improved = self._take(subtree, future)
            if improved is not None:
                return improved
        return None

    def _take(self, subtree: Subtree, future: Future[UnitResult]) -> Optional[ImprovedIncumbent]:
        """Takes what a unit made of its subtree: open nodes, or the proof, and nodes and what it
        learnt of pseudocosts.

        Where the process died, the subtree stays as it was and is worked again.

        Returns:
            The better point where the unit found one; then the subtree stays as it was.

        Raises:
            SearchEnded: The unit cannot be worked.
            PoolFailed: Too many processes died with the subtree.
        """
        result = _result_of(subtree, future)
        if result is None:
            return None
        self.deadline.count_elsewhere(result.seconds / max(self.pool.workers, 1))
        if result.improved is not None:
            return result.improved
        self.search.nodes += result.nodes
        self.search.branching.pseudocosts.add(result.learnt)
        kept = {
            key: node.sibling.tree
            for key, node in enumerate(subtree.open_nodes)
            if node.sibling is not None
        }
        subtree.open_nodes = [
            node if node.sibling is None else OpenNode(node.branch, _here(node.sibling, kept))
            for node in result.open_nodes
        ]
        subtree.seconds = 0.0 if result.nodes else 2 * max(subtree.seconds, LEAST_UNIT_SECONDS)
        subtree.faults = 0
        if result.proved is not None:
            self.waiting.remove(subtree)
            self._close(subtree.place, _here(result.proved, kept))
        elif result.why_not_closed:
            self._set_aside(subtree, result.why_not_closed)
        return None

    def _withdraw(self) -> None:
        """Ends what is still worked, and its subtrees wait again as they were sent. At the end of
        each run of the pool."""
        if self.running:
            self.pool.stop()
        self.waiting += [s for s in self.running.values() if not s.is_dropped]
        while self.running:
            self.running.popitem()[0].cancel()


def _result_of(subtree: Subtree, future: Future[UnitResult]) -> Optional[UnitResult]:
    """The result of a unit that has ended; None where its process died, which its subtree counts.

    Raises:
        SearchEnded: The unit cannot be worked.
        PoolFailed: More than MOST_FAULTS processes died with the subtree.
    """
    try:
        return future.result()
    except SearchEnded:
        raise
    except Exception as fault:  # whatever a process elsewhere ends by
        subtree.faults += 1
        if subtree.faults > MOST_FAULTS:
            words = str(fault) or type(fault).__name__
            raise PoolFailed(f"processes of the search fail ({words})") from None
        return None


def _remote(key: int, proved: ProvedSubtree) -> ProvedSubtree:
    """What stands for a proved subtree in another process: its count of nodes, under this key, and
    the depths that it rests on."""
    return proved._replace(tree=[RemoteSubtree(key, node_count(proved.tree))])


def _here(proved: ProvedSubtree, kept: Dict[int, Tree]) -> ProvedSubtree:
    """A proof of another process, with the trees that were kept here, by key, in place of what
    stood for them."""
    return proved._replace(tree=with_remote(proved.tree, kept))
