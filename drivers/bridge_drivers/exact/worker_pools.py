"""Units of a search, and the processes that work them: of this machine, or of a Dask cluster.

A unit is what is left of one subtree, as values that a process anywhere works for some seconds.
Nothing but the values counts: whoever gets the same unit may work it, and the searches that a
process keeps only save it the reading of the program.

The pipeline opens a pool for a certificate (`open_pool`) and closes it; `parallel` makes a
`WorkUnit` of a `SearchProblem` and takes the `UnitResult`.
"""

from __future__ import annotations

import contextlib
import importlib
import multiprocessing
import os
import pickle
import queue
import signal
import sys
import threading
from concurrent.futures import BrokenExecutor, Executor, Future, ProcessPoolExecutor
from multiprocessing import connection
from typing import (
    Any,
    Callable,
    Dict,
    Iterable,
    Iterator,
    List,
    NamedTuple,
    Optional,
    Sequence,
    Tuple,
)

from . import points
from .search_deadline import SearchDeadline
from ..model.integer_form import IntegerProgram, Point, Row
from ..system.deadline import Deadline
from ..system.version import VERSION
from ..system.errors import SearchEnded, SearchPaused
from ..system.signals import HANDLED_SIGNALS, SIGNALS
from .branching import Pseudocosts, PseudocostBranching
from .clp import library
from .fathoming import Cutoff
from .node import Branch, OpenNode, ProvedSubtree
from .search import BranchAndBound, ExactPoint, ImprovedIncumbent, NodeNotClosed
from .work_limit import limit_work

# how processes start: `fork` takes 3 ms for each, `spawn` 100 to 300
START_METHOD = "fork" if sys.platform == "linux" else None
GRACE_SECONDS = 1.0  # that a unit has to end when its process is ended
CONNECT_SECONDS = 10.0  # for a scheduler and its workers to answer
LEAVE_SECONDS = 2.0  # for a scheduler to let this process go
EXACT_POINT_SECONDS = 30.0
MOST_CACHED_SEARCHES = 2  # of one process


class SearchProblem(NamedTuple):
    """What all units of a search share.

    Attributes:
        program: The file's, or it without costs or within closer bounds.
        cuts: Rows below it: the objective's, and cuts.
        forms: Integer forms to branch on: whole coefficients by column.
        cutoff: What leaves must show.
    """

    program: IntegerProgram
    cuts: Sequence[Row] = ()
    forms: Sequence[Dict[int, int]] = ()
    cutoff: Cutoff = Cutoff(None)

    def search(
        self, deadline: SearchDeadline, exact_point: Optional[ExactPoint] = None
    ) -> BranchAndBound:
        """A search of all of it, at its root.

        Args:
            deadline: Of this process.
            exact_point: Makes exact points of a relaxation's values; None, as in a process of a
                pool: by CLP, in EXACT_POINT_SECONDS each.
        """
        searched = self.program.with_rows([*self.cuts, *map(Row, self.forms)])

        def near(x: Sequence[float]) -> Optional[Point]:
            """An exact point that has the integer columns of x, by column; None where none is
            found."""
            return points.point_with_integers(self.program, x, Deadline(EXACT_POINT_SECONDS))

        return BranchAndBound(searched, self.cutoff, deadline, exact_point or near, len(self.forms))


class WorkUnit(NamedTuple):
    """What is left of a subtree, for some seconds.

    Attributes:
        problem: The pickled SearchProblem.
        path: The branches above the subtree, from the root.
        open_nodes: Those in it that were worked partly, from its root on. What is proved of their
            siblings is replaced by a RemoteSubtree.
        pseudocosts: Of the whole search so far.
        seconds: From when a process begins with it.
        of_processor: They are of its processor time, not of the wall.
    """

    problem: bytes
    path: Sequence[Branch]
    open_nodes: Sequence[OpenNode]
    pseudocosts: Pseudocosts
    seconds: float
    of_processor: bool = False


class UnitResult(NamedTuple):
    """What some seconds made of a unit.

    Attributes:
        proved: The subtree, where all of it is proved. Remote subtrees of the unit stand in it as
            they came.
        open_nodes: Else what is left of it, from its root to where the search stands.
        learnt: What pseudocosts it learnt, without those that it was given.
        nodes: How many nodes more the subtree has; below 0 where more fell away than came.
        improved: A better point, where one was found; then the unit is as it was before.
        why_not_closed: Why the node does not close where the search stands; empty where it may.
        seconds: That the unit took, by its own clock.
    """

    proved: Optional[ProvedSubtree]
    open_nodes: List[OpenNode]
    learnt: Pseudocosts
    nodes: int
    improved: Optional[ImprovedIncumbent] = None
    why_not_closed: str = ""
    seconds: float = 0.0


# searches of the last problems of this process by their pickled problem, but for those at work
_search_cache: Dict[bytes, BranchAndBound] = {}


def work(unit: WorkUnit) -> UnitResult:
    """Works a unit; in a process of a pool.

    It takes a search of the same problem from `_search_cache`, or makes one, and puts it back. A
    search that found a point, or failed, is not kept.

    Raises:
        SearchEnded: The search cannot go on.
        ClpNotInstalled: This process has no library of CLP.
    """
    search = _search_cache.pop(unit.problem, None)
    if search is None:
        search = pickle.loads(unit.problem).search(SearchDeadline())
    deadline = SearchDeadline(of_processor=unit.of_processor)
    search.deadline = deadline
    search.until = unit.seconds
    search.nodes = 0
    strong_candidates = search.branching.strong_candidates
    search.branching = PseudocostBranching(strong_candidates, unit.pseudocosts)
    search.node.move_to(unit.path, unit.open_nodes)
    found, why_not_closed = None, ""
    try:
        found = search.run()
    except NodeNotClosed as fault:
        why_not_closed = fault.reason
    except SearchPaused:
        pass
    learnt = search.branching.pseudocosts.less(unit.pseudocosts)
    if isinstance(found, ImprovedIncumbent):
        return UnitResult(None, [], learnt, search.nodes, found, "", deadline.spent())
    while len(_search_cache) >= MOST_CACHED_SEARCHES:
        _search_cache.pop(next(iter(_search_cache)))
    _search_cache[unit.problem] = search
    open_nodes = search.node.open_nodes
    return UnitResult(
        found, open_nodes, learnt, search.nodes, None, why_not_closed, deadline.spent()
    )


class PoolFailed(SearchEnded):
    """The pool does not work; the search can go on without it."""


class WorkerPool:
    """Works some units at once; as it stands, a pool without workers.

    Attributes:
        workers: How many at once; 0 where the pool failed, and the search goes on in this process.
        fault: Why it failed, in words for a message; "" where it did not.
        note: Why not all of it works, in a line for a message; "" where all does.
    """

    def __init__(self, workers: int, fault: str = "") -> None:
        """A pool of which nothing is started yet.

        Args:
            workers: Units at once; 0: none are taken.
            fault: Why there are none.
        """
        self.workers = workers
        self.fault = fault
        self.note = ""
        self._started: Optional[Executor] = None

    def failed(self, fault: PoolFailed) -> None:
        """From here on there are no workers: sets `fault`, and stops what is worked."""
        self.workers = 0
        self.fault = str(fault)
        self.stop()

    def executor(self) -> Executor:
        """That which takes the units; a `ProcessPool` starts it when it is first asked for, a
        `DaskPool` has it from the beginning."""
        assert self._started is not None
        return self._started

    def submit(self, unit: WorkUnit) -> Future[UnitResult]:
        """Gives a unit to a worker. Where all processes have ended, others are started, once.

        Returns:
            The future of what `work` returns or raises.

        Raises:
            PoolFailed: It is not taken, for whatever reason: no process can be started, or the
                connection to a cluster has ended.
        """
        try:
            with contextlib.suppress(BrokenExecutor):
                return self.executor().submit(work, unit)
            self.stop()
            return self.executor().submit(work, unit)
        except SearchEnded:
            raise
        except Exception as fault:  # whatever an executor ends by
            raise PoolFailed(f"no processes for the search ({fault})") from None

    def stop(self) -> None:
        """Ends what is worked, as far as that goes. Units can be given again afterwards."""

    def close(self) -> None:
        """Ends the pool, with the search for the certificate."""
        self.stop()


class ProcessPool(WorkerPool):
    """Processes of this machine, started as there is work; they end with this one."""

    _started: Optional[ProcessPoolExecutor]
    _end_line: Any  # a word that is sent there ends all of them

    def executor(self) -> Executor:
        """The processes' own, started here where there is none; each of them begins with
        `start_worker`."""
        if self._started is None:
            context = multiprocessing.get_context(START_METHOD)
            end, self._end_line = context.Pipe(duplex=False)
            self._started = ProcessPoolExecutor(self.workers, context, start_worker, (end,))
        return self._started

    def submit(self, unit: WorkUnit) -> Future[UnitResult]:
        """Gives a unit to a process, as `WorkerPool.submit` does; signals wait while processes
        start.

        Raises:
            PoolFailed: The system starts no process.
        """
        with signals_blocked():  # a process begins with them blocked
            return super().submit(unit)

    def stop(self) -> None:
        """Ends all processes: they pause, or are broken off after GRACE_SECONDS. All have ended
        when this returns; what they worked is lost."""
        if self._started is None:
            return
        with SIGNALS.deferred():
            started, self._started = self._started, None
            with contextlib.suppress(OSError):
                self._end_line.send_bytes(b"end")
            started.shutdown(wait=True, cancel_futures=True)
            self._end_line.close()


def answered_within(deadline: Deadline, ask: Callable[[], Any], what: str) -> Any:
    """What a call answers that may never return: it is made in a thread of its own, and left there.

    Args:
        deadline: When it is given up; one that has an end.
        ask: The call; what it raises is raised here.
        what: Has not answered, in words.

    Raises:
        PoolFailed: The time is over.
    """
    answers: "queue.Queue[Tuple[Any, Optional[BaseException]]]" = queue.Queue()

    def run() -> None:
        """Makes the call, and hands over what it answers or raises."""
        try:
            answers.put((ask(), None))
        except BaseException as fault:  # it is raised where it is waited for
            answers.put((None, fault))

    threading.Thread(target=run, daemon=True).start()
    try:
        answer, fault = answers.get(timeout=max(deadline.left(), 0.0))
    except queue.Empty:
        raise PoolFailed(f"{what} did not answer in {deadline.seconds:.3g} seconds") from None
    if fault is not None:
        raise fault
    return answer


def connected(address: str, limit: float) -> Any:
    """A client of Dask's scheduler at an address.

    Args:
        address: Of the scheduler.
        limit: Seconds in which Dask's package is read, which is a large one, and the scheduler
            answers.

    Raises:
        PoolFailed: There is no package, or no scheduler.
    """

    def connect() -> Any:
        """Reads the package here, so that a busy machine does not stretch the limit by it."""
        return importlib.import_module("distributed").Client(address, timeout=limit)

    try:
        return answered_within(Deadline(limit), connect, f"the scheduler of Dask at {address}")
    except ImportError:
        raise PoolFailed(
            "cluster= needs Dask's package distributed (Debian: apt install python3-distributed)"
        ) from None
    except PoolFailed:
        raise
    except Exception as fault:  # of the library, or of an address that it does not understand
        raise PoolFailed(f"no scheduler of Dask at {address} ({fault})") from None


class DaskPool(WorkerPool):
    """Those workers of a cluster that have this package and CLP.

    Whoever reaches the scheduler runs code as the users of its workers, and what they send back is
    unpickled here: a cluster is trusted. What workers have begun they end, some seconds after it is
    not wanted any more.

    Args:
        address: Of the scheduler.
        limit: Seconds in which the scheduler, and then its workers, have to answer.

    Raises:
        PoolFailed: There is no package, no scheduler, or no worker that can search.
    """

    def __init__(self, address: str, limit: float = CONNECT_SECONDS) -> None:
        """Connects to the scheduler, and asks all workers for their version. `workers` becomes the
        threads of those that are fit, and `note` says where others are not."""
        scheduler = f"the scheduler of Dask at {address}"
        self.client = connected(address, limit)
        try:
            versions = answered_within(
                Deadline(limit),
                lambda: self.client.run(worker_version, on_error="return"),
                f"a worker of {scheduler}",
            )
        except Exception as fault:
            self.close()
            told = str(fault) if isinstance(fault, PoolFailed) else f"{scheduler}: {fault}"
            raise PoolFailed(told) from None
        fit = [worker for worker, version in versions.items() if version == VERSION]
        super().__init__(sum(self.client.nthreads(fit).values()) if fit else 0)
        if len(fit) < len(versions):
            self.note = (
                f"{len(versions) - len(fit)} of {len(versions)} workers of the cluster lack "
                f"bridge_drivers {VERSION} or CLP's library"
            )
        if not fit:
            self.close()
            raise PoolFailed(self.note or f"{scheduler} has no workers")
        self._started = self.client.get_executor(pure=False, workers=fit)

    def close(self) -> None:
        """Leaves the cluster, whether it answers or not."""
        with contextlib.suppress(Exception):
            answered_within(Deadline(LEAVE_SECONDS), self.client.close, "the scheduler of Dask")


def worker_version() -> str:
    """What a worker of a cluster says that can search: the version of its package; "" where it has
    no library of CLP."""
    return VERSION if library() is not None else ""


def open_pool(jobs: int, address: str, deadline: Optional[Deadline] = None) -> Optional[WorkerPool]:
    """The pool that a run asks for, of which no process is started yet.

    Args:
        jobs: Processes of this machine; 0: as many as this process may use processors.
        address: Of a scheduler of Dask, in place of these; "" for none.
        deadline: Of the whole search: the scheduler has a quarter of it to answer, and so have its
            workers, both at most CONNECT_SECONDS. None for no limit.

    Returns:
        None where this process searches alone. A cluster that cannot be had is a pool of no workers
        with a fault, which is told.
    """
    if address:
        try:
            share = max(deadline.left(), 0.0) / 4 if deadline else CONNECT_SECONDS
            return DaskPool(address, min(CONNECT_SECONDS, share))
        except PoolFailed as fault:
            return WorkerPool(0, str(fault))
    jobs = jobs or usable_processors()
    return ProcessPool(jobs) if jobs > 1 else None


def usable_processors() -> int:
    """How many processors this process may use, where the system says so, else all; at least 1."""
    if hasattr(os, "sched_getaffinity"):
        return len(os.sched_getaffinity(0))
    return os.cpu_count() or 1


@contextlib.contextmanager
def signals_blocked() -> Iterator[None]:
    """A block in which the signals that are handled wait, also in processes that are started in it,
    until `start_worker` lets them through."""
    old = set_signal_mask("SIG_BLOCK", HANDLED_SIGNALS)
    try:
        yield
    finally:
        set_signal_mask("SIG_SETMASK", old)


def set_signal_mask(how: str, numbers: Iterable[int]) -> Iterable[int]:
    """Sets which signals wait in this thread.

    Args:
        how: The name in `signal` of what is done with the numbers: SIG_BLOCK, SIG_UNBLOCK or
            SIG_SETMASK.

    Returns:
        The mask that was there before; empty where a system has no masks.
    """
    if not hasattr(signal, "pthread_sigmask"):
        return ()
    return signal.pthread_sigmask(getattr(signal, how), numbers)


def start_worker(end: connection.Connection) -> None:
    """Begins a process of a `ProcessPool`: it ends by its parent's word, or with its parent.

    SIGTERM ends it at once; what a terminal sends is the parent's, and is ignored. The limit of
    exact work that the parent had is taken away.

    Args:
        end: The reading end of a pipe; a word in it ends the process.
    """
    for number in HANDLED_SIGNALS:
        is_end = number == signal.SIGTERM
        signal.signal(number, signal.SIG_DFL if is_end else signal.SIG_IGN)
    set_signal_mask("SIG_UNBLOCK", HANDLED_SIGNALS)
    limit_work(Deadline())  # that of the parent
    threading.Thread(target=_end_with_parent, args=(end,), daemon=True).start()


def _end_with_parent(end: connection.Connection) -> None:
    """Waits, in a thread of its own, for the parent's word or end, and then ends the process.

    By the word the unit pauses first, for GRACE_SECONDS; where that takes long, or the parent has
    ended and nobody waits for it, it is broken off.
    """
    parent = multiprocessing.parent_process()
    assert parent is not None
    if connection.wait([end, parent.sentinel]) == [end]:
        SearchDeadline.process_is_ending = True
        threading.Event().wait(GRACE_SECONDS)
    os._exit(1)
