"""The time of a certificate: all has ended soon after the limit, and an interrupt ends a search."""

from __future__ import annotations

import math
import time
from unittest import mock

import pytest

from bridge_drivers.exact import work_limit
from bridge_drivers.exact.certifier import limit_all_work
from bridge_drivers.exact.clp import Clp
from bridge_drivers.exact.search_deadline import SearchDeadline, SearchProgress
from bridge_drivers.exact.work_limit import check_work, limit_work
from bridge_drivers.system.deadline import Deadline
from bridge_drivers.system.errors import SearchEnded, SearchPaused, TimeOver


@pytest.mark.parametrize("seconds", [1.0, 60.0])
@pytest.mark.parametrize("more", [0.0, 0.5, 2.0, 90.0])
@pytest.mark.parametrize("of_processor", [False, True])
def test_verdicts_never_go_past_the_end(seconds: float, more: float, of_processor: bool) -> None:
    """Which is a tenth of the limit and five seconds after it; a restart does not put it off."""
    all_within = seconds * 1.1 + 5 if of_processor else None
    with mock.patch("time.monotonic", lambda: 100.0):
        deadline = SearchDeadline(seconds, of_processor=of_processor, all_within=all_within)
    deadline.restart()
    with mock.patch.object(deadline._all, "_clock", lambda: 100.0 + more):
        left = seconds * 1.1 + 5 - more
        assert deadline.left_to_judge() == pytest.approx(max(left, 0.1))
        assert deadline.to_find().left() <= left
        with deadline.judging(0.75):
            assert deadline.left_to_judge() == pytest.approx(max(left * 0.75, 0.1))


def test_without_a_limit() -> None:
    deadline = SearchDeadline()
    assert deadline.left_to_judge() is None and deadline.to_find().left() == math.inf
    deadline.check_search(10**9, math.inf)


def test_a_search_pauses_and_ends() -> None:
    deadline = SearchDeadline(60.0)
    deadline.check_search(0, 60.0)
    with pytest.raises(SearchPaused, match=r"time \(3 nodes\)"):
        deadline.check_search(3, -1.0)
    try:
        deadline.interrupt()
        with pytest.raises(SearchEnded, match="interrupted"):
            deadline.check_search(3, 60.0)
        assert deadline.why("time") == "interrupted"
        assert work_limit._deadline.get().left() <= 1.0
        assert Clp.deadline_of_all.left() <= 1.0
    finally:
        limit_all_work(Deadline())


def test_a_limit_of_the_processor_alone() -> None:
    """Where none of the wall is asked for, only seconds of the processor count: on a machine that
    gives a twentieth of them, all is as on one of its own."""
    deadline = SearchDeadline(1.0, of_processor=True)
    wall, spent = time.monotonic(), time.process_time()
    with mock.patch.object(deadline._all, "_clock", lambda: wall + 20.0):
        assert deadline.left_to_judge() == pytest.approx(6.1 * 25 - 20, abs=0.5)
        assert deadline.to_find().of_processor
        assert deadline.to_find().left() == pytest.approx(3.6, abs=0.5)
        deadline.check_search(0, 1.0)
    deadline.count_elsewhere(1.5)
    with pytest.raises(SearchPaused):
        deadline.check_search(0, math.inf)
    assert deadline.to_find_at_last().left() == pytest.approx(2.1, abs=0.5)
    assert deadline.spent() >= 1.5 and time.process_time() - spent < 0.5
    by_wall = SearchDeadline(60.0)
    by_wall.count_elsewhere(50.0)
    assert by_wall.spent() < 50.0


def test_exact_work_ends() -> None:
    try:
        limit_work(Deadline(-1.0))
        with pytest.raises(TimeOver, match="time"):
            check_work()
    finally:
        limit_work(Deadline())
    check_work()


def test_progress_is_values() -> None:
    deadline, told = SearchDeadline(60.0), list[SearchProgress]()
    deadline.tell_step("nobody listens")
    deadline.on_progress = told.append
    deadline.tell_step("exact duals")
    deadline.incumbent = 17.0
    deadline.tell_numbers(nodes=3.0, bound=19.0)
    numbers = {"incumbent": 17.0, "nodes": 3.0, "bound": 19.0}
    assert told == [SearchProgress("exact duals"), SearchProgress("", numbers)]


def test_progress_is_not_always_due() -> None:
    deadline = SearchDeadline(60.0)
    assert not deadline.is_progress_due()
    deadline._told_at -= 1.0
    assert deadline.is_progress_due() and not deadline.is_progress_due()
