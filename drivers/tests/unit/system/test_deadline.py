"""How much time is left, and that what goes on past it is told."""

from __future__ import annotations

import math
import time
from typing import List
from unittest import mock

import pytest
from bridge_drivers.system.deadline import Deadline
from bridge_drivers.system.errors import DeadlineExceeded


class Clock:
    """A clock that goes when it is told to."""

    def __init__(self) -> None:
        self.now = 1000.0

    def __call__(self) -> float:
        return self.now


@pytest.fixture
def clock() -> "Clock":
    return Clock()


@pytest.mark.parametrize("of_processor", [False, True])
def test_what_is_left(clock: Clock, of_processor: bool) -> None:
    name = "process_time" if of_processor else "monotonic"
    with mock.patch.object(time, name, clock):
        deadline = Deadline(5.0, of_processor=of_processor)
        clock.now += 2.0
        assert (deadline.spent(), deadline.left(), deadline.is_over()) == (2.0, 3.0, False)
        clock.now += 4.0
        assert (deadline.left(), deadline.is_over()) == (-1.0, True)


def test_no_limit(clock: Clock) -> None:
    with mock.patch.object(time, "monotonic", clock):
        deadlines: List[Deadline] = [Deadline(), Deadline.of_limit(0.0)]
        clock.now += 1e9
        for deadline in deadlines:
            deadline.check()
            assert (deadline.left(), deadline.is_over()) == (math.inf, False)
        assert Deadline.of_limit(3.0).left() == 3.0


def test_work_checks_it(clock: Clock) -> None:
    with mock.patch.object(time, "monotonic", clock):
        deadline = Deadline(1.0)
        deadline.check()
        clock.now += 1.0
        with pytest.raises(DeadlineExceeded, match=r"^time$"):
            deadline.check()
        with pytest.raises(DeadlineExceeded, match=r"^time \(5 nodes\)$"):
            deadline.check("5 nodes")


def test_it_starts_again(clock: Clock) -> None:
    with mock.patch.object(time, "monotonic", clock):
        deadline = Deadline(1.0)
        clock.now += 5.0
        deadline.restart()
        assert deadline.left() == 1.0


@pytest.mark.parametrize("seconds, left", [(2.0, 2.0), (9.0, 4.0), (math.inf, 4.0)])
def test_a_part_ends_with_the_whole(clock: Clock, seconds: float, left: float) -> None:
    with mock.patch.object(time, "monotonic", clock):
        whole = Deadline(5.0)
        clock.now += 1.0
        part = whole.within(seconds)
        assert part.left() == left
        clock.now += 1.0
        assert part.left() == left - 1.0
