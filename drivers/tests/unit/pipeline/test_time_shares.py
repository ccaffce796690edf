"""One limit of time for a whole run: what each stage has of it, by a clock that the test moves."""

from __future__ import annotations

import math
import time
from typing import Iterator, Sequence

import pytest
from hypothesis import given
from hypothesis import strategies

from bridge_drivers.commands.options import CERTIFY_OPTIONS, COMMON_OPTIONS, Option
from bridge_drivers.exact.search_deadline import KEPT_SECONDS
from bridge_drivers.pipeline.time_shares import (
    CERTIFICATE_SECONDS,
    GRACE_SECONDS,
    LEAST_SEARCH_SECONDS,
    TimeShares,
)
from bridge_drivers.solvers.run import SolverTime

BEGAN = 1000.0


class Clock:
    """A clock that goes when it is told to."""

    def __init__(self) -> None:
        self.now = BEGAN

    def __call__(self) -> float:
        return self.now


@pytest.fixture
def clock(monkeypatch: pytest.MonkeyPatch) -> Iterator[Clock]:
    clock = Clock()
    monkeypatch.setattr(time, "monotonic", clock)
    yield clock


@pytest.mark.parametrize("proves, share", [(False, 54.0), (True, 27.0)])
def test_the_solver_leaves_a_share_for_the_rest(clock: Clock, proves: bool, share: float) -> None:
    shares = TimeShares.of_limit(60.0, BEGAN, proves=proves)
    assert shares.for_solver("CBC").share == pytest.approx(share)


def test_the_search_has_what_the_solver_leaves(clock: Clock) -> None:
    """A solver that took all its share leaves 33 s of 60, one that took 2 s leaves 58."""
    shares = TimeShares.of_limit(60.0, BEGAN, proves=True)
    for spent, share in ((27.0, 29.7), (2.0, 52.2)):
        clock.now = BEGAN + spent
        search = shares.for_search()
        assert search.seconds == pytest.approx(share)
        assert search.left_of_all() == pytest.approx(max(60.0 - spent, share + GRACE_SECONDS))


def test_time_counts_from_the_first_word_on(clock: Clock) -> None:
    """What went by before the solver began is nobody's share."""
    clock.now = BEGAN + 10.0
    shares = TimeShares.of_limit(60.0, BEGAN, proves=False)
    assert shares.for_solver("CBC").share == pytest.approx(45.0)


def test_a_second_question_has_what_is_left(clock: Clock) -> None:
    shares = TimeShares.of_limit(60.0, BEGAN, proves=False)
    assert shares.for_solver("CBC").share == pytest.approx(54.0)
    clock.now = BEGAN + 50.0
    assert shares.for_solver("CBC").share == pytest.approx(9.0)
    assert shares.words() == "timelim=60: CBC had 9 s"


def test_without_a_limit(clock: Clock) -> None:
    """The search alone has one, unless there is to be none at all."""
    shares = TimeShares.of_limit(0.0, BEGAN, proves=True)
    clock.now += 1e6
    assert shares.for_solver("CBC") == SolverTime()
    assert shares.for_search().seconds == CERTIFICATE_SECONDS
    assert (shares.words(), shares.for_verdict().left()) == ("", math.inf)


def test_a_limit_of_the_solver_alone(clock: Clock) -> None:
    """The search counts the processor, however long the solver took, and so do verdicts."""
    shares = TimeShares.of_limit(0.0, BEGAN, proves=True, solver_seconds=60.0)
    clock.now += 1e6
    given = shares.for_solver("CBC")
    assert given.share == 60.0 and given.killed.left() == pytest.approx(71.0)
    clock.now += 1e6
    search = shares.for_search()
    assert (search.seconds, search.of_processor) == (CERTIFICATE_SECONDS, True)
    assert (shares.words(), shares.for_verdict().left()) == (
        "without timelim: CBC had 60 s",
        math.inf,
    )


def test_words(clock: Clock) -> None:
    shares = TimeShares.of_limit(60.0, BEGAN, proves=True)
    assert shares.words() == ""
    shares.for_solver("CBC")
    clock.now += 25.4
    shares.for_search()
    assert shares.words() == "timelim=60: CBC had 27 s, the certificate had 31.1 s"


def test_a_short_search_counts_the_processor(clock: Clock) -> None:
    shares = TimeShares.of_limit(60.0, BEGAN, proves=False)
    search = shares.for_search(1.0)
    assert (search.seconds, search.of_processor) == (1.0, True)
    clock.now += 58.0
    assert shares.for_search(30.0).seconds == pytest.approx(1.8)


def test_nothing_is_left(clock: Clock) -> None:
    """A solver that does not end at its share has its point judged all the same, for a short time."""
    shares = TimeShares.of_limit(10.0, BEGAN, proves=True)
    clock.now += 11.0
    assert shares.deadline.is_over()
    assert shares.for_solver("CBC").share > 0  # 0 would be no limit
    search = shares.for_search()
    assert search.seconds == LEAST_SEARCH_SECONDS
    assert search.left_of_all() == LEAST_SEARCH_SECONDS + GRACE_SECONDS
    assert shares.for_verdict().left() == GRACE_SECONDS


@given(
    limit=strategies.floats(0.1, 1e5),
    before=strategies.floats(0.0, 0.5),
    used=strategies.floats(0.0, 1.0),
    proves=strategies.booleans(),
)
def test_all_shares_are_within_the_limit(
    limit: float, before: float, used: float, proves: bool
) -> None:
    """Solver and search have no more than the run; what does not end by itself has little more."""
    clock = Clock()
    with pytest.MonkeyPatch.context() as patch:
        patch.setattr(time, "monotonic", clock)
        shares = TimeShares.of_limit(limit, BEGAN, proves=proves)
        clock.now += before * limit
        solver = shares.for_solver("CBC")
        assert solver.share <= shares.deadline.left()
        assert solver.killed.left() >= solver.share
        assert clock.now + solver.killed.left() <= BEGAN + limit + GRACE_SECONDS
        clock.now += used * solver.share
        search = shares.for_search()
        assert search.seconds <= max(shares.deadline.left(), LEAST_SEARCH_SECONDS)
        assert search.left_of_all() >= search.seconds + KEPT_SECONDS
        latest = limit + LEAST_SEARCH_SECONDS + GRACE_SECONDS
        assert clock.now + search.left_of_all() <= BEGAN + latest + 1e-6


@pytest.mark.parametrize("options", [COMMON_OPTIONS, CERTIFY_OPTIONS], ids=["drivers", "certify"])
def test_help_says_what_no_limit_is(options: Sequence[Option]) -> None:
    """timelim=0: the run has no limit, and the certificate CERTIFICATE_SECONDS of the processor."""
    (described,) = [option for option in options if option.name == "timelim"]
    search = TimeShares.of_limit(0.0, 0.0, proves=True).for_search()
    assert search.of_processor
    told = f"0: no limit, but the certificate has {search.seconds:.0f} seconds of the processor"
    assert told in described.text
