"""The time of the search for one certificate, and what is told of it while it goes on.

The pipeline makes one `SearchDeadline` for a certificate; searches ask it at each node, the judge
asks it how long a verdict may take, and what goes on is told to it as `SearchProgress`.
"""

from __future__ import annotations

import contextlib
import math
import time
from typing import Callable, ClassVar, Iterator, Mapping, NamedTuple, Optional

from ..system.deadline import Deadline
from ..system.errors import SearchEnded, SearchPaused
from .clp import Clp
from .work_limit import shorten_work

PROGRESS_SECONDS = 0.5  # between two looks at what is told of the progress
GRACE_SHARE = 0.1  # of the limit, beyond it: when all has ended
GRACE_SECONDS = 5.0  # more
KEPT_SECONDS = 2.5  # of these, to judge what is known when the limit comes
LEAST_VERDICT_SECONDS = 0.1
LARGEST_LOAD = 25.0  # seconds of the wall, that one of the processor takes at most
INTERRUPT_SECONDS = 1.0  # after an interrupt, until a step without nodes ends, too
RESERVE = 0.07  # of the limit of all seconds, for a bound


class SearchProgress(NamedTuple):
    """What goes on: a step, or numbers of a search.

    Attributes:
        step: In words, where it is no search.
        numbers: Of a search, by name: `nodes`, `open` ones, `closed` (the share of the tree that is
            proved, from 0 to 1), `left` (the seconds that this share forecasts), `cuts`, and in the
            objective's own sense `incumbent` and `bound`. Those that are not known are left out.
    """

    step: str = ""
    numbers: Mapping[str, float] = {}


class SearchDeadline(Deadline):
    """The limit of all searches for one certificate.

    Where a limit of the wall is asked for, all has ended a tenth and 5 s after it, or when its
    maker says, also on a busy machine where searches have a limit in processor time. Where none is,
    the limit is in processor time alone, and what is found does not depend on what else the machine
    does: all has ended after LARGEST_LOAD times that.

    Attributes:
        process_is_ending: Of a process of a pool, whichever deadline asks: what it works is paused.
        on_progress: Is told what goes on, in the thread of the search.
        incumbent: The objective of the best point, in its own sense, for the progress; None before
            there is one. The certifier of integer programs sets it.
        is_interrupted: The user ended the search.
    """

    process_is_ending: ClassVar[bool] = False

    def __init__(
        self,
        limit: float = math.inf,
        *,
        of_processor: bool = False,
        all_within: Optional[float] = None,
    ) -> None:
        """It begins now.

        Args:
            limit: Seconds of searches, of the wall, or where it is `of_processor` of this process's
                processor time.
            all_within: Seconds of the wall in which all must have ended, the last verdict too: at
                least KEPT_SECONDS more than a limit of the wall. None: a tenth and GRACE_SECONDS
                more; where the limit is of the processor, LARGEST_LOAD times that.
        """
        super().__init__(limit, of_processor=of_processor)
        self._elsewhere = 0.0
        self._is_by_wall = all_within is not None or not of_processor
        if all_within is None:
            all_within = _with_grace(limit) * (LARGEST_LOAD if of_processor else 1.0)
        self.on_progress: Optional[Callable[[SearchProgress], None]] = None
        self.incumbent: Optional[float] = None
        self.is_interrupted = False
        self._all = Deadline(all_within)
        self._verdict_share = 1.0
        self._told_at = time.monotonic()

    def left_of_all(self) -> float:
        """Seconds of the wall until all must have ended, the judge's last verdict too; negative
        after that, infinite without a limit."""
        return self._all.left()

    def left_to_judge(self) -> Optional[float]:
        """Seconds of the wall for the verdict that is asked for now: a share of what is left of all
        (`judging`), and at least LEAST_VERDICT_SECONDS. None: there is no limit."""
        left = self.left_of_all() * self._verdict_share
        return None if left == math.inf else max(left, LEAST_VERDICT_SECONDS)

    @contextlib.contextmanager
    def judging(self, share: float) -> Iterator[None]:
        """A block in which a verdict gets at most that share of the seconds left of all; behind it,
        all of them. A tree's verdict leaves some so that a smaller claim can be judged."""
        self._verdict_share = share
        try:
            yield
        finally:
            self._verdict_share = 1.0

    def spent(self) -> float:
        """Seconds since its start by its clock, with those that were counted elsewhere."""
        return super().spent() + self._elsewhere

    def count_elsewhere(self, taken: float) -> None:
        """Adds what the search took in other processes, in seconds shared among these, where the
        limit is in processor time."""
        if self.of_processor:
            self._elsewhere += taken

    def to_find(self) -> Deadline:
        """The deadline of exact work and of CLP's solves, until what is known is told.

        With a limit of the wall it is that limit, or KEPT_SECONDS before all must have ended, which
        is for the judge, where that is sooner. With one in processor time the limit itself does
        not count here: it is KEPT_SECONDS before the end of all, as of `to_find_at_last`.
        """
        left = self.left_of_all() - KEPT_SECONDS
        if not self.of_processor:
            return Deadline(min(self.left(), left))
        return Deadline(left) if self._is_by_wall else self.to_find_at_last()

    def to_find_at_last(self) -> Deadline:
        """The deadline of the same work where the limit is over and what is known may still grow by
        a bound: KEPT_SECONDS before the end of all.

        That end is by the wall where a limit of the wall was asked for; else it is by this
        process's processor time, a tenth and GRACE_SECONDS after the limit.
        """
        if self._is_by_wall:
            return Deadline(self.left_of_all() - KEPT_SECONDS)
        left = _with_grace(self.seconds) - KEPT_SECONDS - self.spent()
        return Deadline(left, of_processor=True)

    def check_search(self, nodes: int, until: float) -> None:
        """Looks at the time at each node of a search, and at each step of the simplex method in
        fractions.

        Args:
            nodes: Of the search so far, for the words of the error.
            until: The second of this deadline, as `spent` counts, at which the search pauses.

        Raises:
            SearchEnded: After an interrupt.
            SearchPaused: After the limit, or `until`, or where the process ends.
        """
        if self.is_interrupted:
            raise SearchEnded("interrupted")
        if self.process_is_ending:
            raise SearchPaused("the process ends")
        if self.spent() > until or self.left() < 0:
            raise SearchPaused(f"time ({nodes} nodes)")

    def interrupt(self) -> None:
        """The user ends the search: at its next node, and exact work of this thread and solves of
        CLP within INTERRUPT_SECONDS, of which a running one ends behind its slice. Called by the
        handler of a signal, in the main thread."""
        self.is_interrupted = True
        shorten_work(Deadline(INTERRUPT_SECONDS))
        Clp.shorten(Deadline(INTERRUPT_SECONDS))

    def why(self, reason: str) -> str:
        """Why a search has no tree, in words: the reason that it gives itself, or an interrupt,
        which came in another one."""
        return "interrupted" if self.is_interrupted else reason

    def is_progress_due(self) -> bool:
        """Whether the progress is to be told now; then it is not again for PROGRESS_SECONDS."""
        now = time.monotonic()
        is_due = now - self._told_at >= PROGRESS_SECONDS
        if is_due:
            self._told_at = now
        return is_due

    def tell_step(self, step: str) -> None:
        """Tells `on_progress` what goes on where it is no search, in words."""
        self._tell(SearchProgress(step))

    def tell_numbers(self, **numbers: float) -> None:
        """Tells `on_progress` numbers of a search by the names of `SearchProgress`, with the
        incumbent where one is known."""
        if self.incumbent is not None:
            numbers = {"incumbent": self.incumbent, **numbers}
        self._tell(SearchProgress("", numbers))

    def _tell(self, progress: SearchProgress) -> None:
        if self.on_progress is not None:
            self.on_progress(progress)


class RaceClock:
    """The seconds of one portfolio, by the clock of its deadline.

    Attributes:
        deadline: That of all searches.
        started: The second of the deadline at which the race began.
    """

    def __init__(self, deadline: SearchDeadline) -> None:
        """The race begins now, or when it is restarted."""
        self.deadline = deadline
        self.started = deadline.spent()

    def restart(self) -> None:
        """The race begins now."""
        self.started = self.deadline.spent()

    def seconds_so_far(self) -> float:
        """Since the race began, of all strategies and of what is prepared."""
        return self.deadline.spent() - self.started

    def seconds_left(self) -> float:
        """For strategies: what is left of the deadline but for RESERVE of all its seconds, which is
        for a bound. May be negative; infinite without a limit."""
        if self.deadline.seconds == math.inf:
            return math.inf
        return self.deadline.left() - RESERVE * self.deadline.seconds

    def until(self, budget: float) -> float:
        """The second of the deadline after this budget of seconds, as far as there is time; now
        where there is none."""
        return self.deadline.spent() + max(0.0, min(budget, self.seconds_left()))


def _with_grace(limit: float) -> float:
    """When all has ended, of a limit in seconds: a tenth and 5 s after it."""
    return limit * (1 + GRACE_SHARE) + GRACE_SECONDS
