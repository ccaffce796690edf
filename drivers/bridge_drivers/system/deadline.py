"""The time that some work has: seconds of the wall, or of the processor."""

from __future__ import annotations

import math
import time
from typing import Optional

from .errors import DeadlineExceeded


class Deadline:
    """The moment at which some work has to end. One goes through a whole run.

    Attributes:
        seconds: How long the work has from its start on; infinite where it has no end.
        of_processor: They are seconds of this process's processor time, so that a busy machine does
            not end a short piece of work early.
    """

    def __init__(self, limit: float = math.inf, *, of_processor: bool = False) -> None:
        """The time counts from now on.

        Args:
            limit: Seconds that the work has; infinite where it has no end, and over at once at 0.
            of_processor: They are seconds of the processor, not of the wall.
        """
        self.seconds = limit
        self.of_processor = of_processor
        self._clock = time.process_time if of_processor else time.monotonic
        self._start = self._clock()

    @classmethod
    def of_limit(cls, limit: float, began: Optional[float] = None) -> Deadline:
        """The deadline of an option in seconds of the wall, in which 0 stands for no limit.

        Args:
            limit: These seconds.
            began: When they begin to count, by the monotonic clock; None: now.
        """
        deadline = cls(limit or math.inf)
        if began is not None:
            deadline._start = began
        return deadline

    def spent(self) -> float:
        """Seconds since its start, or since it was restarted, by its clock."""
        return self._clock() - self._start

    def left(self) -> float:
        """Seconds that are left; negative when it is over, infinite where it never is."""
        return self.seconds - self.spent()

    def is_over(self) -> bool:
        return self.left() <= 0

    def check(self, doing: str = "") -> None:
        """Work calls this at each of its steps.

        Args:
            doing: What was going on, for the error's text.

        Raises:
            DeadlineExceeded: It is over.
        """
        if self.is_over():
            raise DeadlineExceeded(f"time ({doing})" if doing else "time")

    def restart(self) -> None:
        """Counts the seconds from now on, as if the work began only now."""
        self._start = self._clock()

    def within(self, limit: float) -> Deadline:
        """A deadline of the same clock that ends with this one, at most `limit` seconds from now.

        What restarts this one later does not change it.
        """
        return Deadline(min(limit, self.left()), of_processor=self.of_processor)
