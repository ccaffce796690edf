"""The moment at which all exact work of this thread ends.

Loops of exact arithmetic that can take long call `check_work` at each step, so that no signal has
to break them off in the middle of a line. What is known by then is told (`certifier`).
"""

from __future__ import annotations

from contextvars import ContextVar
from typing import Iterable, Iterator, TypeVar

from ..system.deadline import Deadline
from ..system.errors import TimeOver

STEPS_BETWEEN_CHECKS = 256  # of a loop whose single steps are short

Item = TypeVar("Item")

_deadline: ContextVar[Deadline] = ContextVar("deadline of exact work", default=Deadline())


def limit_work(deadline: Deadline) -> None:
    """From now on all exact work of this thread ends with the deadline, in place of the one before;
    an endless one takes the limit away. Processes of a pool begin so."""
    _deadline.set(deadline)


def shorten_work(deadline: Deadline) -> None:
    """All exact work of this thread ends when the seconds of this deadline are over, counted from
    now, or with the deadline that it has, if that is earlier. At an interrupt."""
    limit_work(_deadline.get().within(deadline.left()))


def check_work() -> None:
    """Looks at the time of exact work, in each step of a loop that can take long.

    Raises:
        TimeOver: It is over. Nothing in between catches that, so that the certifier tells what is
            known.
    """
    if _deadline.get().is_over():
        raise TimeOver()


def checked(items: Iterable[Item]) -> Iterator[Item]:
    """The same items, for a loop of many short steps over them.

    The time is looked at once in STEPS_BETWEEN_CHECKS items, so that a loop over few of them pays
    nothing for it.

    Raises:
        TimeOver: The time of exact work is over.
    """
    for count, item in enumerate(items, 1):
        if count % STEPS_BETWEEN_CHECKS == 0:
            check_work()
        yield item
