"""That something takes time in proportion to the length of a text."""

from __future__ import annotations

import time
from typing import AnyStr, Callable

GROWTH = 8.0  # for four times as much: 4 is linear, 16 is quadratic
NOTICED = 0.02  # seconds: less says nothing
ATTEMPTS = 8


def assert_linear(
    made: Callable[[int], AnyStr], read: Callable[[AnyStr], object], count: int
) -> None:
    """Compares `count` pieces and four times as many, by processor time.

    A machine that has much else to do may spoil one comparison, and not all of them; what is
    quadratic fails in each.
    """
    texts = made(count), made(4 * count)
    for _ in range(ATTEMPTS):
        short, long = (_seconds(read, text) for text in texts)
        if long < max(NOTICED, GROWTH * short):
            return
    raise AssertionError(f"{short:.4f} s, four times as much {long:.4f} s")


def _seconds(read: Callable[[AnyStr], object], text: AnyStr) -> float:
    began = time.process_time()
    read(text)
    return time.process_time() - began
