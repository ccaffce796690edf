"""What a run is at, as values: whoever works says it, whoever shows it reads it.

`pipeline.monitor` keeps one for a run; `commands.console` shows it in the last line of a terminal.
"""

from __future__ import annotations

import math
import time
from typing import List, Mapping

VALUES = ("incumbent", "bound", "objective")  # of what is known, those that are told as values
COUNTS = ("nodes", "open", "iterations", "cuts")  # and those that are told as counts
LONGEST_FORECAST = 100 * 3600.0  # seconds: more is no forecast


class Progress:
    """The stage that a run is at. It may be read by another thread while it changes.

    Attributes:
        stage: What is worked at; "" between two stages.
        limit: Seconds that the stage has; 0 for no limit.
        detail: What is known of it, in words.
        began: When the stage began, by the monotonic clock.
    """

    def __init__(self) -> None:
        """No stage yet."""
        self.stage = ""
        self.limit = 0.0
        self.detail = ""
        self.began = time.monotonic()

    def begin(self, stage: str, limit: float = 0.0) -> None:
        """Begins a stage, whose time counts from now on; what was known of the last one is gone.

        Args:
            stage: What is worked at, in words; "" between two stages.
            limit: Seconds of the wall that it has; 0 for no limit.
        """
        self.stage = stage
        self.limit = limit
        self.detail = ""
        self.began = time.monotonic()

    def tell(self, detail: str) -> None:
        """Sets what is known of the stage from now on, in words."""
        self.detail = detail

    def tell_step(self, step: str, known: Mapping[str, float]) -> None:
        """Sets what is worked at within the stage, in words, and what is known of it by then."""
        self.tell(", ".join(filter(None, [progress_words(known), step])))

    def tell_numbers(self, known: Mapping[str, float]) -> None:
        """Sets what is known of the stage from now on, by the names that `progress_words` knows."""
        self.tell(progress_words(known))

    def words(self) -> str:
        """The stage, its seconds by now and what is known of it: `cbc, 3 of 60 s, incumbent 17`.

        Behind its limit the seconds stand alone: the stage is ending, or its limit is one of the
        processor, which a busy machine reaches later.
        """
        seconds = round(time.monotonic() - self.began)
        limit = f" of {self.limit:.3g}" if 0 < self.limit and seconds <= self.limit else ""
        detail = f", {self.detail}" if self.detail else ""
        return f"{self.stage}, {seconds}{limit} s{detail}"


def progress_words(known: Mapping[str, float]) -> str:
    """The words of what is known of a search: values, the gap where it is known, and counts.

    Args:
        known: By the names of `VALUES` and `COUNTS`, `closed` (a share) and `left` (seconds);
            values are in the file's own sense. Others, and what is not finite, are left out.
    """
    told = {name: value for name, value in known.items() if math.isfinite(value)}
    parts = [f"{name} {told[name]:.8g}" for name in VALUES if name in told]
    if "incumbent" in told and "bound" in told:
        parts.append(f"gap {gap_percentage(told['incumbent'], told['bound']):.3g} %")
    counts = [f"{told[name]:.0f} {name}" for name in COUNTS if name in told]
    return ", ".join([*parts, *_outlook(told), *counts])


def _outlook(told: Mapping[str, float]) -> List[str]:
    """How much of a tree is closed, and how long the rest takes, in words; only what is known.

    Args:
        told: By the names that `progress_words` knows, all finite.
    """
    parts = []
    if told.get("closed"):
        parts.append(f"{100 * told['closed']:.3g} % closed")
    if told.get("left", math.inf) <= LONGEST_FORECAST:
        parts.append(f"{duration_words(told['left'])} left")
    return parts


def duration_words(left: float) -> str:
    """So many seconds in words of the unit that fits: `40 s`, `12 min`, `3 h`."""
    if left < 100:
        return f"{left:.0f} s"
    if left < 100 * 60:
        return f"{left / 60:.0f} min"
    return f"{left / 3600:.0f} h"


def gap_percentage(incumbent: float, bound: float) -> float:
    """How far both are apart, in hundredths of the greater of their sizes; 0 of equal ones."""
    apart = abs(incumbent - bound)
    return 100 * apart / max(abs(incumbent), abs(bound)) if apart else 0.0
