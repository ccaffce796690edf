"""What a run tells of itself while it goes on.

It tells the library's log, the progress line, and a function of the caller.

A `Monitor` goes through one run: `solve` makes it or is given it, and all that works in the run
tells it.
"""

from __future__ import annotations

import contextlib
import logging
import shlex
import time
from typing import TYPE_CHECKING, Callable, Iterator, Mapping, NamedTuple, Sequence

from ..solvers.run import RunObserver
from ..system.progress import Progress

if TYPE_CHECKING:
    from ..exact.search_deadline import SearchProgress

LOGGER = logging.getLogger("bridge_drivers")
SOLVER_LOGGER = LOGGER.getChild("solver")  # the lines of a solver's log, with their ends
PROGRESS_LOGGER = LOGGER.getChild("progress")  # what is known while something goes on

Numbers = Mapping[str, float]


class ProgressEvent(NamedTuple):
    """What is known while something goes on, as functions given as `on_progress` get it.

    Attributes:
        stage: What goes on: the name of a solver, or `certificate`.
        seconds: Since it began, of the wall.
        numbers: What is known, by name: `incumbent` and `bound` in the objective's own sense,
            `objective` of a relaxation, `nodes`, `open`, `iterations`, `cuts`, and of a search for
            a certificate `closed`, the share of the tree that is proved (from 0 to 1), and `left`,
            the seconds that this share forecasts.
    """

    stage: str
    seconds: float
    numbers: Numbers

    @property
    def incumbent(self) -> float | None:
        """The objective of the best point that is known, in its own sense; None where none is."""
        return self.numbers.get("incumbent")

    @property
    def bound(self) -> float | None:
        """What no point is better than, in the objective's own sense; None where nothing is known.

        It is what the solver or the search says, and nothing proved.
        """
        return self.numbers.get("bound")


class ObservedProgress(Progress):
    """Progress whose numbers are told to the library's log and to a function, too.

    Attributes:
        on_progress: Is called with each event, in the thread of the run; None for none.
    """

    def __init__(self, on_progress: Callable[[ProgressEvent], None] | None) -> None:
        super().__init__()
        self.on_progress = on_progress

    def tell_numbers(self, known: Numbers) -> None:
        """Tells the line, the log (at level DEBUG) and the function what is known by now.

        An exception of the function is logged, and does not end the run.

        Args:
            known: Numbers by the names that `ProgressEvent` has.
        """
        super().tell_numbers(known)
        event = ProgressEvent(self.stage, time.monotonic() - self.began, dict(known))
        PROGRESS_LOGGER.debug("%s: %s", event.stage, self.detail)
        if self.on_progress is not None:
            try:
                self.on_progress(event)
            except Exception:  # a fault of the caller's function does not end the run
                LOGGER.exception("on_progress")


class Monitor(RunObserver):
    """Follows one run.

    Attributes:
        name: The command that messages name.
        began: When the run began, by the monotonic clock.
        seconds: What each part of the run has taken, of the wall, by the part's name.
        progress: What the run is at.
        read_line: Gives the numbers that a line of the solver's log tells, by name; set once the
            solver and its program are known.
        maximise: The sense of the objective, by which a better incumbent or bound is known; set
            with it.
    """

    def __init__(
        self, name: str, on_progress: Callable[[ProgressEvent], None] | None = None
    ) -> None:
        """The run begins now.

        Args:
            name: The command that messages name.
            on_progress: Is called with what is known while the run goes on; None for none.
        """
        self.name = name
        self.began = time.monotonic()
        self.seconds: dict[str, float] = {}
        self.progress = ObservedProgress(on_progress)
        self.read_line: Callable[[str], Numbers] = lambda line: {}
        self.maximise = False
        self._known: dict[str, float] = {}

    @contextlib.contextmanager
    def timing(self, part: str) -> Iterator[None]:
        """A block whose seconds count for a part of the run, also where an exception ends it."""
        start = time.monotonic()
        try:
            yield
        finally:
            self.add_time(part, time.monotonic() - start)

    def add_time(self, part: str, spent: float) -> None:
        """Adds seconds to those that a part of the run took."""
        self.seconds[part] = self.seconds.get(part, 0.0) + spent

    def command_starts(self, argv: Sequence[str], folder: str = "") -> None:
        """Logs a command that starts (level DEBUG), its folder and the run's seconds so far."""
        if LOGGER.isEnabledFor(logging.DEBUG):
            where = f"  (in {folder})" if folder else ""
            elapsed = time.monotonic() - self.began
            LOGGER.debug("%s: %.2f s: %s%s", self.name, elapsed, shlex.join(argv), where)

    def stage_begins(self, stage: str, limit: float) -> None:
        """Shows a stage with its limit in seconds (0 for none), and forgets older numbers."""
        self._known = {}
        self.progress.begin(stage, limit)

    def log_line(self, line: str) -> None:
        """Logs a line of the solver's log (level INFO).

        Where it has numbers, the progress is told all that were read of the stage so far.
        """
        SOLVER_LOGGER.info("%s", line)
        found = self.read_line(line)
        if found:
            self._known = self._joined(found)
            self.progress.tell_numbers(self._known)

    def tell_search(self, progress: SearchProgress) -> None:
        """Tells the progress what a search is at: its step, and what is known so far.

        A bound that is told beside `cuts` is no claim yet: while cuts are made, that of before
        stays.
        """
        found = dict(progress.numbers)
        if "cuts" in found:
            found.pop("bound", None)
        elif found:
            self._known.pop("cuts", None)
        self._known.update(found)
        if progress.step:
            self.progress.tell_step(progress.step, self._known)
        else:
            self.progress.tell_numbers(self._known)

    def _joined(self, found: Numbers) -> dict[str, float]:
        """What is known with what a line tells: the better of two incumbents, the later of others.

        A heuristic of a solver may tell a point that is worse than one before.
        """
        joined = {**self._known, **found}
        known = [told["incumbent"] for told in (self._known, found) if "incumbent" in told]
        if known:
            joined["incumbent"] = max(known) if self.maximise else min(known)
        return joined

    def process_ended(self, spent: float) -> None:
        """Counts the seconds of a solver's process for the part `solver`."""
        self.add_time("solver", spent)

    def summary(self) -> str:
        """A line with the seconds of the wall of each part, and the processor's of the driver."""
        parts = "".join(f"{part} {seconds:.2f}, " for part, seconds in self.seconds.items())
        return (
            f"{self.name}: seconds: {parts}all {time.monotonic() - self.began:.2f}; "
            f"driver's own processor time {time.process_time():.2f}"
        )
