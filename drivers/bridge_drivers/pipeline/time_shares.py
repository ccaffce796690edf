"""The one limit of time of a run, and how it is divided among solver, search and verdicts.

`timelim` is what a whole run may take. `solve.SolveRun` makes the `TimeShares` of a run, and each
stage asks for its share as it begins, so that what one stage leaves is the next one's.
"""

from __future__ import annotations

import math
from dataclasses import dataclass, field
from typing import TYPE_CHECKING, Dict, Optional

from ..solvers.run import SolverTime
from ..system.deadline import Deadline
from ..system.late import late_module

if TYPE_CHECKING:
    from ..exact import search_deadline
else:
    search_deadline = late_module("..exact.search_deadline", __package__)

VERDICT_SHARE = 0.1  # of what is left when a stage begins: it is kept for verdicts
SEARCH_SHARE = 0.5  # of the rest, for a certificate that is to be searched for after the solver
CERTIFICATE_SECONDS = 60.0  # of that search where the run has no limit
LEAST_SEARCH_SECONDS = 1.0  # of a search: a solver that took all its time leaves as much
LEAST_SOLVER_SECONDS = 0.01  # that a solver is told, to which 0 is no limit
GRACE_SECONDS = 5.0  # for what does not end by itself when its share is over


@dataclass
class TimeShares:
    """What each stage of one run may take.

    Attributes:
        deadline: Of the whole run; endless where it has no limit.
        proves: A certificate is searched for after the solver.
        solver_seconds: Of the solver, where the run has no limit; 0 for none.
        given: The seconds of the wall that the stages were given, by their names in a message:
            the last ones of each stage.
    """

    deadline: Deadline
    proves: bool = False
    solver_seconds: float = 0.0
    given: Dict[str, float] = field(default_factory=dict)

    @classmethod
    def of_limit(
        cls, limit: float, began: float, *, proves: bool, solver_seconds: float = 0.0
    ) -> TimeShares:
        """The shares of a run.

        Args:
            limit: Seconds of the whole run; 0 for no limit, but of the search; infinite for none
                at all.
            began: When the run began, by the monotonic clock.
            proves: A certificate is searched for after the solver.
            solver_seconds: As the attribute.
        """
        return cls(Deadline.of_limit(limit, began), proves, solver_seconds)

    def has_limit(self) -> bool:
        """Whether the run has a limit."""
        return self.deadline.seconds != math.inf

    def for_solver(self, title: str) -> SolverTime:
        """The share of a solver that starts now.

        It is what is left, less VERDICT_SHARE, and of that one half where a certificate is searched
        for. A solver that does not end by itself is killed GRACE_SECONDS later, or when the limit
        of the run comes if that is later, but at the latest a tenth and GRACE_SECONDS after its
        share. Where the run has no limit it is `solver_seconds`.

        Args:
            title: Of the solver, for `words`.
        """
        if not self.has_limit() and not self.solver_seconds:
            return SolverTime()
        if not self.has_limit():
            self.given[title] = self.solver_seconds
            latest = self.solver_seconds * (1 + VERDICT_SHARE) + GRACE_SECONDS
            return SolverTime(self.solver_seconds, Deadline(latest))
        left = max(self.deadline.left(), 0.0)
        share = left * (1 - VERDICT_SHARE) * (1 - SEARCH_SHARE if self.proves else 1.0)
        share = max(share, LEAST_SOLVER_SECONDS)
        self.given[title] = share
        latest = share * (1 + VERDICT_SHARE) + GRACE_SECONDS
        return SolverTime(share, Deadline(min(latest, max(left, share + GRACE_SECONDS))))

    def for_search(
        self, most_of_processor: Optional[float] = None
    ) -> search_deadline.SearchDeadline:
        """The share of the search for a certificate that begins now.

        It is what is left, less VERDICT_SHARE, and LEAST_SEARCH_SECONDS at least. Its verdicts have
        ended with the run, or GRACE_SECONDS after the share if that is later. Where the run has no
        limit, the search has CERTIFICATE_SECONDS of the processor, whatever else the machine does.

        Args:
            most_of_processor: A short search has at most so many seconds, and counts those of the
                processor; None: it is a long one, and counts those of the wall where there is a
                limit.
        """
        if not self.has_limit():
            most = CERTIFICATE_SECONDS if most_of_processor is None else most_of_processor
            return search_deadline.SearchDeadline(min(most, CERTIFICATE_SECONDS), of_processor=True)
        left = self.deadline.left()
        share = max(left * (1 - VERDICT_SHARE), LEAST_SEARCH_SECONDS)
        all_within = max(left, share + GRACE_SECONDS)
        if most_of_processor is not None:
            seconds = min(most_of_processor, share)
            return search_deadline.SearchDeadline(seconds, of_processor=True, all_within=all_within)
        self.given["the certificate"] = share
        return search_deadline.SearchDeadline(share, all_within=all_within)

    def for_verdict(self) -> Deadline:
        """The time of a verdict on what is passed on: what is left, GRACE_SECONDS at least."""
        return Deadline(max(self.deadline.left(), GRACE_SECONDS))

    def words(self) -> str:
        """How the limit was divided, in a line for a message; "" where there was none.

        For example `timelim=60: CBC had 27 s, the certificate 31.2 s`, and where nothing was said
        of a limit `without timelim: CBC had 60 s`.
        """
        if not self.given:
            return ""
        shares = [f"{stage} had {_rounded(share)} s" for stage, share in self.given.items()]
        limit = f"timelim={self.deadline.seconds:g}" if self.has_limit() else "without timelim"
        return f"{limit}: {', '.join(shares)}"


def _rounded(share: float) -> str:
    """Seconds with three digits, as `27`, `31.2` and `0.45`."""
    return f"{share:.3g}"
