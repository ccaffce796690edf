"""What is asked of a solver, as values: made of a command's options by `pipeline.option_values`."""

from __future__ import annotations

import enum
from dataclasses import dataclass
from typing import Sequence


class SolverOption(enum.Enum):
    """A setting that some solvers take and others do not, by its field of `SolverSettings`."""

    MIP_GAP = "mip_gap"
    THREADS = "threads"
    EXACT_CHECK = "exact_check"


@dataclass(frozen=True)
class SolverSettings:
    """What is asked of a solver.

    Attributes:
        time_limit: Seconds for one run of it; 0 for no limit. The solver is told of it, and killed
            a little later, by the clock.
        relax: Integer variables are taken as continuous ones.
        mip_gap: The relative gap at which its search stops; 0 for none.
        threads: Of its search; 0 leaves the number to the solver.
        exact_check: It checks its final basis in exact arithmetic.
        arguments: Further words for it, which stand behind all others.
    """

    time_limit: float = 0.0
    relax: bool = False
    mip_gap: float = 0.0
    threads: int = 0
    exact_check: bool = False
    arguments: Sequence[str] = ()
