"""Short solutions of a system of rows and bounds near an exact or nearly exact one.

What has thousands of bits at a vertex has few beside it: most of the width of an optimum is
rounding. The steps, in the modules of the same names:

1. Rows and bounds that the solution meets are tight.
2. One linear program gives a direction along which all of them get room that can have any
   (`inside_direction`).
3. The rows that can have none are put in an order in which each has unknowns of its own
   (`peeling_order`).
4. The solution is moved a little along the direction and rounded to decimals, and what is left of
   those rows is shared among their own unknowns (`shared_remainders`).
5. Where a row divides, unknowns before it are rounded to multiples of the divisor.
6. Each is judged exactly. The step is the longest that the wanted nearness allows, since it leaves
   the most room for rounding, and of decimals the fewest are looked for that the judge takes.

`short_points` asks for points so, `short_duals` for duals.
"""

from __future__ import annotations

import itertools
import math
from typing import (
    Callable,
    Generic,
    Iterator,
    List,
    NamedTuple,
    Optional,
    Sequence,
    Tuple,
    TypeVar,
)

from ..system.deadline import Deadline
from .inside_direction import InsideDirection, inside_direction
from .peeling_order import PeelingOrder
from .row_system import RowSystem
from .shared_remainders import RoundedSolution, Rounder, Rounding

REACHES = (10.0, 1e4, 1e6)  # of a direction, in sizes of each unknown, or of 1
GOAL = 4e-10  # of the value, or of 1: how near a solution is wanted, half of 1e-9 and a little room
MOST_PLACES = 38
LEAST_PLACES = 3
PLACES_APART = 2  # between the numbers of decimals that are tried
MOST_TRIES = 8  # numbers of decimals that one step is looked at with


class Way(NamedTuple):
    """How rows are met: `PeelingOrder.grid`, and whether own unknowns share what is left."""

    most_grid: int
    shares: bool


class Stage(NamedTuple):
    """What is tried of each direction and order before anything of the next stage is.

    Attributes:
        steps: Of the direction, in decimal places beyond those that GOAL allows; the ones below 0
            go farther than that.
    """

    ways: Sequence[Way]
    steps: Sequence[int]


SIMPLE_WAYS = (Way(1, shares=True), Way(10**14, shares=True))
OTHER_WAYS = (Way(10**7, shares=True), Way(10**40, shares=True), Way(1, shares=False))
STAGES = (
    Stage(SIMPLE_WAYS, (0, 3)),
    Stage(OTHER_WAYS, (0, 3)),
    Stage(SIMPLE_WAYS, (6, -1, -2, -4)),
    Stage(OTHER_WAYS, (6, -1, -2, -4)),
)


class Trial(NamedTuple):
    """A rounded solution that does not hold.

    Attributes:
        is_wide: Since its numbers, or the sums of them, do not fit a certificate; else it breaks a
            row or a bound.
    """

    is_wide: bool


Short = TypeVar("Short")


class Judged(NamedTuple, Generic[Short]):
    """A solution that holds.

    Attributes:
        gap: Between its value and the one that it is near, as a share of that, or of 1.
    """

    gap: float
    solution: Short


class ShortSolutions(Generic[Short]):
    """Looks for short solutions near one solution.

    Attributes:
        best: The nearest that was found; None: there is none yet.
    """

    def __init__(
        self,
        system: RowSystem,
        base: Sequence[int],
        near: float,
        judge: Callable[[RoundedSolution], Judged[Short] | Trial],
        rate: Callable[[InsideDirection], float],
        deadline: Deadline,
    ) -> None:
        """
        Args:
            base: The solution, by unknown, over 2 to the power of BASE_BITS.
            near: A share of a bound's size, or of 1, within which it counts as met.
            judge: Says whether a rounded solution holds.
            rate: By how much the value changes along a direction, as a share of it, or of 1.
            deadline: Of the whole search.
        """
        self.system = system
        self.base = base
        self.near = near
        self.judge = judge
        self.rate = rate
        self.deadline = deadline
        self.best: Optional[Judged[Short]] = None

    def find(self) -> Optional[Judged[Short]]:
        """The first that is as near as GOAL, else the nearest; None where none holds."""
        known: List[Tuple[Rounder, float]] = []
        for stage in STAGES:
            for rounder, rate in known if stage is not STAGES[0] else self._rounders(known):
                for way, beyond in itertools.product(stage.ways, stage.steps):
                    if self._is_near_enough(rounder, rate, way, beyond):
                        return self.best
                    if self.deadline.is_over():
                        return self.best
        return self.best

    def _rounders(self, known: List[Tuple[Rounder, float]]) -> Iterator[Tuple[Rounder, float]]:
        """Directions of all reaches, the exact rows of each in two orders, with their rates.

        Args:
            known: Is given each of them, too.
        """
        for reach in REACHES:
            inside = inside_direction(self.system, self.base, reach, self.near, self.deadline)
            if inside is None:
                continue
            rate = self.rate(inside)
            for eager in (True, False):
                order = PeelingOrder(self.system, inside, self.deadline, eager=eager)
                if order.is_whole:
                    rounder = Rounder(self.base, inside, order, self.deadline)
                    known.append((rounder, rate))
                    yield known[-1]

    def _is_near_enough(self, rounder: Rounder, rate: float, way: Way, beyond: int) -> bool:
        """Looks for the fewest decimals that do with one step; whether a solution comes as near as
        GOAL, which is then `best`.

        Few decimals break a row or a bound, and many are too wide, so that the first ones are
        looked for by halving, few of them first. The step that goes farther than GOAL allows is
        taken with any solution.

        Args:
            beyond: Of `Stage.steps`.
        """
        step = beyond + step_places(rate)
        most = min(MOST_PLACES, step + PLACES_APART * MOST_TRIES)
        places = range(step + 1, most, PLACES_APART) if step >= LEAST_PLACES else range(0)
        goal = GOAL if beyond >= 0 else math.inf
        is_near = False
        low, high = 0, len(places)  # too few below `low`; enough, or too many, from `high` on
        while low < high and not self.deadline.is_over():
            middle = min(2 * low, (low + high) // 2)
            found = self._tried(rounder, Rounding(places[middle], step, *way))
            is_enough = found.is_wide if isinstance(found, Trial) else found.gap <= goal
            low, high = (low, middle) if is_enough else (middle + 1, high)
            is_near = self._keep(found) or is_near
        return is_near

    def _keep(self, found: Judged[Short] | Trial) -> bool:
        """Keeps what is no farther than the best so far; whether it is as near as GOAL."""
        if not isinstance(found, Judged):
            return False
        if self.best is None or found.gap <= self.best.gap:
            self.best = found
        return found.gap <= GOAL

    def _tried(self, rounder: Rounder, rounding: Rounding) -> Judged[Short] | Trial:
        """One rounding, judged."""
        solution = rounder.rounded(rounding)
        return Trial(is_wide=True) if solution is None else self.judge(solution)


def step_places(rate: float) -> int:
    """Of the longest step that stays within GOAL: it is 10 to the power of minus this.

    Args:
        rate: By how much the value changes along the whole direction, as a share of it, or of 1.
    """
    return max(LEAST_PLACES, math.ceil(math.log10(rate / GOAL))) if rate else LEAST_PLACES
