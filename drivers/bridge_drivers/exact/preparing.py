"""What is prepared for further strategies of a portfolio: cuts at the root, and forms of a lattice.

`Portfolio` has one `Preparer`, which it asks between turns whether something is to be made now, and
for how long; where a strategy is ready, it begins it. All seconds are those of the race's clock.
"""

from __future__ import annotations

import math
from fractions import Fraction
from typing import Dict, List, NamedTuple, Optional, Sequence

from ..model.integer_form import IntegerProgram
from .cuts import ObjectiveCutoff, ProvedCut, RootCutLoop
from .lattice import thin_directions
from .search_deadline import RaceClock
from .strategies import (
    CLIQUE,
    FARTHEST_FORECAST,
    KINDS_OF_CUTS,
    LEAST_CLOSED_SHARE,
    MIR,
    THIN,
    TURN_SECONDS,
    Preparation,
    Strategy,
)

CUTS_SHARE = 0.4  # of all seconds, for cuts, whatever other strategies took
LEAST_ROUND_SECONDS = 0.2  # of these at a time: a round of cuts takes its time
MOST_STRATEGIES_BELOW_CUTS = 5
LEAST_CUT_SECONDS = 0.05  # from which on the first cuts are made
FIRST_CUT_SECONDS = 0.5  # that they may be made at once
LATTICE_AFTER_SECONDS = 2.0  # before which no lattice is reduced
MOST_LATTICE_COLUMNS = 45  # integer ones
ENOUGH_CLOSED = {MIR: 0.5, CLIQUE: 0.25}  # of the gap: then a strategy begins below the cuts
LEAST_SHARE_BELOW_CUTS = 0.2  # of another strategy's seconds, that one below cuts seems to need


class PreparedStrategy(NamedTuple):
    """What a strategy begins with.

    Attributes:
        name: As it is told.
        cuts: That it is to stand below.
        forms: That it is to branch on beside columns: whole coefficients by column.
        first_estimate: Seconds that it seems to take, until some of its tree is proved.
    """

    name: str
    cuts: Sequence[ProvedCut]
    forms: Sequence[Dict[int, int]]
    first_estimate: float


class Preparer:
    """Makes cuts and forms bit by bit, until all strategies that a portfolio may have are prepared.

    Attributes:
        cut_loop: Makes cuts, for the value that the portfolio has at the time.
        preparation: What further strategies are still to have.
        has_no_value: Whether there is to be no point: then there is no gap to be seen.
    """

    def __init__(
        self, program: IntegerProgram, objective: ObjectiveCutoff, clock: RaceClock
    ) -> None:
        """All that there is to prepare is still to be prepared.

        Args:
            objective: What trees are to show. A better one is told to `cut_loop`.
            clock: Of the portfolio.
        """
        self.program = program
        self.clock = clock
        self.cut_loop = RootCutLoop(program, objective, clock.deadline)
        self.has_no_value = objective.value is None
        self.preparation = Preparation([THIN, CLIQUE] if self.has_no_value else [MIR, CLIQUE, THIN])

    def time_for_cuts(self) -> float:
        """Seconds that may go now to cuts alone, whatever other strategies took: CUTS_SHARE of all,
        less what was made; minus infinity where that is not enough for a round of them.

        A round is LEAST_ROUND_SECONDS, and twice as long after each that was in vain.
        """
        preparation = self.preparation
        if preparation.names[:1] == [THIN]:
            return -math.inf
        seconds = CUTS_SHARE * self.clock.seconds_so_far() - preparation.seconds
        is_enough = seconds >= LEAST_ROUND_SECONDS * 2**preparation.vain_attempts
        return seconds if is_enough else -math.inf

    def is_due(self, budget: float) -> bool:
        """Whether more is made now for a further strategy, in place of a turn.

        It is where no strategy goes on, else for cuts as soon as LEAST_CUT_SECONDS are there, and
        then LEAST_ROUND_SECONDS: of less than a round of them nothing comes. A lattice comes late,
        after LATTICE_AFTER_SECONDS of all, but at once where there is no value.

        Args:
            budget: Seconds that there are for it; infinite where no strategy goes on.
        """
        names = self.preparation.names
        if not names:
            return False
        is_lattice = names[0] == THIN
        if budget == math.inf or self.has_no_value and is_lattice:
            return True
        if is_lattice:
            is_late = self.clock.seconds_so_far() >= LATTICE_AFTER_SECONDS
            return budget >= LEAST_CUT_SECONDS and is_late
        return budget >= (LEAST_ROUND_SECONDS if self.preparation.seconds else LEAST_CUT_SECONDS)

    def prepare(self, strategies: Sequence[Strategy], budget: float) -> Optional[PreparedStrategy]:
        """Makes some seconds of the first preparation, and counts them.

        A lattice is reduced at once and to its end. Where even the root relaxation has no optimum,
        no cuts are made.

        Args:
            strategies: That were begun, in their order; by these it is seen what there is already,
                and how long a search takes.
            budget: Seconds that there are for it.

        Returns:
            A strategy that is done, and worth beginning; else None.
        """
        began = self.clock.deadline.spent()
        made = self._make_some(strategies, budget)
        self.preparation.seconds += self.clock.deadline.spent() - began
        return made

    def _make_some(
        self, strategies: Sequence[Strategy], budget: float
    ) -> Optional[PreparedStrategy]:
        """What `prepare` says, without counting seconds."""
        name = self.preparation.names[0]
        if name == THIN:
            self.preparation.names.pop(0)
            forms = self._lattice_forms()
            estimate = TURN_SECONDS if self.has_no_value else math.inf
            return PreparedStrategy(THIN, [], forms, estimate) if forms else None
        if self.cut_loop.solve_relaxation(_cuts_of_last(strategies)) is None:
            self.preparation.names.pop(0)
            return None
        return self._make_cuts(name, strategies, budget)

    def _make_cuts(
        self, name: str, strategies: Sequence[Strategy], budget: float
    ) -> Optional[PreparedStrategy]:
        """Makes some seconds of cuts below those that are there: the ones made before, else those
        of the last strategy with cuts, whose relaxation `cut_loop` has solved.

        They are done when the loop ends by itself or when they are in vain, MIR cuts at once. Then,
        or when they close ENOUGH_CLOSED of the gap, a strategy is ready, where they close at least
        LEAST_CLOSED_SHARE of it or there is no value to see that by, and the next is prepared. With
        cliques there is one for each such part of what is left of the gap.

        Args:
            name: The strategy's, whose kinds of cuts are made.
            budget: Seconds; not more are taken than so far in all, or FIRST_CUT_SECONDS.
        """
        loop, preparation = self.cut_loop, self.preparation
        root_bound = loop.dual_bound
        most = max(self.clock.seconds_so_far(), FIRST_CUT_SECONDS)
        until = self.clock.until(min(budget, most))
        before = preparation.cuts or _cuts_of_last(strategies)
        cuts = loop.run(KINDS_OF_CUTS[name], before, until)
        preparation.add(cuts, loop.closed_share(root_bound))
        closed_share = preparation.closed_share
        is_done = not loop.is_over(until) or preparation.is_in_vain()
        if not is_done and closed_share < ENOUGH_CLOSED[name]:
            return None
        if is_done or not _takes_more_cuts(name, strategies):
            preparation.names.pop(0)
        made = None
        if cuts and (closed_share >= LEAST_CLOSED_SHARE or self.has_no_value):
            estimate = self._estimate_below_cuts(strategies, closed_share)
            made = PreparedStrategy(name, cuts, [], estimate)
        preparation.begin_next()
        return made

    def _estimate_below_cuts(self, strategies: Sequence[Strategy], closed_share: float) -> float:
        """Seconds that a search below cuts seems to take, which close such a share of the gap that
        the cuts before them left.

        The size of a tree is taken to be exponential in the gap: of one with N nodes it is N to the
        power of what is left of the gap. Seconds and N are those of another strategy, of which
        something is known. A turn is the least, so that the first one tells nothing of later ones.
        """
        if self.has_no_value:
            return TURN_SECONDS
        known = [s for s in strategies if not s.cuts or s.spent]
        other = min(known, key=lambda s: s.estimated_seconds())
        farthest = FARTHEST_FORECAST * self.clock.seconds_so_far()
        seconds = min(other.estimated_seconds(), farthest)
        share = math.pow(other.estimated_nodes(), -min(max(closed_share, 0.0), 1.0))
        return max(seconds * max(share, LEAST_SHARE_BELOW_CUTS), TURN_SECONDS)

    def _lattice_forms(self) -> List[Dict[int, int]]:
        """The forms to branch on beside columns, as whole coefficients by column; none unless all
        columns are integer and at most MOST_LATTICE_COLUMNS.

        Where the objective has a lattice, its own form counts too, with the width between the last
        relaxation of `cut_loop` and the value, in spacings of the lattice; before that relaxation
        has an optimum there are no forms.
        """
        program, objective = self.program, self.cut_loop.objective
        lattice = objective.lattice
        is_integer = program.is_integer
        if not all(is_integer) or sum(is_integer) > MOST_LATTICE_COLUMNS:
            return []
        if lattice is None:
            return [] if any(program.costs) else thin_directions(program)
        bound = self.cut_loop.dual_bound
        if math.isinf(bound):
            return []
        steps = (bound - float(program.constant_fraction)) / float(lattice.spacing)
        width = Fraction(max(objective.rhs - steps, 0.5))
        return thin_directions(program, lattice.coefficients, width)


def _cuts_of_last(strategies: Sequence[Strategy]) -> Sequence[ProvedCut]:
    """Those of the last strategy that has some: what is made next stands below them."""
    return next((s.cuts for s in reversed(strategies) if s.cuts), ())


def _takes_more_cuts(name: str, strategies: Sequence[Strategy]) -> bool:
    """Whether behind the strategy that is prepared another one of this name may come, below more
    cuts."""
    count = sum(bool(strategy.cuts) for strategy in strategies)
    return name == CLIQUE and count < MOST_STRATEGIES_BELOW_CUTS
