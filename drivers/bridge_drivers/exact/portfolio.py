"""A portfolio of strategies that race for a tree, each in turns, where it was paused.

*plain* has no cuts; *lemma* searches below MIR cuts, *clique* below clique cuts too; *thin*
branches on forms of a reduced lattice beside columns. The strategy that seems to end first goes on.
What else is tried, cuts that are made and strategies below them, has a share of the seconds that
this one seems to need in all. The first tree is told; where a short text is wanted, all go on for
some times as long and the shortest is told, since cuts make some trees longer.

`CertificationTask.portfolio` makes a `Portfolio`: for the value of a point by `integer_certifier`,
for a refutation by `refutations`. What it finds is a `TreeText`, or where the time was over a
`ProvedBound`. All seconds are those of the deadline's clock, which is the wall's or the
processor's.
"""

from __future__ import annotations

import math
import weakref
from fractions import Fraction
from typing import Callable, Dict, List, Optional, Sequence

from .short_duals import box_bound
from .search_deadline import RaceClock, SearchDeadline
from ..model.integer_form import IntegerProgram, Point, Row
from ..system.errors import SearchEnded, SearchPaused
from .cuts import CertificateWithCuts, ObjectiveCutoff, ProvedCut
from .parallel import ParallelSearch
from .search import MOST_NODES, ExactPoint, ImprovedIncumbent, NodeNotClosed
from .preparing import FIRST_CUT_SECONDS, Preparer
from .strategies import (
    FARTHEST_FORECAST,
    LEAST_ESTIMATE,
    PLAIN,
    TURN_SECONDS,
    ProvedBound,
    Strategy,
    TreeText,
    joint_progress,
)
from .tree import Tree
from .worker_pools import SearchProblem, WorkerPool
from .work_limit import check_work

FIRST_NODES = 100  # of the plain search, before all else
PLAIN_TURN_SECONDS = 0.1  # of a run that has no other strategy
PLAIN_RESERVE_SECONDS = 1.0  # for a bound, in such a run
OTHERS_SHARE = 0.1  # of all seconds, for what is not the first strategy
SHORTER_TIMES = 4.0  # the seconds of the first tree, for a shorter one
SHORTER_SECONDS = 2.0  # more
SHORT_TREE = 40  # nodes of a tree that needs no shorter one
LARGE_TREE = 1000  # nodes of a tree for which a shorter one is looked for in any case
LARGE_TREE_TIMES = 0.25  # the seconds of such a tree, for a shorter one
WORSE_SHARE = 0.1  # of a tree's nodes, for a worse value: from then on it is searched once more

BOUND_DIGITS = 3  # of the gap, in which a bound is told
LOWERINGS = (0.0, 1e-9, 1e-7, 1e-5, 1e-3)  # of a bound in turn, relative, until it is proved
LATTICE_TOLERANCE = 1e-6  # spacings, by which a bound may be beyond a value of the lattice


class Portfolio:
    """Searches trees that no point is better than a value, or that there is no point at all: by
    `race` or `run_plain`, once, and then where there is no tree by `prove_bound`.

    Attributes:
        lattice: Of the objective; None where it has none.
        objective: The value, as cutoff of the searches and as a row.
        clock: Its seconds.
        preparer: Makes what further strategies are to have.
        strategies: That were begun, the plain one first.
        best: The tree with the shortest text so far.
        bound: A tree for a value that is a little worse, where nodes close for that alone.
        on_improved: Is told each better point that a search finds.
        end: Seconds of the race at which a shorter tree is not looked for any more.
        has_no_value: Whether there is to be no point: then there is no gap to be seen.
    """

    def __init__(
        self,
        program: IntegerProgram,
        value: Optional[Fraction],
        exact_point: ExactPoint,
        deadline: SearchDeadline,
        *,
        shortens: bool = False,
        pool: Optional[WorkerPool] = None,
    ) -> None:
        """Nothing is searched yet, and all that there is to prepare is still to be prepared.

        Args:
            value: Of the objective, minimised; None: there is to be no point.
            exact_point: Makes exact points of relaxations' values.
            shortens: After a tree, look for a shorter one.
            pool: Other processes that search; None: this one alone.
        """
        self.program = program
        self.exact_point = exact_point
        self.deadline = deadline
        self.shortens = shortens
        self.pool = pool
        self.lattice = program.objective_lattice()
        self.objective = ObjectiveCutoff(program, value, self.lattice)
        self.clock = RaceClock(deadline)
        self.preparer = Preparer(program, self.objective, self.clock)
        self.best: Optional[TreeText] = None
        self.bound: Optional[ProvedBound] = None
        self.on_improved: Callable[[Point], None] = lambda point: None
        self.strategies: List[Strategy] = []
        self.end = math.inf
        self.has_no_value = value is None

    @property
    def dual_bound(self) -> float:
        """The best that a search has told: no point is better, minimised, as far as CLP's doubles
        go. Minus infinity before there is one."""
        return max((strategy.search.dual_bound for strategy in self.strategies), default=-math.inf)

    def tell_progress(self) -> None:
        """Tells the deadline what all strategies have together, while one of them has its turn.

        The bound is the best of all, in the objective's own sense.
        """
        known = joint_progress(self.strategies, self.deadline.spent())
        if not self.has_no_value:
            known["bound"] = self.program.sign * self.dual_bound
        self.deadline.tell_numbers(**known)

    def reports(self) -> List[str]:
        """How each strategy that had a turn ended its last one, in the order of their beginnings."""
        return [strategy.report for strategy in self.strategies if strategy.report]

    def begin(
        self, name: str, cuts: Sequence[ProvedCut] = (), forms: Sequence[Dict[int, int]] = ()
    ) -> Strategy:
        """Adds a strategy, which has searched nothing yet, below the objective's row and these
        cuts; it branches on these forms, too, which are whole coefficients by column."""
        above: List[Row] = [*self.objective.open_rows(), *(cut.row() for cut in cuts)]
        problem = SearchProblem(self.program, above, forms, self.objective.cutoff)
        search = ParallelSearch(problem, self.exact_point, self.deadline, self.pool)
        this: Portfolio = weakref.proxy(self)  # so that CLP's memory is free with the last use
        search.on_progress = lambda: this.tell_progress()
        self.strategies.append(Strategy(name, cuts, forms, search, self.objective))
        return self.strategies[-1]

    def resume(
        self, strategy: Strategy, budget: float, most_nodes: int = MOST_NODES
    ) -> Optional[ImprovedIncumbent]:
        """Goes on with a strategy, for so many seconds or nodes.

        It adds to the strategy's `spent`, sets its `report`, and ends it where it failed or has a
        tree. A point that is better than the value makes its value that of all, which go on where
        they stand: what is proved holds for it, too. Where nothing is left but nodes that do not
        close, the strategy goes on for a bound that is a little worse.

        Args:
            budget: Seconds; a reserve of the deadline is left however many they are.
            most_nodes: Of its tree in all.

        Returns:
            A point that is found where there is to be none; else None.
        """
        if strategy.has_ended:
            return None
        began, until = self.deadline.spent(), self.clock.until(budget)
        strategy.turn_began = began
        try:
            found = strategy.search.resume(until, most_nodes)
            while isinstance(found, ImprovedIncumbent) and not self.has_no_value:
                self._improve(found)
                found = strategy.search.resume(until, most_nodes)
        except SearchEnded as ended:
            strategy.report = f"{strategy.name}: {ended}"
            is_over = not isinstance(ended, SearchPaused)
            is_lowered = isinstance(ended, NodeNotClosed) and self._lower(strategy)
            strategy.has_ended = is_over and not is_lowered
            return None
        finally:
            strategy.spent += self.deadline.spent() - began
            strategy.turn_began = None
        if isinstance(found, ImprovedIncumbent):
            return found
        self._end_with_tree(strategy, found)
        return None

    def _improve(self, found: ImprovedIncumbent) -> None:
        """Makes the value of a better point that of all strategies and cuts to come."""
        self.objective = ObjectiveCutoff(self.program, found.value, self.lattice)
        self.preparer.cut_loop.set_objective(self.objective)
        for strategy in self.strategies:
            if not strategy.has_ended:
                strategy.worse_nodes = strategy.search.search.nodes
                self._aim(strategy)
        self.on_improved(found.point)

    def _lower(self, strategy: Strategy) -> bool:
        """Has a strategy go on for the next worse bound of LOWERINGS; whether there is one.

        There is none where no value is looked for. On a lattice there is room below the next value
        already.
        """
        has_more = strategy.lowerings + 1 < len(LOWERINGS)
        if self.has_no_value or self.lattice is not None or not has_more:
            return False
        strategy.lowerings += 1
        self._aim(strategy)
        return True

    def _aim(self, strategy: Strategy) -> None:
        """Gives a strategy the objective that it is to prove: the portfolio's, less its lowering,
        in few digits."""
        value, lowering = self.objective.value, LOWERINGS[strategy.lowerings]
        strategy.objective = self.objective
        if lowering and value is not None:
            size = max(Fraction(1), abs(value))
            unit = Fraction(10) ** (
                math.floor(math.log10(size * Fraction(lowering))) - BOUND_DIGITS
            )
            lowered = math.ceil((value - size * Fraction(lowering)) / unit) * unit
            strategy.objective = ObjectiveCutoff(self.program, lowered, self.lattice)
        strategy.search.set_cutoff(strategy.objective.cutoff)

    def race(self) -> Optional[ImprovedIncumbent]:
        """Runs all strategies in turns, until there is a tree or no time.

        The tree is in `best`; without one `reports` say why. The seconds count from its start.

        Returns:
            A point that is found where there is to be none; else None.
        """
        self.clock.restart()
        improved = self.resume(self.begin(PLAIN), self.clock.seconds_left(), FIRST_NODES)
        while improved is None and self._goes_on():
            live = [strategy for strategy in self.strategies if not strategy.has_ended]
            first = self._likely_first(live)
            seconds = self.time_for_others(first)
            preparing = max(seconds, self.preparer.time_for_cuts())
            if self.preparer.is_due(preparing):
                self._prepare(preparing)
            elif first is None:
                break
            else:
                improved = self.take_turn(_next_turn(live, first, seconds), first, seconds)
        self._search_once_more()
        return improved

    def run_plain(self) -> Optional[ImprovedIncumbent]:
        """Runs the plain search alone, in short turns, as a run without a search for proofs has it.

        No progress is told of a bound that might be lost with its time, and on a busy machine some
        seconds are left to prove it. The tree is in `best`.

        Returns:
            A point that is found where there is to be none; else None.
        """
        strategy = self.begin(PLAIN)
        strategy.search.reports_progress = False
        improved = None
        while (
            improved is None
            and self.clock.seconds_left() > 0
            and self.deadline.to_find().left() > PLAIN_RESERVE_SECONDS
            and not strategy.has_ended
        ):
            improved = self.resume(strategy, PLAIN_TURN_SECONDS)
        self._search_once_more()
        return improved

    def _search_once_more(self) -> None:
        """Where much of the shortest tree was proved for worse values, its strategy searches once
        more, in at most as much time; the shorter of both texts stays.

        For a better value a node may close that had to be branched on.
        """
        first = next((s for s in self.strategies if s.tree is self.best is not None), None)
        if first is None or first.worse_nodes < WORSE_SHARE * first.search.search.nodes:
            return
        seconds = min(self.clock.seconds_so_far(), self.clock.seconds_left())
        if seconds > 0 and not self.deadline.is_interrupted:
            again = self.begin(first.name, first.cuts, first.forms)
            again.search.reports_progress = first.search.reports_progress
            self.resume(again, seconds)

    def time_for_others(self, first: Optional[Strategy]) -> float:
        """Seconds that may go now to what is not the first strategy; negative where it had more
        than its share.

        That is OTHERS_SHARE of all seconds that the first seems to need, less what went to others,
        and not more than half of what is left of it. Without a value at least FIRST_CUT_SECONDS,
        less what went to others, are there at once.

        Args:
            first: The strategy that seems to end first; None: there is none, and others have all
                the time.
        """
        if first is None:
            return math.inf
        total = self.clock.seconds_so_far()
        rest = min(first.estimated_seconds(), FARTHEST_FORECAST * total)
        others = total - first.spent
        seconds = min(OTHERS_SHARE * (total + rest) - others, rest / 2)
        return max(seconds, FIRST_CUT_SECONDS - others) if self.has_no_value else seconds

    def take_turn(
        self, strategy: Strategy, first: Strategy, seconds_for_others: float
    ) -> Optional[ImprovedIncumbent]:
        """One strategy goes on, for as long as it had so far, but at most twice its estimate; for
        half as long while cuts close more of the gap each time that some are made. At least
        TURN_SECONDS, not past `end`, and one that is not the first no longer than there is time for
        others.

        The estimates of a strategy that takes longer than it seemed to are corrected. The answer is
        a better point, where one was found.
        """
        estimate = strategy.estimated_seconds()
        spent = strategy.spent / 2 if self.preparer.preparation.is_fruitful() else strategy.spent
        seconds = max(min(spent, 2 * estimate), TURN_SECONDS)
        seconds = min(seconds, self.end - self.clock.seconds_so_far())
        if strategy is not first:
            seconds = min(seconds, seconds_for_others)
        improved = self.resume(strategy, seconds)
        if strategy.tree is None and seconds > estimate:
            strategy.correction *= 2 * seconds / max(estimate, LEAST_ESTIMATE)
        return improved

    def prove_bound(self) -> Optional[ProvedBound]:
        """The best bound of the paused searches that can be proved, the closest dual bound first;
        None where none can.

        Called where there is no tree; it may be called again, for the next. A tree that a strategy
        has for a worse bound comes first.
        Each search is ended at its own bound, rounded by `rounded_bound` and lowered by the
        LOWERINGS in turn until each open node is proved by few nodes. The strategy that proves it
        is taken out of `strategies`; a search that was tried cannot go on.

        Raises:
            TimeOver: The time of exact work is over.
        """
        if self.bound is not None:
            known, self.bound = self.bound, None
            return known
        for strategy in sorted(self.strategies, key=lambda s: -s.search.dual_bound):
            bound = strategy.search.close_and_bound()
            for lowering in LOWERINGS if bound > -math.inf else ():
                check_work()
                value = self.rounded_bound(bound - lowering * max(1.0, abs(bound)))
                if strategy.proved_value is not None:
                    value = min(value, strategy.proved_value)
                strategy.proved_value = value
                objective = ObjectiveCutoff(self.program, value, self.lattice)
                tree = strategy.search.finish_at_cutoff(objective.cutoff)
                if tree is not None:
                    self.strategies.remove(strategy)
                    return ProvedBound(value, self._text(strategy, objective, tree))
        return None

    def rounded_bound(self, bound: float) -> Fraction:
        """A bound of the relaxation as an exact number that is short to write, not above the value.

        Where the objective has a lattice, it is the lattice's next value from there upwards, since
        no point lies between (LATTICE_TOLERANCE of its spacing is doubles' error). Else it is
        rounded downwards to BOUND_DIGITS digits of the gap to the value. It is never below what
        bounds of columns alone say. It proves nothing itself: a tree at it as cutoff does.

        Args:
            bound: Minimised, with the constant; infinite, or not a number: the value is returned.
        """
        value, lattice = self.objective.value, self.lattice
        assert value is not None
        if not bound < math.inf:
            return value
        constant, least = self.program.constant_fraction, box_bound(self.program)
        if lattice is not None:
            steps = (bound - float(constant)) / float(lattice.spacing)
            if least is not None:
                steps = max(steps, float((least - constant) / lattice.spacing))
            found = constant + lattice.spacing * math.ceil(steps - LATTICE_TOLERANCE)
            return min(found, value)
        gap = max(float(value) - bound, 1e-9 * max(1.0, abs(bound)))
        unit = Fraction(10) ** (math.floor(math.log10(gap)) - BOUND_DIGITS)
        found = math.floor((bound - gap * 1e-3) / float(unit)) * unit
        return min(found if least is None else max(found, least), value)

    def _end_with_tree(self, strategy: Strategy, tree: Tree) -> None:
        """Ends a strategy that has its tree: sets its `has_ended`, `tree` and `report`, and `best`
        where no tree before has as short a text; `bound` where it is for a worse value."""
        strategy.has_ended = True
        text = self._text(strategy, strategy.objective, tree)
        strategy.tree = text
        strategy.report = f"{strategy.name}: {text.nodes} nodes, {text.size} bytes"
        if strategy.cuts:
            strategy.report += f", {text.cuts} of {len(strategy.cuts)} rows"
        value = strategy.objective.value
        if strategy.lowerings and value is not None:
            if self.bound is None or value > self.bound.value:
                self.bound = ProvedBound(value, text)
        elif self.best is None or text.size < self.best.size:
            self.best = text

    def _text(self, strategy: Strategy, objective: ObjectiveCutoff, tree: Tree) -> TreeText:
        """The text of a strategy's tree, with the cuts that it needs. The objective is that which
        the tree is for: the portfolio's own, or that of a bound."""
        searched = strategy.search.search.program
        made = CertificateWithCuts(self.program, searched, objective, strategy.cuts, tree)
        text = "".join(line + "\n" for line in made.lines())
        return TreeText(text, made.nodes(), len(made.kept), strategy.name)

    def _goes_on(self) -> bool:
        """Whether there is anything more to be had, and time.

        After a tree it goes on only where a shorter one is wanted and this one has more than
        SHORT_TREE nodes, or where it has more than LARGE_TREE; then it sets `end` to some times the
        seconds so far. After one for a worse
        bound it does not: other strategies meet the same nodes.
        """
        if self.bound is not None:
            return False
        if self.best is not None:
            if self.best.nodes <= (SHORT_TREE if self.shortens else LARGE_TREE):
                return False
            times, more = LARGE_TREE_TIMES, 0.0
            if self.shortens:
                times, more = SHORTER_TIMES, SHORTER_SECONDS
            self.end = min(self.end, (1 + times) * self.clock.seconds_so_far() + more)
        seconds = min(self.clock.seconds_left(), self.end - self.clock.seconds_so_far())
        return seconds > 0 and not self.deadline.is_interrupted

    def _likely_first(self, live: Sequence[Strategy]) -> Optional[Strategy]:
        """The one of these that seems to end first; after a tree only such as seem to end in time,
        or had no turn yet. None where there is none."""
        candidates = [
            strategy
            for strategy in live
            if self.end == math.inf
            or not strategy.spent
            or strategy.estimated_seconds() < self.end - self.clock.seconds_so_far()
        ]
        return min(candidates, key=lambda s: s.estimated_seconds()) if candidates else None

    def _prepare(self, budget: float) -> None:
        """Makes some seconds of what a further strategy is to have, and begins it where it is done
        and worth it.

        Args:
            budget: Seconds that there are for it.
        """
        made = self.preparer.prepare(self.strategies, budget)
        if made is not None:
            strategy = self.begin(made.name, made.cuts, made.forms)
            strategy.first_estimate = made.first_estimate


def _next_turn(live: Sequence[Strategy], first: Strategy, budget: float) -> Strategy:
    """The first strategy, or where the budget (`Portfolio.time_for_others`) is enough for a turn of
    another of `live`, the one that had least."""
    if budget < TURN_SECONDS:
        return first
    others = [strategy for strategy in live if strategy is not first]
    return min(others, key=lambda strategy: strategy.spent, default=first)
