"""Which column a node branches on: pseudocosts, and strong branching where they are unreliable.

The pseudocost of a column in one direction is the mean gain of the dual bound per unit that the
column was moved by branching on it. A column that was seldom branched on is tried first: a few
iterations of the dual simplex method in each branch show what it gains (reliability branching,
Achterberg 2007, sections 5.3, 5.4 and 5.7). `search` asks `PseudocostBranching.choose` at each node
whose relaxation is not integer, and lets `Pseudocosts` learn from each branch that it solves.
"""

from __future__ import annotations

import math
import time
from typing import Dict, List, Mapping, NamedTuple, Optional, Sequence, Tuple

from .clp import LpStatus
from .node import DOWN, UP, Branch, Node

STRONG_CANDIDATES = 16  # columns that are tried at a node
STRONG_CANDIDATES_LATE = 2  # the same where trying took half of the time
STRONG_ITERATIONS = 60  # of the dual simplex method, in each branch
RELIABLE = 8  # gains in both directions from which on a column is not tried
UNHURRIED_SECONDS = 1.0  # that trying may take whatever its share of the time is
STRONG_SHARE = 0.5  # of the time, from which on trying is late
LEAST_DISTANCE = 1e-6  # by which a column is moved, for a gain to be learnt
LEAST_GAP = 1e-9  # of the cutoff beyond the bound
UNKNOWN_PSEUDOCOST = 1.0  # where nothing is learnt
LEAST_GAIN_SHARE = 1e-6  # of the gap: what a direction without gain counts as in a score
LARGEST_GAIN = 1e6  # that a score counts where there is no cutoff


class GainSum(NamedTuple):
    """Gains of the dual bound by branching on one column in one direction.

    Attributes:
        total: Their sum, each in units of the objective per unit that the column was moved.
        times: How many they are.
    """

    total: float
    times: int


NO_GAIN = GainSum(0.0, 0)


class Pseudocosts:
    """What branching gained so far.

    Attributes:
        gains: By direction, DOWN and UP, then by column; a column without gains is not named.
            Integer forms count as columns behind the others.
    """

    def __init__(self, gains: Optional[Tuple[Dict[int, GainSum], Dict[int, GainSum]]] = None):
        """
        Args:
            gains: As the attribute, which it becomes without a copy; None: nothing is known.
        """
        self.gains: Tuple[Dict[int, GainSum], Dict[int, GainSum]] = gains or ({}, {})

    def copy(self) -> Pseudocosts:
        """The same gains; what is learnt by one of both the other does not know."""
        return Pseudocosts((dict(self.gains[DOWN]), dict(self.gains[UP])))

    def less(self, before: Pseudocosts) -> Pseudocosts:
        """What was learnt since these were a copy of `before`: gains that are not in that."""
        learnt = Pseudocosts()
        for gains, known, found in zip(self.gains, before.gains, learnt.gains):
            for column, (total, times) in gains.items():
                old = known.get(column, NO_GAIN)
                if times > old.times:
                    found[column] = GainSum(total - old.total, times - old.times)
        return learnt

    def add(self, learnt: Pseudocosts) -> None:
        """Adds what another search has learnt."""
        for gains, found in zip(self.gains, learnt.gains):
            for column, (total, times) in found.items():
                old = gains.get(column, NO_GAIN)
                gains[column] = GainSum(old.total + total, old.times + times)

    def learn(self, column: int, direction: int, gain: float, distance: float) -> None:
        """Adds what the dual bound gained in a branch, per unit of `distance`.

        Nothing is learnt where the column was moved by LEAST_DISTANCE or less.

        Args:
            direction: DOWN or UP.
            gain: In the units of the objective; below 0 it counts as 0.
            distance: By which the branch moved the column from its value in the relaxation.
        """
        if distance > LEAST_DISTANCE:
            total, times = self.gains[direction].get(column, NO_GAIN)
            self.gains[direction][column] = GainSum(total + max(0.0, gain) / distance, times + 1)

    def mean(self, direction: int) -> float:
        """What stands for the pseudocost of a column of which nothing is known in that direction.

        That is the mean of the pseudocosts that are known there, where each column counts once;
        UNKNOWN_PSEUDOCOST where none is.
        """
        means = [gain.total / gain.times for gain in self.gains[direction].values()]
        return sum(means) / len(means) if means else UNKNOWN_PSEUDOCOST

    def least_count(self, column: int) -> int:
        """How many gains are known of a column, in the direction of which fewer are."""
        return min(gains[column].times if column in gains else 0 for gains in self.gains)


class Candidate(NamedTuple):
    """A column to branch on. They are compared by their scores, then by `tie`, and so on.

    Attributes:
        score: The `product_score` of both gains.
        tie: The distance of its value from an integer, times one more than the count of its
            entries; 0 after strong branching.
        column: Or a form, behind the columns.
        down: What the dual bound gains downwards, by pseudocosts or strong branching, in units of
            the objective; infinite where strong branching found the branch infeasible.
        up: The same upwards.
    """

    score: float
    tie: float
    column: int
    down: float
    up: float

    def better_direction(self) -> int:
        """DOWN or UP: the one that gains more, DOWN where both are equal. It is searched first."""
        return DOWN if self.down >= self.up else UP


def product_score(down: float, up: float, gap: float) -> float:
    """How good a branching is: the product of both gains, so that both branches are to gain.

    `max(down, least) * max(up, least)` (Achterberg 2007, chapter 5), where a gain counts at most as
    the gap, which is enough to fathom a branch, and `least` is LEAST_GAIN_SHARE of the gap.

    Args:
        down: What the dual bound gains in the lower branch, in units of the objective.
        up: The same in the upper branch.
        gap: Of the cutoff beyond the node's bound; infinite where there is no cutoff: then gains
            count at most as LARGEST_GAIN, and at least as LEAST_GAIN_SHARE.
    """
    largest = gap if gap < math.inf else LARGEST_GAIN
    least = largest * LEAST_GAIN_SHARE if gap < math.inf else LEAST_GAIN_SHARE
    return max(min(down, largest), least) * max(min(up, largest), least)


class Relaxed(NamedTuple):
    """A node's relaxation, as branching sees it.

    Attributes:
        values: By column, and behind the columns by integer form.
        bound: Its dual bound, minimised, with the objective's constant.
        gap: Of the cutoff beyond that bound, at least LEAST_GAP; infinite where there is no cutoff.
    """

    values: Mapping[int, float]
    bound: float
    gap: float


class PseudocostBranching:
    """Chooses the columns of one search.

    Args:
        strong_candidates: Columns that are tried by strong branching at one node at most.
        pseudocosts: What is known already; it is copied.

    Attributes:
        strong_seconds: Of the processor, that choosing took so far.
        began: When this was made, by the processor's clock.
    """

    def __init__(self, strong_candidates: int, pseudocosts: Optional[Pseudocosts] = None) -> None:
        self.strong_candidates = strong_candidates
        self.pseudocosts = Pseudocosts() if pseudocosts is None else pseudocosts.copy()
        self.strong_seconds = 0.0
        self.began = time.process_time()

    def choose(self, node: Node, relaxed: Relaxed, fractional: Sequence[int]) -> Tuple[int, int]:
        """The column of `fractional` to branch on, and the direction that is searched first.

        Columns with few gains are tried by strong branching. Once choosing has taken more than
        UNHURRIED_SECONDS and STRONG_SHARE of the seconds since this was made, only
        STRONG_CANDIDATES_LATE are. Sets `strong_seconds` and what `pseudocosts` learns; the node is
        as before.

        Args:
            fractional: Columns, and forms behind them, whose values are not integer: at least one.
        """
        now = time.process_time()
        is_late = self.strong_seconds > UNHURRIED_SECONDS + STRONG_SHARE * (now - self.began)
        tries = STRONG_CANDIDATES_LATE if is_late else self.strong_candidates
        best = self._best(node, relaxed, self.ranked(node, relaxed, fractional), tries)
        self.strong_seconds += time.process_time() - now
        return best.column, best.better_direction()

    def ranked(self, node: Node, relaxed: Relaxed, fractional: Sequence[int]) -> List[Candidate]:
        """The columns of `fractional` with the gains that pseudocosts say, the best first.

        A gain is the pseudocost times the distance to the next integer. Of equal scores those come
        first that are farther from an integer and have more entries.
        """
        gains_down, gains_up = self.pseudocosts.gains
        unknown_down = GainSum(self.pseudocosts.mean(DOWN), 1)
        unknown_up = GainSum(self.pseudocosts.mean(UP), 1)
        found = []
        for column in fractional:
            value = relaxed.values[column]
            fraction = value - math.floor(value)
            gain_down = gains_down.get(column, unknown_down)
            gain_up = gains_up.get(column, unknown_up)
            down = gain_down.total / gain_down.times * fraction
            up = gain_up.total / gain_up.times * (1 - fraction)
            tie = min(fraction, 1 - fraction) * (1 + len(node.entries(column)))
            found.append(Candidate(product_score(down, up, relaxed.gap), tie, column, down, up))
        return sorted(found, reverse=True)

    def _best(
        self, node: Node, relaxed: Relaxed, ranked: Sequence[Candidate], tries: int
    ) -> Candidate:
        """The candidate of the greatest score, after strong branching on unreliable ones.

        A column is unreliable where few gains of it are known; where there is no cutoff all are.
        Unreliable columns beyond those that may be tried are left out. A column both of whose
        branches reach the cutoff is taken at once.

        Args:
            ranked: As `ranked` has them; where all are left out the first one is taken.
            tries: How many columns may be tried by strong branching.
        """
        best: Optional[Candidate] = None
        for candidate in ranked:
            if not self._is_reliable(candidate.column, relaxed.gap):
                if not tries:
                    continue
                tries -= 1
                candidate = self._strong_branched(node, relaxed, candidate.column)
                if min(candidate.down, candidate.up) >= relaxed.gap:
                    return candidate
            if best is None or candidate.score > best.score:
                best = candidate
        return best or ranked[0]

    def _is_reliable(self, column: int, gap: float) -> bool:
        """Whether pseudocosts will do: RELIABLE gains in each direction, and there is a cutoff.

        Args:
            gap: Infinite where there is no cutoff.
        """
        return gap < math.inf and self.pseudocosts.least_count(column) >= RELIABLE

    def _strong_branched(self, node: Node, relaxed: Relaxed, column: int) -> Candidate:
        """The column with the gains that strong branching finds, which are learnt too."""
        down, up = self.strong_branch(node, relaxed, column)
        return Candidate(product_score(down, up, relaxed.gap), 0.0, column, down, up)

    def strong_branch(self, node: Node, relaxed: Relaxed, column: int) -> Tuple[float, float]:
        """What each branch on the column gains by a few iterations of the dual simplex method.

        Pseudocosts learn the finite gains. The node and the basis of its relaxation are as before.

        Returns:
            The gains downwards and upwards in units of the objective, at least 0; infinite where
            CLP finds the branch infeasible, which is not proved here.
        """
        basis = node.clp.saved_basis()
        value = relaxed.values[column]
        gains = [math.inf, math.inf]
        for direction in (DOWN, UP):
            branch = Branch(column, math.floor(value), direction, value, relaxed.bound, basis)
            with node.trying(branch):
                if node.clp.solve(STRONG_ITERATIONS) is not LpStatus.INFEASIBLE:
                    gains[direction] = max(0.0, node.relaxation_bound() - relaxed.bound)
                    self.pseudocosts.learn(column, direction, gains[direction], branch.distance())
            node.clp.restore_basis(basis)
        return gains[DOWN], gains[UP]
