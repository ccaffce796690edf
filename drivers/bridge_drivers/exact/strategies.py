"""The strategies of a portfolio as values: a search with what it took, and what is made for others.

`portfolio` runs them in turns, `preparing` makes what they begin with. Seconds are those of the deadline's clock.
"""

from __future__ import annotations

import math
from dataclasses import dataclass
from fractions import Fraction
from typing import Dict, FrozenSet, Iterator, List, Mapping, NamedTuple, Optional, Sequence

from .cuts import CutKind, ObjectiveCutoff, ProvedCut
from .parallel import ParallelSearch

# names of strategies, as they are told
PLAIN = "plain"
MIR = "lemma"
CLIQUE = "clique"
THIN = "thin"
KINDS_OF_CUTS: Mapping[str, FrozenSet[CutKind]] = {
    MIR: frozenset({CutKind.MIR}),
    CLIQUE: frozenset({CutKind.MIR, CutKind.CLIQUE}),
}

LEAST_CLOSED_SHARE = 0.01  # of the gap, for cuts to be worth a strategy
LEAST_ATTEMPT_SHARE = 0.03  # of the gap, that an attempt to make cuts is to close
MOST_VAIN_ATTEMPTS = 10  # to make cuts that close more
LEAST_ESTIMATE = 1e-9  # seconds
TURN_SECONDS = 0.25  # that a turn has at least
FARTHEST_FORECAST = 2.0  # times the seconds so far: later ends of the first strategy count as this


class TreeText(NamedTuple):
    """The text of a tree, with the cuts that it uses: what stands in a certificate between its head
    and its end.

    Attributes:
        text: Lines, each with its end; ASCII.
        nodes: In the text, those of the cuts' proofs too.
        cuts: In the text: only those that the tree needs.
        strategy: The name of the one that found it.
    """

    text: str
    nodes: int
    cuts: int
    strategy: str

    @property
    def size(self) -> int:
        """In bytes; the shortest tree is the one with the least."""
        return len(self.text)

    def lines(self) -> Iterator[str]:
        """The text's lines, without their ends."""
        start = 0
        while start < len(self.text):
            end = self.text.index("\n", start)
            yield self.text[start:end]
            start = end + 1


class ProvedBound(NamedTuple):
    """A value that no point is better than, minimised, with the tree that proves it."""

    value: Fraction
    tree: TreeText


@dataclass
class Strategy:
    """A search that can go on, with what it took so far.

    Attributes:
        name: As it is told.
        cuts: That the search stands below.
        forms: That it branches on beside columns.
        search: Paused at the end of each turn.
        objective: What its tree is to show: the portfolio's value, or a worse one.
        spent: Seconds so far, of the turns that have ended.
        turn_began: The second of the deadline at which the turn began that it has now; None where
            another one has it.
        first_estimate: Seconds that it seems to take in all, until some of its tree is proved.
        correction: A factor above 1 where its estimates were too low.
        report: How its last turn ended, behind its name: why it was paused or failed, or the size
            of its tree; empty before.
        has_ended: Whether it cannot go on: it has its tree, or it failed.
        tree: The text, where it has one.
        lowerings: How often its objective was lowered, since nodes did not close.
        worse_nodes: Of its tree, when the last better point was found: they are for worse values.
        proved_value: The value, minimised, at which a bound was last tried: leaves that are proved
            since then hold only up to it, so that no later one is above it. None before.
    """

    name: str
    cuts: Sequence[ProvedCut]
    forms: Sequence[Dict[int, int]]
    search: ParallelSearch
    objective: ObjectiveCutoff
    spent: float = 0.0
    turn_began: Optional[float] = None
    first_estimate: float = math.inf
    correction: float = 1.0
    report: str = ""
    has_ended: bool = False
    tree: Optional[TreeText] = None
    lowerings: int = 0
    worse_nodes: int = 0
    proved_value: Optional[Fraction] = None

    def estimated_seconds(self) -> float:
        """The seconds that this strategy still needs, for the portfolio's choice of the next turn.

        By the share of the tree that is proved so far; where none is, all of `first_estimate`,
        which may be infinite. At least LEAST_ESTIMATE, times `correction`, which is more than 1
        where earlier estimates were too low.
        """
        share = self.search.proved_share()
        rest = self.spent * (1 - share) / share if share else self.first_estimate
        return max(rest, LEAST_ESTIMATE) * self.correction

    def estimated_nodes(self) -> float:
        """How many nodes its whole tree seems to have, by the share that is proved; at least 1."""
        share = self.search.proved_share()
        return max(self.search.search.nodes / share if share else 0.0, 1.0)


def joint_progress(strategies: Sequence[Strategy], now: float) -> Dict[str, float]:
    """What strategies have together, by the names of `SearchProgress`, for `Portfolio`.

    So no number goes back when the turn is another's: nodes are those of all, and the share of the
    tree that is closed, with its open nodes and the seconds that it forecasts, are those of the
    strategy that is furthest. There is no forecast where nothing is closed.

    Args:
        strategies: At least one.
        now: The second of the deadline.
    """
    furthest = max(strategies, key=lambda strategy: strategy.search.proved_share())
    share = furthest.search.proved_share()
    known = {
        "nodes": float(sum(strategy.search.search.nodes for strategy in strategies)),
        "open": float(furthest.search.open_count()),
        "closed": share,
    }
    if share > 0:
        turn = 0.0 if furthest.turn_began is None else now - furthest.turn_began
        known["left"] = (furthest.spent + turn) * (1 - share) / share
    return known


class Preparation:
    """What is made for further strategies, bit by bit: cuts, and forms of a reduced lattice.

    Attributes:
        names: Of strategies that are still to be prepared, in order.
        cuts: Made so far for the first of them; those that were there before included.
        closed_share: Of the gap between root bound and value, by these.
        vain_attempts: How many in a row closed no more.
        seconds: That all of it took so far.
    """

    def __init__(self, names: Sequence[str]) -> None:
        """Nothing is made yet of these strategies, of which the first is prepared first."""
        self.names = list(names)
        self.seconds = 0.0
        self.begin_next()

    def begin_next(self) -> None:
        """Begins with what is now the first of the names: of that nothing is made yet."""
        self.cuts: List[ProvedCut] = []
        self.closed_share = 0.0
        self.vain_attempts = 0

    def add(self, cuts: List[ProvedCut], closed_share: float) -> None:
        """Takes the cuts that some seconds made; they replace those before. It was in vain where
        they close not even LEAST_ATTEMPT_SHARE of the gap more."""
        is_vain = closed_share < self.closed_share + LEAST_ATTEMPT_SHARE
        self.cuts = cuts
        self.vain_attempts = self.vain_attempts + 1 if is_vain else 0
        self.closed_share = closed_share

    def is_fruitful(self) -> bool:
        """Whether the last attempt closed more of the gap."""
        return bool(self.cuts) and not self.vain_attempts

    def is_in_vain(self) -> bool:
        """Whether more than MOST_VAIN_ATTEMPTS in a row were in vain; of MIR cuts alone one is
        enough, since cliques come next."""
        return self.vain_attempts > (MOST_VAIN_ATTEMPTS if self.names[0] == CLIQUE else 0)
