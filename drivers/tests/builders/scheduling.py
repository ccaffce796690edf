"""One machine whose order binary columns decide by a big M, with the optimum by all orders.

The same size, power and seed make the same text. What a solver's tolerance leaves of a binary column
is times M some units of time, so that its relaxation says less the greater M is.
"""

from __future__ import annotations

import itertools
import random
from fractions import Fraction
from typing import Iterator, List, NamedTuple, Sequence

from builders.nl_text import BINARY, Column, Objective, Row, nl_text, real

HORIZON = 1000  # the last start of a job, where there is one
JOBS = (4, 5, 6, 7, 8)
POWERS = (3, 5, 6, 7, 8, 9)


class OrderModel(NamedTuple):
    """A model with what is true of it.

    Attributes:
        columns: The starts of jobs, and behind them a binary column by pair: 0 where the first of
            both is first.
        rows: Two by pair.
        weights: Of the starts; their sum is minimised.
        optimum: The least sum of weights times starts, exactly.
    """

    columns: Sequence[Column]
    rows: Sequence[Row]
    weights: Sequence[int]
    optimum: Fraction

    @property
    def text(self) -> bytes:
        """The .nl file."""
        costs = Objective("min", 0, dict(enumerate(self.weights)))
        return nl_text(self.columns, self.rows, [costs])


class Jobs(NamedTuple):
    """What is to be done; times are in tenths."""

    times: Sequence[int]
    releases: Sequence[int]
    weights: Sequence[int]


def order_model(jobs: int, power: int, seed: str = "reach", *, has_horizon: bool) -> OrderModel:
    """Jobs with releases and weights on one machine, each pair in the one order or the other.

    Args:
        jobs: How many; all their orders are gone through for the optimum.
        power: M is ten to this power.
        seed: Of times, releases and weights.
        has_horizon: Whether starts have an upper bound, which makes an M that is far above it
            needless.
    """
    drawn = _drawn(jobs, random.Random(f"{seed} {jobs} {power}"))
    columns: List[Column] = [
        real(_tenths(at), HORIZON if has_horizon else None) for at in drawn.releases
    ]
    rows: List[Row] = []
    most = 10**power
    for i, k in itertools.combinations(range(jobs), 2):
        first = len(columns)
        columns.append(BINARY)
        upper = _tenths(10 * most - drawn.times[i])
        rows.append(Row(None, upper, {i: 1, k: -1, first: most}))
        rows.append(Row(None, _tenths(-drawn.times[k]), {k: 1, i: -1, first: -most}))
    return OrderModel(columns, rows, drawn.weights, Fraction(_least_sum(drawn), 10))


def order_models(seed: str = "reach") -> Iterator[tuple[str, OrderModel]]:
    """By name, those of all sizes and powers; every second power has no horizon (`u`)."""
    for jobs in JOBS:
        for place, power in enumerate(POWERS):
            has_horizon = place % 2 == 0
            name = f"ord{jobs}_{power}{'' if has_horizon else 'u'}"
            yield name, order_model(jobs, power, seed, has_horizon=has_horizon)


def _drawn(jobs: int, rnd: random.Random) -> Jobs:
    times = [rnd.randint(1, 60) for _ in range(jobs)]
    releases = [rnd.randint(0, 90) for _ in range(jobs)]
    return Jobs(times, releases, [rnd.randint(1, 9) for _ in range(jobs)])


def _least_sum(jobs: Jobs) -> int:
    """The least weighted sum of starts, in tenths, of all orders without idle time that is not
    asked for: in a given order each job starts as early as it may."""
    orders = itertools.permutations(range(len(jobs.times)))
    return min(_sum_in(order, jobs) for order in orders)


def _sum_in(order: Sequence[int], jobs: Jobs) -> int:
    end = total = 0
    for job in order:
        start = max(end, jobs.releases[job])
        total += jobs.weights[job] * start
        end = start + jobs.times[job]
    return total


def _tenths(value: int) -> str:
    """The decimal of so many tenths."""
    sign, size = "-" if value < 0 else "", abs(value)
    return f"{sign}{size // 10}.{size % 10}" if size % 10 else f"{sign}{size // 10}"
