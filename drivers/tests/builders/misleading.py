"""Small models that mislead solvers in doubles, each with what is true of it.

The truth is known by how a model is made, or by an exact method of its own: all points of a small
box of integer columns, each with all vertices of what the continuous ones leave, in fractions.
"""

from __future__ import annotations

import itertools
from dataclasses import dataclass
from fractions import Fraction as F
from functools import cached_property
from typing import Iterator, List, Mapping, Optional, Sequence, Tuple, Union

from builders import nl_text

Number = Union[int, str, F]
Column = Tuple[str, Optional[Number], Optional[Number]]  # C or I, lower and upper bound
Row = Tuple[Optional[Number], Optional[Number], Mapping[int, Number]]
HalfSpace = Tuple[Sequence[F], F]  # the sum of coefficients times columns is at most this

TO_BE_FOUND = "to be found"
ROUNDING = F(1, 10**12)  # share of the largest term of a row that doubles may leave
CLOSE = F(1, 10**9)  # share of the largest term of the objective


@dataclass
class Misleading:
    """A model, continuous columns first.

    Attributes:
        sense: min or max.
        known: the best value, None where there is no point, TO_BE_FOUND where enumeration finds it.
        is_unbounded: there is no best value.
    """

    name: str
    columns: Sequence[Column]
    rows: Sequence[Row]
    sense: str
    costs: Mapping[int, Number]
    known: Union[F, str, None] = TO_BE_FOUND
    is_unbounded: bool = False

    @cached_property
    def best(self) -> Optional[F]:
        """The best value; None where there is no point."""
        if not isinstance(self.known, str):
            return self.known
        return _best_by_enumeration(self.columns, self.rows, self.sense, self.costs)

    def text(self) -> bytes:
        """The .nl file."""
        columns = [nl_text.Column(kind, _text(lo), _text(hi)) for kind, lo, hi in self.columns]
        rows = [nl_text.Row(_text(lo), _text(hi), _texts(terms)) for lo, hi, terms in self.rows]
        objective = nl_text.Objective(self.sense, 0, _texts(self.costs))
        return nl_text.nl_text(columns, rows, [objective])

    def is_linear(self) -> bool:
        """Whether no column is integer."""
        return all(kind == "C" for kind, _, _ in self.columns)

    def is_exact(self, point: Sequence[F]) -> bool:
        """Whether the point is optimal, exactly."""
        return not self.fault(point, F(0), F(0))

    def fault(self, point: Sequence[F], rounding: F = ROUNDING, close: F = CLOSE) -> str:
        """What is wrong with a point that is told to be optimal; nothing where it may be.

        Args:
            point: a value by column.
            rounding: the share of its largest term by which a row may be missed.
            close: the share of its largest term by which the objective may be.
        """
        if self.best is None or self.is_unbounded:
            return "there is no point" if self.best is None else "there is no best point"
        for j, ((kind, lo, hi), value) in enumerate(zip(self.columns, point)):
            if kind == "I" and value.denominator != 1:
                return f"x{j} is not whole"
            if _misses(lo, hi, [value], rounding):
                return f"x{j} is beyond a bound"
        for i, (low, high, terms) in enumerate(self.rows):
            if _misses(low, high, [F(a) * point[j] for j, a in terms.items()], rounding):
                return f"row {i} is broken"
        parts = [F(c) * point[j] for j, c in self.costs.items()]
        value = sum(parts, F(0))
        size = max([abs(self.best), *(abs(part) for part in parts)])
        if abs(value - self.best) > close * size:
            return f"its objective is {float(value):.12g}, not {float(self.best):.12g}"
        return ""


def _text(number: Optional[Number]) -> Optional[nl_text.Number]:
    return str(number) if isinstance(number, F) else number


def _texts(terms: Mapping[int, Number]) -> Mapping[int, nl_text.Number]:
    return {j: str(a) if isinstance(a, F) else a for j, a in terms.items()}


def _misses(low: Optional[Number], high: Optional[Number], parts: Sequence[F], rounding: F) -> bool:
    """Whether a sum misses its sides by more than that share of its largest part, or of a side."""
    lower = None if low is None else F(low)
    upper = None if high is None else F(high)
    activity = sum(parts, F(0))
    size = max(abs(part) for part in [*parts, lower or F(0), upper or F(0)])
    if lower is not None and lower - activity > rounding * size:
        return True
    return upper is not None and activity - upper > rounding * size


def _best_by_enumeration(
    columns: Sequence[Column], rows: Sequence[Row], sense: str, costs: Mapping[int, Number]
) -> Optional[F]:
    """Over all points of the integer columns, each with the vertices of the continuous ones."""
    free = sum(kind == "C" for kind, _, _ in columns)
    boxes = [_whole_values(lo, hi) for _, lo, hi in columns[free:]]
    cost = [F(costs.get(j, 0)) for j in range(len(columns))]
    values: List[F] = []
    for whole in itertools.product(*boxes):
        halves = list(_half_spaces(columns, rows, free, whole))
        start = sum((c * v for c, v in zip(cost[free:], whole)), F(0))
        for vertex in _vertices(free, halves):
            values.append(start + sum((c * v for c, v in zip(cost, vertex)), F(0)))
    return (max if sense == "max" else min)(values, default=None)


def _whole_values(low: Optional[Number], high: Optional[Number]) -> Sequence[int]:
    assert low is not None and high is not None
    return range(-(-F(low) // 1), F(high) // 1 + 1)


def _half_spaces(
    columns: Sequence[Column], rows: Sequence[Row], free: int, whole: Sequence[int]
) -> Iterator[HalfSpace]:
    """What is left of rows and bounds for the first `free` columns."""
    for low, high, terms in rows:
        rest = sum((F(a) * whole[j - free] for j, a in terms.items() if j >= free), F(0))
        part = [F(terms.get(j, 0)) for j in range(free)]
        if high is not None:
            yield part, F(high) - rest
        if low is not None:
            yield [-a for a in part], rest - F(low)
    for j in range(free):
        lower, upper = columns[j][1:]
        assert lower is not None and upper is not None
        part = [F(int(i == j)) for i in range(free)]
        yield part, F(upper)
        yield [-a for a in part], -F(lower)


def _vertices(free: int, halves: Sequence[HalfSpace]) -> Iterator[List[F]]:
    """Of what lies in all half spaces."""
    for chosen in itertools.combinations(halves, free):
        point = crossing(chosen)
        if point is not None and all(
            sum((a * v for a, v in zip(part, point)), F(0)) <= side for part, side in halves
        ):
            yield point


def crossing(lines: Sequence[HalfSpace]) -> Optional[List[F]]:
    """The one point on as many hyperplanes as there are columns; None where there is no one."""
    rows = [[*part, side] for part, side in lines]
    for k in range(len(rows)):
        at = next((i for i in range(k, len(rows)) if rows[i][k]), None)
        if at is None:
            return None
        rows[k], rows[at] = rows[at], rows[k]
        pivot = rows[k] = [a / rows[k][k] for a in rows[k]]
        rows = [
            row if i == k else [a - row[k] * b for a, b in zip(row, pivot)]
            for i, row in enumerate(rows)
        ]
    return [row[-1] for row in rows]
