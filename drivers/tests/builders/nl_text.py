"""Text .nl files from Python values."""

from __future__ import annotations

import collections
import itertools
from typing import List, Mapping, NamedTuple, Optional, Sequence, Union

Number = Union[int, str]  # a text stands in the file as it is, such as "0.1" or "1e30"
Bound = Optional[Number]  # None: there is none


class Column(NamedTuple):
    """A column; `kind` is C (continuous), B (binary) or I (integer)."""

    kind: str
    lower: Bound
    upper: Bound


class Row(NamedTuple):
    """A row, with its coefficients by column."""

    lower: Bound
    upper: Bound
    coefficients: Mapping[int, Number]


class Objective(NamedTuple):
    """An objective; `sense` is min or max, the constant a number or the lines of an expression."""

    sense: str
    constant: Union[Number, Sequence[str]]
    coefficients: Mapping[int, Number]


BINARY = Column("B", 0, 1)


def real(lower: Bound = 0, upper: Bound = None) -> Column:
    """A continuous column."""
    return Column("C", lower, upper)


def whole(lower: Bound = 0, upper: Bound = None) -> Column:
    """An integer column."""
    return Column("I", lower, upper)


def row(lower: Bound, upper: Bound, *coefficients: Number) -> Row:
    """A row whose coefficients are those of the first columns."""
    return Row(lower, upper, dict(enumerate(coefficients)))


def least(*costs: Number, constant: Union[Number, Sequence[str]] = 0) -> Objective:
    """An objective that is minimised, with the costs of the first columns."""
    return Objective("min", constant, dict(enumerate(costs)))


def most(*costs: Number, constant: Union[Number, Sequence[str]] = 0) -> Objective:
    """An objective that is maximised, with the costs of the first columns."""
    return Objective("max", constant, dict(enumerate(costs)))


def nl_text(
    columns: Sequence[Column],
    rows: Sequence[Row] = (),
    objectives: Sequence[Objective] = (),
    expressions: Optional[Mapping[int, Sequence[str]]] = None,
    logical_constraints: int = 0,
) -> bytes:
    """A text .nl file.

    Args:
        columns: continuous ones first, then binary, then integer ones, as the format wants them.
        rows: the linear parts of the constraints.
        objectives: in the order of the file.
        expressions: by row, the lines of an expression that stands beside its linear part.
        logical_constraints: how many the header announces; their texts are not written.
    """
    trees = expressions or {}
    lines = ["g3 1 1 0", *_header(columns, rows, objectives, logical_constraints)]
    for i in range(len(rows)):
        lines += [f"C{i}", *trees.get(i, ["n0"])]
    for i, objective in enumerate(objectives):
        lines += [f"O{i} {int(objective.sense == 'max')}", *_constant_lines(objective)]
    if rows:
        lines += ["r", *(_bounds_line(item.lower, item.upper) for item in rows)]
    lines += ["b", *(_bounds_line(item.lower, item.upper) for item in columns)]
    if columns:
        found = collections.Counter(j for item in rows for j in item.coefficients)
        sums = itertools.accumulate(found[j] for j in range(len(columns) - 1))
        lines += [f"k{len(columns) - 1}", *map(str, sums)]
    for i, item in enumerate(rows):
        lines += _linear_part(f"J{i}", item.coefficients)
    for i, objective in enumerate(objectives):
        lines += _linear_part(f"G{i}", objective.coefficients)
    return ("\n".join(lines) + "\n").encode()


def _header(
    columns: Sequence[Column],
    rows: Sequence[Row],
    objectives: Sequence[Objective],
    logical_constraints: int,
) -> List[str]:
    """Lines 2 to 10 of the file."""
    kinds = [column.kind for column in columns]
    ranges = sum(
        item.lower is not None and item.upper is not None and item.lower != item.upper
        for item in rows
    )
    equations = sum(item.lower is not None and item.lower == item.upper for item in rows)
    entries = sum(len(item.coefficients) for item in rows)
    costs = sum(len(item.coefficients) for item in objectives)
    logical = f" {logical_constraints}" if logical_constraints else ""
    return [
        f" {len(kinds)} {len(rows)} {len(objectives)} {ranges} {equations}{logical}",
        " 0 0",
        " 0 0",
        " 0 0 0",
        " 0 0 0 1",
        f" {kinds.count('B')} {kinds.count('I')} 0 0 0",
        f" {entries} {costs}",
        " 0 0",
        " 0 0 0 0 0",
    ]


def _constant_lines(objective: Objective) -> List[str]:
    if isinstance(objective.constant, (int, str)):
        return [f"n{objective.constant}"]
    return list(objective.constant)


def _bounds_line(lower: Bound, upper: Bound) -> str:
    """A line of the segments r and b."""
    if lower is None and upper is None:
        return "3"
    if lower is None:
        return f"1 {upper}"
    if upper is None:
        return f"2 {lower}"
    return f"4 {lower}" if lower == upper else f"0 {lower} {upper}"


def _linear_part(heading: str, coefficients: Mapping[int, Number]) -> List[str]:
    if not coefficients:
        return []
    pairs = [f"{j} {a}" for j, a in sorted(coefficients.items())]
    return [f"{heading} {len(pairs)}", *pairs]
