"""Programs as Python values, for all of these tests."""

from __future__ import annotations

from fractions import Fraction
from typing import Mapping, NamedTuple, Optional, Sequence, Union

from bridge_drivers.model.integer_form import Box, IntegerProgram
from bridge_drivers.model.linear_program import LinearProgram

Number = Union[int, float, str, Fraction]


class Column(NamedTuple):
    """A column; None: it has no such bound."""

    lower: Optional[Number] = 0
    upper: Optional[Number] = None
    is_integer: bool = False
    cost: Number = 0


class Row(NamedTuple):
    """A row, with its coefficients by column."""

    lower: Optional[Number]
    upper: Optional[Number]
    coefficients: Mapping[int, Number]


def program(
    columns: Sequence[Column], rows: Sequence[Row] = (), sense: str = "min"
) -> IntegerProgram:
    """Through the one reader of exported texts, as the search gets it."""
    lines = ["NAME nl", *(["OBJSENSE", " MAX"] if sense == "max" else []), "ROWS", " N obj"]
    lines += [f" {_letter(row)} c{i}" for i, row in enumerate(rows)] + ["COLUMNS"]
    for j, column in enumerate(columns):
        entries = [f" x{j} obj {column.cost}"]
        entries += [
            f" x{j} c{i} {row.coefficients[j]}"
            for i, row in enumerate(rows)
            if j in row.coefficients
        ]
        lines += _between_markers(entries) if column.is_integer else entries
    lines += ["RHS", *(f" RHS c{i} {_rhs(row)}" for i, row in enumerate(rows)), "RANGES"]
    lines += [f" RNG c{i} {_range(row)}" for i, row in enumerate(rows) if _range(row) is not None]
    lines.append("BOUNDS")
    for j, column in enumerate(columns):
        lines.append(f" FR BND x{j}" if column.lower is None else f" LO BND x{j} {column.lower}")
        lines += [] if column.upper is None else [f" UP BND x{j} {column.upper}"]
    text = "\n".join([*lines, "ENDATA", ""]).encode()
    return IntegerProgram.of(LinearProgram.of(text), {}, len(rows))


def box_of(model: IntegerProgram) -> Box:
    return Box(model.lower, model.upper)


def _letter(row: Row) -> str:
    if row.lower is None:
        return "L"
    return "E" if row.lower == row.upper else "G"


def _rhs(row: Row) -> Number:
    found = row.upper if row.lower is None else row.lower
    assert found is not None
    return found


def _range(row: Row) -> Optional[float]:
    if row.lower is None or row.upper is None or row.lower == row.upper:
        return None
    return float(Fraction(row.upper) - Fraction(row.lower))


def _between_markers(entries: Sequence[str]) -> Sequence[str]:
    return [" M 'MARKER' 'INTORG'", *entries, " M 'MARKER' 'INTEND'"]
