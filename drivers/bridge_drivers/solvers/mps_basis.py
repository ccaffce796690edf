"""A basis in MPS format, as CLP, CBC and QSopt_ex write it into a file; read into `BasisStatus`."""

from __future__ import annotations

from typing import NamedTuple

from ..model.linear_program import LinearProgram
from .base import BasisStatus, read_lines


ROW_SIDES = {
    "XU": BasisStatus.AT_UPPER,
    "XL": BasisStatus.AT_LOWER,
}  # of a row, beside a basic column
COLUMN_SIDES = {"BS": BasisStatus.BASIC, "UL": BasisStatus.AT_UPPER}


class ReadBasis(NamedTuple):
    """Where columns and rows stand in a basis, each in the order of the program."""

    columns: list[BasisStatus]
    rows: list[BasisStatus]


def read_mps_basis(program: LinearProgram, path: str) -> ReadBasis | None:
    """The basis of a file in MPS format; None where there is no file.

    Columns are at their lower bounds and rows are basic, but for those that the lines name: `XU`
    and `XL` have a basic column and a row at its upper or lower side, `UL` a column at its upper
    bound, `BS` a basic one. A row of kind E or L has one side alone, whatever the letter says.

    Raises:
        IndexError: A line has too few words.
    """
    lines = read_lines(path)
    if lines is None:
        return None
    kinds = dict(zip(program.names.rows, program.written.kinds))
    moved: dict[str, BasisStatus] = {}
    by_kind = {"E": BasisStatus.EQUAL, "L": BasisStatus.AT_UPPER}
    records = [line.split() for line in lines if line.startswith(" ") and not line.isspace()]
    for words in records:
        if words[0] in ROW_SIDES:
            side = ROW_SIDES[words[0]]
            moved[words[1]] = BasisStatus.BASIC
            moved[words[2]] = by_kind.get(kinds.get(words[2], ""), side)
        elif words[0] in COLUMN_SIDES:
            moved[words[1]] = COLUMN_SIDES[words[0]]
    return ReadBasis(
        [moved.get(name, BasisStatus.AT_LOWER) for name in program.names.columns],
        [moved.get(name, BasisStatus.BASIC) for name in program.names.rows],
    )
