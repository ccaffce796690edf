"""The figures of a model, in lines for people and in values for programs.

They are those of the text that `bridge export` writes, whose rows may be multiplied by factors;
those are told beside. `nl-bridge` and the package's call `figures` make a `ModelStatistics`.
"""

from __future__ import annotations

from typing import Collection, Dict, List

from ..formats.names import NameLists, numbered_name
from .read_model import ReadModel
from ..model.analysis import (
    COLUMN_KINDS,
    Exact,
    LostNumber,
    Range,
    Statistics,
    range_in_doubles,
)
from ..system.text import first_of
from .row_factors import factors_of

MOST_NAMED = 5  # rows and numbers that are named of a long list
LONGEST_NUMBER = 45  # characters of a number that is told
SIGNS = {"L": "<=", "G": ">=", "E": "="}


class ModelStatistics:
    """The figures of an .nl file, or of an MPS file's own program.

    Attributes:
        statistics: What is counted.
        notes: Lines on how the model was read.
        names: The names that the user knows.
        factors: What each exported row was multiplied by, as a decimal by its name; empty of an MPS
            file.
    """

    def __init__(self, model: ReadModel, objective: int = 0) -> None:
        """Counts the program of a model with one of its objectives.

        Args:
            model: Which was read.
            objective: The number of the objective, from 0.

        Raises:
            Refusal: The proved program refuses the model, or it has no such objective.
        """
        self.statistics = Statistics(model.program(objective))
        self.notes = list(model.notes)
        self.names = model.names()
        self.factors: Dict[str, str] = {}
        if model.own is None:
            rows = list(self.statistics.row_kinds)
            self.factors = factors_of(model.bridge, model.path, rows, objective)
        else:
            self.statistics.lost = [self._by_own_names(lost) for lost in self.statistics.lost]

    def lines(self) -> List[str]:
        """What is printed: one figure a line, and the notes on the model behind them."""
        return statistics_lines(self.statistics, self.factors, self.names) + self.notes

    def values(self) -> Dict[str, object]:
        """The same for programs, as the key `stats` of report.schema.json.

        Counts are whole numbers, ranges doubles.
        """
        found = self.statistics
        factor = found.epigraph_factor
        return {
            "sense": _sense(found),
            "constant": found.constant if factor is None else None,
            "tied_by": None if factor is None else str(factor),
            "columns": sum(map(found.columns.__getitem__, COLUMN_KINDS)),
            **found.columns,
            "rows": len(found.row_kinds),
            "at_most": found.rows_of("L"),
            "at_least": found.rows_of("G"),
            "equations": found.rows_of("E"),
            "two_sides": found.two_sided,
            "entries": found.entries,
            "costs": found.costs,
            "coefficients": _range_held(found.sizes),
            "cost_coefficients": _range_held(found.cost_sizes),
            "sides": _range_held(found.sides),
            "infinite": found.infinite,
            "not_doubles": len(found.lost),
            "scaled_rows": {
                _row_name(row, self.names): factor
                for row, factor in self.factors.items()
                if factor != "1"
            },
        }

    def _by_own_names(self, lost: LostNumber) -> LostNumber:
        """The same number with its row and column by the names that an MPS file gives them.

        In the text they are c and x with a number.
        """
        lists = {"c": self.names.row, "x": self.names.column}
        words = [
            lists[word[0]](int(word[1:])) if word[1:].isdigit() else word
            for word in lost.place.split()
        ]
        return LostNumber(" ".join(words), lost.text)


def statistics_lines(found: Statistics, factors: Dict[str, str], names: NameLists) -> List[str]:
    """What is printed, one figure a line.

    Args:
        found: What is counted.
        factors: By row of the text what it is multiplied by, as a decimal; rows of "1" are not
            told.
        names: The names that the user knows.
    """
    signs = ", ".join(f"{found.rows_of(kind)} {sign}" for kind, sign in SIGNS.items())
    kinds = ", ".join(f"{found.columns[kind]} {kind}" for kind in COLUMN_KINDS)
    lines = [
        f"sense         {_sense_line(found)}",
        f"columns       {sum(map(found.columns.__getitem__, COLUMN_KINDS))}: {kinds}; "
        f"{found.columns['free']} free, {found.columns['fixed']} fixed",
        f"rows          {len(found.row_kinds)}: {signs}; {found.two_sided} with two sides",
        f"entries       {found.entries} in rows, {found.costs} in the objective",
        f"coefficients  {range_line(found.sizes)} in rows, {range_line(found.cost_sizes)} in "
        "the objective",
        f"sides         {range_line(found.sides)}",
    ]
    if found.infinite:
        lines.append(
            f"infinite      {found.infinite} sides and bounds from 1e20 on: none to highs, to "
            "cbc and clp from 1e25, to lp_solve from 1e30"
        )
    lost = [f"{number.text[:LONGEST_NUMBER]} ({number.place})" for number in found.lost]
    scaled = [
        f"{_row_name(row, names)} by {factor}" for row, factor in factors.items() if factor != "1"
    ]
    lines.append(f"not doubles   {_list_line(lost, ' numbers')}")
    lines.append(f"scaled rows   {_list_line(scaled)}")
    return lines


def range_line(sizes: Collection[Exact]) -> str:
    """The least and the greatest of exact sizes, in doubles: `0.5 to 12`, or `none` without sizes.

    An end that no double holds is told as `beyond doubles`.
    """
    ends = range_in_doubles(sizes)
    return " to ".join("beyond doubles" if end is None else f"{end:g}" for end in ends) or "none"


def _list_line(items: List[str], what: str = "") -> str:
    """How many items there are, `what` behind the number, and the first MOST_NAMED of them.

    `none` of none.
    """
    return f"{len(items)}{what}: {first_of(items, MOST_NAMED)}" if items else "none"


def _range_held(sizes: Collection[Exact]) -> Range | None:
    """The least and the largest size in doubles.

    None where there are no sizes, or an end is beyond doubles.
    """
    ends = range_in_doubles(sizes)
    return ends if ends and None not in ends else None


def _sense(found: Statistics) -> str:
    """`maximise` or `minimise`, by the objective's own sense."""
    return "maximise" if found.program.maximise else "minimise"


def _sense_line(found: Statistics) -> str:
    """The sense in words, with the objective's constant, or what a nonlinear one is tied to."""
    line = _sense(found) + ("" if found.costs else ", no objective but a constant")
    if found.epigraph_factor is not None:
        return f"{line}; tied to column z by row zdef, times {found.epigraph_factor}"
    return line if found.constant == "0" else f"{line}, constant {found.constant}"


def _row_name(row: str, names: NameLists) -> str:
    """A row's name in the exported text (c and a number), and behind it the user's own."""
    return numbered_name(row, names.row(int(row[1:])) if row[1:].isdigit() else "")
