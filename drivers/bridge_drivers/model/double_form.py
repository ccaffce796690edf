"""A linear program in doubles, as the search gives it to CLP: the relaxation of its whole form.

It is rounded from whole numbers, column by column, and is never what a claim rests on.
"""

from __future__ import annotations

import math
from array import array
from typing import Any, Iterable, List, NamedTuple, Optional, Sequence, Tuple

import numpy as np

from .sparse_rows import SparseRows

DoubleBound = Optional[float]  # None: there is no such bound


class SparseColumns(NamedTuple):
    """Coefficients by column, as CLP takes them.

    Attributes:
        starts: The entries of column j are those from `starts[j]` as far as `starts[j + 1]`.
        rows: By entry its row.
        values: By entry its coefficient. Each of the three is an array, or one of NumPy.
    """

    starts: Any
    rows: Any
    values: Any

    def with_units(self, units: Iterable[Tuple[int, float]]) -> SparseColumns:
        """The same with one column more for each of the pairs, which has one entry.

        Args:
            units: Of each new column the row of its entry, and its coefficient there: a slack's,
                say.
        """
        starts = array("i", self.starts)
        rows = array("i", self.rows)
        values = array("d", self.values)
        for row, coefficient in units:
            rows.append(row)
            values.append(coefficient)
            starts.append(len(rows))
        return SparseColumns(starts, rows, values)

    def over(self, scales: Sequence[float]) -> SparseColumns:
        """The same, the coefficients of each column divided by its scale; itself where all are 1.

        Args:
            scales: By column, none of them 0.
        """
        if all(scale == 1 for scale in scales):
            return self
        each = (
            scale
            for j, scale in enumerate(scales)
            for _ in range(self.starts[j], self.starts[j + 1])
        )
        return self._replace(values=array("d", [a / scale for a, scale in zip(self.values, each)]))

    def dominance(self, m: int) -> List[float]:
        """By column: how many times the least coefficient of one of its rows its own one there is,
        at most; at least 1. A big M is what makes it large.

        Args:
            m: The rows that count are the first m ones.
        """
        count = len(self.starts) - 1
        rows = np.asarray(self.rows, dtype=np.int64)
        sizes = np.abs(np.asarray(self.values, dtype=np.float64))
        columns = np.repeat(np.arange(count), np.diff(np.asarray(self.starts, dtype=np.int64)))
        counts = (rows < m) & (sizes > 0)
        rows, sizes, columns = rows[counts], sizes[counts], columns[counts]
        least = np.full(m, math.inf)
        np.minimum.at(least, rows, sizes)
        found = np.ones(count)
        np.maximum.at(found, columns, sizes / least[rows])
        return [float(ratio) for ratio in found]


class DoubleProgram(NamedTuple):
    """A linear program in doubles, minimised, without a constant, as CLP gets it.

    Attributes:
        lower: Lower bounds by column; None: there is no such bound.
        upper: Upper bounds by column.
        costs: By column.
        row_lower: Lower bounds by row.
        row_upper: Upper bounds by row.
        columns: The coefficients of rows.
    """

    lower: List[DoubleBound]
    upper: List[DoubleBound]
    costs: List[float]
    row_lower: List[DoubleBound]
    row_upper: List[DoubleBound]
    columns: SparseColumns


def columns_of(matrix: SparseRows, scale: int) -> SparseColumns:
    """The coefficients in doubles, each rounded once, those of a column in the order of rows.

    Args:
        matrix: In whole numbers over `scale`.
        scale: What each coefficient is divided by.
    """
    if not matrix.is_large:
        return _columns_of_lists(matrix, scale)
    entries = matrix.entries
    key = entries.columns.astype(np.int64) * matrix.m + entries.rows
    order = np.arange(len(key))
    if not (np.diff(key) > 0).all():
        order = np.argsort(key, kind="stable")
    counts = np.bincount(entries.columns, minlength=matrix.n)
    starts = np.concatenate([[0], np.cumsum(counts)])
    values = np.array([a / scale for a in matrix.table])[entries.numbers[order]]
    rows = np.ascontiguousarray(entries.rows[order])
    return SparseColumns(starts.astype(np.int32), rows, values)


def _columns_of_lists(matrix: SparseRows, scale: int) -> SparseColumns:
    """As `columns_of`, for a matrix of few entries, which is walked through in lists."""
    starts = array("i", [0])
    rows = array("i")
    values = array("d")
    for column in matrix.columns:
        rows.extend([i for i, _ in column])
        values.extend([a / scale for _, a in column])
        starts.append(len(rows))
    return SparseColumns(starts, rows, values)
