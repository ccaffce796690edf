"""The coefficients of rows: sparse, by place, in whole numbers or doubles.

A matrix of many entries is kept in arrays of NumPy, where the k-th entry is `table[numbers[k]]` in
row `rows[k]` and column `columns[k]`; one of few entries is walked through in lists, which is
quicker. Both give the same numbers: sums of doubles are made in the order of the entries of a row,
sums of whole numbers are exact.

`SparseRows` is the matrix of `LinearProgram` (doubles) and of `IntegerProgram` (whole numbers).
"""

from __future__ import annotations

from functools import cached_property
from itertools import accumulate
from typing import (
    TYPE_CHECKING,
    Any,
    Iterator,
    List,
    Mapping,
    NamedTuple,
    Optional,
    Sequence,
    Tuple,
)

from ..formats.mps import MpsColumns
from ..system.late import late_module

if TYPE_CHECKING:
    import numpy as np
else:
    np = late_module("numpy")
if TYPE_CHECKING:
    from numpy.typing import NDArray

    Places = NDArray[np.int32]

LARGE = 20_000  # entries from which on arrays are quicker than lists
DOUBLE_BITS = 53  # bits of whole numbers that doubles hold
DIGIT_BITS = 26  # bits of a digit of a wide coefficient

Pairs = List[List[Tuple[int, int]]]  # by row its columns and coefficients, or by column its rows


class Entries(NamedTuple):
    """The places of entries, those of a column together and columns in their order.

    Attributes:
        rows: By entry its row.
        columns: By entry its column.
        numbers: By entry the place of its coefficient in a table.
    """

    rows: Places
    columns: Places
    numbers: Places  # places in a table of coefficients

    @staticmethod
    def of(written: MpsColumns) -> Entries:
        """Those of a text, N rows too; the coefficients are in its `numbers`. Nothing is copied."""
        places = (written.entry_rows, written.entry_columns, written.entry_numbers)
        rows, columns, numbers = (np.frombuffer(part, np.int32) for part in places)
        return Entries(rows, columns, numbers)


class SparseRows:
    """Coefficients of `m` rows in `n` columns, none of them 0.

    It is not changed once it is made. Each of its forms (`rows`, `columns`, `entries`) is made of
    the one that was given when it is first asked for.

    Attributes:
        m: The count of rows.
        n: The count of columns.
    """

    def __init__(self, m: int, n: int, entries: Optional[Entries], table: Sequence[Any]) -> None:
        """Of entries; `of_lists` makes one of lists.

        Args:
            m: The count of rows.
            n: The count of columns.
            entries: Their places. Where there are few, a list of a row has its columns in this
                order. None: whoever calls sets `rows`.
            table: The coefficients that `entries.numbers` names, whole numbers or doubles.
        """
        self.m = m
        self.n = n
        self._entries = entries
        self._table = table

    @staticmethod
    def of_lists(n: int, rows: Pairs) -> SparseRows:
        """Of lists: by row its pairs of column and coefficient. They are kept, not copied."""
        made = SparseRows(len(rows), n, None, [])
        vars(made)["rows"] = rows
        return made

    @cached_property
    def rows(self) -> Pairs:
        """By row its pairs of column and coefficient; made of entries, columns in their order."""
        entries = self.entries
        order = np.argsort(entries.rows, kind="stable")
        values = map(self.table.__getitem__, entries.numbers[order].tolist())
        pairs = list(zip(entries.columns[order].tolist(), values))
        ends = list(accumulate(np.bincount(entries.rows, minlength=self.m).tolist()))
        return [pairs[start:end] for start, end in zip([0, *ends], ends)]

    @cached_property
    def columns(self) -> Pairs:
        """By column its pairs of row and coefficient, rows in their order."""
        columns: Pairs = [[] for _ in range(self.n)]
        for i, row in enumerate(self.rows):
            for j, a in row:
                columns[j].append((i, a))
        return columns

    @property
    def entries(self) -> Entries:
        """The places of entries, whose coefficients are in `table`.

        They are made of the lists where those were given.
        """
        if self._entries is None:
            self._entries = self._entries_of_lists()
        return self._entries

    @property
    def table(self) -> Sequence[Any]:
        """The coefficients that `entries.numbers` names."""
        if self._entries is None:
            self._entries = self._entries_of_lists()
        return self._table

    def _entries_of_lists(self) -> Entries:
        """The entries of the lists that were given; sets `_table`, with a coefficient for each."""
        rows = np.repeat(np.arange(self.m, dtype=np.int32), self.lengths)
        columns = np.array([j for row in self.rows for j, _ in row], dtype=np.int32)
        self._table = [a for row in self.rows for _, a in row]
        order = np.argsort(columns, kind="stable").astype(np.int32)
        return Entries(rows[order], columns[order], order)

    @cached_property
    def count(self) -> int:
        """How many entries there are."""
        return sum(self.lengths) if self._entries is None else len(self._entries.rows)

    @cached_property
    def lengths(self) -> List[int]:
        """By row how many entries it has."""
        if self._entries is None:
            return list(map(len, self.rows))
        return list(np.bincount(self._entries.rows, minlength=self.m).tolist())

    @cached_property
    def is_large(self) -> bool:
        """Whether arrays are quicker than lists."""
        return self.count > LARGE

    def column(self, j: int) -> List[Tuple[int, int]]:
        """The pairs of row and coefficient of column `j`, rows in their order."""
        if not self.is_large:
            return self.columns[j]
        entries = self.entries
        ends = np.array((j, j + 1), dtype=entries.columns.dtype)  # of another type, all are copied
        start, stop = entries.columns.searchsorted(ends).tolist()
        values = map(self.table.__getitem__, entries.numbers[start:stop].tolist())
        return sorted(zip(entries.rows[start:stop].tolist(), values))

    def activities(self, x: Sequence[int]) -> List[int]:
        """By row the sum of its coefficients times the columns' values, exactly.

        Args:
            x: By column, whole numbers over any denominator. The sums stand over that denominator
                times the scale of the coefficients.
        """
        if not self.is_large:
            return [sum([a * x[j] for j, a in row]) for row in self.rows]
        return self._exact_sums(self.entries.rows, self.m, self.entries.columns, x)

    def minus_combination(
        self, values: List[int], multipliers: Mapping[int, int], factor: int = 1
    ) -> List[int]:
        """Values by column less `factor` times the combination of rows, exactly.

        Reduced costs are made so: of costs and duals.

        Args:
            values: By column, whole numbers. The list is lost: it may be changed, and be the
                answer.
            multipliers: By row, whole numbers, those that are not 0.
            factor: What brings the combination of rows to the scale of `values`.
        """
        if not multipliers:
            return values
        if not self.is_large:
            for i, v in multipliers.items():
                share = v * factor
                for j, a in self.rows[i]:
                    values[j] -= share * a
            return values
        by_row = [0] * self.m
        for i, v in multipliers.items():
            by_row[i] = v
        sums = self._exact_sums(self.entries.columns, self.n, self.entries.rows, by_row)
        return [v - factor * w for v, w in zip(values, sums)]

    def weighted_norms(self, weights: Sequence[int]) -> List[int]:
        """By row the sum of the sizes of its coefficients times the weights of columns, exactly.

        Args:
            weights: By column, whole numbers.
        """
        if not self.is_large:
            return [sum([abs(a) * weights[j] for j, a in row]) for row in self.rows]
        sizes = SparseRows(self.m, self.n, self.entries, list(map(abs, self.table)))
        return sizes.activities(weights)

    def activities_in_doubles(self, x: Sequence[float]) -> List[float]:
        """By row the sum of its coefficients times the columns' values, in doubles.

        Terms are added from the left in the order of entries, each sum rounded, so that a large
        matrix and a small one give the same bits.

        Args:
            x: By column.
        """
        if not self.is_large:
            return [_sum_in_order([a * x[j] for j, a in row]) for row in self.rows]
        terms = self._doubles() * np.array(x)[self.entries.columns]
        return list(np.bincount(self.entries.rows, terms, self.m).tolist())

    def largest_terms(self, sizes: Sequence[float]) -> List[float]:
        """By row the greatest size of a coefficient times its column's size, in doubles.

        It is 0 of a row without coefficients.

        Args:
            sizes: By column, not negative.
        """
        if not self.is_large:
            return [max([abs(a) * sizes[j] for j, a in row], default=0.0) for row in self.rows]
        found = np.zeros(self.m)
        terms = abs(self._doubles()) * np.array(sizes)[self.entries.columns]
        np.maximum.at(found, self.entries.rows, terms)
        return list(found.tolist())

    def submatrix(self, rows: Sequence[int], columns: Sequence[int]) -> Pairs:
        """These rows in these columns: by chosen row its pairs of column and coefficient.

        Each column is told by its place among the chosen ones. For the exact system of a basis.

        Args:
            rows: Numbers of rows, none twice, in the wanted order.
            columns: Numbers of columns, none twice, in the wanted order.
        """
        if not self.is_large:
            place = {j: k for k, j in enumerate(columns)}
            return [[(place[j], a) for j, a in self.rows[i] if j in place] for i in rows]
        row_places = _places_of(rows, self.m)[self.entries.rows]
        column_places = _places_of(columns, self.n)[self.entries.columns]
        chosen = np.flatnonzero((row_places >= 0) & (column_places >= 0))
        numbers = self.entries.numbers[chosen].tolist()
        found: Pairs = [[] for _ in rows]
        for i, j, k in zip(row_places[chosen].tolist(), column_places[chosen].tolist(), numbers):
            found[i].append((j, self.table[k]))
        return found

    def _doubles(self) -> NDArray[np.float64]:
        """By entry its coefficient as a double, rounded to the nearest."""
        return np.array(self.table, dtype=np.float64)[self.entries.numbers]

    def _exact_sums(self, to: Places, count: int, at: Places, x: Sequence[int]) -> List[int]:
        """By place of `to` the exact sum of coefficients times `x[at]`, over entries.

        Both are taken digit by digit, in digits so short that the sum of the products of digits is
        a whole number of at most 53 bits, which doubles add exactly.

        Args:
            to: By entry its row, or its column.
            count: How many rows or columns there are.
            at: By entry its column, or its row: the place of `x` that its coefficient is multiplied
                by.
            x: Whole numbers, by what `at` names.
        """
        most_terms = int(np.bincount(to).max(initial=1))
        room = DOUBLE_BITS - self._digit_bits - most_terms.bit_length()
        found: List[int] = [0] * count
        for x_shift, x_digits in split_digits(x, max(room, 1)):
            chosen = np.array(x_digits, dtype=np.float64)[at]
            for shift, coefficients in self._digits:
                sums: List[int] = (
                    np.bincount(to, coefficients * chosen, count).astype(np.int64).tolist()
                )
                by = x_shift + shift
                if by or any(found):
                    found = [v + (w << by) for v, w in zip(found, sums)]
                else:
                    found = sums
        return found

    @cached_property
    def _digit_bits(self) -> int:
        """The bits of a digit of a coefficient: those of the widest one, at most DIGIT_BITS."""
        return min(max((int(v).bit_length() for v in self.table), default=1), DIGIT_BITS)

    @cached_property
    def _digits(self) -> List[Tuple[int, NDArray[np.float64]]]:
        """The whole coefficients by digits (`split_digits`): sums of these are exact in doubles.

        Each digit stands with its shift in bits; its doubles are by entry. `_exact_sums` uses them.
        """
        numbers = self.entries.numbers
        return [
            (shift, np.array(digits, dtype=np.float64)[numbers])
            for shift, digits in split_digits(self.table, self._digit_bits)
        ]


def _sum_in_order(terms: List[float]) -> float:
    """The sum from the left, each rounded, as NumPy's; Python's `sum` rounds less from 3.12 on."""
    total = 0.0
    for term in terms:
        total += term
    return total


def _places_of(chosen: Sequence[int], count: int) -> NDArray[np.int64]:
    """By number below `count` its place among the chosen ones; -1 of the others."""
    found = np.full(count, -1)
    found[list(chosen)] = np.arange(len(chosen))
    return found


def split_digits(x: Sequence[int], bits: int) -> Iterator[Tuple[int, List[int]]]:
    """Whole numbers as sums of digits of so many bits, shifted to the left.

    Args:
        x: Whole numbers of any size; a negative one is told in two's complement.
        bits: Of a digit, at least 1.

    Yields:
        The shift in bits, and one digit of each number. All but the last digits are from 0 to
            2^bits - 1; the last ones may be negative, and not below -2^bits.
    """
    mask = (1 << bits) - 1
    rest, shift = list(x), 0
    while not (-1 << bits <= min(rest, default=0) and max(rest, default=0) <= mask):
        yield shift, [v & mask for v in rest]
        rest = [v >> bits for v in rest]
        shift += bits
    yield shift, rest


def sparse_rows_in_lists(m: int, n: int, written: MpsColumns, table: Sequence[float]) -> SparseRows:
    """The coefficients of a text's rows that are not 0, in lists, which need no NumPy.

    Args:
        m: The count of rows; N rows are left out.
        n: The count of columns.
        written: The text's entries, in whose order a row has its columns.
        table: The coefficients that they name by number.
    """
    rows: List[List[Tuple[int, Any]]] = [[] for _ in range(m)]
    for row, column, number in zip(
        written.entry_rows, written.entry_columns, written.entry_numbers
    ):
        if row >= 0 and table[number]:
            rows[row].append((column, table[number]))
    return SparseRows.of_lists(n, rows)


def sparse_rows_of(
    m: int, n: int, entries: Entries, table: Sequence[Any], places: Sequence[int]
) -> SparseRows:
    """The entries that are not 0 in rows that have a place; the others are left out.

    Args:
        m: The count of rows of the answer.
        n: The count of columns.
        entries: Their rows may be negative: those of N rows stand at the end of `places`.
        table: The coefficients that `entries.numbers` names; it is kept, and not copied.
        places: By row its place among the `m` rows; negative: it has none.
    """
    rows = np.array(places, np.int32)[entries.rows]
    is_kept = (rows >= 0) & np.array([bool(v) for v in table], dtype=bool)[entries.numbers]
    kept = Entries(rows[is_kept], entries.columns[is_kept], entries.numbers[is_kept])
    return SparseRows(m, n, kept, table)
