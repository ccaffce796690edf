"""One linear program: what an MPS text says of it, exactly and in doubles.

A text has few numbers that differ. `LinearProgram.written` keeps each once, as it is written, and
arrays of places; all else is made from that when it is asked for: doubles for messages and for
HiGHS here, whole numbers for the search in `integer_form`. Other solvers read the text.

A text that `bridge export` writes has the columns x0, x1, .. and the rows c0, c1, .. of the file.
Where the file's objective is nonlinear, a last column z stands for its value, which the row zdef
ties to it. A file of MPS has its own names; it is written here once more, in its own numbering.

Values of the objective here are in the file's own sense; `integer_form` is minimised.
"""

from __future__ import annotations

import copy
import math
from dataclasses import dataclass
from functools import cached_property
from itertools import compress
from typing import Dict, List, NamedTuple, Optional, Sequence, Tuple

from ..formats.mps import (
    OBJECTIVE,
    MpsColumns,
    RowBounds,
    canonical,
    read_mps,
    write_mps,
)
from ..formats.names import NameLists
from ..formats.numbers import read_fraction
from ..system.text import first_of, one_line
from .sparse_rows import LARGE, Entries, SparseRows, sparse_rows_in_lists, sparse_rows_of

EPIGRAPH_COLUMN, EPIGRAPH_ROW = "z", "zdef"
MOST_NAMED = 3  # columns that a note names
BOUNDS_HEADING = b"\nBOUNDS\n"

Doubles = List[float]


class ObjectiveTerms:
    """An objective at a point, term by term in doubles: for messages, and never for a claim.

    Attributes:
        constant: Of the objective.
        terms: Each coefficient times its column's value, in the file's own sense.
    """

    def __init__(self, constant: float, terms: Sequence[float]) -> None:
        """Of an objective at a point, in the file's own sense.

        Args:
            constant: Of the objective.
            terms: Each coefficient times its column's value.
        """
        self.constant = constant
        self.terms = terms

    @cached_property
    def value(self) -> float:
        """The objective at the point, in the file's own sense: the sum rounded once."""
        return math.fsum([self.constant, *self.terms])

    @cached_property
    def largest(self) -> float:
        """The size of the greatest term, the constant among them."""
        return max([abs(term) for term in (self.constant, *self.terms)])

    @cached_property
    def total(self) -> float:
        """The sum of the sizes of the terms without the constant."""
        return sum([abs(term) for term in self.terms])


class DoubleCosts(NamedTuple):
    """The objective in the file's own sense: its columns, and their coefficients, none of them
    0.
    """

    columns: List[int]
    values: Doubles


@dataclass(frozen=True)
class NameTable:
    """The names of rows and columns in a text, by place; the N rows are not among them."""

    rows: List[str]
    columns: List[str]

    @staticmethod
    def of(written: MpsColumns) -> NameTable:
        """The names of a text that was read."""
        return NameTable(_decoded(written.rows), _decoded(written.columns))

    @property
    def has_epigraph_column(self) -> bool:
        """Whether the last column is `z`, which stands for the value of a nonlinear objective."""
        return self.columns[-1:] == [EPIGRAPH_COLUMN]


class LinearProgram:
    """A linear program with integer marks, as solvers read it.

    Attributes:
        text: The program in MPS, as solvers read it.
        written: Its numbers as they are written there, by place.
        names: The names in the text.
        is_exported: Whether `bridge export` wrote the text: it multiplies rows by factors, and
            leaves out those without bounds.
        own_names: The names that the user knows, by the file's own numbers.
        notes: What other readers of a file of MPS take otherwise.
    """

    def __init__(
        self,
        text: bytes,
        written: MpsColumns,
        own_names: Optional[NameLists] = None,
        notes: Sequence[str] = (),
    ) -> None:
        """Of a text and what was read of it; `of` and `of_named` make both fit.

        Args:
            own_names: None: the text is of `bridge export`, and names are those of files beside the
                model.
        """
        self.text = text
        self.written = written
        self.names = NameTable.of(written)
        self.is_exported = own_names is None
        self.own_names = own_names or NameLists("")
        self.notes = notes

    @staticmethod
    def of(text: bytes) -> LinearProgram:
        """Of a text that `bridge export` wrote.

        The names that the user knows are not in it: whoever has them sets `own_names`.
        """
        return LinearProgram(text, read_mps(text))

    @staticmethod
    def of_named(text: bytes) -> LinearProgram:
        """Of a text in the written form with names of its own, as `bridge mps` writes it.

        Its text is written once more with the columns x0, x1, .. and the rows c0, c1, ..; the names
        that it had are `own_names`, the objective's behind those of the rows.
        """
        read = read_mps(text)
        own = canonical(read)
        rows = [*read.rows, read.objective] if read.objective else read.rows
        names = NameLists.of(
            list(map(_shown, rows)), list(map(_shown, read.columns)), len(read.rows)
        )
        return LinearProgram(write_mps(own), own, names, _notes_of(read))

    @property
    def maximise(self) -> bool:
        """Whether the text's sense is MAX."""
        return self.written.maximise

    @property
    def m(self) -> int:
        """The count of rows in the text, without N rows; `zdef` is one of them."""
        return len(self.names.rows)

    @property
    def n(self) -> int:
        """The count of columns in the text; `z` is one of them."""
        return len(self.names.columns)

    @property
    def is_integer(self) -> List[bool]:
        """By column whether it is integer."""
        return self.written.is_integer

    @cached_property
    def integer_count(self) -> int:
        """How many columns are integer, those that a driver may relax too."""
        return sum(self.written.is_integer)

    @property
    def objective_rhs(self) -> str:
        """The right-hand side of the objective's row, as it is written: minus the constant."""
        return self.written.rhs.get(OBJECTIVE, b"0").decode()

    @cached_property
    def cost_texts(self) -> Dict[int, bytes]:
        """By column its coefficient in the objective, as it is written, without the `0`s."""
        numbers = self.written.numbers
        return {column: numbers[k] for column, k in self._objective if numbers[k] != b"0"}

    def has_objective(self) -> bool:
        """Whether the objective is anything but the constant 0.

        Decides by texts: `0.0` counts as something.
        """
        return self.objective_rhs != "0" or bool(self.cost_texts)

    def has_empty_domain(self) -> bool:
        """Whether an integer column has no whole number between its bounds: it is infeasible then.

        Decided exactly. A solver is not asked of such a program, whose rounded bounds would cross.
        """
        if not self.integer_count:
            return False
        return any(
            is_integer
            and lower
            and upper
            and math.floor(read_fraction(upper)) < math.ceil(read_fraction(lower))
            for is_integer, lower, upper in zip(self.is_integer, *self._bounds)
        )

    def count_of_huge(self, size: float) -> int:
        """How many right-hand sides, ranges and bounds are at least of that size, in doubles.

        A column that is fixed at such a value counts once; the side of the objective does not
        count.
        """
        written = self.written
        texts = [text for row, text in written.rhs.items() if row != OBJECTIVE]
        texts += written.ranges.values()
        pairs = zip(written.lower, written.upper)
        texts += [bound for pair in pairs for bound in set(pair) if bound]
        is_huge = {text: abs(float(text)) >= size for text in set(texts)}
        return sum(map(is_huge.__getitem__, texts)) if any(is_huge.values()) else 0

    def with_rounded_bounds(self) -> LinearProgram:
        """The same program with the bounds of integer columns rounded inwards, for solvers.

        GLPK takes no others. Only `text` is another one; the numbers of `written` stay. The program
        itself where no bound changes.
        """
        start = self.text.find(BOUNDS_HEADING)
        if not self.integer_count or start < 0:
            return self
        integers = {
            name for name, is_integer in zip(self.written.columns, self.is_integer) if is_integer
        }
        lines = self.text[start:].split(b"\n")
        rounded = [
            _rounded_bound(line, integers) if b"." in line or b"e" in line or b"E" in line else line
            for line in lines
        ]
        if rounded == lines:
            return self
        other = copy.copy(self)
        other.text = self.text[:start] + b"\n".join(rounded)
        return other

    @cached_property
    def matrix(self) -> SparseRows:
        """The coefficients of rows in doubles, those that are not 0."""
        written, doubles = self.written, self._doubles
        if len(written.entry_rows) <= LARGE:
            return sparse_rows_in_lists(self.m, self.n, written, doubles)
        no_objectives = [*range(self.m), -1, -1]
        return sparse_rows_of(self.m, self.n, Entries.of(written), doubles, no_objectives)

    @cached_property
    def costs(self) -> DoubleCosts:
        """The objective in doubles, in the file's own sense, without its constant."""
        doubles = self._doubles
        used = [(column, doubles[k]) for column, k in self._objective if doubles[k]]
        return DoubleCosts([column for column, _ in used], [value for _, value in used])

    @cached_property
    def lower(self) -> Doubles:
        """Lower bounds of columns in doubles, minus infinity where there is none."""
        return _in_doubles(self._bounds[0], -math.inf)

    @cached_property
    def upper(self) -> Doubles:
        """Upper bounds of columns in doubles, infinity where there is none."""
        return _in_doubles(self._bounds[1], math.inf)

    @cached_property
    def row_lower(self) -> Doubles:
        """Lower bounds of rows in doubles, minus infinity where there is none."""
        lower, _, denominator = self._row_bounds
        return [-math.inf if v is None else v / denominator for v in lower]

    @cached_property
    def row_upper(self) -> Doubles:
        """Upper bounds of rows in doubles, infinity where there is none."""
        _, upper, denominator = self._row_bounds
        return [math.inf if v is None else v / denominator for v in upper]

    def objective_terms(self, x: Sequence[float]) -> ObjectiveTerms:
        """The objective at a point, in the file's own sense.

        Args:
            x: The values of all columns.
        """
        terms = [cost * x[column] for column, cost in zip(*self.costs)]
        return ObjectiveTerms(-float(self.objective_rhs), terms)

    @cached_property
    def _objective(self) -> List[Tuple[int, int]]:
        """The entries of the objective's row, those of 0 too: the column, and the place of the
        coefficient in `written.numbers`.
        """
        written = self.written
        is_cost = [row == OBJECTIVE for row in written.entry_rows]
        return list(compress(zip(written.entry_columns, written.entry_numbers), is_cost))

    @cached_property
    def _bounds(self) -> Tuple[List[bytes], List[bytes]]:
        """Lower and upper bounds of columns, as they are written; empty where there is none."""
        return self.written.bounds()

    @cached_property
    def _row_bounds(self) -> RowBounds:
        """The exact bounds of rows, in whole numbers over one denominator."""
        return self.written.row_bounds()

    @cached_property
    def _doubles(self) -> List[float]:
        """The doubles nearest to the numbers of `written.numbers`, by place."""
        return list(map(float, self.written.numbers))


def _decoded(names: List[bytes]) -> List[str]:
    """The names as texts. They hold no ends of lines, so that all of them are decoded at once."""
    return b"\n".join(names).decode().split("\n") if names else []


def _in_doubles(texts: List[bytes], infinity: float) -> Doubles:
    """Bounds by column in doubles.

    Args:
        texts: As they are written, empty where there is none.
        infinity: What stands for none, with its sign.
    """
    known = {text: float(text) for text in set(texts) if text}
    return [known.get(text, infinity) for text in texts]


def _rounded_bound(line: bytes, integers: set[bytes]) -> bytes:
    """A line of BOUNDS, without its end, whose value is rounded inwards if its column is integer.

    Only lines ` LO SET COLUMN VALUE` and ` UP ..` with a value that is not written as a whole
    number change: up for LO, down for UP.

    Args:
        integers: The names of the integer columns.
    """
    words = line.split(b" ")
    if len(words) != 5 or words[1] not in (b"LO", b"UP") or words[3] not in integers:
        return line
    value = words[4]
    if not any(mark in value for mark in (b".", b"e", b"E")):
        return line
    round_inwards = math.ceil if words[1] == b"LO" else math.floor
    return b" ".join([*words[:4], b"%d" % round_inwards(read_fraction(value))])


def _notes_of(read: MpsColumns) -> List[str]:
    """Notes on columns whose bounds other readers of MPS take otherwise: one for each such rule."""
    columns = zip(read.columns, read.is_integer, read.lower, read.upper)
    without_bounds = [
        _shown(name)
        for name, is_integer, lower, upper in columns
        if is_integer and lower is None and upper is None
    ]
    negative = [_shown(read.columns[column]) for column in read.negative_upper_bounds()]
    notes = []
    if without_bounds:
        notes.append(
            f"whole columns without bounds go from 0 on: {first_of(without_bounds, MOST_NAMED)}; "
            "cbc and glpsol, where they read the file, take 0 and 1 for their bounds"
        )
    if negative:
        notes.append(
            "columns with an upper bound below 0 and no lower one have no lower end: "
            + first_of(negative, MOST_NAMED)
        )
    return notes


def _shown(name: bytes) -> str:
    """A name of the file as messages tell it: with escaped controls."""
    return one_line(name.decode("utf-8", "surrogateescape"))
