"""A linear program in whole numbers, minimised, for the search.

Each kind of number stands over one scale of its own, so that all sums of the search are sums of
Python's whole numbers:

    minimise   (constant + costs x) / cost_scale
    subject to row_lower / bound_scale  <=  (A / row_scale) x  <=  row_upper / bound_scale
               lower / bound_scale      <=  x                 <=  upper / bound_scale
               x_j whole where is_integer[j]

Rows, columns and duals are those of the file, by its own numbers: factors by which an exported
text has its rows multiplied are divided out.
"""

from __future__ import annotations

import copy
from dataclasses import dataclass
from fractions import Fraction
from functools import cached_property
from math import gcd, lcm
from typing import Iterable, Iterator, List, Mapping, NamedTuple, Optional, Sequence, Tuple

import numpy as np

from ..formats.mps import OBJECTIVE
from ..formats.numbers import decimals_over_common_denominator, lowest_terms
from ..system.errors import UnsupportedModel
from .double_form import DoubleProgram, SparseColumns, columns_of
from .linear_program import EPIGRAPH_ROW, LinearProgram
from .sparse_rows import Entries, Pairs, SparseRows, sparse_rows_of

Bound = Optional[int]  # over a scale; None: there is no such bound
Bounds = List[Optional[int]]
Point = List[Fraction]


class Row(NamedTuple):
    """A row that the search adds to a program: a cut, or a branch.

    Attributes:
        coefficients: By column, whole, not over a scale, those that are not 0.
        lower: Whole, not over a scale; None: the row has no lower bound.
        upper: The same from above.
    """

    coefficients: Mapping[int, int]
    lower: int | None = None
    upper: int | None = None


class Box(NamedTuple):
    """Bounds of all columns, over `bound_scale` of the program that they belong to."""

    lower: Bounds
    upper: Bounds


class ObjectiveLattice(NamedTuple):
    """Which values the objective can have, minimised, where all columns with a cost are integer.

    Attributes:
        spacing: The objective less its constant is always a whole multiple of this.
        coefficients: By column: `spacing` times the sum of these times the columns is the objective
            less its constant. They have no common divisor.
    """

    spacing: Fraction
    coefficients: dict[int, int]


@dataclass(eq=False)
class IntegerProgram:
    """A program with `n` columns and `m` rows, in whole numbers over three scales.

    Attributes:
        maximise: Whether the file maximises.
        is_integer: By column.
        costs: By column, over `cost_scale`; they are minimised.
        constant: Of the objective, over `cost_scale`.
        matrix: Coefficients over `row_scale`.
        lower: Lower bounds of columns, over `bound_scale`; None: there is none.
        upper: The same from above.
        row_lower: Lower bounds of rows, over `bound_scale`; None: there is none.
        row_upper: The same from above.
        sign: -1 if the file maximises, else 1: times this a value is the file's own.
        n: The count of columns.
        m: The count of rows, added ones too.
        constraint_count: How many rows are the file's own; rows from this one on were added.
    """

    maximise: bool
    is_integer: List[bool]
    costs: List[int]
    constant: int
    cost_scale: int
    matrix: SparseRows
    row_scale: int
    lower: Bounds
    upper: Bounds
    row_lower: Bounds
    row_upper: Bounds
    bound_scale: int

    def __post_init__(self) -> None:
        """Sets `sign`, `n`, `m` and `constraint_count` of a program without added rows."""
        self.sign = -1 if self.maximise else 1
        self.n = len(self.lower)
        self.m = len(self.row_lower)
        self.constraint_count = self.m

    @staticmethod
    def of(program: LinearProgram, factors: Mapping[int, int], constraints: int) -> IntegerProgram:
        """Of a program as solvers read it, each kind of number over the least scale that it has.

        Args:
            program: As `bridge export` wrote it, or in its own numbering of a file of MPS.
            factors: What `export` multiplied rows by, by their own numbers, where that is not 1.
            constraints: How many rows the file has. Those without bounds are not exported, and have
                no coefficients here.

        Raises:
            UnsupportedModel: The columns are not those of a file.
        """
        return _WholeNumbers(program, factors, constraints).program()

    @cached_property
    def cost_fractions(self) -> list[Fraction]:
        """The costs by column, minimised."""
        known = {c: Fraction(c, self.cost_scale) for c in set(self.costs)}
        return list(map(known.__getitem__, self.costs))

    @cached_property
    def constant_fraction(self) -> Fraction:
        """The constant of the objective, minimised."""
        return Fraction(self.constant, self.cost_scale)

    @property
    def rows(self) -> Pairs:
        """By row its pairs of column and coefficient, which is over `row_scale`."""
        return self.matrix.rows

    @property
    def by_column(self) -> Pairs:
        """By column its pairs of row and coefficient, which is over `row_scale`."""
        return self.matrix.columns

    @cached_property
    def columns(self) -> SparseColumns:
        """The coefficients of rows in doubles, by column, for CLP."""
        return columns_of(self.matrix, self.row_scale)

    @cached_property
    def dominance(self) -> list[float]:
        """By column, by how much its coefficients exceed the least ones of the file's own rows
        (`SparseColumns.dominance`); it stays as it is when rows are added."""
        return self.columns.dominance(self.constraint_count)

    def with_rows(self, added: Iterable[Row]) -> IntegerProgram:
        """The same program with more rows at its end, such as cuts; `constraint_count` stays.

        Args:
            added: Whole, not over a scale; they are brought to the scales of the program.
        """
        new = copy.copy(self)
        new.row_lower = self.row_lower[:]
        new.row_upper = self.row_upper[:]
        rows = self.rows[:]
        for row in added:
            rows.append([(j, a * self.row_scale) for j, a in sorted(row.coefficients.items())])
            new.row_lower.append(scaled(row.lower, self.bound_scale))
            new.row_upper.append(scaled(row.upper, self.bound_scale))
        new.m = len(rows)
        new.matrix = SparseRows.of_lists(self.n, rows)
        vars(new).pop("columns", None)
        return new

    def with_bounds(self, lower: Bounds, upper: Bounds) -> IntegerProgram:
        """The same program with other bounds of columns, as of a node.

        Args:
            lower: By column, over `bound_scale`; the list is kept, not copied.
            upper: The same.
        """
        new = copy.copy(self)
        new.lower = lower
        new.upper = upper
        return new

    def with_integers(self, is_integer: list[bool]) -> IntegerProgram:
        """The same program, but that other columns are integer.

        Args:
            is_integer: By column.
        """
        new = copy.copy(self)
        new.is_integer = is_integer
        return new

    def with_costs(
        self, costs: Sequence[Fraction], constant: Fraction = Fraction(0)
    ) -> IntegerProgram:
        """The same program with another objective, minimised, over the least scale of its own.

        Args:
            costs: By column.
            constant: Of the objective.
        """
        new = copy.copy(self)
        new.cost_fractions = list(costs)
        new.constant_fraction = constant
        new.cost_scale = lcm(constant.denominator, *(c.denominator for c in costs))
        new.costs = [int(c * new.cost_scale) for c in costs]
        new.constant = int(constant * new.cost_scale)
        return new

    def with_integer_costs(self, costs: Mapping[int, int]) -> IntegerProgram:
        """The same program with an objective of whole coefficients, minimised; `cost_scale` is 1.

        Args:
            costs: By column, those that are not 0. There is no constant.
        """
        new = self.with_costs([])
        new.cost_fractions = [Fraction(0)] * self.n
        new.costs = [0] * self.n
        for j, a in costs.items():
            new.cost_fractions[j] = Fraction(a)
            new.costs[j] = a
        return new

    def without_costs(self) -> IntegerProgram:
        """The same program with all costs 0; its constant stays."""
        return self.with_costs([Fraction(0)] * self.n, self.constant_fraction)

    def recession_cone(self) -> IntegerProgram:
        """A program of the directions in which this one has no end, cut off at size 1.

        A direction keeps to each bound of a column or row that is there as to 0. So that there is
        an optimum, each column is at most 1 in size, and costs are over the greatest of them. No
        column is integer, and there is no constant. A point of a value below 0 is a ray, along
        which the relaxation is unbounded if it is feasible.
        """
        new = self.with_bounds(
            [-1 if bound is None else 0 for bound in self.lower],
            [1 if bound is None else 0 for bound in self.upper],
        )
        new.row_lower = [scaled(bound, 0) for bound in self.row_lower]
        new.row_upper = [scaled(bound, 0) for bound in self.row_upper]
        new.bound_scale = 1
        new.is_integer = [False] * self.n
        greatest = max((abs(c) for c in self.cost_fractions), default=Fraction(0)) or Fraction(1)
        return new.with_costs([c / greatest for c in self.cost_fractions])

    def bound_as_double(self, bound: Bound) -> float | None:
        """The double nearest to a bound of a column or row; None where there is none.

        Args:
            bound: Over `bound_scale`.
        """
        return None if bound is None else bound / self.bound_scale

    def in_doubles(self, *, has_costs: bool = True) -> DoubleProgram:
        """The relaxation in doubles, without the constant, for CLP.

        Args:
            has_costs: False: all costs are 0.
        """
        return DoubleProgram(
            [self.bound_as_double(bound) for bound in self.lower],
            [self.bound_as_double(bound) for bound in self.upper],
            [c / self.cost_scale if has_costs else 0.0 for c in self.costs],
            [self.bound_as_double(bound) for bound in self.row_lower],
            [self.bound_as_double(bound) for bound in self.row_upper],
            self.columns,
        )

    def is_feasible(self, x: Point) -> bool:
        """Whether a point has whole values where it must, and keeps to all bounds and rows:
        exactly.

        Each point that the search finds is asked here before it counts as an incumbent, and so are
        rays, of the recession cone.

        Args:
            x: By column, as it stands in a certificate: the values themselves, over no scale.
        """
        if any(v.denominator != 1 for v, is_integer in zip(x, self.is_integer) if is_integer):
            return False
        numerators, denominator = over_common_denominator(x)
        values = [v * self.bound_scale for v in numerators]
        return not any(self.violated_bounds(values, denominator)) and not any(
            self.violated_rows(values, denominator)
        )

    def violated_bounds(self, values: Sequence[int], denominator: int) -> Iterator[Tuple[int, int]]:
        """Each column that misses one of its bounds, with that bound, over `bound_scale`.

        Args:
            values: By column, over `denominator` times `bound_scale`.
            denominator: A common denominator of the point, above 0.
        """
        return violations(values, self.lower, self.upper, denominator)

    def violated_rows(self, values: Sequence[int], denominator: int) -> Iterator[Tuple[int, int]]:
        """Each row that misses one of its bounds, with that bound, over `bound_scale`.

        Args:
            values: By column, over `denominator` times `bound_scale`.
            denominator: A common denominator of the point, above 0.
        """
        activities = self.matrix.activities(values)
        return violations(activities, self.row_lower, self.row_upper, denominator * self.row_scale)

    def value(self, x: Point) -> Fraction:
        """The objective at a point, minimised, with its constant.

        Times `sign` it is the file's own value.

        Args:
            x: By column.
        """
        used = [(c, v) for c, v in zip(self.costs, x) if c and v]
        numerators, denominator = over_common_denominator([v for _, v in used])
        total = sum([c * v for (c, _), v in zip(used, numerators)])
        return self.constant_fraction + Fraction(total, denominator * self.cost_scale)

    def finite_bounds(self, column: int) -> list[Fraction]:
        """The bounds that a column has, as fractions: none, one, or the lower and the upper one."""
        both = (self.lower[column], self.upper[column])
        return [Fraction(bound, self.bound_scale) for bound in both if bound is not None]

    def objective_lattice(self) -> ObjectiveLattice | None:
        """The lattice of the objective's values at points whose integer columns are whole.

        None: the objective is its constant, or a column with a cost is not integer.
        """
        size = gcd(*self.costs)
        if not size or any(c and not whole for c, whole in zip(self.costs, self.is_integer)):
            return None
        return ObjectiveLattice(
            Fraction(size, self.cost_scale), {j: c // size for j, c in enumerate(self.costs) if c}
        )


def over_common_denominator(x: Sequence[Fraction]) -> tuple[list[int], int]:
    """Numerators of fractions, in their order, over their least common denominator, and this."""
    denominator = lcm(1, *{v.denominator for v in x})
    return [v.numerator * (denominator // v.denominator) for v in x], denominator


def scaled(bound: Bound, factor: int) -> Bound:
    """A bound times a factor; None, no bound, stays None."""
    return None if bound is None else bound * factor


def violations(
    values: Sequence[int], lower: Bounds, upper: Bounds, denominator: int
) -> Iterator[Tuple[int, int]]:
    """Each place whose value misses one of its bounds, with the missed bound as it is given.

    Args:
        values: By place, over `denominator` times the scale of the bounds.
        lower: By place; None for no bound.
        upper: The same.
        denominator: Above 0.
    """
    for place, (v, low, high) in enumerate(zip(values, lower, upper)):
        if low is not None and v < low * denominator:
            yield place, low
        elif high is not None and v > high * denominator:
            yield place, high


class _Costs(NamedTuple):
    """An objective, minimised: costs by column and a constant, over a scale."""

    costs: List[int]
    constant: int
    scale: int


class _RowsOfFile(NamedTuple):
    """Coefficients of the file's own rows, in their own numbers, over a scale."""

    matrix: SparseRows
    scale: int


class _AllBounds(NamedTuple):
    """Bounds of columns, and of the file's own rows by their own numbers, over one scale."""

    columns: Box
    rows: Box
    scale: int


class _WholeNumbers:
    """Turns the numbers of a program into whole ones, each kind over the least scale that it has.

    Attributes:
        given: The program.
        written: Its numbers as they are written.
        factors: What rows are multiplied by in the text, by their own numbers, where that is not 1.
        m: How many rows the file has.
        n: How many columns the file has, without z.
        places: By row of the text its own number in the file; -1 of the row that ties z.
    """

    def __init__(
        self, program: LinearProgram, factors: Mapping[int, int], constraints: int
    ) -> None:
        """Of a program; the arguments are those of `IntegerProgram.of`.

        Raises:
            UnsupportedModel: The columns are not x0, x1, .. in this order.
        """
        names = program.names
        self.given = program
        self.written = program.written
        self.factors = factors
        self.m = constraints
        self.n = len(names.columns) - names.has_epigraph_column
        if names.columns[: self.n] != [f"x{j}" for j in range(self.n)]:
            raise UnsupportedModel("the exported program has other columns than the file")
        self.places = [-1 if name == EPIGRAPH_ROW else int(name[1:]) for name in names.rows]

    def program(self) -> IntegerProgram:
        """The whole program, each kind of its numbers turned for itself."""
        objective = self._costs()
        matrix, row_scale = self._matrix()
        bounds = self._bounds()
        return IntegerProgram(
            maximise=self.given.maximise,
            is_integer=self.written.is_integer[: self.n],
            costs=objective.costs,
            constant=objective.constant,
            cost_scale=objective.scale,
            matrix=matrix,
            row_scale=row_scale,
            lower=bounds.columns.lower,
            upper=bounds.columns.upper,
            row_lower=bounds.rows.lower,
            row_upper=bounds.rows.upper,
            bound_scale=bounds.scale,
        )

    def _costs(self) -> _Costs:
        """The objective, minimised, without z.

        It stands in its own row; or, where the program has the column z, in the row zdef, which
        says that a factor times (objective - z) is 0: the coefficient of z is minus that factor, by
        which all is divided.
        """
        written = self.written
        entries = Entries.of(written)
        is_tied = self.given.names.has_epigraph_column
        row = self.places.index(-1) if is_tied else OBJECTIVE
        chosen = np.flatnonzero(entries.rows == row)
        numbers = entries.numbers[chosen].tolist()
        used = sorted(set(numbers))
        texts = [written.rhs.get(row, b"0"), *(written.numbers[k] for k in used)]
        (side, *known), factor = decimals_over_common_denominator(texts)
        value_of = dict(zip(used, known))
        values = [value_of[k] for k in numbers]
        if is_tied:
            factor = -values.pop()  # of z, the last column
        sign = -1 if self.given.maximise != (factor < 0) else 1
        (side, *values), scale = lowest_terms([sign * v for v in (side, *values)], abs(factor))
        costs = [0] * self.n
        for column, value in zip(entries.columns[chosen].tolist(), values):
            costs[column] = value
        return _Costs(costs, -side, scale)

    def _matrix(self) -> _RowsOfFile:
        """The coefficients of the file's own rows, their factors divided out, over their least
        scale.

        Each number that differs is turned once, and once more for each factor of its rows.
        """
        written = self.written
        given = Entries.of(written)
        row_of = np.array([*self.places, -1, -1], np.int32)  # N rows stand last
        rows = row_of[given.rows]
        kept = np.flatnonzero(rows >= 0)
        numbers = given.numbers[kept]
        used = np.unique(numbers).tolist()
        known, scale = decimals_over_common_denominator([written.numbers[k] for k in used])
        table = [0] * len(written.numbers)
        for k, value in zip(used, known):
            table[k] = value
        if self.factors:
            # of a number k in a row with the f-th factor, the place k * len(factors) + f
            factors = sorted({1, *self.factors.values()})
            place_of = {factor: place for place, factor in enumerate(factors)}
            by_row = np.array([place_of[self.factors.get(i, 1)] for i in range(self.m)], np.int64)
            pairs = numbers.astype(np.int64) * len(factors) + by_row[rows[kept]]
            distinct, inverse = np.unique(pairs, return_inverse=True)
            numbers = inverse.astype(np.int32)
            least = lcm(*factors)
            split = (divmod(pair, len(factors)) for pair in distinct.tolist())
            table = [table[k] * (least // factors[f]) for k, f in split]
            scale *= least
        table, scale = lowest_terms(table, scale)
        entries = Entries(rows[kept], given.columns[kept], numbers)
        matrix = sparse_rows_of(self.m, self.n, entries, table, range(self.m))
        return _RowsOfFile(matrix, scale)

    def _bounds(self) -> _AllBounds:
        """The bounds of columns and of the file's own rows, over their least common scale.

        Rows are divided by their factors, so that the scale may be a multiple of those. A row that
        was not exported has no bounds.
        """
        lower, upper = (texts[: self.n] for texts in self.written.bounds())
        texts = list({*lower, *upper} - {b""})
        numerators, denominator = decimals_over_common_denominator(texts)
        rows = self.written.row_bounds()
        scale = lcm(denominator, rows.denominator * lcm(1, *self.factors.values()))
        values = [v * (scale // denominator) for v in numerators]
        row_lower = self._by_own_number(rows.lower, scale // rows.denominator)
        row_upper = self._by_own_number(rows.upper, scale // rows.denominator)
        common = gcd(scale, *values, *row_lower.values(), *row_upper.values())
        value_of: dict[bytes, Bound] = {text: v // common for text, v in zip(texts, values)}
        value_of[b""] = None
        own = range(self.m)
        return _AllBounds(
            Box(list(map(value_of.__getitem__, lower)), list(map(value_of.__getitem__, upper))),
            Box(
                [row_lower[i] // common if i in row_lower else None for i in own],
                [row_upper[i] // common if i in row_upper else None for i in own],
            ),
            scale // common,
        )

    def _by_own_number(self, bounds: Bounds, scale: int) -> dict[int, int]:
        """Bounds of the text's rows by their own number in the file, divided by the row's factor.

        Args:
            bounds: By row of the text, None where there is none.
            scale: What each is multiplied by; a multiple of all factors.
        """
        return {
            i: bound * (scale // self.factors.get(i, 1))
            for i, bound in zip(self.places, bounds)
            if i >= 0 and bound is not None
        }
