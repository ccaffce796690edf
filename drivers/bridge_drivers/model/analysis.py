"""What is counted of a program, and by how much a point misses it, in doubles.

All of it is for messages, reports and the code of an answer; no claim rests on it.
"""

from __future__ import annotations

from collections import Counter
from dataclasses import dataclass, field
from fractions import Fraction
from functools import cached_property, lru_cache
from itertools import compress
from operator import not_
from typing import Collection, Dict, Iterator, List, NamedTuple, Optional, Sequence, Tuple, Union

from ..formats.mps import OBJECTIVE
from ..formats.numbers import nearest_double, read_fraction
from .linear_program import EPIGRAPH_ROW, Doubles, LinearProgram

Exact = Union[int, Fraction]
Range = List[Optional[float]]
MissedBound = Tuple[int, float, float, float]  # a place, its value, its bounds

INFINITE = 10**20  # a solver takes it for no bound
COLUMN_KINDS = ("continuous", "binary", "integer")

# As shares of the largest term of a row:
TOLERANCE = 1e-6  # what counts as satisfied
TOLERANCE_OF_INTEGERS = 1e-12  # the same where all columns have whole values
ROUNDING_OF_A_ROW = 2.0**-45  # what rounding the terms of a row in doubles leaves


class Residual(NamedTuple):
    """By how much a row or bound is missed.

    Attributes:
        times_tolerance: `relative` over what counts as satisfied there.
        relative: As a share of the row's largest term, at the values or at 1; not negative.
        name: Of the row or column in the text; empty where nothing is missed.
    """

    times_tolerance: float
    relative: float
    name: str

    def is_significant(self) -> bool:
        """Whether it is more than the tolerance, so that the point counts as none."""
        return self.times_tolerance > 1


NO_RESIDUAL = Residual(0.0, 0.0, "")


def residual_of(relative: float, name: str, *, has_integers: bool = False) -> Residual:
    """A residual whose share of the largest term is known.

    Args:
        relative: That share.
        name: What is missed, as a message calls it.
        has_integers: All terms are those of integer columns at whole values, so that the tolerance
            is only for rounding.
    """
    tolerance = TOLERANCE_OF_INTEGERS if has_integers else TOLERANCE
    return Residual(relative / tolerance, relative, name)


def worst_residual(
    program: LinearProgram, values: Sequence[str], *, wants_integers: bool = False
) -> Residual:
    """The residual that is the greatest multiple of its tolerance; NO_RESIDUAL where none is
    missed.

    Args:
        program: As solvers read it.
        values: By column, as decimals.
        wants_integers: Integer columns are meant to have whole values, and rows of such ones are to
            be met but for rounding.
    """
    found = residuals(program, values, wants_integers=wants_integers)
    return max(found, default=NO_RESIDUAL)


def residuals(
    program: LinearProgram, values: Sequence[str], *, wants_integers: bool = False
) -> Iterator[Residual]:
    """The residual of each row, and of each column's bound, that the values miss; in doubles.

    A row is missed by a share of its largest term, where a column below 1 in size counts as 1, and
    of the missed side. A bound is its own largest term, and a bound of 0 is measured by 1 at least.

    Args:
        program: As solvers read it.
        values: By column, as decimals.
        wants_integers: As of `worst_residual`.
    """
    x = list(map(float, values))
    is_whole = [False] * len(x)
    if wants_integers:
        is_whole = [
            is_integer and text.lstrip("-").isdigit()
            for is_integer, text in zip(program.is_integer, values)
        ]
    yield from _row_residuals(program, x, is_whole)
    for column, value, lower, upper in _beyond(x, program.lower, program.upper):
        missed = lower if value < lower else upper
        size = abs(value) if missed else max(1.0, abs(value))
        name = program.names.columns[column]
        yield _residual(name, value, lower, upper, size, has_integers=is_whole[column])


def _beyond(values: Sequence[float], lower: Doubles, upper: Doubles) -> List[MissedBound]:
    """The places at which a value is not between both bounds."""
    return [
        (place, value, low, high)
        for place, (value, low, high) in enumerate(zip(values, lower, upper))
        if not low <= value <= high
    ]


def _row_residuals(
    program: LinearProgram, x: Sequence[float], is_whole: Sequence[bool]
) -> Iterator[Residual]:
    """The residual of each row that is missed at `x`.

    Args:
        x: By column.
        is_whole: By column whether it counts as one with a whole value; a row of such ones alone
            has the tolerance of integers.
    """
    activities = program.matrix.activities_in_doubles(x)
    missed = _beyond(activities, program.row_lower, program.row_upper)
    if not missed:
        return
    sizes = program.matrix.largest_terms([max(1.0, abs(value)) for value in x])
    written = program.written
    places = zip(written.entry_rows, written.entry_columns)
    mixed = {row for row, column in places if not is_whole[column]}
    for row, activity, lower, upper in missed:
        yield _residual(
            program.names.rows[row],
            activity,
            lower,
            upper,
            sizes[row],
            has_integers=row not in mixed,
        )


def _residual(
    name: str, value: float, lower: float, upper: float, size: float, *, has_integers: bool
) -> Residual:
    """The residual of a value: what it misses, over its size or the missed bound's if larger.

    Args:
        name: Of the row or column.
        value: Of the row's activity, or of the column.
        lower: Minus infinity for none.
        upper: Infinity for none.
        size: Of the largest term, above 0.
        has_integers: As of `residual_of`.
    """
    by = max(lower - value, value - upper, 0.0)
    if not by:
        return NO_RESIDUAL
    size = max(size, abs(lower if value < lower else upper))
    return residual_of(by / size, name, has_integers=has_integers)


class LostNumber(NamedTuple):
    """A number that doubles do not hold, and where it stands.

    Attributes:
        place: A row and perhaps a column, or a column, by their names in the text.
        text: As it is written.
    """

    place: str
    text: str


@dataclass
class Statistics:
    """What is counted of a program, as it is made; `pipeline.statistics` tells it.

    Numbers are exact, and sizes are without their sign. The column z and its row, which stand for a
    nonlinear objective, count as the objective.

    Attributes:
        program: As `bridge export` or `bridge mps` wrote it.
        columns: How many of each kind in COLUMN_KINDS, and how many are free or fixed.
        row_kinds: L, G or E by the name of each row, without the one that ties z.
        two_sided: How many rows have a range.
        entries: How many coefficients of rows are not 0.
        costs: How many of the objective are not 0.
        infinite: How many sides and bounds are at least 1e20.
        epigraph_factor: By what the row that ties z is multiplied; None: there is none.
        sizes: Of coefficients of rows, each number of the text once.
        cost_sizes: Of coefficients of the objective, of each column one.
        sides: Of right-hand sides and ranges, but for 0.
        lost: The numbers that doubles do not hold.
    """

    program: LinearProgram
    columns: Dict[str, int] = field(init=False)
    row_kinds: Dict[str, str] = field(init=False)
    entries: int = 0
    costs: int = 0
    infinite: int = 0
    epigraph_factor: Optional[Exact] = None
    sizes: List[Exact] = field(default_factory=list)
    cost_sizes: List[Exact] = field(default_factory=list)
    sides: List[Exact] = field(default_factory=list)
    lost: List[LostNumber] = field(default_factory=list)

    def __post_init__(self) -> None:
        """Counts all of the program."""
        program = self.program
        kinds = zip(program.names.rows, program.written.kinds)
        self.row_kinds = {name: kind for name, kind in kinds if name != EPIGRAPH_ROW}
        self.columns = _columns_by_kind(program)
        self._count_entries()
        self._count_sides()
        self._count_bounds()

    def rows_of(self, kind: str) -> int:
        """How many rows are of a kind: L, G or E."""
        return sum(found == kind for found in self.row_kinds.values())

    @property
    def two_sided(self) -> int:
        """How many rows have a range."""
        return len(self.program.written.ranges)

    @cached_property
    def constant(self) -> str:
        """The constant of the objective, as a whole number or a fraction `p/q`."""
        return str(-Fraction(self.program.objective_rhs))

    def _count_entries(self) -> None:
        """Counts the coefficients of rows and of the objective, which may stand in the row zdef.

        Sets `entries`, `sizes`, `costs`, `cost_sizes` and `epigraph_factor`, and adds to `lost`.
        """
        written, names = self.program.written, self.program.names
        numbers = [parsed(text) for text in written.numbers]
        cost_rows = {OBJECTIVE}
        if EPIGRAPH_ROW in names.rows:
            cost_rows.add(names.rows.index(EPIGRAPH_ROW))
        is_cost = [row in cost_rows for row in written.entry_rows]
        columns = list(compress(written.entry_columns, is_cost))
        sizes = [_size(numbers[k].value) for k in compress(written.entry_numbers, is_cost)]
        self._count_costs(columns, sizes)
        counts = Counter(compress(written.entry_numbers, map(not_, is_cost)))
        for place, number in enumerate(numbers):
            if counts[place] and number.value:
                self.entries += counts[place]
                self.sizes.append(_size(number.value))
        self._find_lost([number.is_held for number in numbers])

    def _count_costs(self, columns: Sequence[int], sizes: Sequence[Exact]) -> None:
        """Counts the objective's coefficients; that of z, the last column, is `epigraph_factor`.

        Args:
            columns: By entry of the objective its column.
            sizes: By entry its coefficient without its sign.
        """
        z = self.program.n - 1 if self.program.names.has_epigraph_column else -1
        for column, size in zip(columns, sizes):
            if column == z:
                self.epigraph_factor = size
            elif size:
                self.costs += 1
                self.cost_sizes.append(size)

    def _find_lost(self, is_held: Sequence[bool]) -> None:
        """Adds the entries whose numbers doubles do not hold to `lost`, placed as `ROW COLUMN`.

        Args:
            is_held: By place in `numbers` of the text.
        """
        written, names = self.program.written, self.program.names
        rows = [*names.rows, "", written.objective.decode()]  # N rows stand last
        places = zip(written.entry_rows, written.entry_columns, written.entry_numbers)
        for row, column, number in places:
            if not is_held[number]:
                place = f"{rows[row]} {names.columns[column]}"
                self.lost.append(LostNumber(place, written.numbers[number].decode()))

    def _count_sides(self) -> None:
        """Counts right-hand sides and ranges in `sides` and `infinite`, and adds to `lost`.

        The objective's side is only looked at for `lost`.
        """
        written = self.program.written
        rows = [*self.program.names.rows, "", written.objective.decode()]
        for row, text in [*written.rhs.items(), *written.ranges.items()]:
            value = self._number(rows[row], text)
            if row != OBJECTIVE and value:
                self.sides.append(_size(value))
                self.infinite += _size(value) >= INFINITE

    def _count_bounds(self) -> None:
        """Counts infinite bounds of columns, and adds those that doubles do not hold to `lost`.

        A column whose two bounds are the same number counts once.
        """
        written = self.program.written
        pairs = Counter(zip(written.lower, written.upper))
        lost = set()
        for pair, times in pairs.items():
            for bound in filter(None, set(pair)):
                number = parsed(bound)
                self.infinite += times * (_size(number.value) >= INFINITE)
                if not number.is_held:
                    lost.add(bound)
        if not lost:
            return
        for name, *bounds in zip(self.program.names.columns, written.lower, written.upper):
            distinct = bounds[:1] if bounds[0] == bounds[1] else bounds
            self.lost += [LostNumber(name, text.decode()) for text in distinct if text in lost]

    def _number(self, place: str, text: bytes) -> Exact:
        """The exact value of a number, which is added to `lost` where doubles do not hold it.

        Args:
            place: Where it stands, as of `LostNumber`.
            text: As it is written.
        """
        number = parsed(text)
        if not number.is_held:
            self.lost.append(LostNumber(place, text.decode()))
        return number.value


class ParsedNumber(NamedTuple):
    """The exact value of a number of the text, and whether a solver that reads doubles reads it."""

    value: Exact
    is_held: bool


@lru_cache(maxsize=1 << 16)
def parsed(text: bytes) -> ParsedNumber:
    """The exact value of a number of the text. It is remembered: most numbers stand many times."""
    value = read_fraction(text)
    exact: Exact = value.numerator if value.denominator == 1 else value
    return ParsedNumber(exact, is_double_or_shortest(value))


def _size(value: Exact) -> Exact:
    """The number without its sign."""
    return -value if value < 0 else value


def is_double_or_shortest(value: Fraction) -> bool:
    """Whether a solver that reads doubles reads this number as the model means it.

    That is so where it is a double, or the shortest decimal of the nearest double.
    """
    double = nearest_double(value)
    return double is not None and value in (Fraction(double), Fraction(repr(double)))


def range_in_doubles(sizes: Collection[Exact]) -> Range:
    """The least and the greatest of some sizes; nothing where there are none.

    Each is None where it is beyond the range of doubles.
    """
    return [nearest_double(end) for end in (min(sizes), max(sizes))] if sizes else []


def _columns_by_kind(program: LinearProgram) -> Dict[str, int]:
    """How many columns are of each kind in COLUMN_KINDS, and how many `free` or `fixed` besides.

    A binary column is an integer one between 0 and 1. The column z is not counted.
    """
    count = program.n - program.names.has_epigraph_column
    lower, upper = (texts[:count] for texts in program.written.bounds())
    pairs = Counter(zip(program.is_integer, lower, upper))
    columns = dict.fromkeys((*COLUMN_KINDS, "free", "fixed"), 0)
    for (is_integer, *texts), times in pairs.items():
        low, high = (parsed(text).value if text else None for text in texts)
        is_binary = is_integer and (low, high) == (0, 1)
        kind = "integer" if is_integer else "continuous"
        columns["binary" if is_binary else kind] += times
        if low == high:
            columns["free" if low is None else "fixed"] += times
    return columns
