"""Programs that have no integer point, shown by one split disjunction.

Each refutation is an integer form that lies strictly between two neighbouring whole numbers: both
branches of the disjunction there contradict it. Either the bounds of a column or of rows leave no
whole number between them, or equations of integer columns have no integer solution. The latter is
found by the Hermite normal form: A x = b has an integer solution unless there are multipliers u
with u A whole and u b not (Kronecker; Schrijver 1986, corollary 4.1a).

`Refuter` asks `empty_interval`, then `hermite_refutation`, before it searches.
"""

from __future__ import annotations

from collections import Counter
from fractions import Fraction
from math import floor, gcd
from typing import Dict, Iterator, List, Mapping, NamedTuple, Optional, Sequence, Tuple

from ..model.integer_form import IntegerProgram
from .work_limit import check_work

MOST_EQUATIONS = 120
LARGEST_NUMBER = 10**60  # of a matrix that is brought to its Hermite form

# columns and whole coefficients without a common divisor, of which the first is above 0
Form = Tuple[Tuple[int, int], ...]
Columns = List[List[int]]  # of a matrix, each by row


class IntegerRefutation(NamedTuple):
    """An integer form that is more than `floor` and less than `floor + 1` at all points.

    Attributes:
        form: Whole coefficients by column, those that are not 0; all columns are integer.
        floor: The whole number below the form.
        lower_multipliers: By row of the program. The rows, in the file's units, times these sum up
            to the form, and their bounds show that it is more than `floor`. Empty: the form is one
            column, whose own bound shows it.
        upper_multipliers: The same of less than `floor + 1`.
    """

    form: Dict[int, int]
    floor: int
    lower_multipliers: Dict[int, Fraction]
    upper_multipliers: Dict[int, Fraction]


class _FormBound(NamedTuple):
    """A bound of a form, with the multipliers of rows that show it.

    Attributes:
        is_upper: Whether the form is at most `value`; else it is at least that.
        value: In the file's units.
        multipliers: By row, as in `IntegerRefutation`.
    """

    is_upper: bool
    value: Fraction
    multipliers: Dict[int, Fraction]


def empty_interval(program: IntegerProgram) -> Optional[IntegerRefutation]:
    """An integer form between whose bounds there is no whole number; None where none is found.

    Integer columns are tried first, then the forms that rows of integer columns have in common
    whose coefficients are the same up to a factor.
    """
    return _empty_column(program) or _empty_row(program)


def _empty_column(program: IntegerProgram) -> Optional[IntegerRefutation]:
    """By the first integer column with no whole number between its own two bounds."""
    scale = program.bound_scale
    for j, (lower, upper) in enumerate(zip(program.lower, program.upper)):
        if program.is_integer[j] and lower is not None and upper is not None:
            if -(-lower // scale) > upper // scale:
                return IntegerRefutation({j: 1}, upper // scale, {}, {})
    return None


def _empty_row(program: IntegerProgram) -> Optional[IntegerRefutation]:
    """By the first form of rows whose tightest bounds, `low` and `high`, have no whole number
    between them: floor(high) < low."""
    lowers: Dict[Form, _FormBound] = {}
    uppers: Dict[Form, _FormBound] = {}
    for i in comparable_rows(program):
        row = program.rows[i]
        common = gcd(*(a for _, a in row)) * (1 if row[0][1] > 0 else -1)
        form = tuple((j, a // common) for j, a in row)
        for bound in _bounds_of_form(program, i, Fraction(program.row_scale, common)):
            _keep_tightest(uppers if bound.is_upper else lowers, form, bound)
        low, high = lowers.get(form), uppers.get(form)
        if low is not None and high is not None and floor(high.value) < low.value:
            whole = floor(high.value)
            return IntegerRefutation(dict(form), whole, low.multipliers, high.multipliers)
    return None


def comparable_rows(program: IntegerProgram) -> Iterator[int]:
    """The rows by which `_empty_row` may find something, by their numbers.

    All their columns are integer, and they have two bounds, or a single column, whose own bounds
    count too, or else as many columns as another row, with the same first and last one: the two may
    have the same form.
    """
    kinds = [(len(row), row[0][0], row[-1][0]) if row else None for row in program.rows]
    counts = Counter(kinds)
    for i, row in enumerate(program.rows):
        is_alone = len(row) > 1 and counts[kinds[i]] == 1
        lacks_bound = program.row_lower[i] is None or program.row_upper[i] is None
        if _has_integer_columns(program, i) and not (is_alone and lacks_bound):
            yield i


def _has_integer_columns(program: IntegerProgram, row: int) -> bool:
    """Whether it has columns, and all of them are integer."""
    entries = program.rows[row]
    return bool(entries) and all(program.is_integer[j] for j, _ in entries)


def _bounds_of_form(program: IntegerProgram, row: int, factor: Fraction) -> Iterator[_FormBound]:
    """The bounds of the form that is `factor` times a row, and those of its column where it is one.

    Args:
        factor: Of the row in the file's units. Below 0 it turns a lower bound of the row into an
            upper one of the form.
    """
    scale = program.bound_scale
    for is_upper, bound in ((False, program.row_lower[row]), (True, program.row_upper[row])):
        if bound is not None:
            value = factor * Fraction(bound, scale)
            yield _FormBound(is_upper == (factor > 0), value, {row: factor})
    if len(program.rows[row]) == 1:
        j = program.rows[row][0][0]
        for is_upper, bound in ((False, program.lower[j]), (True, program.upper[j])):
            if bound is not None:
                yield _FormBound(is_upper, Fraction(bound, scale), {})


def _keep_tightest(known: Dict[Form, _FormBound], form: Form, bound: _FormBound) -> None:
    """Sets a form's bound in `known`, unless the one that is there is as tight.

    Args:
        known: By form, bounds of the same side as `bound`.
    """
    old = known.get(form)
    if old is not None:
        is_tighter = bound.value < old.value if bound.is_upper else bound.value > old.value
        if not is_tighter:
            return
    known[form] = bound


def hermite_refutation(program: IntegerProgram) -> Optional[IntegerRefutation]:
    """A refutation by the equations of integer columns: under some multipliers they sum up to whole
    coefficients, but to a side that is not whole.

    Returns:
        None where the equations have an integer solution, or contradict each other as they stand
        (which Farkas multipliers show), are more than MOST_EQUATIONS, or bring in numbers beyond
        LARGEST_NUMBER.
    """
    equations = integer_equations(program)
    if not equations or len(equations) > MOST_EQUATIONS:
        return None
    found = fractional_unknown(_by_column(equations), [equation.side for equation in equations])
    if found is None:
        return None
    form = _combination(equations, found)
    value = sum(u * equations[k].side for k, u in found.items())
    used = {equations[k].row: u * equations[k].factor for k, u in found.items() if u}
    return IntegerRefutation(form, floor(value), used, used) if form else None


class Equation(NamedTuple):
    """A row that is an equation of integer columns, times a factor.

    Attributes:
        row: Its place in the program.
        factor: The least by which its coefficients in the file's units become whole.
        coefficients: By column of the program, times `factor`.
        side: Of the equation, times `factor`; it need not be whole.
    """

    row: int
    factor: int
    coefficients: Dict[int, int]
    side: Fraction


def integer_equations(program: IntegerProgram) -> List[Equation]:
    """The program's rows whose two bounds are equal and whose columns are all integer."""
    found = []
    scale = program.row_scale
    for i, side in enumerate(program.row_lower):
        if side is None or side != program.row_upper[i] or not _has_integer_columns(program, i):
            continue
        row = program.rows[i]
        factor = scale // gcd(scale, *(a for _, a in row))
        coefficients = {j: a * factor // scale for j, a in row}
        found.append(
            Equation(i, factor, coefficients, Fraction(side * factor, program.bound_scale))
        )
    return found


def _by_column(equations: Sequence[Equation]) -> Columns:
    """The matrix of the equations: a list for each column that one of them has, in the columns'
    order, with its coefficient in each equation."""
    columns = sorted({j for equation in equations for j in equation.coefficients})
    return [[equation.coefficients.get(j, 0) for equation in equations] for j in columns]


def _combination(
    equations: Sequence[Equation], multipliers: Mapping[int, Fraction]
) -> Dict[int, int]:
    """The sum of equations under multipliers that make its coefficients whole.

    Args:
        multipliers: By place in `equations`.

    Returns:
        Coefficients by column of the program, those that are not 0.
    """
    form: Dict[int, Fraction] = {}
    for k, u in multipliers.items():
        for j, a in equations[k].coefficients.items():
            form[j] = form.get(j, Fraction(0)) + u * a
    return {j: int(a) for j, a in form.items() if a}


def fractional_unknown(columns: Columns, sides: List[Fraction]) -> Optional[Dict[int, Fraction]]:
    """Multipliers u that show that A x = b has no integer solution: u A is whole, u b is not.

    Integer operations on the columns, which keep whether there is one, bring the matrix to a lower
    triangle, row by row. Its unknowns follow one from another; the first that is not whole is given
    by a row of the triangle's inverse.

    Args:
        columns: Of A, each with its entries by row; they are changed, and of no use afterwards.
        sides: Of b, by row.

    Returns:
        By row; None where all unknowns are whole, where the equations contradict each other as they
        stand, or where numbers become too long.
    """
    rows: List[int] = []  # of the diagonal
    values: List[Fraction] = []  # of its unknowns
    for i, side in enumerate(sides):
        check_work()
        start = len(rows)
        if not eliminate_entry(columns, i, start):
            return None
        rest = side - sum(columns[k][i] * v for k, v in enumerate(values))
        pivot = columns[start][i] if start < len(columns) else 0
        if rest and not pivot:
            return None
        if pivot:
            rows.append(i)
            values.append(Fraction(rest) / pivot)
            if values[-1].denominator != 1:
                return row_of_inverse(columns, rows)
    return None


def eliminate_entry(columns: Columns, row: int, start: int) -> bool:
    """Makes all entries of the row 0 in the columns behind `start`, and changes columns in place.

    That is Euclid's algorithm on the row's entries from `start` on, by integer operations on those
    columns: column `start` has their greatest common divisor, with some sign, or 0 where all are 0.

    Returns:
        False where a column's numbers become longer than LARGEST_NUMBER: it is not done then.
    """
    while True:
        check_work()
        left = [j for j in range(start, len(columns)) if columns[j][row]]
        least = min(left, key=lambda j: abs(columns[j][row]), default=start)
        if len(left) < 2:
            if left:
                columns[start], columns[least] = columns[least], columns[start]
            return True
        for j in left:
            if j != least:
                columns[j] = _remainder(columns[j], columns[least], row)
        if max(abs(v) for v in columns[least]) > LARGEST_NUMBER:
            return False


def _remainder(column: List[int], divisor: List[int], row: int) -> List[int]:
    """The column less a whole multiple of the divisor: its entry in the row is what is left when it
    is divided by the divisor's, which is 0 or has the sign of that."""
    q = column[row] // divisor[row]
    return [x - q * y for x, y in zip(column, divisor)] if q else column


def row_of_inverse(columns: Columns, rows: List[int]) -> Dict[int, Fraction]:
    """The multipliers of these rows under which the last column of a triangle sums up to 1, and
    those before it to 0: the last row of its inverse.

    Args:
        columns: As many as rows at least: the entry of row rows[k] in column k is not 0, and that
            row's entries in later columns are 0.
        rows: The rows of the triangle, the diagonal's order.

    Returns:
        By row.
    """
    found: Dict[int, Fraction] = {}
    for k in reversed(range(len(rows))):
        rest = int(k == len(rows) - 1) - sum(v * columns[k][i] for i, v in found.items())
        found[rows[k]] = rest / Fraction(columns[k][rows[k]])
    return found
