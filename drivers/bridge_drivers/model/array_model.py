"""A program that is given in arrays, as the bytes of an MPS file, for the calls of the package."""

from __future__ import annotations

import math
from fractions import Fraction
from typing import TYPE_CHECKING, Any, Iterator, List, NamedTuple, Sequence

from ..formats.numbers import exact_decimal
from ..system.late import late_module

if TYPE_CHECKING:
    import numpy
else:
    numpy = late_module("numpy")


class _Sides(NamedTuple):
    """How a row stands in an MPS file, in decimals.

    Attributes:
        letter: N, L, G or E.
        side: What stands in RHS; "" of a row N.
        range: What stands in RANGES; "" where it has none.
    """

    letter: str
    side: str
    range: str


def model_of_arrays(
    costs: Any,
    rows: Any = None,
    row_lower: Any = -math.inf,
    row_upper: Any = math.inf,
    *,
    lower: Any = 0.0,
    upper: Any = math.inf,
    integer: Any = False,
    maximise: bool = False,
    constant: float = 0.0,
) -> bytes:
    """A program in arrays as a model that the calls of this package take: an MPS file in ASCII.

    It is the least (or the greatest) value of `costs` times x and the constant, where `rows` times
    x is between `row_lower` and `row_upper` and x is between `lower` and `upper`. Each double is
    written as its shortest decimal; what is judged is the program of these decimals. Columns are
    called x0, x1, .., rows c0, c1, ..

    Args:
        costs: One for each column, in the program's own sense.
        rows: A matrix with a line for each row, an array or one of scipy.sparse; None for no rows.
        row_lower: Of the rows, or one for all; minus infinity for none.
        row_upper: Of the rows, or one for all; infinity for none.
        lower: Of the columns, or one for all; minus infinity for none.
        upper: Of the columns, or one for all; infinity for none.
        integer: Which columns are integer ones, or whether all are.
        maximise: The greatest value is asked for.
        constant: Of the objective.

    Raises:
        ValueError: The sizes do not fit each other, a number is none, a row's lower side is above
            its upper one, or the two sides of a row are too far apart for a decimal of their
            distance.
    """
    cost_list = _doubles(costs, None)
    count = len(cost_list)
    matrix = _matrix(rows, count)
    row_count = matrix.shape[0]
    lows, highs = _doubles(row_lower, row_count), _doubles(row_upper, row_count)
    sides = [_sides(low, high) for low, high in zip(lows, highs)]
    bounds = zip(_doubles(lower, count), _doubles(upper, count))
    marks = numpy.broadcast_to(numpy.asarray(integer, dtype=bool), (count,)).tolist()
    lines = ["NAME nl"]
    if maximise:
        lines += ["OBJSENSE", " MAX"]
    lines += ["ROWS", " N obj"]
    lines += [f" {side.letter} c{row}" for row, side in enumerate(sides)]
    lines.append("COLUMNS")
    lines += _column_lines(cost_list, matrix, marks)
    lines.append("RHS")
    if constant:
        lines.append(f" RHS obj {_decimal(-constant)}")
    lines += [f" RHS c{row} {side.side}" for row, side in enumerate(sides) if side.side]
    lines.append("RANGES")
    lines += [f" RNG c{row} {side.range}" for row, side in enumerate(sides) if side.range]
    lines.append("BOUNDS")
    for column, (low, high) in enumerate(bounds):
        lines += _bound_lines(f"x{column}", low, high)
    return ("\n".join([*lines, "ENDATA"]) + "\n").encode("ascii")


def _doubles(given: Any, count: int | None) -> List[float]:
    """Numbers as a list of doubles, one for each of `count` places; one number stands for all.

    Args:
        given: A number, a list, or an array of one dimension.
        count: None: as many as are given, and one number alone is none.

    Raises:
        ValueError: There are not so many, they have more dimensions, or one is not a number (NaN).
    """
    array = numpy.asarray(given, dtype=float)
    if count is not None:
        array = numpy.broadcast_to(array, (count,))
    if array.ndim != 1 or numpy.isnan(array).any():
        raise ValueError("numbers in one dimension are wanted")
    found: List[float] = array.tolist()
    return found


def _matrix(rows: Any, columns: int) -> Any:
    """The coefficients by column, with `shape`, `indptr`, `indices` and `data` as of scipy's CSC.

    Args:
        rows: An array of two dimensions, a matrix of scipy.sparse, or None for no rows.
        columns: How many there are.

    Raises:
        ValueError: It has another count of columns, or is no matrix.
    """
    if hasattr(rows, "tocsc"):
        matrix = rows.tocsc()
    else:
        matrix = _Columns(numpy.zeros((0, columns)) if rows is None else rows)
    if len(matrix.shape) != 2 or matrix.shape[1] != columns:
        raise ValueError(f"a matrix of {columns} columns is wanted")
    return matrix


class _Columns:
    """An array of two dimensions by columns, in the attributes of a CSC matrix of scipy.sparse.

    Attributes:
        shape: The counts of rows and columns.
        indptr: The entries of column j are those from `indptr[j]` as far as `indptr[j + 1]`.
        indices: By entry its row.
        data: By entry its coefficient, which is not 0.
    """

    def __init__(self, rows: Any) -> None:
        """Of a list of lists or an array.

        Raises:
            ValueError: It has not two dimensions.
        """
        array = numpy.asarray(rows, dtype=float)
        if array.ndim != 2:
            raise ValueError("a matrix is wanted")
        self.shape = array.shape
        columns, self.indices = numpy.nonzero(array.T)
        self.data = array.T[columns, self.indices]
        counts = numpy.bincount(columns, minlength=array.shape[1])
        self.indptr = numpy.concatenate([[0], numpy.cumsum(counts)])


def _column_lines(costs: Sequence[float], matrix: Any, marks: Sequence[bool]) -> Iterator[str]:
    """The lines of COLUMNS: by column its cost, also where it is 0, and its coefficients.

    Integer columns stand between markers.

    Args:
        costs: By column, in the program's own sense.
        matrix: As `_matrix` gives it.
        marks: By column whether it is integer.

    Raises:
        ValueError: A number is infinite or none.
    """
    starts: List[int] = matrix.indptr.tolist()
    places: List[int] = matrix.indices.tolist()
    numbers: List[float] = matrix.data.tolist()
    is_open = False
    markers = 0
    for column, (cost, is_integer) in enumerate(zip(costs, marks)):
        if is_integer != is_open:
            mark = "'INTORG'" if is_integer else "'INTEND'"
            yield f" M{markers} 'MARKER' {mark}"
            markers += 1
            is_open = is_integer
        yield f" x{column} obj {_decimal(cost)}"
        for entry in range(starts[column], starts[column + 1]):
            yield f" x{column} c{places[entry]} {_decimal(numbers[entry])}"
    if is_open:
        yield f" M{markers} 'MARKER' 'INTEND'"


def _sides(low: float, high: float) -> _Sides:
    """How a row with these two bounds stands in an MPS file; a range is their exact distance.

    Raises:
        ValueError: The lower bound is above the upper one, both are the same infinity, or the
            decimal of their distance is longer than the proved program holds.
    """
    if low == high:
        return _Sides("E", _decimal(low), "")
    if low == -math.inf and high == math.inf:
        return _Sides("N", "", "")
    if low == -math.inf:
        return _Sides("L", _decimal(high), "")
    if high == math.inf:
        return _Sides("G", _decimal(low), "")
    distance = exact_decimal(Fraction(_decimal(high)) - Fraction(_decimal(low)))
    if distance is None:
        raise ValueError(f"a row between {low} and {high}: the distance has no decimal")
    if low > high:
        raise ValueError(f"no number is between {low} and {high}")
    return _Sides("G", _decimal(low), distance)


def _bound_lines(column: str, low: float, high: float) -> List[str]:
    """The lines of a column in BOUNDS: FX or FR, else one for each end.

    Raises:
        ValueError: Both ends are the same infinity, or the lower one is plus infinity (or the upper
            one minus infinity).
    """
    if low == high:
        return [f" FX BND {column} {_decimal(low)}"]
    if low == -math.inf and high == math.inf:
        return [f" FR BND {column}"]
    first = f" MI BND {column}" if low == -math.inf else f" LO BND {column} {_decimal(low)}"
    last = f" PL BND {column}" if high == math.inf else f" UP BND {column} {_decimal(high)}"
    return [first, last]


def _decimal(value: float) -> str:
    """The shortest decimal of a double, as `repr` writes it; an exponent has no plus sign.

    Raises:
        ValueError: It is infinite, or not a number.
    """
    if not math.isfinite(value):
        raise ValueError(f"{value} is no number of a program")
    return repr(float(value)).replace("e+", "e")
