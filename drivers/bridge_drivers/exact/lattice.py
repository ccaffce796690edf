"""Integer forms in which a program of few integer columns is thin, by reducing a lattice.

A form is thin where it takes few values at the points of a program. Where columns are free or wide,
or rows are equations with large numbers, branching on thin forms ends long before branching on
columns does (Lenstra 1983; Aardal, Hurkens and Lenstra 2000).

Each column and each row is a form with some width, and a lattice has the columns' coefficients in
them, over the widths. A basis of it that is reduced by LLL (Lenstra, Lenstra and Lovasz 1982) has
short and nearly orthogonal vectors. The coordinates of a point in this basis are integer forms of
its columns, and the one along a vector takes the fewer values, the longer the part of the vector is
that is orthogonal to those before it.

`Portfolio` asks `thin_directions` for the forms that one of its searches branches on.
"""

from __future__ import annotations

from fractions import Fraction
from math import gcd
from typing import Dict, Iterator, List, Mapping, NamedTuple, Optional, Sequence

from ..model.integer_form import Bound, IntegerProgram
from .work_limit import check_work

MOST_COLUMNS = 45
MOST_FORMS = 10
LARGEST_RATIO = 10**4  # of a form's largest coefficient to the width that it counts with
WIDTH_WITHOUT_BOUND = Fraction(10**5)  # of a column
LEAST_COLUMN_WIDTH = Fraction(1, 2)
PRECISION = 10**6  # numbers of the lattice are whole numbers over this
MOST_STEPS = 200_000
LOVASZ_NUMERATOR = 99  # the reduction's delta is 0.99
LOVASZ_DENOMINATOR = 100
LARGEST_COEFFICIENT = 2**31
MOST_ROUNDS = 20  # of taking equations away from a form

Form = Dict[int, int]  # coefficients by column, those that are not 0
Matrix = List[List[int]]  # of vectors


class Width(NamedTuple):
    """A form of the integer columns that are not fixed, and how wide it is.

    Attributes:
        coefficients: By place among those columns, in the file's units; those that are not 0.
        width: The greatest of its values less the least, about; above 0.
    """

    coefficients: Mapping[int, Fraction]
    width: Fraction


class LLLReduction:
    """A reduced basis of the lattice of some vectors of whole numbers.

    All is in whole numbers (de Weger 1987): with the Gram determinants d, the number
    products[i][j] / d[j + 1] is the Gram-Schmidt coefficient of vector i along vector j.

    Attributes:
        basis: The vectors, which `run` reduces; they span the lattice of the given ones.
        coordinates: Given vector i is the sum of coordinates[k][i] times vector k of the basis.
        determinants: d[k] is the determinant of the products of the first k vectors with each
            other, so that d[k + 1] / d[k] is the squared length of what is orthogonal in vector k.
        products: Of vector i along vector j, for j below i, as above.
    """

    def __init__(self, vectors: Matrix) -> None:
        """
        Args:
            vectors: All of the same length; they are copied.
        """
        every = range(len(vectors))
        self.basis = [list(vector) for vector in vectors]
        self.coordinates = [[int(i == j) for j in every] for i in every]
        self.determinants = [1] + [0 for _ in every]
        self.products = [[0 for _ in every] for _ in every]

    def run(self) -> bool:
        """Reduces the basis in place, until any two neighbours satisfy Lovasz' condition (delta is
        0.99) and all Gram-Schmidt coefficients are at most 1/2 in size.

        Returns:
            False where the vectors depend on each other, or it takes more than MOST_STEPS: then the
            basis is not reduced.

        Raises:
            TimeOver: The time of exact work is over.
        """
        d, products = self.determinants, self.products
        if not all(map(self._orthogonalize, range(len(self.basis)))):
            return False
        k = 1
        for _ in range(MOST_STEPS):
            check_work()
            if k >= len(self.basis):
                return True
            self._reduce_size(k, k - 1)
            swapped = d[k + 1] * d[k - 1] + products[k][k - 1] ** 2
            if LOVASZ_DENOMINATOR * swapped < LOVASZ_NUMERATOR * d[k] * d[k]:
                self._swap_with_previous(k)
                k = max(1, k - 1)
            else:
                for other in range(k - 2, -1, -1):
                    self._reduce_size(k, other)
                k += 1
        return False

    def _orthogonalize(self, k: int) -> bool:
        """Sets `products` of vector k along those before it, and determinant k + 1.

        The numbers of the vectors before it must be there. Called for each vector once, in their
        order.

        Returns:
            False where vector k depends on those before it.
        """
        d, products = self.determinants, self.products
        for j in range(k + 1):
            product = sum(x * y for x, y in zip(self.basis[k], self.basis[j]))
            for i in range(j):
                product = (d[i + 1] * product - products[k][i] * products[j][i]) // d[i]
            if j < k:
                products[k][j] = product
            else:
                d[k + 1] = product
        return d[k + 1] != 0

    def _reduce_size(self, k: int, other: int) -> None:
        """Takes a whole multiple of the earlier vector `other` away from vector k: that after which
        k's Gram-Schmidt coefficient along it is at most 1/2 in size."""
        d, products = self.determinants, self.products
        if 2 * abs(products[k][other]) <= d[other + 1]:
            return
        q = (2 * products[k][other] + d[other + 1]) // (2 * d[other + 1])
        self.basis[k] = _combined(self.basis[k], -q, self.basis[other])
        self.coordinates[other] = _combined(self.coordinates[other], q, self.coordinates[k])
        products[k][other] -= q * d[other + 1]
        for i in range(other):
            products[k][i] -= q * products[other][i]

    def _swap_with_previous(self, k: int) -> None:
        """Exchanges the vectors k and k - 1, with all numbers that belong to them."""
        d, products = self.determinants, self.products
        for matrix in (self.basis, self.coordinates):
            matrix[k], matrix[k - 1] = matrix[k - 1], matrix[k]
        before, after = products[k - 1][: k - 1], products[k][: k - 1]
        products[k - 1][: k - 1] = after
        products[k][: k - 1] = before
        share = products[k][k - 1]
        new = (d[k - 1] * d[k + 1] + share * share) // d[k]
        for row in products[k + 1 :]:
            old = row[k]
            row[k] = (d[k + 1] * row[k - 1] - share * old) // d[k]
            row[k - 1] = (new * old + share * row[k]) // d[k + 1]
        d[k] = new


def _combined(vector: List[int], factor: int, other: List[int]) -> List[int]:
    """The vector plus `factor` times the other."""
    return [x + factor * y for x, y in zip(vector, other)]


def thin_directions(
    program: IntegerProgram,
    objective: Optional[Mapping[int, int]] = None,
    objective_width: Fraction = Fraction(0),
) -> List[Form]:
    """Integer forms in which the program is thin, the thinnest first.

    They have two columns at least, and a first coefficient above 0.

    Args:
        program: All of its columns that are not fixed must be integer for the widths to be true.
        objective: The objective's form by column, as an `ObjectiveLattice` has it; None: it does
            not count.
        objective_width: How much that form's value may be between the best bound and the cutoff.

    Returns:
        Coefficients by column of the program, of MOST_FORMS forms at most. No form where the
        program has fewer than two integer columns that are not fixed, or more than MOST_COLUMNS, or
        where the reduction takes too long.
    """
    wide = _branching_columns(program)
    if not 2 <= len(wide) <= MOST_COLUMNS:
        return []
    place = {j: k for k, j in enumerate(wide)}
    widths = [*column_widths(program, wide), *_row_widths(program, place)]
    costs = {place[j]: Fraction(a) for j, a in (objective or {}).items() if j in place}
    if costs:
        widths.append(_bounded_width(costs, objective_width))
    reduction = LLLReduction([_scaled_column(k, widths) for k in range(len(wide))])
    if not reduction.run():
        return []
    equations = _integer_equations(program, place)
    forms = [reduced_modulo(form, equations) for form in _coordinates(reduction, wide)]
    return list(map(_with_leading_sign, filter(_is_branching_form, forms)))[:MOST_FORMS]


def _branching_columns(program: IntegerProgram) -> List[int]:
    """The integer columns that are not fixed, by their numbers; their order gives their places."""
    return [j for j, w in enumerate(program.is_integer) if w and not _is_fixed(program, j)]


def _coordinates(reduction: LLLReduction, columns: Sequence[int]) -> Iterator[Form]:
    """The coordinates of a point in a reduced basis, as integer forms by column of the program.

    Those along the longest orthogonal parts come first: they take the fewest values.

    Args:
        columns: By place, that is by given vector, the program's column.
    """
    d = reduction.determinants
    for k in sorted(range(len(columns)), key=lambda k: -Fraction(d[k + 1], d[k])):
        yield {j: a for j, a in zip(columns, reduction.coordinates[k]) if a}


def _is_branching_form(form: Form) -> bool:
    """Whether it has two columns at least, and all coefficients are below LARGEST_COEFFICIENT."""
    return len(form) > 1 and max(abs(a) for a in form.values()) < LARGEST_COEFFICIENT


def _with_leading_sign(form: Form) -> Form:
    """The form or its negative: the coefficient of its first column is above 0."""
    sign = 1 if form[min(form)] > 0 else -1
    return {j: sign * a for j, a in form.items()}


def column_widths(program: IntegerProgram, columns: Sequence[int]) -> List[Width]:
    """Each of these columns as a form, in their order and by its place among them.

    Its width is what is between its bounds, or WIDTH_WITHOUT_BOUND where one is missing, and
    LEAST_COLUMN_WIDTH at least.
    """
    found = []
    for k, j in enumerate(columns):
        lower, upper = program.lower[j], program.upper[j]
        width = WIDTH_WITHOUT_BOUND
        if lower is not None and upper is not None:
            width = Fraction(upper - lower, program.bound_scale)
        found.append(Width({k: Fraction(1)}, max(width, LEAST_COLUMN_WIDTH)))
    return found


def reduced_modulo(form: Form, equations: Sequence[Form]) -> Form:
    """A form that has the same width as this one, with smaller coefficients.

    Whole multiples of equations, whose value is fixed, are taken away as long as that makes it
    shorter, in MOST_ROUNDS rounds at most.

    Args:
        form: By column.
        equations: The left sides of equations, by column.

    Raises:
        TimeOver: The time of exact work is over.
    """
    for _ in range(MOST_ROUNDS):
        check_work()
        before = dict(form)
        for terms in equations:
            product = sum(a * form.get(j, 0) for j, a in terms.items())
            square = sum(a * a for a in terms.values())
            q = (2 * product + square) // (2 * square)
            if q:
                less = {j: form.get(j, 0) - q * terms.get(j, 0) for j in {**form, **terms}}
                form = {j: v for j, v in less.items() if v}
        if form == before:
            break
    return form


def _is_fixed(program: IntegerProgram, column: int) -> bool:
    lower = program.lower[column]
    return lower is not None and lower == program.upper[column]


def _row_widths(program: IntegerProgram, place: Mapping[int, int]) -> List[Width]:
    """The rows, as forms, that have no columns but these and fixed ones, and whose activity is
    bounded on both sides.

    Args:
        place: By column its place among the integer columns that are not fixed.
    """
    found = []
    for i, row in enumerate(program.rows):
        if all(j in place or _is_fixed(program, j) for j, _ in row):
            width = _row_width(program, i, place)
            found += [] if width is None else [width]
    return found


def _row_width(program: IntegerProgram, row: int, place: Mapping[int, int]) -> Optional[Width]:
    """The row as a form of the columns that have a place; None where it has no bound of its own,
    where its activity is not bounded on both sides, or where it has none of these columns."""
    if program.row_lower[row] is None and program.row_upper[row] is None:
        return None
    scale = program.row_scale
    terms = {place[j]: Fraction(a, scale) for j, a in program.rows[row] if j in place}
    least, greatest = _row_interval(program, row)
    if not terms or least is None or greatest is None:
        return None
    return _bounded_width(terms, greatest - least)


def _row_interval(program: IntegerProgram, row: int) -> tuple[Optional[Fraction], ...]:
    """The lower and the upper bound of a row, in the file's units.

    One that it does not have is the least or greatest activity that the bounds of its columns
    allow; None where those allow any.
    """
    entries, scale = program.rows[row], program.bound_scale
    lower, upper = program.row_lower[row], program.row_upper[row]
    if lower is None:
        ends = [(a, program.lower[j] if a > 0 else program.upper[j]) for j, a in entries]
        least = _activity(program, ends)
    else:
        least = Fraction(lower, scale)
    if upper is None:
        ends = [(a, program.upper[j] if a > 0 else program.lower[j]) for j, a in entries]
        return least, _activity(program, ends)
    return least, Fraction(upper, scale)


def _activity(program: IntegerProgram, ends: Sequence[tuple[int, Bound]]) -> Optional[Fraction]:
    """The sum of coefficients times bounds, in the file's units; None where a bound is not there.

    Args:
        ends: By entry of a row: its coefficient over `row_scale`, and a bound of its column over
            `bound_scale`.
    """
    finite = [a * end for a, end in ends if end is not None]
    if len(finite) < len(ends):
        return None
    return Fraction(sum(finite), program.row_scale * program.bound_scale)


def _bounded_width(coefficients: Mapping[int, Fraction], width: Fraction) -> Width:
    """A form with this width, or with its largest coefficient over LARGEST_RATIO if that is more.

    Args:
        coefficients: By place, at least one.
    """
    largest = max(abs(a) for a in coefficients.values())
    return Width(coefficients, max(width, largest / LARGEST_RATIO))


def _scaled_column(column: int, widths: Sequence[Width]) -> List[int]:
    """The lattice's vector of a column: by form its coefficient over the form's width, times
    PRECISION, cut off to a whole number.

    Args:
        column: By its place among the columns of the forms.
    """
    return [
        int(form[column] * PRECISION / width) if column in form else 0 for form, width in widths
    ]


def _integer_equations(program: IntegerProgram, place: Mapping[int, int]) -> List[Form]:
    """The left sides of the equations that have these columns alone, by column of the program, in
    whole numbers without a common factor.

    Args:
        place: Its keys are the columns.
    """
    rows = [
        row
        for row, lower, upper in zip(program.rows, program.row_lower, program.row_upper)
        if lower is not None and lower == upper and row and all(j in place for j, _ in row)
    ]
    return [{j: a // gcd(*(a for _, a in row)) for j, a in row} for row in rows]
