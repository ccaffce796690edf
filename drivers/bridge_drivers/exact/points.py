"""Exact points of programs: the vertex of a basis, short fractions near doubles, points around
given integer columns, and rays.

What is returned here is feasible by exact sums, but for `basic_system`, which is only the equations
of a basis. In which order points are tried decides which one a certificate gets. The certifiers ask
for points near an answer, the searches for points near a relaxation's values. Values of columns, x,
are in the program's own units: only bounds and coefficients stand over its scales.
"""

from __future__ import annotations

import itertools
import math
from fractions import Fraction
from typing import Dict, Iterator, List, Mapping, NamedTuple, Optional, Sequence, Union

from ..model.integer_form import Bound, IntegerProgram, Point
from ..system.deadline import Deadline
from ..model.sparse_rows import Pairs
from .clp import Basis, LpStatus, library
from .dual_bound import fits_certificate
from .linear_systems import solve_exactly
from .relaxation import relaxation
from .short_points import NEAR_OF_DOUBLES, NEAR_OF_EXACT, fixed_points, short_point
from .work_limit import check_work, checked

INTEGER_TOLERANCE = 1e-3  # how far from whole numbers the integer columns of a point may be
NEAR_BOUND = Fraction(1, 10**9)  # of a bound's size, or of 1: a value is meant to be the bound
NEAR_POINT = Fraction(1, 10**5)  # of a value's size, or of 1: how far it may be moved
DENOMINATORS = (1, 2, 12, 100, 1000, 10**6)  # the largest ones of fractions that are tried
SHORT_SECONDS = 1.0  # of the processor, for the other columns in short numbers
ZERO = Fraction(0)
ONE = Fraction(1)

Number = Union[float, Fraction]


class BasicSystem(NamedTuple):
    """The equations whose solution is the basic solution of a basis.

    Attributes:
        columns: The basic columns.
        rows: The rows that are not basic and have a bound: they are met exactly.
        values: By column what those that are not basic stand at, over `bound_scale`; 0 where the
            column is basic.
        row_bounds: By row of `rows` the bound that it meets, over `bound_scale`.
        matrix: The basic columns in these rows, over `row_scale`: pairs of a place in `columns` and
            a coefficient, by place in `rows`.
        rhs: By place in `rows`: what the basic columns, over `bound_scale`, sum up to; over
            `row_scale` and `bound_scale`.
    """

    columns: List[int]
    rows: List[int]
    values: List[int]
    row_bounds: Dict[int, int]
    matrix: Pairs
    rhs: List[int]


def basic_system(program: IntegerProgram, basis: Basis, x: Sequence[float]) -> BasicSystem:
    """The equations of a basis, which `vertex` solves, and for large programs
    `basis.exact_optimum`.

    Args:
        basis: As CLP or a solver gives it; it need not be complete.
        x: By column: a column that is not basic stands at its bound near x, and a row at that near
            the row's activity there. Where it has no bound, a column stands at 0 and a row is left
            out.
    """
    scale = program.bound_scale
    is_basic = [False] * program.n
    for j in basis.columns:
        is_basic[j] = True
    values = [
        0 if basic else nearest_bound(lower, upper, v * scale) or 0
        for basic, lower, upper, v in zip(is_basic, program.lower, program.upper, x)
    ]
    row_bounds = _row_bounds_near(program, basis.rows, x)
    activities = program.matrix.activities(values)
    columns, rows = list(basis.columns), list(row_bounds)
    rhs = [row_bounds[i] * program.row_scale - activities[i] for i in rows]
    return BasicSystem(
        columns, rows, values, row_bounds, program.matrix.submatrix(rows, columns), rhs
    )


def _row_bounds_near(
    program: IntegerProgram, rows: Sequence[int], x: Sequence[float]
) -> Dict[int, int]:
    """By row its bound near x, over `bound_scale`; rows without a bound are left out.

    Args:
        rows: Those that are asked for. Only of a row with two different bounds the activity counts,
            which is summed up in doubles.
    """
    ranged = [i for i in rows if _is_ranged(program.row_lower[i], program.row_upper[i])]
    entries = program.matrix.submatrix(ranged, range(program.n)) if ranged else []
    activities = {i: sum([a * x[j] for j, a in row]) for i, row in zip(ranged, entries)}
    found = {}
    for i in rows:
        activity = activities.get(i, 0.0) / program.row_scale * program.bound_scale
        bound = nearest_bound(program.row_lower[i], program.row_upper[i], activity)
        if bound is not None:
            found[i] = bound
    return found


def _is_ranged(lower: Bound, upper: Bound) -> bool:
    """Whether there are two different bounds, so that a value decides between them."""
    return lower is not None and upper is not None and lower != upper


def nearest_bound(lower: Bound, upper: Bound, value: float) -> Bound:
    """The bound that is nearer to a value over the same scale, of two as near the lower one; None
    where there is no bound."""
    if lower is None or upper is None:
        return upper if lower is None else lower
    return lower if lower == upper or abs(lower - value) <= abs(upper - value) else upper


def vertex(program: IntegerProgram, basis: Basis, x: Sequence[float]) -> Optional[Point]:
    """The exact basic solution of a basis, as `basic_system` has it with x.

    Basic columns that the equations leave free are 0.

    Returns:
        None where the equations have no solution, or take too long an elimination, or where the
            solution is not feasible: integer columns must be whole in it, too.
    """
    system = basic_system(program, basis, x)
    found = solve_exactly((dict(row), rhs) for row, rhs in zip(system.matrix, system.rhs))
    if found is None:
        return None
    point = [Fraction(v, program.bound_scale) for v in system.values]
    for place, j in enumerate(system.columns):
        point[j] = found.get(place, ZERO) / program.bound_scale
    return point if program.is_feasible(point) else None


def nearby_points(program: IntegerProgram, x: Sequence[Number]) -> Iterator[Point]:
    """Yields feasible points of short fractions near x: with values at bounds first, and of each
    kind the shortest first.

    Where x is in fractions and feasible it is the only one. Integer columns are rounded. Values
    within NEAR_BOUND of a bound are taken for the bound; then all is tried again without that. No
    value is moved by more than NEAR_POINT.

    Raises:
        TimeOver: The time of exact work is over, before the next is tried.
    """
    given = [Fraction(v) for v in checked(x)]
    if all(isinstance(v, Fraction) for v in x) and program.is_feasible(given):
        yield given
        return
    seen: List[Point] = []
    for tolerance, largest in itertools.product((NEAR_BOUND, ZERO), DENOMINATORS):
        check_work()
        point = [
            _short_value(program, j, value, largest, tolerance)
            for j, value in enumerate(checked(given))
        ]
        if _is_near(point, given) and point not in seen and program.is_feasible(point):
            seen.append(point)
            yield point


def _is_near(point: Point, x: Sequence[Fraction]) -> bool:
    """Whether no value of the point is farther from that of x than NEAR_POINT of its size, or of 1."""
    return all(
        abs(v - near) <= NEAR_POINT * max(ONE, abs(near)) for v, near in checked(zip(point, x))
    )


def _short_value(
    program: IntegerProgram, column: int, value: Fraction, largest: int, tolerance: Fraction
) -> Fraction:
    """One value of a point near x: of an integer column the nearest whole number, else a bound
    within the tolerance, else the nearest fraction with a denominator up to `largest`.

    Args:
        tolerance: As a share of the bound's size, or of 1; at 0 only the bound itself is taken for
            it.
    """
    if program.is_integer[column]:
        return Fraction(round(value))
    for bound in program.finite_bounds(column):
        if abs(bound - value) <= tolerance * max(ONE, abs(bound)):
            return bound
    return value.limit_denominator(largest)


def best_nearby_point(program: IntegerProgram, x: Sequence[Number]) -> Optional[Point]:
    """The best, by its objective, of all the points near x; None where there is none."""
    found = list(nearby_points(program, x))
    return min(found, key=program.value) if found else None


def point_with_integers(
    program: IntegerProgram, x: Sequence[Number], deadline: Deadline
) -> Optional[Point]:
    """The best exact point that has the integer columns of x, else one that is near.

    A search asks for it at a relaxation's values, and a certifier at an answer's.

    Args:
        x: By column; integer columns are rounded where they are within INTEGER_TOLERANCE of whole
            numbers.
        deadline: For CLP's solve, which looks for the other columns.

    Returns:
        None where the integer columns of x are not near whole numbers, or no point is found.
    """
    fixed = rounded_integers(program, x)
    if any(abs(float(x[j]) - v) > INTEGER_TOLERANCE for j, v in fixed.items()):
        return None
    if len(fixed) == program.n:
        point = [fixed[j] for j in range(program.n)]
        return point if program.is_feasible(point) else None
    return _best_with_fixed(program, fixed, deadline) or best_nearby_point(program, x)


def _best_with_fixed(
    program: IntegerProgram, fixed: Mapping[int, Fraction], deadline: Deadline
) -> Optional[Point]:
    """The optimum under fixed columns; where it is too wide for a certificate, a point near it, and
    only where there is none that optimum all the same.

    Args:
        fixed: Values by column, of the integer columns.

    Returns:
        None where CLP is not installed or finds no optimum, or no exact point is near it.
    """
    if library() is None:
        return None
    around = with_fixed(program, fixed)
    clp = relaxation(around)
    clp.limit(deadline)
    if clp.solve_by_either() is not LpStatus.OPTIMAL:
        return None
    found = vertex(around, clp.basis(), clp.values())
    if found is not None and all(map(fits_certificate, found)):
        return found
    near = list(nearby_points(program, clp.values()))
    if not near or found is not None:
        short = _short_with_fixed(around, found, clp.values())
        if short is not None and program.is_feasible(short):
            near.append(short)
    return min(near, key=program.value) if near else found


def _short_with_fixed(
    around: IntegerProgram, optimum: Optional[Point], x: Sequence[float]
) -> Optional[Point]:
    """A point in short numbers near an optimum under fixed columns, which stay.

    Args:
        around: The program with these columns fixed.
        optimum: The exact one, too wide for a certificate; None: it is not known.
        x: About the same in doubles.
    """
    limit = Deadline(SHORT_SECONDS, of_processor=True)
    near = NEAR_OF_DOUBLES if optimum is None else NEAR_OF_EXACT
    base = fixed_points(x) if optimum is None else fixed_points(optimum)
    found = short_point(around, base, near, limit)
    return None if found is None else found.point


def rounded_integers(program: IntegerProgram, x: Sequence[Number]) -> Dict[int, Fraction]:
    """The integer columns of x, by column, as the nearest whole numbers."""
    return {
        j: Fraction(round(x[j])) for j, is_integer in enumerate(program.is_integer) if is_integer
    }


def with_fixed(program: IntegerProgram, fixed: Mapping[int, Fraction]) -> IntegerProgram:
    """The same program, but that the columns named in `fixed` have these values as both bounds. The
    values are whole over `bound_scale`, and may be outside of the columns' own bounds."""
    scale = program.bound_scale
    lower = [int(fixed[j] * scale) if j in fixed else v for j, v in enumerate(program.lower)]
    upper = [int(fixed[j] * scale) if j in fixed else v for j, v in enumerate(program.upper)]
    return program.with_bounds(lower, upper)


def restricted_to(
    program: IntegerProgram, x: Sequence[Number], *, frees_equations: bool
) -> IntegerProgram:
    """The program near an answer: its integer columns have the values of the answer, rounded.

    Those of more digits than solvers print (from 1 / NEAR_POINT on) may differ by as much as is not
    printed. The columns' own bounds hold too. For a search of few nodes beside an answer that
    breaks rows.

    Args:
        frees_equations: Columns that have a cost and stand in an equation keep their own bounds:
            such a column is often given by its equation.
    """
    free = _columns_of_equations(program) if frees_equations else set()
    lower, upper = list(program.lower), list(program.upper)
    for j, v in rounded_integers(program, x).items():
        if j in free:
            continue
        room = math.ceil(abs(v) * NEAR_POINT) if abs(v) * NEAR_POINT >= 1 else 0
        low, high = ((int(v) + by) * program.bound_scale for by in (-room, room))
        old_low, old_high = lower[j], upper[j]
        lower[j] = low if old_low is None else max(low, old_low)
        upper[j] = high if old_high is None else min(high, old_high)
    return program.with_bounds(lower, upper)


def _columns_of_equations(program: IntegerProgram) -> set[int]:
    """The columns, integer or not, that have a cost and stand in an equation."""
    return {
        j
        for row, lower, upper in zip(program.rows, program.row_lower, program.row_upper)
        if lower is not None and lower == upper
        for j, _ in row
        if program.costs[j]
    }


def integers_are_infeasible(
    program: IntegerProgram, x: Sequence[Number], deadline: Deadline
) -> bool:
    """Whether CLP finds no values of the other columns for the integer ones of x, rounded.

    Both of its simplex methods must say so, by their tolerances: it is no proof. Where there are no
    other columns, or no CLP, nothing is found out and the answer is False. Called where no exact
    point has the answer's integer columns.

    Args:
        deadline: For each of the two solves.
    """
    if all(program.is_integer) or library() is None:
        return False
    clp = relaxation(with_fixed(program, rounded_integers(program, x)))
    clp.limit(deadline)
    infeasible = LpStatus.INFEASIBLE
    return clp.solve() is infeasible and clp.solve(by_primal=True) is infeasible


def integer_residual(program: IntegerProgram, x: Sequence[Number]) -> Fraction:
    """The largest residual of what integer columns alone decide, at the integer columns of x,
    rounded.

    That is of their bounds, and of the rows that have no other columns. Each residual is a share of
    the largest term of its row (a column counts at least 1 in it), of the activity or of the bound;
    of a column's bound, a share of the larger of its value, the bound and 1. It is 0 where nothing
    is missed; a certifier tells by it whether the answer itself breaks rows.
    """
    fixed = rounded_integers(program, x)
    scale = program.bound_scale
    residuals = [
        _relative_violation(v * scale, program.lower[j], program.upper[j], Fraction(scale))
        for j, v in fixed.items()
    ]
    share = Fraction(scale, program.row_scale)
    for row, lower, upper in zip(program.rows, program.row_lower, program.row_upper):
        if all(program.is_integer[j] for j, _ in row):
            activity = sum((a * fixed[j] for j, a in row), ZERO) * share
            size = max((abs(a) * max(abs(fixed[j]), ONE) for j, a in row), default=ONE) * share
            residuals.append(_relative_violation(activity, lower, upper, size))
    return max(residuals, default=ZERO)


def _relative_violation(value: Fraction, lower: Bound, upper: Bound, size: Fraction) -> Fraction:
    """What a value misses its bounds by, as a share of the largest of it, the bound and `size`; 0
    where it misses none. All stand over the same scale, and `size` is above 0 where both others may
    be 0."""
    bound = value
    if lower is not None and value < lower:
        bound = Fraction(lower)
    elif upper is not None and value > upper:
        bound = Fraction(upper)
    return abs(bound - value) / max(size, abs(value), abs(bound))


def is_ray(cone: IntegerProgram, direction: Point) -> bool:
    """Whether a direction improves the objective and has no end: all points of a ray along it are
    feasible where one is.

    Args:
        cone: As `IntegerProgram.recession_cone` makes it.
        direction: Of any length; it is judged at the length where its largest entry is 1.
    """
    size = max((abs(v) for v in direction), default=ZERO) or ONE
    return cone.value(direction) < 0 and cone.is_feasible([v / size for v in direction])


def find_ray(cone: IntegerProgram) -> Optional[Point]:
    """An improving direction without end, in short fractions where they do, else the exact vertex
    of the cone.

    Args:
        cone: As `IntegerProgram.recession_cone` makes it.

    Returns:
        None where the optimum of CLP is not below 0, or is not found, or neither way makes a ray of
        it.
    """
    clp = relaxation(cone)
    if clp.solve() is not LpStatus.OPTIMAL or clp.objective() >= 0:
        return None
    x = clp.values()
    for largest in DENOMINATORS:
        direction = [Fraction(v).limit_denominator(largest) for v in checked(x)]
        if is_ray(cone, direction):
            return direction
    found = vertex(cone, clp.basis(), x)
    return found if found is not None and is_ray(cone, found) else None
