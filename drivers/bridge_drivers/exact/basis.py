"""The exact optimum of a basis, and bases that come ever nearer to being optimal.

`exact_optimum` solves the two linear systems of a basis, for the point and for the duals, and
checks all conditions of optimality exactly (as QSopt_ex does: Applegate and others 2007). Where
CLP's last basis is not optimal, `IterativeRefinement` finds better ones: the residuals of CLP's
point and duals are computed exactly, scaled up, and solved again from the basis before (Gleixner,
Steffy and Wolter 2016). `linear_certifier` uses both.
"""

from __future__ import annotations

import math
from fractions import Fraction
from typing import Dict, Iterator, List, Mapping, NamedTuple, Sequence, Tuple

from ..model.double_form import DoubleBound, DoubleProgram
from ..model.integer_form import Bound, IntegerProgram, Point, over_common_denominator
from ..system.deadline import Deadline
from ..system.errors import NotSolved
from .clp import Basis, Clp, LpStatus
from .dual_bound import MultiplierKind, Multipliers, needed_row_bound
from .linear_systems import LiftedSystem, RationalVector, scipy_or_none, solve_exactly
from .points import BasicSystem, basic_system
from .row_system import BASE_BITS
from .work_limit import check_work

# Systems
MOST_ELIMINATED = 300  # unknowns of a system that is eliminated where it is not lifted
LIFTING_WORK = 4_000_000  # bits of all unknowns together that are made at most
MOST_BITS = 40_000  # of an unknown
LEAST_BITS = 320  # they tell each fraction of 127 bits

# Refinement
ROUNDS = 5
PRECISION_BITS = BASE_BITS  # binary places of the point and of the duals
LARGEST_SHIFT = PRECISION_BITS - 64
LEAST_RESIDUAL = 2.0**-900  # what is below counts as nothing
SHIFT_STEP = 30  # binary digits by which residuals are scaled up more than in the round before
INFINITE_BOUND = 1e20  # scaled bounds beyond it are none
LARGEST_COST = 1e12  # scaled costs are cut off there
FREE_DISTANCE = 1e-5  # from a bound: a column may go on towards it
TOLERANCE = 1e-9  # of CLP in each round


class Optimum(NamedTuple):
    """An optimal point by column, and dual multipliers of the rows whose bound is its value."""

    point: Point
    duals: Multipliers


class NearBasis(NamedTuple):
    """A basis that may be optimal.

    Attributes:
        values: By column, in doubles, near its basic solution: a column or row that is not basic
            and has two bounds stands at the one that is nearer to them.
    """

    basis: Basis
    values: List[float]


def can_lift() -> bool:
    """Whether SciPy is installed, without which only systems up to MOST_ELIMINATED are solved."""
    return scipy_or_none() is not None


def exact_optimum(program: IntegerProgram, basis: Basis, x: Sequence[float]) -> Optimum:
    """The exact basic solution of a basis and its duals, if they are optimal.

    The point must keep to all bounds and rows, the duals must have the signs of an optimum, and
    each must be 0 where its row or column does not stand at the bound that it rests on: then the
    bound of the duals is the value of the point.

    Args:
        program: Its integer marks are not looked at.
        x: By column, as `NearBasis.values`.

    Raises:
        NotSolved: The basis has no such solution, or it is not optimal.
        TooManyBits: Its numbers are too long to be found.
        TimeOver: The time of exact work is over.
    """
    system = basic_system(program, basis, x)
    if len(system.columns) != len(system.rows):
        raise NotSolved("the basis is not square")
    basic, row_duals = _solutions(program, system)
    numerators = [v * basic.denominator for v in system.values]
    for j, v in zip(system.columns, basic.numerators):
        numerators[j] = v
    values = RationalVector(numerators, basic.denominator)
    duals = {i: v for i, v in zip(system.rows, row_duals.numerators) if v}
    check_work()
    _require_feasible(program, values)
    check_work()
    _require_complementary(program, system, values, duals, row_duals.denominator)
    scale = values.denominator * program.bound_scale
    shared = {v: Fraction(v, scale) for v in set(numerators)}
    multipliers = Multipliers(
        {i: v * program.row_scale for i, v in duals.items()},
        row_duals.denominator * program.cost_scale,
        MultiplierKind.DUAL,
    )
    return Optimum([shared[v] for v in numerators], multipliers)


def _solutions(
    program: IntegerProgram, system: BasicSystem
) -> Tuple[RationalVector, RationalVector]:
    """The values of the basic columns, and the duals of the rows that are met exactly.

    Systems are lifted where SciPy is there, and eliminated where it is not, or lifting fails, and
    they have at most MOST_ELIMINATED unknowns.

    Returns:
        By place in `system.columns` the values times `bound_scale`. By place in `system.rows` the
        duals times `cost_scale` over `row_scale`, minimised: basic columns have the reduced cost 0
        under them.

    Raises:
        NotSolved: A system has no solution that is found.
        TooManyBits: A solution has more bits than are made.
    """
    size = len(system.columns)
    costs = [program.costs[j] for j in system.columns]
    if can_lift() and size:
        most_bits = min(max(LIFTING_WORK // size, LEAST_BITS), MOST_BITS)
        try:
            lifted = LiftedSystem(system.matrix, most_bits)
            return lifted.solve(system.rhs), lifted.solve_transposed(costs)
        except NotSolved:
            if size > MOST_ELIMINATED:
                raise
    if size > MOST_ELIMINATED:
        raise NotSolved("SciPy is not there")
    rows = [dict(row) for row in system.matrix]
    return _eliminated(rows, system.rhs), _eliminated(_transposed(system), costs)


def _transposed(system: BasicSystem) -> List[Dict[int, int]]:
    """By place of a basic column its coefficients over `row_scale`, by place in `system.rows`."""
    columns: List[Dict[int, int]] = [{} for _ in system.columns]
    for place, row in enumerate(system.matrix):
        for column, a in row:
            columns[column][place] = a
    return columns


def _eliminated(rows: Sequence[Mapping[int, int]], rhs: Sequence[int]) -> RationalVector:
    """Solves a square system by elimination in whole numbers; what it leaves free is 0.

    Args:
        rows: By equation its coefficients, by unknown from 0 on.
        rhs: By equation its right-hand side.

    Raises:
        NotSolved: It has no solution, or takes too much work.
    """
    values = solve_exactly(zip(rows, rhs))
    if values is None:
        raise NotSolved("the basis is singular, or takes too much work")
    solution = [values.get(k, Fraction(0)) for k in range(len(rows))]
    return RationalVector(*over_common_denominator(solution))


def _require_feasible(program: IntegerProgram, values: RationalVector) -> None:
    """Checks all bounds of columns and rows, exactly.

    Args:
        values: By column, times `bound_scale`.

    Raises:
        NotSolved: One is missed.
    """
    for j, _ in program.violated_bounds(values.numerators, values.denominator):
        raise NotSolved(f"column {j} misses a bound")
    for i, _ in program.violated_rows(values.numerators, values.denominator):
        raise NotSolved(f"row {i} is missed")


def _require_complementary(
    program: IntegerProgram,
    system: BasicSystem,
    values: RationalVector,
    duals: Mapping[int, int],
    denominator: int,
) -> None:
    """Checks that duals and reduced costs have the signs of an optimum (complementary slackness).

    A dual above 0 needs its row to stand at the lower bound, one below 0 at the upper bound; so do
    a reduced cost `c - y A` and its column.

    Args:
        values: By column, times `bound_scale`.
        duals: By row, those that are not 0; over `denominator`, in the units of `_solutions`.

    Raises:
        NotSolved: One has another sign.
    """
    for i, dual in duals.items():
        if needed_row_bound(program, i, dual) != system.row_bounds[i]:
            raise NotSolved(f"the dual of row {i} has the sign of another bound")
    reduced_costs = program.matrix.minus_combination(
        [c * denominator for c in program.costs], duals
    )
    for j, reduced_cost in enumerate(reduced_costs):
        if reduced_cost:
            bound = program.lower[j] if reduced_cost > 0 else program.upper[j]
            if bound is None or values.numerators[j] != bound * values.denominator:
                raise NotSolved(f"column {j} could improve the objective")


class Residuals(NamedTuple):
    """A program around a point, under duals: what is left of its bounds and of its costs.

    Attributes:
        program: Not scaled up: bounds less the point, reduced costs for costs, behind the columns
            one for each of `slack_rows`. Its optimum is the correction of the point and the duals.
        primal: By how much a bound or an equation is missed most; 0 where none is.
        dual: The largest size of a reduced cost whose column has room to improve by it; 0 where
            there is none.
    """

    program: DoubleProgram
    primal: float
    dual: float


class IterativeRefinement:
    """Bases that come nearer and nearer to the exact optimum (Gleixner, Steffy and Wolter 2016).

    Each round solves in doubles for the correction of the point and of the duals: bounds less the
    point are scaled up by `2**primal_shift`, reduced costs by `2**dual_shift`. Rows that are no
    equations get a column more, which has their activity: so the point has their values, and its
    reduced costs have their duals.

    Attributes:
        point: By column, whole numbers over 2 to the power of PRECISION_BITS.
        duals: The same by row, minimised.
        slack_rows: The rows that are no equations, whose columns stand behind the others.
        primal_shift: The exponent of the power of two by which residuals of the point were scaled
            up last; 0 before the first round.
        dual_shift: The same of the duals.
        basis: Of the last round, by the program's own columns and rows.
        rounds: How many found an optimum.
    """

    def __init__(self, program: IntegerProgram, clp: Clp, deadline: Deadline) -> None:
        """
        Args:
            clp: The relaxation of the program, solved to its optimum in doubles: the first point,
                duals and basis are its own.
            deadline: Of the solve in each round.
        """
        self.program = program
        self.deadline = deadline
        self.point = [_fixed_point(v) for v in clp.values()]
        self.duals = [_fixed_point(v) for v in clp.duals()]
        bounds = zip(program.row_lower, program.row_upper)
        self.slack_rows = [
            i for i, (lower, upper) in enumerate(bounds) if lower is None or lower != upper
        ]
        self.primal_shift = 0
        self.dual_shift = 0
        self.basis = clp.basis()
        self.rounds = 0

    def bases(self) -> Iterator[NearBasis]:
        """The basis of each of ROUNDS rounds, as long as CLP finds an optimum.

        A round sets both shifts, adds CLP's corrections to `point` and `duals`, and sets `basis`.
        The caller asks for no more once a basis is exactly optimal.

        Raises:
            TimeOver: Before a round: the time of exact work is over.
        """
        for _ in range(ROUNDS):
            check_work()
            residuals = self._residuals()
            self.primal_shift = _next_shift(self.primal_shift, residuals.primal)
            self.dual_shift = _next_shift(self.dual_shift, residuals.dual)
            clp = Clp(self._scaled_up(residuals.program))
            clp.limit(self.deadline)
            clp.set_tolerance(TOLERANCE)
            self._warm_start(clp)
            if clp.solve_by_either() is not LpStatus.OPTIMAL:
                return
            self.point = _corrected(self.point, clp.values(), self.primal_shift)
            self.duals = _corrected(self.duals, clp.duals(), self.dual_shift)
            self.basis = self._basis_of(clp)
            self.rounds += 1
            yield NearBasis(self.basis, [v / (1 << PRECISION_BITS) for v in self.point])

    def _warm_start(self, clp: Clp) -> None:
        """The next solve of this round's program begins from `basis`.

        A row that is no equation is never basic here, as its activity less its column is 0; that
        column is basic where the row was. Values count from the point, so that a column which is
        not basic stands at the bound that is nearest to 0.
        """
        n = self.program.n
        rows = set(self.basis.rows)
        slacks = [n + k for k, i in enumerate(self.slack_rows) if i not in rows]
        basis = Basis([*self.basis.columns, *slacks], list(rows.union(self.slack_rows)))
        clp.warm_start(basis, [0.0] * clp.n)

    def _basis_of(self, clp: Clp) -> Basis:
        """CLP's basis in terms of the program: a row of `slack_rows` is basic where its column is.

        As in `Basis`, its columns are those that are basic, and its rows those that are not.

        Args:
            clp: The program of a round, solved.
        """
        n = self.program.n
        columns, rows = clp.basis()
        basic_rows = {self.slack_rows[j - n] for j in columns if j >= n}
        return Basis([j for j in columns if j < n], [i for i in rows if i not in basic_rows])

    def _residuals(self) -> Residuals:
        """What is left of bounds and costs at the present point and duals.

        Exact differences, rounded to doubles and not scaled up yet; the columns of `slack_rows`
        stand behind the others. Made once a round, before its shifts are chosen.
        """
        program = self.program
        lower = [self._distance(bound, v) for bound, v in zip(program.lower, self.point)]
        upper = [self._distance(bound, v) for bound, v in zip(program.upper, self.point)]
        activities = program.matrix.activities(self.point)
        row_lower = self._row_distances(program.row_lower, activities)
        row_upper = self._row_distances(program.row_upper, activities)
        lower += [row_lower[i] for i in self.slack_rows]
        upper += [row_upper[i] for i in self.slack_rows]
        missed = max(_column_residual(lower, upper), _equation_residual(row_lower, row_upper))
        for i in self.slack_rows:  # less its column's value the activity is 0
            row_lower[i] = row_upper[i] = 0.0
        costs = self._reduced_costs()
        columns = program.columns.with_units((i, -1.0) for i in self.slack_rows)
        residual = DoubleProgram(lower, upper, costs, row_lower, row_upper, columns)
        return Residuals(residual, missed, _dual_residual(lower, upper, costs))

    def _distance(self, bound: Bound, value: int) -> DoubleBound:
        """A column's bound less its value, in doubles; None where there is no bound.

        Args:
            bound: Over `bound_scale`.
            value: Over 2 to the power of PRECISION_BITS.
        """
        scale = self.program.bound_scale
        return _difference(bound, value * scale, scale)

    def _row_distances(
        self, bounds: Sequence[Bound], activities: Sequence[int]
    ) -> List[DoubleBound]:
        """By row its bound less its activity, in doubles; None where there is no bound.

        Args:
            bounds: Of one side, over `bound_scale`.
            activities: At the point, over `row_scale` and 2 to the power of PRECISION_BITS.
        """
        scale, row_scale = self.program.bound_scale, self.program.row_scale
        return [
            None if bound is None else _difference(bound * row_scale, v * scale, scale * row_scale)
            for bound, v in zip(bounds, activities)
        ]

    def _reduced_costs(self) -> List[float]:
        """By column its reduced cost `c - y A` under `duals`, exact before it is rounded.

        Behind them stand the duals of `slack_rows`: a slack column costs nothing and has the
        coefficient -1 in its row.
        """
        program, one = self.program, 1 << PRECISION_BITS
        costs = [c * program.row_scale * one for c in program.costs]
        duals = dict(enumerate(self.duals))
        reduced = program.matrix.minus_combination(costs, duals, program.cost_scale)
        scale = program.row_scale * program.cost_scale << PRECISION_BITS
        return [r / scale for r in reduced] + [self.duals[i] / one for i in self.slack_rows]

    def _scaled_up(self, residual: DoubleProgram) -> DoubleProgram:
        """The program that a round gives to CLP: bounds and costs scaled up by this round's shifts.

        Bounds larger than INFINITE_BOUND fall away, and costs are cut off at LARGEST_COST.
        """
        primal, dual = 2.0**self.primal_shift, 2.0**self.dual_shift

        def scaled(bounds: Sequence[DoubleBound]) -> List[DoubleBound]:
            """Times the shift of the point; None where there is no bound, or it is too large."""
            return [
                None if v is None or abs(v) > INFINITE_BOUND / primal else v * primal
                for v in bounds
            ]

        return DoubleProgram(
            scaled(residual.lower),
            scaled(residual.upper),
            [max(-LARGEST_COST, min(c * dual, LARGEST_COST)) for c in residual.costs],
            scaled(residual.row_lower),
            scaled(residual.row_upper),
            residual.columns,
        )


def _column_residual(lower: Sequence[DoubleBound], upper: Sequence[DoubleBound]) -> float:
    """By how much a column misses a bound most; 0 where none does.

    Args:
        lower: Bounds less the column's value: above 0 where the bound is missed.
        upper: The same: below 0 where the bound is missed.
    """
    return max([0.0, *filter(None, lower), *(-v for v in filter(None, upper))])


def _equation_residual(lower: Sequence[DoubleBound], upper: Sequence[DoubleBound]) -> float:
    """By how much an equation is missed most; 0 where there is none.

    What other rows miss is seen at their columns.

    Args:
        lower: By row its bound less its activity.
        upper: The same.
    """
    equal = (low for low, high in zip(lower, upper) if low is not None and low == high)
    return max((abs(v) for v in equal), default=0.0)


def _dual_residual(
    lower: Sequence[DoubleBound], upper: Sequence[DoubleBound], costs: Sequence[float]
) -> float:
    """The largest size of a reduced cost whose column has room to improve the objective; else 0.

    A column with a cost above 0 wants to fall, another one to rise. It has room where the bound on
    that side is none, or is more than FREE_DISTANCE away.

    Args:
        lower: Bounds less the column's value, not scaled up.
        upper: The same.
        costs: Reduced costs, minimised.
    """
    found = 0.0
    for cost, low, high in zip(costs, lower, upper):
        bound = low if cost > 0 else high
        if cost and (bound is None or abs(bound) > FREE_DISTANCE):
            found = max(found, abs(cost))
    return found


def _fixed_point(value: float, shift: int = 0) -> int:
    """`value / 2**shift`, as a whole number over 2 to the power of PRECISION_BITS.

    It is exact but for what lies below the last binary place, which is rounded down. The shift is
    at most PRECISION_BITS.
    """
    numerator, denominator = value.as_integer_ratio()
    return (numerator << PRECISION_BITS - shift) // denominator


def _corrected(values: Sequence[int], corrections: Sequence[float], shift: int) -> List[int]:
    """The values and corrections of a round: `value + correction / 2**shift`.

    Args:
        values: Over 2 to the power of PRECISION_BITS, as the answer is.
        corrections: As CLP has them, scaled up by `2**shift`. Those behind the values, which are
            of slack columns, are left out.
    """
    return [v + _fixed_point(correction, shift) for v, correction in zip(values, corrections)]


def _difference(bound: Bound, value: int, scale: int) -> DoubleBound:
    """`bound / scale - value / (scale * 2**PRECISION_BITS)`, exact but for the last rounding.

    None where there is no bound.
    """
    if bound is None:
        return None
    return ((bound << PRECISION_BITS) - value) / (scale << PRECISION_BITS)


def _next_shift(shift: int, residual: float) -> int:
    """The exponent of the power of two that brings a residual to about 1, for the next round.

    It is at least 0, and at most SHIFT_STEP above that of the round before (`shift`), and
    LARGEST_SHIFT; a residual below LEAST_RESIDUAL gets the most.
    """
    most = min(shift + SHIFT_STEP, LARGEST_SHIFT)
    if residual < LEAST_RESIDUAL:
        return most
    return max(0, min(-math.frexp(residual)[1], most))
