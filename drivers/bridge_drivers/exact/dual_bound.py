"""The bound that row multipliers give: exactly, and in doubles rounded to the safe side.

For the program

    minimise  c x + c0   subject to   L <= A x <= U,   l <= x <= u

multipliers `y` of the rows leave the reduced costs `d = c - y A`. By weak duality no feasible point
has less than

    c0 + sum of (y_i L_i if y_i > 0 else y_i U_i) + sum of (d_j l_j if d_j > 0 else d_j u_j).

That is the rule by which `bridge verify` judges a leaf. With the costs 0 a bound above 0 says that
there is no feasible point (Farkas' lemma). `leaf_proofs`, `short_duals` and `evidence` judge what
they find by `dual_bound`; `certifier` asks `is_optimal_in_doubles` where the time is over.
"""

from __future__ import annotations

import enum
import math
from fractions import Fraction
from typing import Dict, Iterable, List, Mapping, NamedTuple, Optional, Sequence

from ..model.integer_form import Bound, Box, IntegerProgram
from ..model.analysis import ROUNDING_OF_A_ROW
from ..formats.numbers import LARGEST_INTEGER

UNIT_ROUNDOFF = 2.0**-53
ZERO_REDUCED_COST = 1e-12  # as a share of the terms of a reduced cost: as much may be rounding
ASSUMED_BOUND = 1e4  # times the value, or 1: where a column without a bound is taken to end
RELATIVE_GAP = 1e-6  # of the objective, of 1, or of the sum of the sizes of its terms
DOUBLES_NOTE = (
    "by doubles: the duals, rounded to the safe side, bound the objective to 1e-6 at a point that "
    "misses nothing"
)


class MultiplierKind(enum.Enum):
    """What multipliers of rows prove. The value is the word of a certificate's leaf."""

    DUAL = "duals"  # a bound of the objective
    FARKAS = "weights"  # that there is no point: the objective counts as 0


class Multipliers(NamedTuple):
    """Multipliers of rows, exact, over one denominator.

    Attributes:
        numerators: By place of a row in the program, those that are not 0. Duals are those of the
            program as it is minimised: one above 0 rests on the lower bound of its row.
        denominator: Above 0.
        kind: What they prove.
    """

    numerators: Dict[int, int]
    denominator: int
    kind: MultiplierKind

    @property
    def is_farkas(self) -> bool:
        return self.kind is MultiplierKind.FARKAS

    def fits_certificate(self) -> bool:
        """Whether the judge can hold each of them, in lowest terms."""
        return all(
            fits_certificate(Fraction(numerator, self.denominator))
            for numerator in self.numerators.values()
        )

    def reduced(self) -> Multipliers:
        """The same multipliers over their least common denominator."""
        common = math.gcd(self.denominator, *self.numerators.values())
        if common == 1:
            return self
        numerators = {row: v // common for row, v in self.numerators.items()}
        return Multipliers(numerators, self.denominator // common, self.kind)


class DualBound(NamedTuple):
    """What multipliers show of one box.

    Attributes:
        numerator: Of the bound, minimised and with the objective's constant, over `denominator`; of
            Farkas multipliers without costs and constant. It means nothing unless `is_finite`.
        denominator: Above 0.
        reduced_costs: By column; times `bound_scale` of the program they are over `denominator`.
        unbounded_columns: Columns without the bound that the sign of their reduced cost needs.
    """

    numerator: int
    denominator: int
    reduced_costs: List[int]
    unbounded_columns: List[int]

    @property
    def is_finite(self) -> bool:
        """Whether the multipliers show anything: each column has the bound that it needs."""
        return not self.unbounded_columns

    @property
    def value(self) -> Fraction:
        """The bound where it is finite: no point of the box has less, minimised."""
        return Fraction(self.numerator, self.denominator)


def fits_certificate(value: Fraction) -> bool:
    """Whether numerator and denominator fit the 127 bits, beside a sign, that the judge has."""
    return abs(value.numerator) <= LARGEST_INTEGER and value.denominator <= LARGEST_INTEGER


def bit_width(values: Iterable[Fraction]) -> int:
    """Bits of the widest numerator or denominator, without signs; 0 where there are no values.

    An object that stands there often is looked at once.
    """
    distinct = {id(value): value for value in values}.values()
    return max((max(abs(v.numerator), v.denominator).bit_length() for v in distinct), default=0)


def needed_row_bound(program: IntegerProgram, row: int, multiplier: float | Fraction) -> Bound:
    """The bound of a row that a multiplier of this sign rests on, over `bound_scale`.

    The lower one where the multiplier is above 0, else the upper; None where the row lacks it.
    """
    return program.row_lower[row] if multiplier > 0 else program.row_upper[row]


def has_needed_bound(program: IntegerProgram, row: int, multiplier: float | Fraction) -> bool:
    """Whether a row has the bound that a multiplier of this sign rests on; 0 needs none."""
    return multiplier == 0 or needed_row_bound(program, row, multiplier) is not None


def needed_column_bound(box: Box, column: int, reduced_cost: float) -> Bound:
    """The bound of a column that a reduced cost of this sign rests on, over `bound_scale`.

    The lower one where the cost is above 0, else the upper; None where the box lacks it.
    """
    return box.lower[column] if reduced_cost > 0 else box.upper[column]


def reduced_cost_term(box: Box, column: int, reduced_cost: int) -> Optional[int]:
    """What a reduced cost adds to a bound; None where the column lacks the bound that it rests on.

    Args:
        reduced_cost: In the units of `DualBound.reduced_costs`; the answer is in those of its
            numerator.
    """
    if not reduced_cost:
        return 0
    end = needed_column_bound(box, column, reduced_cost)
    return None if end is None else reduced_cost * end


def dual_bound(program: IntegerProgram, multipliers: Multipliers, box: Box) -> DualBound:
    """The exact bound of the rule above (weak duality), in whole numbers.

    Args:
        program: Its row bounds must be there where multipliers rest on them.
        multipliers: Of its rows.
        box: Bounds of the columns, over `bound_scale`, in place of the program's own. What stands
            behind the columns is not looked at.

    Returns:
        The bound, minimised. Its denominator is that of the multipliers times `row_scale`,
        `bound_scale` and, but for Farkas multipliers, `cost_scale`.
    """
    common = multipliers.denominator * program.row_scale
    if multipliers.is_farkas:  # the objective counts as 0
        cost_scale = 1
        bound = 0
        costs = [0] * program.n
    else:
        cost_scale = program.cost_scale
        bound = program.constant * common * program.bound_scale
        costs = [cost * common for cost in program.costs]
    for row, numerator in multipliers.numerators.items():
        row_bound = needed_row_bound(program, row, numerator)
        assert row_bound is not None, f"row {row} lacks the bound that its multiplier needs"
        bound += numerator * row_bound * cost_scale * program.row_scale
    reduced_costs = program.matrix.minus_combination(costs, multipliers.numerators, cost_scale)
    unbounded = []
    for column, reduced_cost in enumerate(reduced_costs):
        if reduced_cost:  # most are 0; no call for each, since this is the inner loop of a search
            end = box.lower[column] if reduced_cost > 0 else box.upper[column]
            if end is None:
                unbounded.append(column)
            else:
                bound += reduced_cost * end
    return DualBound(bound, cost_scale * common * program.bound_scale, reduced_costs, unbounded)


def is_optimal_in_doubles(
    program: IntegerProgram, x: Sequence[float], duals: Mapping[int, float]
) -> bool:
    """Whether duals bound the objective at a point that misses nothing but rounding.

    That is where the objective is beyond their bound by at most RELATIVE_GAP of the greatest of 1,
    its size and the sum of the sizes of its terms. The gap counts with what rows are missed by,
    times their duals, and with the most that rounding may have hidden.

    That is no proof: a column without the bound that its reduced cost needs is taken to end far
    beyond its value where that cost is next to nothing. A message that rests on it says so
    (`DOUBLES_NOTE`). `certifier` asks for it where the time is over before a proof.

    Args:
        x: By column; a value that misses a bound by rounding is moved to it first.
        duals: By row, of the program as it is minimised here.
    """
    point = [
        _at_bound(value, program.bound_as_double(lower), program.bound_as_double(upper))
        for value, lower, upper in zip(x, program.lower, program.upper)
    ]
    residuals = row_residuals(program, point)
    if residuals is None:
        return False
    terms = [float(cost) * value for cost, value in zip(program.cost_fractions, point) if cost]
    constant = float(program.constant_fraction)
    size = sum([abs(term) for term in terms]) + abs(constant)
    objective = sum(terms) + constant
    worth_of_residuals = sum(abs(dual) * residuals[row] for row, dual in duals.items())
    rounding = (len(terms) + 2) * UNIT_ROUNDOFF * size
    gap = objective - lower_bound_in_doubles(program, point, duals) + worth_of_residuals + rounding
    return gap <= RELATIVE_GAP * max(1.0, abs(objective), size)


def row_residuals(program: IntegerProgram, x: Sequence[float]) -> Optional[List[float]]:
    """By how much rows are missed at a point, and what doubles leave out of that.

    A row may be missed by ROUNDING_OF_A_ROW of its largest term or bound.

    Args:
        x: By column.

    Returns:
        By row, in its own units, above 0 where it has terms or bounds: what it is missed by and the
        most that rounding may have hidden. None where a column's bound is missed, or a row by more
        than rounding.
    """
    for value, lower, upper in zip(x, program.lower, program.upper):
        if violation(value, program.bound_as_double(lower), program.bound_as_double(upper)):
            return None
    found = []
    for row, lower, upper in zip(program.rows, program.row_lower, program.row_upper):
        terms = [coefficient / program.row_scale * x[column] for column, coefficient in row]
        low, high = program.bound_as_double(lower), program.bound_as_double(upper)
        sizes = [abs(v) for v in (*terms, low or 0.0, high or 0.0)]
        missed = abs(violation(sum(terms), low, high))
        if missed > ROUNDING_OF_A_ROW * max(sizes):
            return None
        found.append(missed + (len(terms) + 3) * UNIT_ROUNDOFF * sum(sizes))
    return found


def violation(value: float, lower: Optional[float], upper: Optional[float]) -> float:
    """How far a value is beyond its bounds, with a sign: below 0 under the lower one, 0 within."""
    if lower is not None and value < lower:
        return value - lower
    if upper is not None and value > upper:
        return value - upper
    return 0.0


def lower_bound_in_doubles(
    program: IntegerProgram, x: Sequence[float], duals: Mapping[int, float]
) -> float:
    """The rule above in doubles, less all that their rounding may have added.

    Each reduced cost is taken at both ends of its own rounding, and counts by the lesser term.

    Args:
        x: By column: one without the bound that its reduced cost rests on, which is next to
            nothing, is taken to end at ASSUMED_BOUND times the size of its value, or of 1.
        duals: By row, minimised; those without the row bound that they rest on count as 0.

    Returns:
        Of the objective, minimised, with its constant; minus infinity where a column without bound
        has a reduced cost.
    """
    reduced_costs = [float(cost) for cost in program.cost_fractions]
    sizes = [abs(cost) for cost in reduced_costs]
    operations = [2] * program.n
    bound = float(program.constant_fraction)
    total_size = abs(bound)
    for row, dual in duals.items():
        end = program.bound_as_double(needed_row_bound(program, row, dual)) if dual else None
        if end is None:
            continue
        bound += dual * end
        total_size += abs(dual * end)
        for column, coefficient in program.rows[row]:
            term = dual * (coefficient / program.row_scale)
            reduced_costs[column] -= term
            sizes[column] += abs(term)
            operations[column] += 1
    box = Box(program.lower, program.upper)
    for column, cost in enumerate(reduced_costs):
        error = operations[column] * UNIT_ROUNDOFF * sizes[column]
        zero = ZERO_REDUCED_COST * sizes[column]
        least = math.inf
        for near in (cost - error, cost + error):
            end = program.bound_as_double(needed_column_bound(box, column, near))
            least = min(least, _least_term(near, end, x[column], zero))
        bound += least
        total_size += abs(least)
    return bound - (program.n + len(duals) + 2) * UNIT_ROUNDOFF * total_size


def _at_bound(value: float, lower: Optional[float], upper: Optional[float]) -> float:
    """The bound that a value misses by no more than rounding, else the value itself.

    Rounding is ROUNDING_OF_A_ROW of the value's size, or of 1.
    """
    missed = violation(value, lower, upper)
    is_rounding = abs(missed) <= ROUNDING_OF_A_ROW * max(1.0, abs(value))
    return value - missed if is_rounding else value


def _least_term(cost: float, end: Optional[float], value: float, zero: float) -> float:
    """The least that a column adds to the objective at this reduced cost, in doubles.

    Args:
        cost: Its reduced cost, with the rounding on one side of it.
        end: The bound that the cost rests on; None where the column has no such bound. Then the
            answer is minus infinity, unless the cost may be rounding alone.
        value: Of the column, which without a bound is taken to end at ASSUMED_BOUND times the size
            of this, or of 1.
        zero: Up to twice this size the cost may be rounding alone.
    """
    if end is not None:
        return cost * end
    if abs(cost) <= 2 * zero:
        return -abs(cost) * ASSUMED_BOUND * max(1.0, abs(value))
    return -math.inf
