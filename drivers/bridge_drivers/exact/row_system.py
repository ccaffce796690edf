"""Rows and bounds over unknowns: what the points of a linear program satisfy, and what its duals do.

The duals of a program satisfy a system of the same form, turned: an unknown for each row, whose
sign says on which bound of the row it rests, and a row for each column, whose reduced cost must
have the sign of a bound that the column has. So one way to round a solution serves points and
duals (`inside_direction`, `peeling_order`, `shared_remainders`).
"""

from __future__ import annotations

from fractions import Fraction
from typing import List, NamedTuple, Optional, Sequence

from ..model.integer_form import Bounds, IntegerProgram
from ..model.sparse_rows import SparseRows

BASE_BITS = 400  # binary places of a solution that short numbers are made of


class RowSystem(NamedTuple):
    """What unknowns must satisfy: bounds of rows over them, and their own bounds.

    Attributes:
        matrix: By row its coefficients, over `coefficient_scale`.
        coefficient_scale: Above 0.
        lower: By unknown, over `side_scale`; None: there is no such bound.
        upper: The same from above.
        row_lower: By row, over `side_scale`; None: there is no such bound.
        row_upper: The same from above.
        side_scale: Above 0.
    """

    matrix: SparseRows
    coefficient_scale: int
    lower: Bounds
    upper: Bounds
    row_lower: Bounds
    row_upper: Bounds
    side_scale: int

    def activities(self, base: Sequence[int]) -> List[int]:
        """By row its activity, over `coefficient_scale` and 2 to the power of BASE_BITS.

        Args:
            base: By unknown, over 2 to the power of BASE_BITS.
        """
        return self.matrix.activities(base)

    def is_equation(self, row: int) -> bool:
        lower = self.row_lower[row]
        return lower is not None and lower == self.row_upper[row]


def system_of_points(program: IntegerProgram) -> RowSystem:
    """What the points of the relaxation satisfy; unknowns are columns."""
    return RowSystem(
        program.matrix,
        program.row_scale,
        program.lower,
        program.upper,
        program.row_lower,
        program.row_upper,
        program.bound_scale,
    )


def system_of_duals(program: IntegerProgram) -> RowSystem:
    """What the duals of the relaxation satisfy, minimised; unknowns are rows.

    A dual above 0 rests on the lower bound of its row, one below 0 on the upper one. A column with
    a lower bound alone needs a reduced cost c - y A of at least 0, one with an upper bound alone of
    at most 0, a free one of 0; one with both takes any (weak duality, `dual_bound`).
    """
    row_lower: Bounds = []
    row_upper: Bounds = []
    for cost, lower, upper in zip(program.costs, program.lower, program.upper):
        row_lower.append(cost if lower is None else None)
        row_upper.append(cost if upper is None else None)
    return RowSystem(
        SparseRows.of_lists(program.m, program.by_column),
        program.row_scale,
        [None if upper is not None else 0 for upper in program.row_upper],
        [None if lower is not None else 0 for lower in program.row_lower],
        row_lower,
        row_upper,
        program.cost_scale,
    )


def fixed_point(value: float | Fraction) -> int:
    """A number as a whole one over 2 to the power of BASE_BITS, rounded down."""
    numerator, denominator = value.as_integer_ratio()
    return (numerator << BASE_BITS) // denominator


def difference(side: int, scale: int, value: int, value_scale: int) -> float:
    """`side / scale - value / (value_scale * 2**BASE_BITS)`, exact but for the last rounding."""
    return ((side * value_scale << BASE_BITS) - value * scale) / (scale * value_scale << BASE_BITS)


def is_met(side: Optional[int], scale: int, value: int, value_scale: int, near: float) -> bool:
    """Whether a value is at a bound, within the share `near` of the bound's size, or of 1.

    Args:
        side: Over `scale`; None: there is no such bound, which is never met.
        value: Over `value_scale` and 2 to the power of BASE_BITS.
    """
    if side is None:
        return False
    apart = difference(side, scale, value, value_scale)
    return abs(apart) <= near * max(1.0, abs(side / scale))
