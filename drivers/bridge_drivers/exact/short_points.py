"""Points in few decimals, of linear programs whose exact optimum has numbers that are too long.

`short_solutions` says how they are found. Here is what a point must satisfy: the rows and bounds of
the program, and that the judge can add up its rows and its objective.
"""

from __future__ import annotations

from fractions import Fraction
from math import lcm
from typing import NamedTuple, Optional, Sequence, Union

from ..formats.numbers import LARGEST_INTEGER
from ..model.integer_form import IntegerProgram, Point, over_common_denominator
from ..system.deadline import Deadline
from .dual_bound import fits_certificate
from .inside_direction import InsideDirection
from .row_system import BASE_BITS, fixed_point, system_of_points
from .shared_remainders import RoundedSolution
from .short_solutions import Judged, ShortSolutions, Trial
from .sum_width import point_sums_fit

NEAR_OF_DOUBLES = 1e-9  # of a bound's size, or of 1: within it doubles count as at the bound
NEAR_OF_EXACT = 1e-15  # the same of a point that is exact, or refined
MOST_COMMON_BITS = 4000  # of a common denominator of a point whose numbers fit
Number = Union[float, Fraction]


class ShortPoint(NamedTuple):
    """A feasible point, by column and exact, whose numbers and sums fit a certificate.

    Attributes:
        value: The objective there, minimised, with its constant.
    """

    point: Point
    value: Fraction


def fixed_points(values: Sequence[Number]) -> list[int]:
    """Numbers as `short_point` takes them: over 2 to the power of BASE_BITS."""
    return list(map(fixed_point, values))


def short_point(
    program: IntegerProgram, base: Sequence[int], near: float, deadline: Deadline
) -> Optional[ShortPoint]:
    """A feasible point in few decimals near an optimum of the relaxation.

    Args:
        program: Its integer marks are not looked at: fix the columns that are to stay whole.
        base: The optimum by column, over 2 to the power of BASE_BITS (`fixed_points`). It need not
            be exact: what counts is which rows and bounds it meets.
        near: NEAR_OF_DOUBLES, or NEAR_OF_EXACT.
        deadline: Of the search.

    Returns:
        The first whose value is near enough, else the best; None where there is none.

    Raises:
        TimeOver: The time of all exact work is over.
    """
    judge = _PointJudge(program, base)
    found = ShortSolutions(
        system_of_points(program), base, near, judge.judged, judge.rate, deadline
    ).find()
    return None if found is None else found.solution


class _PointJudge:
    """Says exactly whether rounded points are feasible, and how near they are."""

    def __init__(self, program: IntegerProgram, base: Sequence[int]) -> None:
        self.program = program
        costs = sum([c * v for c, v in zip(program.costs, base) if c])
        self.value = program.constant_fraction + Fraction(costs, program.cost_scale << BASE_BITS)
        self.size = max(Fraction(1), abs(self.value))

    def rate(self, inside: InsideDirection) -> float:
        """By how much the objective changes along a direction, as a share of its size, or of 1."""
        moved = sum(
            float(c) * v for c, v in zip(self.program.cost_fractions, inside.direction) if c and v
        )
        return abs(moved) / float(self.size)

    def judged(self, solution: RoundedSolution) -> Judged[ShortPoint] | Trial:
        """The point, if it holds."""
        program = self.program
        if not _numbers_fit(solution):
            return Trial(is_wide=True)
        others = solution.others
        common = lcm(solution.unit, *{v.denominator for v in others.values()})
        if common.bit_length() > MOST_COMMON_BITS:
            return Trial(is_wide=True)
        factor = common // solution.unit
        numerators = [v * factor for v in solution.numerators]
        for j, value in others.items():
            numerators[j] = value.numerator * (common // value.denominator)
        values = [v * program.bound_scale for v in numerators]
        if any(program.violated_bounds(values, common)):
            return Trial(is_wide=False)
        if any(program.violated_rows(values, common)):
            return Trial(is_wide=False)
        if not point_sums_fit(program, numerators, common):
            return Trial(is_wide=True)
        point = solution.fractions()
        value = program.value(point)
        gap = float(abs(value - self.value) / self.size)
        return Judged(gap, ShortPoint(point, value))


def _numbers_fit(solution: RoundedSolution) -> bool:
    """Whether a certificate can hold each number."""
    most = LARGEST_INTEGER
    if solution.unit <= most and max((abs(v) for v in solution.numerators), default=0) <= most:
        return True
    return all(
        abs(v.numerator) <= most and v.denominator <= most for v in set(solution.fractions())
    )


def point_fits(program: IntegerProgram, point: Point) -> bool:
    """Whether a certificate can hold a point, and the judge add up its rows and its objective."""
    if not all(map(fits_certificate, point)):
        return False
    numerators, common = over_common_denominator(point)
    return point_sums_fit(program, numerators, common)
