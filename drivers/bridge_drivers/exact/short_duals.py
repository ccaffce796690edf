"""Duals in few decimals, of linear programs whose exact optimum has numbers that are too long.

Duals satisfy a system of rows and bounds, too: that of the program turned (`row_system`). So they
are rounded as points are (`short_solutions`), and judged by the bound that they give. Where there
is no time for that, doubles are rounded as they are (`rounded_duals`). The certifiers put the
bounds of what comes out, `ShortDuals`, to what is known; `box_bound` and `rounded_bound` serve
bounds of all kinds.
"""

from __future__ import annotations

import math
from fractions import Fraction
from math import lcm
from typing import List, Mapping, NamedTuple, Optional, Sequence

from ..model.integer_form import Box, IntegerProgram
from ..system.deadline import Deadline
from .dual_bound import (
    DualBound,
    MultiplierKind,
    Multipliers,
    dual_bound,
    fits_certificate,
    needed_column_bound,
    needed_row_bound,
)
from .inside_direction import InsideDirection
from .leaf_proofs import from_fractions, repaired_bound, rounded
from .row_system import BASE_BITS, system_of_duals
from .shared_remainders import RoundedSolution
from .short_solutions import Judged, ShortSolutions, Trial
from .sum_width import leaf_sums_fit
from .work_limit import check_work

DECIMAL_DIGITS = (8, 10, 12)  # beyond the first of the largest dual
DIGITS_OF_BOUND = 12
ZERO_REDUCED_COST = 1e-9  # up to this size one counts as 0
MOST_COMMON_BITS = 4000  # of a common denominator of duals that fit
NO_MULTIPLIERS = Multipliers({}, 1, MultiplierKind.DUAL)  # the leaf that rests on bounds alone


class ShortDuals(NamedTuple):
    """Duals, and their bound in the program's own box, which is finite."""

    multipliers: Multipliers
    bound: DualBound

    @property
    def value(self) -> Fraction:
        """What the objective is at least, minimised, with its constant."""
        return self.bound.value


def short_duals(
    program: IntegerProgram,
    base: Sequence[int],
    value: Fraction,
    near: float,
    deadline: Deadline,
) -> Optional[ShortDuals]:
    """Duals in few decimals near those of an optimum, whose bound is finite.

    Called where no basis is exactly optimal in narrow numbers, and for the root bound of an integer
    program.

    Args:
        program: Its integer marks are not looked at.
        base: The duals by row, minimised, over 2 to the power of BASE_BITS
            (`short_points.fixed_points`). They need not be exact.
        value: Of the optimum, minimised, with the constant.
        near: As of `short_points.short_point`, for reduced costs.
        deadline: Of the search.

    Returns:
        The first whose bound is near enough, else the best; None where there is none.

    Raises:
        TimeOver: The time of all exact work is over.
    """
    judge = _DualJudge(program, base, value)
    found = ShortSolutions(
        system_of_duals(program), base, near, judge.judged, judge.rate, deadline
    ).find()
    return None if found is None else found.solution


class _DualJudge:
    """Says exactly which bound rounded duals give."""

    def __init__(self, program: IntegerProgram, base: Sequence[int], value: Fraction) -> None:
        self.program = program
        self.base = base
        self.box = Box(program.lower, program.upper)
        self.value = value
        self.size = max(Fraction(1), abs(value))

    def rate(self, inside: InsideDirection) -> float:
        """By how much the bound changes along a direction, as a share of its size, or of 1.

        The first order of the rule of weak duality: what reduced costs rest on stays, and those
        that are 0 rest on what the direction makes of them.
        """
        program = self.program
        changed = 0.0
        for i, v in enumerate(inside.direction):
            if v:
                side = needed_row_bound(program, i, self.base[i] or v)
                changed += v * (program.bound_as_double(side) or 0.0)
        for j in range(program.n):
            changed += self._change_of_column(j, inside.direction)
        return abs(changed) / float(self.size)

    def _change_of_column(self, column: int, direction: Sequence[float]) -> float:
        """What the reduced cost of a column changes in the bound along a direction."""
        program = self.program
        entries = program.by_column[column]
        slope = -sum(a * direction[i] for i, a in entries) / program.row_scale
        if not slope:
            return 0.0
        one = float(1 << BASE_BITS)
        reduced = program.costs[column] / program.cost_scale
        reduced -= sum(a * (self.base[i] / one) for i, a in entries) / program.row_scale
        sign = reduced if abs(reduced) > ZERO_REDUCED_COST else slope
        return slope * (program.bound_as_double(needed_column_bound(self.box, column, sign)) or 0.0)

    def judged(self, solution: RoundedSolution) -> Judged[ShortDuals] | Trial:
        """The duals, if their bound is finite."""
        values = {i: v for i, v in enumerate(solution.fractions()) if v}
        common = lcm(1, *{v.denominator for v in values.values()})
        fits = all(map(fits_certificate, values.values()))
        if not fits or common.bit_length() > MOST_COMMON_BITS:
            return Trial(is_wide=True)
        duals = from_fractions(self.program, values, MultiplierKind.DUAL)
        if len(duals.numerators) < len(values):  # one lacks the bound that its sign needs
            return Trial(is_wide=False)
        bound = dual_bound(self.program, duals, self.box)
        if not bound.is_finite:
            return Trial(is_wide=False)
        if not leaf_sums_fit(self.program, duals, bound, self.box):
            return Trial(is_wide=True)
        gap = float((self.value - bound.value) / self.size)
        return Judged(abs(gap), ShortDuals(duals, bound))


def rounded_duals(program: IntegerProgram, duals: Mapping[int, float]) -> List[ShortDuals]:
    """Roundings of duals whose bound is finite, in the program's own box: of few digits first.

    For the last moment, and for large programs, where no direction is looked for.

    Args:
        duals: By row, minimised; rows that are not named have 0.
    """
    found = []
    box = Box(program.lower, program.upper)
    nonzero = {i: v for i, v in duals.items() if v}
    largest = max((abs(v) for v in nonzero.values()), default=1.0)
    first_digit = -math.floor(math.log10(largest))
    for places in DECIMAL_DIGITS:
        check_work()
        given = rounded(program, nonzero, first_digit + places, MultiplierKind.DUAL)
        repaired, bound = repaired_bound(program, given, box)
        if bound.is_finite:
            found.append(ShortDuals(repaired, bound))
    return found


def box_bound(program: IntegerProgram) -> Optional[Fraction]:
    """What the objective is at least within bounds of columns alone, minimised, with its constant;
    None where that is nothing."""
    bound = dual_bound(program, NO_MULTIPLIERS, Box(program.lower, program.upper))
    return bound.value if bound.is_finite else None


def rounded_bound(program: IntegerProgram, bound: Fraction) -> Fraction:
    """A bound in few digits, a little worse, so that a certificate can hold it; not worse than what
    `box_bound` says, unless the given one is. For bounds that are told and have too many digits.

    Args:
        bound: Minimised, with the constant.
    """
    first_digit = math.floor(math.log10(max(1, int(abs(bound)))))  # of any size: no double
    step = Fraction(10) ** (first_digit - DIGITS_OF_BOUND)
    least = box_bound(program)
    short = math.floor(bound / step) * step
    return short if least is None or least > bound else max(short, least)
