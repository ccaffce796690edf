"""Whether all sums of a claim fit the numbers that the judge adds them in.

The proved program holds fractions in lowest terms, numerator and denominator of at most 127 bits
beside a sign. A product fits where it does in lowest terms; a sum where both terms do over their
least common denominator, and the sum of these, too. Running sums are added in the order in which
terms stand in the file. A certificate whose sums do not fit is refused as `too wide`: so it is not
proposed. Nothing rests on this: the judge says what it says.
"""

from __future__ import annotations

from math import gcd
from typing import Iterable, Iterator, List, Optional, Sequence, Tuple

from ..formats.numbers import LARGEST_INTEGER
from ..model.integer_form import Box, IntegerProgram
from .dual_bound import DualBound, Multipliers, needed_column_bound, needed_row_bound
from .work_limit import checked

Ratio = Tuple[int, int]  # numerator and denominator, which is above 0


def running_sum(terms: Iterable[Ratio]) -> Optional[Ratio]:
    """The sum in lowest terms, as the judge adds it; None where it does not fit on the way.

    Args:
        terms: Need not be in lowest terms.
    """
    most = LARGEST_INTEGER
    total, common = 0, 1
    for numerator, denominator in terms:
        divisor = gcd(numerator, denominator)
        numerator, denominator = numerator // divisor, denominator // divisor
        if denominator != common:
            divisor = gcd(common, denominator)
            scale = denominator // divisor
            numerator *= common // divisor
            total *= scale
            common *= scale
        if common > most or abs(numerator) > most or abs(total) > most:
            return None
        total += numerator
        if abs(total) > most:
            return None
        divisor = gcd(total, common)
        total, common = total // divisor, common // divisor
    return total, common


def point_sums_fit(program: IntegerProgram, numerators: Sequence[int], denominator: int) -> bool:
    """Whether the activities of all rows and the objective fit at a point.

    Args:
        numerators: By column, over `denominator`.
    """
    objective: List[Ratio] = [(program.constant, program.cost_scale)]
    scale = program.cost_scale * denominator
    objective += [(c * v, scale) for c, v in zip(program.costs, numerators) if c and v]
    return running_sum(objective) is not None and all(
        running_sum(terms) is not None for terms in _wide_rows(program, numerators, denominator)
    )


def _wide_rows(
    program: IntegerProgram, numerators: Sequence[int], denominator: int
) -> Iterator[Iterator[Ratio]]:
    """The terms of rows at a point whose sums may not fit: over one denominator they do not."""
    scale = program.row_scale * denominator
    norms = program.matrix.weighted_norms([abs(v) for v in numerators])
    most = LARGEST_INTEGER if scale <= LARGEST_INTEGER else -1
    for row, norm in zip(checked(program.rows), norms):
        if norm > most:
            yield ((a * numerators[j], scale) for j, a in row if numerators[j])


def leaf_sums_fit(program: IntegerProgram, leaf: Multipliers, bound: DualBound, box: Box) -> bool:
    """Whether the reduced costs of a leaf and its bound fit.

    Args:
        bound: That of the leaf in the box.
        box: Bounds of columns, over `bound_scale`.
    """
    scale = leaf.denominator * program.row_scale
    for j, cost in enumerate(checked(program.costs)):
        terms: List[Ratio] = [(cost, program.cost_scale)]
        for i, a in program.by_column[j]:
            if i in leaf.numerators:
                terms.append((-a * leaf.numerators[i], scale))
        if running_sum(terms) is None:
            return False
    return running_sum(_terms_of_bound(program, leaf, bound, box)) is not None


def _terms_of_bound(
    program: IntegerProgram, leaf: Multipliers, bound: DualBound, box: Box
) -> Iterator[Ratio]:
    """The constant, what rows add, and what reduced costs do."""
    yield program.constant, program.cost_scale
    for i, v in leaf.numerators.items():
        side = needed_row_bound(program, i, v)
        if side:
            yield v * side, leaf.denominator * program.bound_scale
    reduced_scale = bound.denominator
    for j, cost in enumerate(bound.reduced_costs):
        end = needed_column_bound(box, j, cost) if cost else None
        if end:
            yield cost * end, reduced_scale
