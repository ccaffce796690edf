"""A solution in few decimals that meets the exact rows of a direction exactly.

The solution is moved a step along the direction and rounded to decimals. Then the exact rows are
taken in the order in which each has unknowns of its own (`peeling_order`), and what is left of each
is shared among these: most of it by the least norm, rounded, and the last of it by one pair of
unknowns whose coefficients have no common factor (Bezout's identity), so that no digit is added and
no unknown moves far. A row with one unknown of its own divides by its coefficient.

Where such a division would leave a fraction, unknowns that are solved before it can be rounded to
multiples of the divisor (`PeelingOrder.grid`).
"""

from __future__ import annotations

from dataclasses import dataclass, field
from fractions import Fraction
from math import gcd, lcm
from typing import Dict, List, NamedTuple, Optional, Sequence, Tuple

from ..formats.numbers import LARGEST_INTEGER
from ..system.deadline import Deadline
from .inside_direction import InsideDirection
from .peeling_order import PeelingOrder, Step, without_twos_and_fives
from .row_system import BASE_BITS
from .work_limit import check_work

DIRECTION_BITS = 80  # binary places of a direction
FIRSTS_OF_PAIRS = 5  # of own unknowns, by the size of their coefficients
PARTNERS_OF_PAIRS = 12
ROUNDS = 20  # of the least norm
STEPS_BETWEEN_CHECKS = 16  # of the time
Coefficients = List[Tuple[int, int]]  # unknowns with their coefficients, the smallest first
Moves = Dict[int, int]  # by unknown, in whole units


class Rounding(NamedTuple):
    """How a solution is rounded.

    Attributes:
        places: Decimals.
        step_places: The step along the direction is 10 to the power of minus this.
        most_grid: Of `PeelingOrder.grid`.
        shares: Whether remainders are shared; else one unknown of each row takes all.
    """

    places: int
    step_places: int
    most_grid: int = 1
    shares: bool = True


@dataclass
class RoundedSolution:
    """Values that meet the exact rows; whether they meet all others is not known yet.

    Attributes:
        numerators: By unknown, over `unit`.
        unit: Above 0.
        others: By unknown whose value is no whole number over `unit`: its value. What stands in
            `numerators` is then 0.
    """

    numerators: List[int]
    unit: int
    others: Dict[int, Fraction] = field(default_factory=dict)

    def fractions(self) -> List[Fraction]:
        """The values by unknown."""
        known = {v: Fraction(v, self.unit) for v in set(self.numerators)}
        found = [known[v] for v in self.numerators]
        for j, value in self.others.items():
            found[j] = value
        return found


class Rounder:
    """Rounds one solution along one direction, in any digits.

    Args:
        base: By unknown, over 2 to the power of BASE_BITS.
        order: Of the exact rows of `inside`.
        deadline: Of all that is rounded.
    """

    def __init__(
        self,
        base: Sequence[int],
        inside: InsideDirection,
        order: PeelingOrder,
        deadline: Deadline,
    ) -> None:
        self.base = base
        self.deadline = deadline
        self.fixed = inside.fixed
        self.order = order
        self.movable = [j for j in range(len(base)) if j not in inside.fixed]
        scale = 1 << DIRECTION_BITS
        self.direction = {j: int(v * scale) for j, v in enumerate(inside.direction) if v}
        self.fixed_unit = lcm(1, *{value.denominator for value in inside.fixed.values()})

    def rounded(self, rounding: Rounding) -> Optional[RoundedSolution]:
        """The solution that a rounding gives.

        Returns:
            None where a certificate can hold one of its numbers no more, or the time is over.
        """
        check_work()
        solution = self._placed(rounding)
        for count, step in enumerate(self.order.steps):
            if not self._solve(step, solution, rounding):
                return None
            if count % STEPS_BETWEEN_CHECKS == 0 and self.deadline.is_over():
                return None
        return solution

    def _placed(self, rounding: Rounding) -> RoundedSolution:
        """The moved solution in decimals, rounded to the nearest; no row is looked at yet."""
        ten = 10**rounding.places
        unit = lcm(ten, self.fixed_unit)
        grid = self.order.grid(rounding.most_grid)
        numerators = [0] * len(self.base)
        for j, bound in self.fixed.items():
            numerators[j] = bound.numerator * (unit // bound.denominator)
        moved_by = 10 ** max(rounding.places - rounding.step_places, 0) << (
            BASE_BITS - DIRECTION_BITS
        )
        half = 1 << (BASE_BITS - 1)
        share = unit // ten
        for j in self.movable:
            value = self.base[j] * ten
            if j in self.direction:
                value += self.direction[j] * moved_by
            size = grid.get(j, 1)
            if size == 1:
                numerators[j] = ((value + half) >> BASE_BITS) * share
            else:
                numerators[j] = ((value // size + half) >> BASE_BITS) * size * share
        return RoundedSolution(numerators, unit)

    def _solve(self, step: Step, solution: RoundedSolution, rounding: Rounding) -> bool:
        """Meets one row by unknowns of its own; False where a value becomes too wide."""
        numerator, denominator = _remainder(step, solution)
        if not numerator:
            return True
        ten = 10**rounding.places
        common = gcd(numerator * ten, denominator)
        total, rest = numerator * ten // common, denominator // common
        if len(step.own) > 1 and rounding.shares:
            grid = self.order.grid(rounding.most_grid)
            pairs = [(j, step.coefficients[j] * grid.get(j, 1)) for j in step.own]
            factor = gcd(*(a for _, a in pairs))
            divisor = factor // gcd(factor, total)
            moves = shared(pairs, total * divisor)
            if moves is not None:
                unit = ten * rest * divisor
                return all(
                    _move(solution, j, k * grid.get(j, 1), unit) for j, k in moves.items() if k
                )
        j = min(step.own, key=lambda j: _cost_of_division(step.coefficients[j]))
        a = step.coefficients[j]
        return _move(solution, j, numerator if a > 0 else -numerator, denominator * abs(a))


def _cost_of_division(coefficient: int) -> Tuple[bool, int]:
    """What a division costs: another denominator than decimals have, then the size."""
    return without_twos_and_fives(coefficient) != 1, abs(coefficient)


def _remainder(step: Step, solution: RoundedSolution) -> Tuple[int, int]:
    """What is left of a row at a solution, its side less its activity: numerator and denominator,
    which is above 0, not in lowest terms."""
    numerators = solution.numerators
    others = solution.others
    unit = solution.unit
    left = -sum([a * numerators[j] for j, a in step.coefficients.items()])
    side = step.side
    if unit % side.denominator == 0:
        left += side.numerator * (unit // side.denominator)
    else:
        left, unit = left * side.denominator + side.numerator * unit, unit * side.denominator
    used = [(a, others[j]) for j, a in step.coefficients.items() if j in others] if others else []
    if used:
        common = lcm(*{v.denominator for _, v in used})
        total = sum([a * v.numerator * (common // v.denominator) for a, v in used])
        left, unit = left * common - total * unit, unit * common
    return left, unit


def _move(solution: RoundedSolution, unknown: int, numerator: int, denominator: int) -> bool:
    """Adds a fraction to one value; False where a certificate can hold it no more.

    Args:
        denominator: Above 0; the fraction need not be in lowest terms.
    """
    unit = solution.unit
    if unknown not in solution.others:
        common = gcd(numerator, denominator)
        if unit % (denominator // common) == 0:
            by = numerator // common * (unit // (denominator // common))
            solution.numerators[unknown] += by
            return abs(solution.numerators[unknown]) // unit <= LARGEST_INTEGER
        value = Fraction(solution.numerators[unknown], unit)
    else:
        value = solution.others.pop(unknown)
    value += Fraction(numerator, denominator)
    solution.numerators[unknown] = 0
    if unit % value.denominator == 0:
        solution.numerators[unknown] = value.numerator * (unit // value.denominator)
    else:
        solution.others[unknown] = value
    return abs(value.numerator) <= LARGEST_INTEGER and value.denominator <= LARGEST_INTEGER


def shared(pairs: Coefficients, total: int) -> Optional[Moves]:
    """Small whole k_j with the sum of a_j k_j = total.

    First the least norm, rounded, as often as that moves anything; then one pair of unknowns, or
    the extended algorithm of Euclid over several.

    Args:
        pairs: Unknowns j with their coefficients a_j, none of which is 0.

    Returns:
        None where the common factor of the coefficients does not divide the total.
    """
    pairs = sorted(pairs, key=lambda pair: abs(pair[1]))
    found: Moves = {}
    for _ in range(ROUNDS):
        first = _least_norm(pairs, total)
        if not any(first.values()):
            break
        total -= sum(a * first[j] for j, a in pairs)
        _add_moves(found, first)
    if not total:
        return found
    last = _by_one(pairs[0], total) or _by_pair(pairs, total) or _by_euclid(pairs, total)
    if last is None:
        return None
    _add_moves(found, last)
    return found


def _least_norm(pairs: Coefficients, total: int) -> Moves:
    """The solution of the least norm, rounded to whole numbers."""
    size = sum(a * a for _, a in pairs)
    return {j: (2 * total * a + size) // (2 * size) for j, a in pairs}


def _add_moves(found: Moves, more: Moves) -> None:
    """Adds moves to moves."""
    for j, k in more.items():
        found[j] = found.get(j, 0) + k


def _by_one(pair: Tuple[int, int], total: int) -> Optional[Moves]:
    """By one unknown alone, where its coefficient divides the total."""
    unknown, a = pair
    return None if total % a else {unknown: total // a}


def _by_pair(pairs: Coefficients, total: int) -> Optional[Moves]:
    """By the pair of unknowns that moves least (Bezout); None where none does."""
    best: Optional[Tuple[int, Moves]] = None
    for x, (j, a) in enumerate(pairs[:FIRSTS_OF_PAIRS]):
        for k, b in pairs[x + 1 : PARTNERS_OF_PAIRS]:
            common = gcd(a, b)
            if total % common:
                continue
            modulus = abs(a) // common
            near = total * b // (a * a + b * b)  # of the least norm
            second = near
            if modulus > 1:
                second = total // common * pow(b // common, -1, modulus) % modulus
                second += (2 * (near - second) + modulus) // (2 * modulus) * modulus
            first = (total - b * second) // a
            size = max(abs(first), abs(second))
            if best is None or size < best[0]:
                best = size, {j: first, k: second}
    return None if best is None else best[1]


def _by_euclid(pairs: Coefficients, total: int) -> Optional[Moves]:
    """By as many unknowns as it takes; None where the common factor of all does not do."""
    (unknown, common), *rest = pairs
    found: Moves = {unknown: 1}
    for j, a in rest:
        divisor, u, w = _extended_gcd(common, a)
        found = {k: v * u for k, v in found.items()}
        found[j] = w
        common = divisor
        if total % common == 0:
            return {k: v * (total // common) for k, v in found.items() if v}
    return None


def _extended_gcd(a: int, b: int) -> Tuple[int, int, int]:
    """A common divisor g of both, of either sign, that is greatest in size, and u, w with
    u a + w b = g."""
    first = (a, 1, 0)
    second = (b, 0, 1)
    while second[0]:
        quotient = first[0] // second[0]
        rest = [x - quotient * y for x, y in zip(first, second)]
        first, second = second, (rest[0], rest[1], rest[2])
    return first
