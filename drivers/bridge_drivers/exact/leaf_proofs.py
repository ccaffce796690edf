"""Proofs of the leaves of a tree: multipliers in few digits whose exact bound reaches the cutoff.

CLP's duals are doubles. What stands in a certificate is exact, and is read and judged again: so
short decimals and fractions are tried first. Each candidate is judged by the exact rule of
`dual_bound` before it is kept.

All that proves leaves makes a `LeafProver` for its cutoff: the search, MIR cuts, and the certifiers
for the leaf of a whole program. `basis_duals` and `phase_one_duals` solve for exact duals.
"""

from __future__ import annotations

import math
from fractions import Fraction
from typing import Dict, Iterable, Iterator, List, Mapping, NamedTuple, Optional, Sequence, Tuple

from .linear_systems import Equation, solve_exactly
from .relaxation import row_unit
from ..model.integer_form import Box, IntegerProgram
from .dual_bound import (
    DualBound,
    MultiplierKind,
    Multipliers,
    dual_bound,
    has_needed_bound,
    needed_row_bound,
    reduced_cost_term,
)
from .work_limit import check_work, checked

ZERO_MULTIPLIER = 1e-11  # multipliers in doubles up to this size count as 0
DECIMAL_DIGITS = (0, 1, 2, 3, 4, 5, 6, 7, 8, 9, 10, 12, 14)  # beyond the first of the greatest one
DENOMINATORS = {
    3: 12,
    6: 60,
    9: 1000,
    14: 10**5,
    16: 10**7,
}  # by the place among the candidates
FARKAS_MULTIPLES = (1, 2, 3, 4, 6)  # of the least multiplier, which is tried as a whole number
FARKAS_SPREAD = 1e6  # of the sizes of multipliers that are tried so
LARGEST_DENOMINATOR = 10**24
MOST_REPAIRED_COLUMNS = 60
REPAIR_ROUNDS = 6
MOST_BASIC_COLUMNS = 3000  # of a basis whose duals are solved for in fractions
LEAST_SPARSIFIED = 4  # multipliers of a proof from which on needless ones are looked for
SHRINKAGES = (1e-10, 1e-8, 1e-6, 1e-4)  # by what share duals are made smaller at last
SHRUNK_DIGITS = 13  # of them, beyond the first of the greatest one

Ratio = Tuple[int, int]  # numerator and denominator, which is above 0


class LeafProof(NamedTuple):
    """Multipliers that prove a leaf.

    Attributes:
        multipliers: What stands in the certificate.
        reduced_costs: By column, in the units of `DualBound.reduced_costs`.
        surplus: What the bound has over the cutoff, at least 0, in the units of
            `DualBound.numerator`; of Farkas multipliers, over the least bound that is above 0.
    """

    multipliers: Multipliers
    reduced_costs: List[int]
    surplus: int


class LeafProver:
    """Finds proofs that a box has no point better than a cutoff.

    A box is given to each of its methods: bounds of the program's columns, over `bound_scale`, in
    place of its own; what stands behind those of the columns is not looked at.

    Args:
        program: Whose rows the multipliers are for.
        cutoff: What the bound of dual multipliers must reach, minimised; None: any bound will do.
            Farkas multipliers prove that there is no point, whatever the cutoff.
        is_strict: Whether the bound must exceed the cutoff.
    """

    def __init__(
        self, program: IntegerProgram, cutoff: Optional[Fraction], is_strict: bool = False
    ) -> None:
        self.program = program
        self.cutoff = cutoff
        self.is_strict = is_strict

    def prove(self, multipliers: Multipliers, box: Box) -> Optional[LeafProof]:
        """The proof by these multipliers, or by those that `repaired_bound` makes of them.

        Args:
            multipliers: Each row has the bound that the sign of its multiplier needs.
            box: Bounds of columns, over `bound_scale`.

        Returns:
            None where the exact bound does not reach the cutoff, or is not finite.
        """
        repaired, bound = repaired_bound(self.program, multipliers.reduced(), box)
        surplus = self._surplus(repaired, bound)
        if surplus < 0 or not bound.is_finite:
            return None
        return LeafProof(repaired, bound.reduced_costs, surplus)

    def prove_from_doubles(
        self, values: Mapping[int, float], kind: MultiplierKind, box: Box
    ) -> Optional[LeafProof]:
        """The first proof among ever longer roundings of these multipliers (`short_candidates`).

        Args:
            values: By row, minimised; those up to ZERO_MULTIPLIER in size count as 0.
            box: Bounds of columns, over `bound_scale`.

        Returns:
            None where no rounding proves it, and of Farkas multipliers where all are 0.
        """
        nonzero = {row: v for row, v in values.items() if abs(v) > ZERO_MULTIPLIER}
        if not nonzero and kind is MultiplierKind.FARKAS:
            return None
        tried = set()
        for candidate in short_candidates(self.program, nonzero, kind):
            key = (tuple(candidate.numerators.values()), candidate.denominator)
            if key in tried or candidate.denominator > LARGEST_DENOMINATOR:
                continue
            tried.add(key)
            check_work()
            proof = self.prove(candidate, box)
            if proof is not None:
                return proof
        return None

    def prove_from_fractions(
        self, values: Optional[Mapping[int, Fraction]], kind: MultiplierKind, box: Box
    ) -> Optional[LeafProof]:
        """The proof by exactly these multipliers, or by those that a repair makes of them.

        Args:
            values: By row, minimised; None: there are none. Those whose row lacks the bound that
                they need count as 0.
            box: Bounds of columns, over `bound_scale`.

        Returns:
            None where there are none, where they do not prove it, or where they are too wide for a
            certificate.
        """
        if values is None:
            return None
        proof = self.prove(from_fractions(self.program, values, kind), box)
        return proof if proof is not None and proof.multipliers.fits_certificate() else None

    def sparsified(self, proof: LeafProof, box: Box) -> LeafProof:
        """The proof without the multipliers that it does not need.

        Those that weigh least are left out first, each as far as the surplus stays 0 or more. A
        proof of fewer than LEAST_SPARSIFIED multipliers, or without surplus, stays as it is.

        Args:
            box: Of the leaf: the proof's reduced costs rest on its bounds.
        """
        if len(proof.multipliers.numerators) < LEAST_SPARSIFIED or proof.surplus == 0:
            return proof
        numerators = dict(proof.multipliers.numerators)
        reduced_costs = proof.reduced_costs[:]
        surplus = proof.surplus
        for row in sorted(numerators, key=lambda row: self._size(row, numerators[row])):
            check_work()
            left = self._surplus_without(row, proof.multipliers, reduced_costs, surplus, box)
            if left is not None and left >= 0:
                surplus = left
                multiplier = numerators.pop(row) * self._cost_scale(proof.multipliers)
                for column, coefficient in self.program.rows[row]:
                    reduced_costs[column] += multiplier * coefficient
        return LeafProof(proof.multipliers._replace(numerators=numerators), reduced_costs, surplus)

    def _surplus(self, multipliers: Multipliers, bound: DualBound) -> int:
        """What the bound has over the cutoff, in the units of its numerator; below 0: not enough.

        With Farkas multipliers the bound must be above 0, thus its numerator at least 1.
        """
        if multipliers.is_farkas:
            return bound.numerator - 1
        if self.cutoff is None:
            return 0
        wanted = self.cutoff.numerator * bound.denominator
        floor, rest = divmod(wanted, self.cutoff.denominator)
        least = floor + 1 if rest or self.is_strict else floor
        return bound.numerator - least

    def _cost_scale(self, multipliers: Multipliers) -> int:
        """By what `dual_bound` multiplies numerators in reduced costs; 1 of Farkas multipliers."""
        return 1 if multipliers.is_farkas else self.program.cost_scale

    def _size(self, row: int, numerator: int) -> int:
        """How much a multiplier weighs: the size of its largest term in reduced costs, unscaled."""
        return abs(numerator) * max((abs(a) for _, a in self.program.rows[row]), default=0)

    def _surplus_without(
        self, row: int, multipliers: Multipliers, costs: Sequence[int], surplus: int, box: Box
    ) -> Optional[int]:
        """The surplus without the multiplier of a row; None where a column then lacks a bound.

        Args:
            multipliers: Of the proof, with the row's; others may have been left out since.
            costs: By column, the reduced costs under those that are left.
            surplus: Of those, in the units of `LeafProof.surplus`.
        """
        numerator = multipliers.numerators[row]
        multiplier = numerator * self._cost_scale(multipliers)
        row_bound = needed_row_bound(self.program, row, numerator)
        assert row_bound is not None
        left = surplus - multiplier * row_bound * self.program.row_scale
        for column, coefficient in self.program.rows[row]:
            term = reduced_cost_term(box, column, costs[column] + multiplier * coefficient)
            if term is None:
                return None
            left += term - (reduced_cost_term(box, column, costs[column]) or 0)
        return left


def from_ratios(
    program: IntegerProgram, values: Mapping[int, Ratio], kind: MultiplierKind
) -> Multipliers:
    """Multipliers by row over their least common denominator, without those that are 0 and those
    whose row lacks the bound that they need."""
    kept = _with_row_bounds(program, values)
    common = math.lcm(1, *{denominator for _, denominator in kept.values()})
    return _over(common, kept, kind)


def _with_row_bounds(program: IntegerProgram, values: Mapping[int, Ratio]) -> Dict[int, Ratio]:
    """Without zeros, and without those that lack the row bound which they rest on."""
    return {
        row: ratio
        for row, ratio in values.items()
        if ratio[0] and has_needed_bound(program, row, ratio[0])
    }


def _over(common: int, values: Mapping[int, Ratio], kind: MultiplierKind) -> Multipliers:
    """Multipliers over a multiple of all their denominators."""
    numerators = {
        row: numerator * (common // denominator) for row, (numerator, denominator) in values.items()
    }
    return Multipliers(numerators, common, kind)


def common_denominator(values: Iterable[Ratio], most: int) -> Optional[int]:
    """The least common denominator; None as soon as that of some of them is above `most`.

    That of many unlike fractions has as many digits as all their denominators together.

    Raises:
        TimeOver: The time of exact work is over.
    """
    common = 1
    for _, denominator in checked(values):
        if common % denominator:
            common = math.lcm(common, denominator)
            if common > most:
                return None
    return common


def from_fractions(
    program: IntegerProgram, values: Mapping[int, Fraction], kind: MultiplierKind
) -> Multipliers:
    """The multipliers of a kind that have these values by row: `from_ratios` of fractions.

    Zeros, and multipliers that lack the row bound which they need, are left out.
    """
    ratios = {row: (v.numerator, v.denominator) for row, v in values.items()}
    return from_ratios(program, ratios, kind)


def rounded(
    program: IntegerProgram, values: Mapping[int, float], places: int, kind: MultiplierKind
) -> Multipliers:
    """Multipliers by row, rounded to decimals, without those that become 0 and those whose row
    lacks the bound that they need.

    Args:
        places: Decimals behind the point; -2: to whole hundreds.
    """
    power = 10 ** abs(places)
    if places >= 0:
        numerators = {row: round(v * power) for row, v in values.items()}
    else:
        numerators = {row: round(v / power) * power for row, v in values.items()}
    kept = {row: v for row, v in numerators.items() if v and has_needed_bound(program, row, v)}
    return Multipliers(kept, 10 ** max(places, 0), kind)


def short_candidates(
    program: IntegerProgram, values: Mapping[int, float], kind: MultiplierKind
) -> Iterator[Multipliers]:
    """Roundings of multipliers, about in the order of their length.

    Farkas multipliers may be multiplied by any factor above 0, and are often small whole numbers
    times one: these are tried first, then decimals of the largest as 1. At last duals are made a
    little smaller: that leaves room in columns with costs above 0.

    Args:
        values: By row, none of them 0; of Farkas multipliers at least one.
    """
    largest = max([abs(v) for v in values.values()], default=1.0)
    first_digit = -math.floor(math.log10(largest))
    if kind is MultiplierKind.FARKAS:
        yield from _whole_multiples(program, values)
        values = {row: v / largest for row, v in values.items()}
        first_digit = 0
    yield from _decimals_and_fractions(program, values, kind, first_digit)
    if kind is MultiplierKind.DUAL:
        for share in SHRINKAGES:
            shrunk = {row: v * (1 - share) for row, v in values.items()}
            yield rounded(program, shrunk, SHRUNK_DIGITS + first_digit, kind)


def _whole_multiples(program: IntegerProgram, values: Mapping[int, float]) -> Iterator[Multipliers]:
    """Farkas multipliers rounded to whole numbers, when the least is made 1, 2, 3, 4 and 6 in size.

    None of those whose largest is FARKAS_SPREAD times the least, or more.

    Args:
        values: By row, at least one, and none of them 0.
    """
    sizes = [abs(v) for v in values.values()]
    least, largest = min(sizes), max(sizes)
    if largest / least < FARKAS_SPREAD:
        for multiple in FARKAS_MULTIPLES:
            scaled = {row: v * multiple / least for row, v in values.items()}
            yield rounded(program, scaled, 0, MultiplierKind.FARKAS)


def _decimals_and_fractions(
    program: IntegerProgram, values: Mapping[int, float], kind: MultiplierKind, first_digit: int
) -> Iterator[Multipliers]:
    """Roundings to ever more decimals, and among them fractions of ever larger denominators.

    Args:
        values: By row.
        first_digit: The decimal place of the largest one's first digit, below 0 left of the point;
            decimals are counted on from it.
    """
    digits = iter(DECIMAL_DIGITS)
    for place in range(len(DECIMAL_DIGITS) + len(DENOMINATORS)):
        if place in DENOMINATORS:
            found = short_fractions(program, values, DENOMINATORS[place], kind)
            if found is not None:
                yield found
        else:
            yield rounded(program, values, first_digit + next(digits), kind)


def short_fractions(
    program: IntegerProgram, values: Mapping[int, float], largest: int, kind: MultiplierKind
) -> Optional[Multipliers]:
    """Multipliers as fractions with denominators up to `largest`.

    Returns:
        None where their common denominator is too long for a certificate.
    """
    ratios = {row: last_convergent(v, largest) for row, v in checked(values.items())}
    kept = _with_row_bounds(program, ratios)
    common = common_denominator(kept.values(), LARGEST_DENOMINATOR)
    return None if common is None else _over(common, kept, kind)


def repaired_bound(
    program: IntegerProgram, multipliers: Multipliers, box: Box
) -> Tuple[Multipliers, DualBound]:
    """The bound of multipliers, or of those that a repair makes of them.

    A column that lacks the bound that its reduced cost needs is given the reduced cost 0, or the
    other sign, by one multiplier of its rows. What that breaks elsewhere is repaired in the next of
    REPAIR_ROUNDS rounds. Nothing is repaired where there are more than MOST_REPAIRED_COLUMNS.

    Args:
        multipliers: Each row has the bound that the sign of its multiplier needs.
        box: Bounds of columns, over `bound_scale`.

    Returns:
        The multipliers with their bound, which need not be finite. They are the given object where
        nothing was repaired.

    Raises:
        TimeOver: The time of exact work is over.
    """
    bound = dual_bound(program, multipliers, box)
    if len(bound.unbounded_columns) > MOST_REPAIRED_COLUMNS:
        return multipliers, bound
    for _ in range(REPAIR_ROUNDS):
        if bound.is_finite:
            break
        for column in bound.unbounded_columns:
            check_work()
            multipliers = _with_column_repaired(program, multipliers, box, column)
        bound = dual_bound(program, multipliers, box)
    return multipliers, bound


def _with_column_repaired(
    program: IntegerProgram, multipliers: Multipliers, box: Box, column: int
) -> Multipliers:
    """Multipliers of which one row's is changed, so that a column's reduced cost is 0 or needs a
    bound that the column has.

    Rows that have a multiplier already come first, then those with few columns.

    Returns:
        The given ones where the column has the bound that it needs, or no row of it can take up its
        reduced cost.
    """
    numerators = multipliers.numerators
    lower, upper = box.lower[column], box.upper[column]
    if multipliers.is_farkas:
        cost_scale, cost = 1, 0
    else:
        cost_scale = program.cost_scale
        cost = program.costs[column] * multipliers.denominator * program.row_scale
    entries = program.matrix.column(column)
    reduced_cost = cost - cost_scale * sum(numerators.get(row, 0) * a for row, a in entries)
    if not reduced_cost or (lower if reduced_cost > 0 else upper) is not None:
        return multipliers
    is_free = lower is None and upper is None

    def rank(entry: Tuple[int, int]) -> Tuple[bool, int]:
        """Of a row and its coefficient: the least is tried first."""
        return entry[0] not in numerators, program.matrix.lengths[entry[0]]

    for row, a in sorted(entries, key=rank):
        found = _absorbed(program, multipliers, row, reduced_cost, cost_scale * a, is_free)
        if found is not None:
            return found
    return multipliers


def _absorbed(
    program: IntegerProgram,
    given: Multipliers,
    row: int,
    reduced_cost: int,
    coefficient: int,
    is_free: bool,
) -> Optional[Multipliers]:
    """The multipliers where that of one row takes up a column's reduced cost.

    What is then left of it is 0, or less than the coefficient in size and of the other sign.

    Args:
        reduced_cost: Of the column under the given multipliers, over their denominator,
            `row_scale` and, of duals, `cost_scale`; its sign needs a bound that is not there.
        coefficient: By how much it falls when the numerator of that row's multiplier rises by 1.
        is_free: Whether the column has no bound at all, so that nothing may be left over.

    Returns:
        None where the row lacks the bound that its new multiplier needs, or the denominator would
        be above LARGEST_DENOMINATOR.
    """
    numerators, denominator = given.numerators, given.denominator
    step, rest = divmod(reduced_cost, coefficient)
    if rest and is_free:
        factor = abs(coefficient) // math.gcd(coefficient, reduced_cost)
        if denominator * factor > LARGEST_DENOMINATOR:
            return None
        numerators = {other: v * factor for other, v in numerators.items()}
        denominator *= factor
        step = reduced_cost * factor // coefficient
    elif rest and (reduced_cost > 0) == (coefficient > 0):
        step += 1  # past 0, to the sign whose bound is there
    numerator = numerators.get(row, 0) + step
    if not has_needed_bound(program, row, numerator):
        return None
    changed = {**numerators, row: numerator}
    if not numerator:
        del changed[row]
    return Multipliers(changed, denominator, given.kind)


def basis_duals(
    program: IntegerProgram, basic: Sequence[int], rows: Sequence[int]
) -> Optional[Dict[int, Fraction]]:
    """The exact duals of a basis: the reduced costs of its basic columns are 0.

    Args:
        basic: The basic columns.
        rows: As many rows that are not basic; all others have the dual 0.

    Returns:
        By row, without zeros, in the file's units and minimised; None where there are more than
        MOST_BASIC_COLUMNS, where the basis is not square or has no such duals, or where it takes
        too much work.
    """
    if len(basic) > MOST_BASIC_COLUMNS or len(basic) != len(rows):
        return None
    columns = ((dict(program.by_column[j]), program.costs[j] * program.row_scale) for j in basic)
    found = _solved_in(rows, columns)
    if found is None:
        return None
    return {row: dual / program.cost_scale for row, dual in found.items() if dual}


def phase_one_duals(
    program: IntegerProgram, basic: Sequence[int], rows: Sequence[int]
) -> Optional[Dict[int, Fraction]]:
    """The exact duals of a basis of phase one, which are Farkas multipliers where its optimum is
    above 0.

    Phase one has two artificial columns a row, of which n + i adds the row's `row_unit` to row i
    and n + m + i takes it away, each at the cost 1; other columns cost nothing.

    Args:
        basic: The basic columns, artificial ones among them.
        rows: The rows that are not basic; all others have the dual 0.

    Returns:
        By row, in the file's units; zeros may be among them. None where there are no such duals,
        or it takes too much work.
    """
    columns: List[Equation] = []
    for column in basic:
        if column < program.n:
            columns.append((dict(program.by_column[column]), 0))
        else:
            is_negative, row = divmod(column - program.n, program.m)
            columns.append(({row: row_unit(program, row)}, -1 if is_negative else 1))
    return _solved_in(rows, columns)


def _solved_in(rows: Sequence[int], columns: Iterable[Equation]) -> Optional[Dict[int, Fraction]]:
    """The duals of these rows under which each column has the reduced cost 0; others count as 0.

    Args:
        columns: Of each its coefficients by row, and its cost.

    Returns:
        By row; None where there are none, or it takes too much work.
    """
    unknowns = set(rows)
    return solve_exactly(
        [({i: a for i, a in terms.items() if i in unknowns}, cost) for terms, cost in columns]
    )


def last_convergent(value: float, largest: int) -> Ratio:
    """The last convergent of a double's continued fraction with a denominator up to `largest`.

    Args:
        value: Finite.
        largest: At least 1.
    """
    numerator, denominator = value.as_integer_ratio()
    before, last = (0, 1), (1, 0)
    while denominator:
        quotient, rest = divmod(numerator, denominator)
        if before[1] + quotient * last[1] > largest:
            break
        before, last = last, (before[0] + quotient * last[0], before[1] + quotient * last[1])
        numerator, denominator = denominator, rest
    return last
