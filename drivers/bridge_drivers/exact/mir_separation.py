"""Looks for MIR cuts at the optimum of a relaxation: which combinations of rows, divided by what.

Rows are aggregated so that continuous columns which stand between their bounds go out (Marchand and
Wolsey 2001), and rows of the simplex tableau are tried. How deep a cut is is seen in doubles; the
cut itself is made by `mir`, in whole numbers.

The cut loop at the root of a search makes an `MIRSeparator` in each of its rounds. Numbers here are
in the file's units; places are as in `mir`.
"""

from __future__ import annotations

from itertools import chain
from math import floor, sqrt
from typing import (
    Callable,
    Dict,
    Iterable,
    Iterator,
    List,
    Mapping,
    NamedTuple,
    Optional,
    Sequence,
    Tuple,
)

from .clp import Clp
from ..model.integer_form import IntegerProgram
from .leaf_proofs import Ratio
from .mir import Combination, Divisor, MIRCut, Substitution, Substitutions, aggregated, mir_cut

LEAST_FRACTION = 0.01  # how far b / d must be from whole numbers
MOST_DIVISORS = 12  # columns whose coefficients are tried as divisors
DIVISOR_MULTIPLES: Tuple[Ratio, ...] = ((1, 1), (1, 2), (1, 3), (2, 1), (4, 1))
TABLEAU_MULTIPLES = DIVISOR_MULTIPLES[:4]
MOST_AGGREGATED_ROWS = 5
MOST_TABLEAU_ROWS = 30
LEAST_TABLEAU_FRACTION = 0.01  # how far a basic column's value must be from whole numbers
POSITIVE = 1e-6  # what is above 0 beyond the rounding of doubles
ZERO_COEFFICIENT = 1e-9  # what doubles leave of 0
FAR_FROM_BOUNDS = 1e9  # how far a column without a bound is from it


def mir_coefficient(quotient: float, fraction: float) -> float:
    """F(quotient), as `mir` has it, in doubles; what is just below a whole number counts as that.

    Args:
        quotient: A coefficient over the divisor.
        fraction: f: the fractional part of the right-hand side over the divisor.
    """
    whole = floor(quotient + ZERO_COEFFICIENT)
    rest = quotient - whole - fraction
    return whole + rest / (1 - fraction) if rest > 0 else float(whole)


class _Screening:
    """A combination after bound substitution, in doubles: how deep its MIR cut is by a divisor.

    The combination says: sum of c_k t_k = b, with t >= 0.

    Attributes:
        integers: Of the t that are integer: the coefficient, the value at the optimum and the place
            of each. A t that is fixed counts nowhere.
        rhs: b.
        slack: The sum of c t over the other t whose coefficient c is below 0; at most 0.
        squares: The sum of the squares of these c.
    """

    def __init__(self, substitutions: Substitutions, combination: Combination) -> None:
        """
        Raises:
            LookupError: A column or row that has a coefficient has no bound to count from.
        """
        program = substitutions.program
        self.integers: List[Tuple[float, float, int]] = []
        self.rhs = 0.0
        self.slack = 0.0
        self.squares = 0.0
        for place, v in aggregated(program, combination, 1 / program.row_scale).items():
            if abs(v) <= ZERO_COEFFICIENT:
                continue
            substitution = substitutions[place]
            if substitution is None:
                raise LookupError(place)
            self.rhs -= v * substitution.bound / program.bound_scale
            if not substitution.is_fixed:
                self._add(v * substitution.sign, substitution, place)

    def _add(self, coefficient: float, substitution: Substitution, place: int) -> None:
        """Takes the term coefficient * t of a place into account, whose t is not fixed."""
        if substitution.is_integer:
            self.integers.append((coefficient, substitution.value, place))
        elif coefficient < 0:
            self.slack += coefficient * substitution.value
            self.squares += coefficient * coefficient

    def efficacy(self, divisor: float) -> float:
        """By how much the cut by this divisor seems to cut off the relaxation's optimum.

        That is the violation over the Euclidean length of the cut's coefficients of the t. 0 where
        there seems to be none, or where the right-hand side over the divisor is within
        LEAST_FRACTION of a whole number. `mir_cut` tells the true one.

        Args:
            divisor: Above 0.
        """
        whole = floor(self.rhs / divisor)
        fraction = self.rhs / divisor - whole
        if not LEAST_FRACTION <= fraction <= 1 - LEAST_FRACTION:
            return 0.0
        violation = self.slack / divisor / (1 - fraction) - whole
        violation += sum(
            [
                mir_coefficient(c / divisor, fraction) * value
                for c, value, _ in self.integers
                if value > POSITIVE
            ]
        )
        if violation <= POSITIVE:
            return 0.0
        squares = sum([mir_coefficient(c / divisor, fraction) ** 2 for c, _, _ in self.integers])
        return violation / sqrt(squares + self.squares / (divisor * (1 - fraction)) ** 2)

    def sizes(self) -> Dict[float, Optional[int]]:
        """Sizes of coefficients that divisors are multiples of, with a place that has each.

        Such are the coefficients of integer t that are above 0 at the optimum, and 1, which has no
        place; MOST_DIVISORS at most, and none where no t is integer.
        """
        sizes: Dict[float, Optional[int]] = {
            abs(c): place for c, value, place in self.integers if value > POSITIVE
        }
        sizes.setdefault(1.0, None)
        return dict(list(sizes.items())[:MOST_DIVISORS]) if self.integers else {}


def best_divisor(
    substitutions: Substitutions, combination: Combination, multiples: Iterable[Ratio]
) -> Optional[Divisor]:
    """The divisor whose cut has the greatest efficacy, in doubles.

    `MIRSeparator` asks for it of each combination that it tries.

    Args:
        substitutions: Of the program at the point that is to be cut off.
        combination: Multipliers by row, of either sign.
        multiples: Fractions: a divisor is one of these times a coefficient of the combination.

    Returns:
        None where none cuts, or a place of the combination has no bound to count from.
    """
    try:
        screening = _Screening(substitutions, combination)
    except LookupError:
        return None
    best, greatest = None, 0.0
    for size, column in screening.sizes().items():
        for times, over in multiples:
            efficacy = screening.efficacy(size * times / over)
            if efficacy > greatest:
                best, greatest = Divisor(column, (times, over)), efficacy
    return best


class VariableBound(NamedTuple):
    """A continuous column is at most `slope` times the integer one `column`.

    Attributes:
        slope: Above 0.
        row: The row of these two columns that says so.
        coefficient: Of the continuous column in it, in the file's units.
    """

    slope: float
    column: int
    row: int
    coefficient: float


def variable_bounds(program: IntegerProgram) -> Dict[int, List[VariableBound]]:
    """By continuous column the variable upper bounds that rows of two columns give.

    Such a row has a bound of 0, and coefficients of which one is above 0 and one is below.
    """
    found: Dict[int, List[VariableBound]] = {}
    for i, row in enumerate(program.rows):
        if len(row) != 2:
            continue
        for sign, bound in ((1, program.row_upper[i]), (-1, program.row_lower[i])):
            for (j, a), (y, b) in (row, row[::-1]) if bound == 0 else ():
                is_mixed = program.is_integer[y] and not program.is_integer[j]
                if is_mixed and sign * a > 0 > sign * b:
                    variable_bound = VariableBound(-b / a, y, i, a / program.row_scale)
                    found.setdefault(j, []).append(variable_bound)
    return found


class MIRSeparator:
    """Looks for MIR cuts at the optimum x of a relaxation (aggregation heuristic).

    Attributes:
        substitutions: Of the program at x.
        distances: By column: how far a continuous one is from its nearest bound, a variable one
            too; FAR_FROM_BOUNDS where it has none. 0 of integer columns.
        nearest: By continuous column its nearest variable bound, where no bound is nearer.
    """

    def __init__(self, program: IntegerProgram, clp: Clp, x: Sequence[float]) -> None:
        """
        Args:
            program: With all rows that cuts may be made of, cuts of earlier rounds too.
            clp: Its relaxation at the optimum. It loses its costs to `tableau_rows`.
            x: The values of the columns there.
        """
        self.program = program
        self.clp = clp
        self.x = x
        self.substitutions = Substitutions(program, x)
        self.distances = [0.0] * program.n
        self.nearest: Dict[int, VariableBound] = {}
        known = variable_bounds(program)
        for j in (j for j in range(program.n) if not program.is_integer[j]):
            substitution = self.substitutions[j]
            self.distances[j] = FAR_FROM_BOUNDS if substitution is None else substitution.value
            for bound in known.get(j, ()):
                distance = bound.slope * x[bound.column] - x[j]
                if distance <= self.distances[j]:
                    self.distances[j] = distance
                    self.nearest[j] = bound

    def cuts(self, is_over: Callable[[], bool]) -> List[MIRCut]:
        """Cuts by falling efficacy, of as many combinations as there is time for.

        Each of them cuts x off, at most one for a combination; none is proved yet.

        Args:
            is_over: Whether the time is over; asked before each combination.
        """
        combinations = chain(
            ((combination, DIVISOR_MULTIPLES) for combination in self.aggregations()),
            ((combination, TABLEAU_MULTIPLES) for combination in self.tableau_rows()),
        )
        found: List[MIRCut] = []
        for combination, multiples in combinations:
            if is_over():
                break
            divisor = best_divisor(self.substitutions, combination, multiples)
            cut = None if divisor is None else mir_cut(self.substitutions, combination, divisor)
            if cut is not None:
                found.append(cut)
        return sorted(found, key=lambda cut: -cut.efficacy)

    def aggregations(self) -> Iterator[Combination]:
        """Combinations of rows: each row alone, and sums of rows that begin with it.

        The first row has the multiplier 1 where it has an upper bound, and -1 where it has a lower
        one; from which bound its activity counts is left to the substitution.
        """
        for row in range(self.program.m):
            for sign, bound in (
                (1.0, self.program.row_upper[row]),
                (-1.0, self.program.row_lower[row]),
            ):
                if bound is not None and self.program.rows[row]:
                    yield from self._sums_from({row: sign})

    def _sums_from(self, combination: Combination) -> Iterator[Combination]:
        """The combination, and sums with more rows, of which each takes out one continuous column.

        That is the one that is farthest from its bounds. At most MOST_AGGREGATED_ROWS rows are in a
        sum, without those of variable bounds, which are added to each as it is yielded.

        Args:
            combination: One row, with the multiplier 1 or -1.
        """
        for _ in range(MOST_AGGREGATED_ROWS):
            total = aggregated(self.program, combination, 1 / self.program.row_scale)
            yield self._with_variable_bounds(combination, total)
            between = [
                j
                for j, a in total.items()
                if j < self.program.n and abs(a) > ZERO_COEFFICIENT and self.distances[j] > POSITIVE
            ]
            if not between:
                return
            column = max(between, key=self.distances.__getitem__)
            eliminating = self._row_to_eliminate(column, total[column], combination)
            if eliminating is None:
                return
            row, a = eliminating
            combination = {**combination, row: -total[column] * self.program.row_scale / a}

    def _row_to_eliminate(
        self, column: int, coefficient: float, used: Combination
    ) -> Optional[Tuple[int, int]]:
        """The row that takes a column out of a sum and brings in least that is between its bounds.

        Args:
            coefficient: Of the column in the sum so far. Only its sign counts: a row that is added
                needs an upper bound, one that is subtracted a lower one.
            used: The sum's multipliers by row; none of these rows is taken again.

        Returns:
            The row, and the column's coefficient in it, over `row_scale`. None where no row will
            do; one of two columns that is no equation is left to variable bounds.
        """
        found = []
        for row, a in self.program.by_column[column]:
            lower, upper = self.program.row_lower[row], self.program.row_upper[row]
            needed = upper if coefficient * a < 0 else lower
            is_variable_bound = len(self.program.rows[row]) == 2 and lower != upper
            if row not in used and not is_variable_bound and needed is not None:
                brought_in = sum([self.distances[j] for j, _ in self.program.rows[row]])
                found.append((brought_in, row, a))
        return min(found)[1:] if found else None

    def _with_variable_bounds(
        self, combination: Combination, total: Mapping[int, float]
    ) -> Combination:
        """A combination with the rows of variable bounds that columns in its sum are counted from.

        Such a row takes its continuous column out of the sum, and brings its own activity in.

        Args:
            total: The combination's sum: coefficients by place.
        """
        found = dict(combination)
        for j in self.nearest.keys() & total.keys():
            bound = self.nearest[j]
            found[bound.row] = found.get(bound.row, 0.0) - total[j] / bound.coefficient
        return found

    def tableau_rows(self) -> Iterator[Combination]:
        """Rows of the simplex tableau whose basic columns are to be integer and are not, as
        combinations.

        Those whose values are nearest to the middle of two whole numbers come first,
        MOST_TABLEAU_ROWS at most. CLP's relaxation loses its costs.
        """
        basis = self.clp.saved_basis()
        basic, _ = self.clp.basis()
        from_half = [
            (abs(self.x[j] - floor(self.x[j]) - 0.5), j)
            for j in basic
            if self.program.is_integer[j]
        ]
        for distance, j in sorted(from_half)[:MOST_TABLEAU_ROWS]:
            if distance < 0.5 - LEAST_TABLEAU_FRACTION:
                row_of_inverse = self.clp.row_of_inverse(j, basis)
                yield {i: v for i, v in enumerate(row_of_inverse) if abs(v) > ZERO_COEFFICIENT}
