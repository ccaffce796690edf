"""Mixed integer rounding (MIR) cuts, each with its proof as a split of the program.

Take a combination of the rows, and count each column, and each row's activity, from one of its
bounds, so that all that counts is `t >= 0` (bound substitution):

    sum of c_k t_k <= b.

Divide by d > 0, and let f be the fractional part of b / d. Then, over the t_k that are integer and
those that are not,

    sum of F(c_k / d) t_k (integers) + sum of min(0, c_k / d) / (1 - f) t_k (others) <= floor(b / d)

holds at all integer points, with F(q) = floor(q) + max(0, q - floor(q) - f) / (1 - f) (Marchand and
Wolsey 2001).

Its proof is a split disjunction: an integer form is at most `floor` in one part and at least `floor
+ 1` in the other, and in both parts multipliers of rows bound the cut's left side. All here
is in whole numbers; `mir_separation` looks for cuts, in doubles, and `cuts` proves those that it
chooses.

A place is the number of a column, or, behind the columns, n plus the number of a row, which stands
for the row's activity.
"""

from __future__ import annotations

from fractions import Fraction
from math import gcd, lcm, sqrt
from typing import Dict, Mapping, NamedTuple, Optional, Sequence, Tuple, TypeVar

from ..model.integer_form import Bound, Box, IntegerProgram, Row
from .dual_bound import MultiplierKind, Multipliers
from .leaf_proofs import LeafProver, Ratio, last_convergent
from .tree import Leaf, leaf_of

LEAST_EFFICACY = 1e-3
LARGEST_DENOMINATOR = 10**6  # of the combination's multipliers
COARSE_DENOMINATOR = 10**4  # the same where they have no such common one
LARGEST_COEFFICIENT = 10**12
LARGEST_SPREAD = 10**6  # of the sizes of a cut's coefficients

Combination = Dict[int, float]  # multipliers by row, of either sign
Number = TypeVar("Number", int, float)


class Substitution(NamedTuple):
    """How a column or a row's activity z counts: z = bound / bound_scale + sign * t, with t >= 0.

    Attributes:
        bound: Of the column, or of the row; over `bound_scale` of the program.
        sign: 1 from a lower bound, -1 from an upper one.
        value: Of t at the relaxation's optimum.
        is_integer: Whether t is integer at all integer points.
        is_fixed: Whether t is 0 at all points.
    """

    bound: int
    sign: int
    value: float
    is_integer: bool
    is_fixed: bool


class Substitutions(Dict[int, Optional[Substitution]]):
    """By place, the substitution from the bound near x; each is made when it is first asked for.

    None stands for what has no bound to count from.

    Attributes:
        x: By place: columns, then activities of rows, at the point that cuts are to cut off, in the
            file's units.
    """

    def __init__(self, program: IntegerProgram, x: Sequence[float]) -> None:
        """
        Args:
            x: By column, the relaxation's optimum.
        """
        super().__init__()
        self.program = program
        activities = (sum([a * x[j] for j, a in row]) / program.row_scale for row in program.rows)
        self.x = [*x, *activities]

    def __missing__(self, place: int) -> Optional[Substitution]:
        self[place] = self._from_nearest_bound(place)
        return self[place]

    def _from_nearest_bound(self, place: int) -> Optional[Substitution]:
        """The substitution from the bound that x is nearer to (the lower of equals).

        Its value is 0 where x is beyond that bound. None where there is no bound to count from.
        """
        scale, value = self.program.bound_scale, self.x[place]
        row = place - self.program.n
        lower, upper, is_integer = self._column(place) if row < 0 else self._row(row)
        if upper is not None and (lower is None or value - lower / scale > upper / scale - value):
            distance = max(upper / scale - value, 0.0)
            return Substitution(upper, -1, distance, is_integer, lower == upper)
        if lower is None:
            return None
        distance = max(value - lower / scale, 0.0)
        return Substitution(lower, 1, distance, is_integer, lower == upper)

    def _column(self, column: int) -> _Interval:
        """The bounds of a column; of an integer one only those that are whole numbers."""
        program = self.program
        lower, upper = program.lower[column], program.upper[column]
        if program.is_integer[column]:
            lower = _integral(lower, program.bound_scale)
            upper = _integral(upper, program.bound_scale)
        return _Interval(lower, upper, program.is_integer[column])

    def _row(self, row: int) -> _Interval:
        """The bounds of a row. What counts from them is integer where they are whole numbers, and
        the row has whole coefficients in integer columns alone."""
        program = self.program
        lower, upper = program.row_lower[row], program.row_upper[row]
        are_integral = lower == _integral(lower, program.bound_scale)
        are_integral = are_integral and upper == _integral(upper, program.bound_scale)
        is_integer = are_integral and all(
            program.is_integer[j] and a % program.row_scale == 0 for j, a in program.rows[row]
        )
        return _Interval(lower, upper, is_integer)


class _Interval(NamedTuple):
    """Bounds over `bound_scale`, and whether all that counts from them is integer."""

    lower: Bound
    upper: Bound
    is_integer: bool


def _integral(bound: Bound, scale: int) -> Bound:
    """A bound over `scale` if it is a whole number; None if it is not, or not there."""
    return None if bound is None or bound % scale else bound


class Divisor(NamedTuple):
    """The number d by which a combination is divided.

    Attributes:
        column: The place, a column's or a row's, of whose coefficient d is a multiple, in size;
            None: it is one of 1.
        multiple: That multiple, as a fraction.
    """

    column: Optional[int]
    multiple: Ratio


class SplitDisjunction(NamedTuple):
    """An integer form, which is at most `floor` or at least `floor + 1` at each integer point.

    Attributes:
        form: Whole coefficients by column, those that are not 0; all columns are integer.
    """

    form: Dict[int, int]
    floor: int


class MIRCut(NamedTuple):
    """A cut in whole numbers.

    Attributes:
        coefficients: Of its left side, by column, those that are not 0.
        rhs: What the left side is at most, at points in the file's units. It has no common divisor
            with all coefficients.
        split: The disjunction of its proof.
        multipliers: In its part `at most floor`, then in the other one: those of rows and of the
            split's form, which is the row behind all others. The costs are the left side times -1.
        efficacy: The Euclidean distance of the relaxation's optimum from it; 0 where the cut is
            not to be used.
    """

    coefficients: Dict[int, int]
    rhs: int
    split: SplitDisjunction
    multipliers: Tuple[Multipliers, Multipliers]
    efficacy: float = 0.0


class MIRProof(NamedTuple):
    """A cut's proof as it stands in a certificate.

    Attributes:
        split: On which the proof branches.
        row: The place of its form among the rows, in both leaves.
        low: The leaf of the part `at most floor`.
        high: The leaf of the part `at least floor + 1`.
    """

    split: SplitDisjunction
    row: int
    low: Leaf
    high: Leaf


def aggregated(
    program: IntegerProgram, combination: Mapping[int, Number], factor: Number
) -> Dict[int, Number]:
    """A combination of rows as a sum of columns less activities of rows, which is 0 at each point.

    Args:
        combination: Multipliers by row, whole numbers or doubles; `factor` is of their kind.

    Returns:
        Coefficients by place, times `row_scale` of the program and `factor`; some may be 0.
    """
    total: Dict[int, Number] = {}
    for row, multiplier in combination.items():
        for column, a in program.rows[row]:
            product = multiplier * a
            total[column] = total[column] + product if column in total else product
        total[program.n + row] = -multiplier * program.row_scale
    return {place: coefficient * factor for place, coefficient in total.items()}


def mir_cut(
    substitutions: Substitutions, combination: Combination, divisor: Divisor
) -> Optional[MIRCut]:
    """The MIR cut of a combination by a divisor, in whole numbers.

    The combination's multipliers are rounded to fractions first: any multipliers of rows are right.

    Args:
        substitutions: Of the program whose rows are combined, at the relaxation's optimum.
        divisor: As `best_divisor` found it in doubles.

    Returns:
        None where d is 0, b / d is whole, or a place has no bound to count from, where the cut's
        efficacy is below LEAST_EFFICACY, or its coefficients are too wide.
    """
    program = substitutions.program
    times, over = divisor.multiple
    common, multipliers = _over_one_denominator(combination)
    total = aggregated(program, multipliers, over)
    if divisor.column is None:
        size = common * program.row_scale
    else:
        size = abs(total.get(divisor.column, 0)) // over
    d = size * program.bound_scale * times
    terms = _substituted(substitutions, total)
    if not d or terms is None:
        return None
    whole, rest = divmod(-sum(v * substitution.bound for substitution, v in terms.values()), d)
    if not rest:
        return None
    cut = _exact_cut(program, terms, d, whole, rest)
    cut = cut._replace(efficacy=_efficacy(cut, substitutions.x))
    return cut if cut.efficacy >= LEAST_EFFICACY else None


def _over_one_denominator(combination: Combination) -> Tuple[int, Dict[int, int]]:
    """Short fractions near the multipliers: their one denominator, and numerators by row."""
    ratios = {row: last_convergent(v, LARGEST_DENOMINATOR) for row, v in combination.items()}
    common = lcm(*(denominator for _, denominator in ratios.values()))
    if common > LARGEST_DENOMINATOR:
        common = COARSE_DENOMINATOR
        ratios = {row: (round(v * common), common) for row, v in combination.items()}
    return common, {row: p * (common // q) for row, (p, q) in ratios.items()}


Terms = Dict[int, Tuple[Substitution, int]]  # coefficients by place, those that are not 0


def _substituted(substitutions: Substitutions, total: Mapping[int, int]) -> Optional[Terms]:
    """A sum by the substitutions of its places; None where one has no bound to count from.

    Args:
        total: Whole coefficients by place.
    """
    terms: Terms = {}
    for place, v in total.items():
        if v:
            substitution = substitutions[place]
            if substitution is None:
                return None
            terms[place] = substitution, v
    return terms


def _exact_cut(program: IntegerProgram, terms: Terms, d: int, whole: int, rest: int) -> MIRCut:
    """The cut and the multipliers of its proof, in whole numbers.

    With `rest = b - whole * d` and `room = d - rest`, all is multiplied by `room`, so that
    F(c / d) becomes `floor(c / d) * room + max(0, c % d - rest)`. The split's form rounds up where
    `c % d` is above `rest`. In its lower part the form has the multiplier `-room`, in the upper one
    `rest`; what rows have there makes up the difference to the cut.

    Args:
        terms: The sum of which the cut is made. Its coefficients times `bound_scale` are the c, up
            to their signs.
        d: The divisor, above 0, over the same scale as the c.
        whole: floor(b / d).
        rest: What is then left of b, above 0 and below d.

    Returns:
        The cut without its efficacy.
    """
    bound_scale, room = program.bound_scale, d - rest
    coefficients, form = [0] * program.n, [0] * program.n
    rhs, form_rhs = whole * room * program.row_scale * bound_scale, whole
    low: Dict[int, int] = {program.m: -room}
    high: Dict[int, int] = {program.m: rest}
    for place, (substitution, v) in terms.items():
        sign = substitution.sign
        c = v * sign * bound_scale
        lifted, in_form = _rounded_coefficient(substitution, c, d, rest)
        rhs += sign * lifted * substitution.bound * program.row_scale
        form_rhs += sign * in_form * substitution.bound // bound_scale
        row = place - program.n
        for j, a in program.rows[row] if row >= 0 else ((place, program.row_scale),):
            coefficients[j] += sign * lifted * a * bound_scale
            form[j] += sign * in_form * a // program.row_scale
        if row >= 0:
            low[row] = sign * (in_form * room - lifted)
            high[row] = sign * (c - rest * in_form - lifted)
    common = gcd(rhs, *coefficients) or 1
    return MIRCut(
        {j: v // common for j, v in enumerate(coefficients) if v},
        rhs // common,
        SplitDisjunction({j: v for j, v in enumerate(form) if v}, form_rhs),
        (_leaf_multipliers(program, low, common), _leaf_multipliers(program, high, common)),
    )


def _rounded_coefficient(substitution: Substitution, c: int, d: int, rest: int) -> Tuple[int, int]:
    """The coefficient of t in the cut, times `d - rest`, and in the form of its split.

    Args:
        c: The coefficient of t in the sum of which the cut is made.
        d: The divisor.
        rest: Of b, when it is divided by d.
    """
    if substitution.is_fixed:
        return 0, 0
    if not substitution.is_integer:
        return min(0, c), 0
    whole, fraction = divmod(c, d)
    return whole * (d - rest) + max(0, fraction - rest), whole + (fraction > rest)


def _leaf_multipliers(
    program: IntegerProgram, numerators: Mapping[int, int], common: int
) -> Multipliers:
    """The multipliers of one part of a cut's proof.

    Args:
        numerators: By row. Multiplied by `row_scale` and `bound_scale` of the program, they prove
            the cut as it is before its coefficients are divided.
        common: The common divisor of those coefficients, by which they are divided; the multipliers
            are divided by it, too.
    """
    factor = program.row_scale * program.bound_scale
    nonzero = {row: v * factor for row, v in numerators.items() if v}
    return Multipliers(nonzero, common, MultiplierKind.DUAL)


def _efficacy(cut: MIRCut, x: Sequence[float]) -> float:
    """How far x is beyond the cut, as a Euclidean distance; below 0 where it is not.

    0 where the coefficients are too large or too different for doubles and certificates, or the
    split has no columns.

    Args:
        x: In the file's units; its columns come first.
    """
    sizes = [abs(a) for a in cut.coefficients.values()]
    if not sizes or not cut.split.form:
        return 0.0
    if max(*sizes, abs(cut.rhs)) > LARGEST_COEFFICIENT:
        return 0.0
    if max(sizes) > LARGEST_SPREAD * min(sizes):
        return 0.0
    violation = sum([a * x[j] for j, a in cut.coefficients.items()]) - cut.rhs
    return violation / sqrt(sum([float(a) ** 2 for a in sizes]))


def prove_mir_cut(program: IntegerProgram, cut: MIRCut) -> Optional[MIRProof]:
    """The proof, where the exact rule accepts both of its leaves; else None.

    In the leaves the cut's left side is maximised, and is to be at most its right-hand side. The
    split's form is one row more, whose upper bound is that of the low part and whose lower bound
    that of the high part: the sign of its multiplier says which part a leaf is for. Called for each
    cut that a round takes.

    Args:
        program: With the rows that the cut was made of, cuts before it among them.
    """
    form, whole = cut.split
    split = program.with_rows([Row(form, whole + 1, whole)])
    against_cut = split.with_integer_costs({j: -a for j, a in cut.coefficients.items()})
    prover = LeafProver(against_cut, Fraction(-cut.rhs))
    box = Box(program.lower, program.upper)
    leaves = []
    for multipliers in cut.multipliers:
        proof = prover.prove(multipliers, box)
        if proof is None or not proof.multipliers.fits_certificate():
            return None
        added = (
            i for i in proof.multipliers.numerators if program.constraint_count <= i < program.m
        )
        leaves.append(leaf_of(proof.multipliers, added))
    return MIRProof(cut.split, program.m, *leaves)
