"""Sparse systems of linear equations, solved exactly.

There are two ways. `solve_exactly` takes any system and eliminates its unknowns in whole numbers;
each pivot is one that brings in few new numbers (Markowitz 1957). `LiftedSystem` takes large square
systems: SciPy's SuperLU factors the matrix once in doubles, and each step of the lifting adds some
binary digits to the solution, whose residual is exact in 64 bits (Wan 2006, in the manner of Dixon
1982, with a power of two in place of a prime's). Fractions near the digits are then checked in
whole numbers.

`basis` solves for exact optima in either way. Vertices, exact duals of a basis, and what rounding
leaves of equations are solved for by `solve_exactly`.
"""

from __future__ import annotations

from collections import defaultdict
from fractions import Fraction
from functools import lru_cache
from itertools import islice
from math import gcd, isqrt, lcm
from typing import (
    Any,
    DefaultDict,
    Dict,
    Iterable,
    List,
    Mapping,
    NamedTuple,
    Optional,
    Sequence,
    Set,
    Tuple,
    Union,
)

import numpy as np
import numpy.typing as npt

from ..system.errors import NotSolved, TooManyBits
from ..system.signals import SIGNALS
from .work_limit import check_work, checked

# Elimination
RHS = -1  # the unknown of a row whose value is -1: its coefficient is the right-hand side
MOST_ELIMINATION_WORK = 2_000_000  # coefficients that are touched
MOST_PIVOT_ROWS = 9  # shortest rows that are looked at for a pivot

# Lifting
MOST_STEP_BITS = 48
LEAST_STEP_BITS = 3
FIRST_RECONSTRUCTION_BITS = 192  # digits before fractions are looked for the first time
RECONSTRUCTION_GROWTH = 1.7  # times as many digits before the next time
INT64_LIMIT = 2**62  # numbers below fit 64 bits, and so does the difference of two of them
EXACT_DOUBLE_LIMIT = 2**53  # whole numbers below are doubles
ROUNDING_OF_A_RESIDUAL = 2.0**-46  # of the sizes of its terms, in doubles
PIVOT_THRESHOLD = 0.1  # of SuperLU: how small beside its column's largest entry a pivot may be

Rational = Union[int, Fraction]
Equation = Tuple[Mapping[int, Rational], Rational]  # coefficients by unknown, right-hand side
IntegerRow = Dict[int, int]  # coefficients by unknown, or RHS; times the unknowns they sum up to 0
Doubles = npt.NDArray[np.float64]
Integers = npt.NDArray[np.int64]


class WorkLimit(NotSolved):
    """An elimination takes more work than it may."""


class InconsistentSystem(NotSolved):
    """A system has no solution."""


class RationalVector(NamedTuple):
    """Fractions: numerators over one denominator, which is above 0."""

    numerators: List[int]
    denominator: int


class IntegerRows:
    """Rows of whole numbers by name, and which rows have an unknown.

    A row says that its coefficients times its unknowns sum up to 0, so that it stays the same when
    it is divided by a common factor of its coefficients. `Elimination` makes a system of them.

    Attributes:
        rows: By name, without common factors.
        names_with: By unknown, the names of the rows that have it; RHS counts as an unknown.
        work: How many coefficients were touched so far.
    """

    def __init__(self) -> None:
        self.rows: Dict[int, IntegerRow] = {}
        self.names_with: DefaultDict[int, Set[int]] = defaultdict(set)
        self.work = 0

    def add(self, name: int, row: IntegerRow) -> None:
        """Takes a row under a new name; none of its coefficients is 0."""
        for unknown in row:
            self.names_with[unknown].add(name)
        self._store(name, row)

    def eliminate(self, name: int, unknown: int) -> IntegerRow:
        """Takes a row away, and by multiples of it the unknown out of all others.

        Args:
            name: Of the row.
            unknown: One that the row has.

        Returns:
            The row, which determines the unknown by the others that it has.

        Raises:
            TimeOver: The time of exact work is over.
        """
        check_work()
        pivot_row = self._remove(name)
        for other_unknown in pivot_row:
            self.names_with[other_unknown].discard(name)
        for other in self.names_with.pop(unknown):
            row = self._without(unknown, other, self._remove(other), pivot_row)
            self.work += len(row) + len(pivot_row)
            self._store(other, row)
        return pivot_row

    def _without(
        self, unknown: int, name: int, row: IntegerRow, pivot_row: IntegerRow
    ) -> IntegerRow:
        """A combination of the named row and the pivot's that does not have the unknown.

        Keeps `names_with` true of it; the row is changed, and not stored yet.

        Args:
            row: The named one, which has the unknown and was taken out of `rows`.
            pivot_row: Has the unknown, too.
        """
        coefficient, pivot = row.pop(unknown), pivot_row[unknown]
        common = gcd(pivot, coefficient)
        factor, multiple = pivot // common, coefficient // common
        if factor != 1:
            row = {other: a * factor for other, a in row.items()}
        for other, a in pivot_row.items():
            left = row.get(other, 0) - multiple * a if other != unknown else 0
            if left:
                row[other] = left
                self.names_with[other].add(name)
            elif row.pop(other, 0):
                self.names_with[other].discard(name)
        return row

    def _store(self, name: int, row: IntegerRow) -> None:
        """Puts a row under its name, divided by its greatest common factor."""
        common = gcd(*row.values())
        self.rows[name] = {k: a // common for k, a in row.items()} if common > 1 else row

    def _remove(self, name: int) -> IntegerRow:
        """Takes a row out of `rows`, while `names_with` still has it."""
        return self.rows.pop(name)


class Elimination(IntegerRows):
    """The rows of a system that are left while its unknowns are eliminated one by one.

    Args:
        system: Its equations, which are named by their places. Fractions in them are cleared.
        most_work: As `IntegerRows.work` counts it.

    Attributes:
        names_by_length: By count of unknowns, without the right-hand side, the names of rows.

    Raises:
        InconsistentSystem: At the start or later, as soon as a row says that a number which is not
            0 is 0.
        WorkLimit: The same, as soon as the work is more than `most_work`.
    """

    def __init__(self, system: Iterable[Equation], most_work: int) -> None:
        super().__init__()
        self.most_work = most_work
        self.names_by_length: DefaultDict[int, Set[int]] = defaultdict(set)
        for name, (coefficients, rhs) in enumerate(checked(system)):
            row = {k: a for k, a in (*coefficients.items(), (RHS, rhs)) if a}
            common = lcm(*(a.denominator for a in row.values()))
            self.add(name, {k: int(a * common) for k, a in row.items()})

    def next_pivot(self) -> Tuple[int, IntegerRow]:
        """Eliminates the next unknown: one that few other rows have, of a row of the least length.

        Among MOST_PIVOT_ROWS of the shortest rows it is the one that the fewest rows have
        (Markowitz 1957). There must be a row left.

        Returns:
            The unknown, and the row that determines it by those which are eliminated later, and by
            those which never are.
        """
        least = min(length for length, names in self.names_by_length.items() if names)
        best = (len(self.rows) + 1, 0, 0)
        for name in islice(self.names_by_length[least], MOST_PIVOT_ROWS):
            unknowns = (k for k in self.rows[name] if k != RHS)
            best = min(best, min((len(self.names_with[k]), name, k) for k in unknowns))
            if best[0] == 1:
                break
        _, name, unknown = best
        return unknown, self.eliminate(name, unknown)

    def _store(self, name: int, row: IntegerRow) -> None:
        """The same, in `names_by_length` too; a row that says 0 = 0 falls away.

        Raises:
            InconsistentSystem: The row has no unknown, but a right-hand side.
            WorkLimit: The work so far is more than `most_work`.
        """
        if self.work > self.most_work:
            raise WorkLimit(f"more than {self.most_work} coefficients")
        if not row:
            return
        length = _count_of_unknowns(row)
        if not length:
            raise InconsistentSystem("a number that is not 0 would be 0")
        super()._store(name, row)
        self.names_by_length[length].add(name)

    def _remove(self, name: int) -> IntegerRow:
        """The same, out of `names_by_length` too."""
        row = super()._remove(name)
        self.names_by_length[_count_of_unknowns(row)].discard(name)
        return row


def _count_of_unknowns(row: IntegerRow) -> int:
    """How many unknowns a row has, the right-hand side aside."""
    return len(row) - (RHS in row)


def solve_exactly(
    system: Iterable[Equation], most_work: int = MOST_ELIMINATION_WORK
) -> Optional[Dict[int, Fraction]]:
    """Values of the unknowns that satisfy all equations, by elimination in whole numbers.

    Args:
        system: The equations, in whole numbers or fractions; an unknown is any number from 0 on.
            There may be more or fewer of them than unknowns.
        most_work: Coefficients that may be touched.

    Returns:
        By unknown; those that the system leaves free are 0 or not named. None where it has no
        solution, or takes more work than it may.

    Raises:
        TimeOver: The time of exact work is over.
    """
    pivots = []
    try:
        left = Elimination(system, most_work)
        while left.rows:
            pivots.append(left.next_pivot())
    except (InconsistentSystem, WorkLimit):
        return None
    values = {RHS: Fraction(-1)}
    for unknown, row in checked(reversed(pivots)):
        known = (a * values[k] for k, a in row.items() if k != unknown and values.get(k))
        values[unknown] = -sum(known, Fraction(0)) / row[unknown]
    del values[RHS]
    return values


@lru_cache(maxsize=None)
def scipy_or_none() -> Any:
    """SciPy's package `sparse` with its `linalg`, None where it is not installed.

    Signals wait for the end of the import: half of a module would stay behind.
    """
    with SIGNALS.deferred():
        try:
            import scipy.sparse.linalg
        except ImportError:
            return None
    return scipy.sparse


class LiftedSystem:
    """Solves A x = b and x A = b for one square matrix A of whole numbers, by SciPy.

    SciPy must be there (`scipy_or_none`).

    Args:
        rows: Of A: pairs of a column and a coefficient, which fits 64 bits.
        most_bits: Binary digits behind the point that are made of each unknown at most. Fractions
            are found by about twice as many digits as their common denominator has.

    Attributes:
        size: The count of rows, and of columns.
        matrix: A, in 64 bits, by rows.
        transposed: The same of its transpose.
        row_factors: Powers of two, by which its rows are multiplied before it is factored.
        column_factors: The same of its columns.
        lu: SuperLU's factors of what becomes of it, in doubles.

    Raises:
        NotSolved: A coefficient is too wide, or doubles find the matrix singular.
    """

    def __init__(self, rows: Sequence[Sequence[Tuple[int, int]]], most_bits: int) -> None:
        self.size = len(rows)
        self.most_bits = most_bits
        columns = np.array([j for row in rows for j, _ in row], dtype=np.int32)
        try:
            coefficients = np.array([a for row in rows for _, a in row], dtype=np.int64)
        except OverflowError:
            raise NotSolved("a number is too wide for 64 bits") from None
        starts = np.concatenate([[0], np.cumsum([len(row) for row in rows])])
        shape = (self.size, self.size)
        self.matrix = scipy_or_none().csr_matrix((coefficients, columns, starts), shape=shape)
        self.transposed = self.matrix.T.tocsr()
        self._factor()

    def solve(self, rhs: Sequence[int]) -> RationalVector:
        """The x of A x = b, by column.

        Args:
            rhs: b, by row.

        Raises:
            NotSolved: A number of b is not below EXACT_DOUBLE_LIMIT, or the lifting does not
                converge.
            TooManyBits: `most_bits` digits do not tell x.
            TimeOver: The time of exact work is over.
        """
        return self._solve(rhs, is_transposed=False)

    def solve_transposed(self, rhs: Sequence[int]) -> RationalVector:
        """The x of x A = b, by row; b is by column. It raises the same."""
        return self._solve(rhs, is_transposed=True)

    def solve_in_doubles(self, rhs: Doubles, *, is_transposed: bool) -> Doubles:
        """About the x of A x = b, or of x A = b where it `is_transposed`, by the factors alone."""
        found: Doubles
        if is_transposed:
            found = self.row_factors * self.lu.solve(self.column_factors * rhs, trans="T")
        else:
            found = self.column_factors * self.lu.solve(self.row_factors * rhs)
        return found

    def _factor(self) -> None:
        """Sets the factors of rows, then of columns, so that the largest entry of each is about 1,
        and `lu` of what becomes of the matrix.

        Raises:
            NotSolved: It is singular in doubles.
            TimeOver: The time of exact work is over.
        """
        check_work()
        sparse = scipy_or_none()
        doubles = self.matrix.tocsc().astype(float)
        self.row_factors = _scaling_powers(abs(doubles).max(axis=1))
        doubles = sparse.diags(self.row_factors) @ doubles
        self.column_factors = _scaling_powers(abs(doubles).max(axis=0))
        scaled = (doubles @ sparse.diags(self.column_factors)).tocsc()
        try:
            self.lu = sparse.linalg.splu(
                scaled, diag_pivot_thresh=PIVOT_THRESHOLD, permc_spec="COLAMD"
            )
        except RuntimeError:
            raise NotSolved("the basis is singular in doubles") from None

    def _solve(self, rhs: Sequence[int], *, is_transposed: bool) -> RationalVector:
        """The x of A x = b, or of x A = b where it `is_transposed`; raises what `solve` does.

        Digits are made until they are the solution themselves, or fractions near them are; those
        are looked for at FIRST_RECONSTRUCTION_BITS, then each time that there are
        RECONSTRUCTION_GROWTH times as many.
        """
        if not any(rhs):
            return RationalVector([0] * self.size, 1)
        if max(abs(v) for v in rhs) >= EXACT_DOUBLE_LIMIT:
            raise NotSolved("a right side is too wide")
        lifting = _Lifting(self, rhs, is_transposed=is_transposed)
        wanted = min(FIRST_RECONSTRUCTION_BITS, self.most_bits)
        while not lifting.advance():
            if lifting.bits >= wanted:
                found = lifting.fractions()
                if found is not None:
                    return found
                if wanted >= self.most_bits:
                    raise TooManyBits(wanted // 2)
                wanted = min(int(wanted * RECONSTRUCTION_GROWTH), self.most_bits)
        return RationalVector(lifting.numerators, 1 << lifting.bits)


def _scaling_powers(largest: Any) -> Doubles:
    """The powers of two that bring numbers to about 1; 1 for zeros.

    Args:
        largest: A sparse matrix of one row or one column, of numbers from 0 on.
    """
    sizes = largest.toarray().ravel()
    sizes[sizes == 0] = 1
    powers: Doubles = 2.0 ** -np.round(np.log2(sizes))
    return powers


class _Lifting:
    """The binary digits of one solution, which become more step by step.

    After k digits the solution is `numerators` / 2^k plus `correction` / 2^k, where the matrix
    times the correction is `residual`: whole numbers of 64 bits, all of them exact.

    Attributes:
        matrix: That of the system, or its transpose.
        doubles: The same in doubles.
        norm: The greatest sum of the sizes of a row's coefficients, 1 at least.
        bits: Binary digits that are there.
        numerators: Of the unknowns, over 2 to the power of `bits`.
        residual: By equation.
        correction: By unknown, in doubles, which makes it a little wrong.
        first_size: The size of the first correction, 1 at least, to which later ones are compared.
        step_bits: How many digits the next step adds. It becomes less where the residual of a step
            would not fit 64 bits, or where doubles do not converge.

    Raises:
        NotSolved: The first correction is so large that the matrix must be singular.
    """

    def __init__(self, system: LiftedSystem, rhs: Sequence[int], *, is_transposed: bool) -> None:
        """
        Args:
            rhs: By equation, each below EXACT_DOUBLE_LIMIT in size.
            is_transposed: The unknowns are the x of x A = b, not of A x = b.
        """
        self.system = system
        self.is_transposed = is_transposed
        self.rhs = rhs
        self.matrix = system.transposed if is_transposed else system.matrix
        self.doubles = self.matrix.astype(float)
        self.norm = max(1.0, float(abs(self.doubles).sum(axis=1).max()))
        self.residual: Integers = np.array(rhs, dtype=np.int64)
        self.correction = self._solve_in_doubles(self.residual)
        self.first_size = max(float(np.abs(self.correction).max()), 1.0)
        if not self.first_size < float(INT64_LIMIT):
            raise NotSolved("the basis is singular in doubles")
        room = 60 - np.ceil(np.log2(self.norm)) - np.ceil(np.log2(self.first_size))
        self.step_bits = int(min(room, MOST_STEP_BITS))
        self.bits = 0
        self.numerators = [0] * system.size

    def advance(self) -> bool:
        """Takes one step, of `step_bits` digits or of as many fewer as it takes to converge.

        Returns:
            Whether it was the last: the digits are the solution.

        Raises:
            NotSolved: Not even a step of LEAST_STEP_BITS digits converges.
            TimeOver: The time of exact work is over.
        """
        while self.step_bits >= LEAST_STEP_BITS:
            check_work()
            digits = self._next_digits()
            if digits is not None:
                shifted = (v << self.step_bits for v in self.numerators)
                self.numerators = [v + digit for v, digit in zip(shifted, digits)]
                self.bits += self.step_bits
                return not self.residual.any()
            self.step_bits = self.step_bits * 2 // 3
        raise NotSolved("doubles do not converge")

    def fractions(self) -> Optional[RationalVector]:
        """The fractions near the digits, if they solve the system exactly; else None.

        Digits count as off by twice the size of the correction.
        """
        error = int(max(float(np.abs(self.correction).max()), 1.0) * 2) + 2
        found = reconstructed(self.numerators, self.bits, error)
        return found if found is not None and self._is_solution(found) else None

    def _solve_in_doubles(self, residual: Integers) -> Doubles:
        """The correction that belongs to a residual."""
        return self.system.solve_in_doubles(
            residual.astype(float), is_transposed=self.is_transposed
        )

    def _next_digits(self) -> Optional[List[int]]:
        """The next `step_bits` digits of each unknown, as a whole number of either sign.

        Sets `residual` and `correction` to those behind them: the new residual is the old one times
        2^step_bits less the matrix times the digits.

        Returns:
            None, and nothing is set, where the new residual would not fit 64 bits, or the new
            correction is more than a quarter of 2^step_bits times `first_size`.
        """
        bits = self.step_bits
        digits = np.rint(np.ldexp(self.correction, bits))
        largest = float(np.abs(digits).max())
        moved = np.ldexp(self.residual.astype(float), bits)
        left = float(np.abs(moved - self.doubles @ digits).max())
        terms = float(np.abs(moved).max()) + self.norm * largest
        rounding = ROUNDING_OF_A_RESIDUAL * terms
        if largest * self.norm >= INT64_LIMIT or not left + rounding <= INT64_LIMIT:
            return None
        whole_digits = digits.astype(np.int64)
        # each of the two numbers may wrap around, but their difference fits
        residual = (self.residual << np.int64(bits)) - self.matrix @ whole_digits
        correction = self._solve_in_doubles(residual)
        if not float(np.abs(correction).max()) <= self.first_size * 2 ** (bits - 2):
            return None
        self.residual = residual
        self.correction = correction
        found: List[int] = whole_digits.tolist()
        return found

    def _is_solution(self, found: RationalVector) -> bool:
        """Whether the matrix times the fractions is exactly the right-hand side."""
        starts = self.matrix.indptr.tolist()
        columns = self.matrix.indices.tolist()
        coefficients = self.matrix.data.tolist()
        for i, rhs in enumerate(checked(self.rhs)):
            places = range(starts[i], starts[i + 1])
            activity = sum([coefficients[k] * found.numerators[columns[k]] for k in places])
            if activity != found.denominator * rhs:
                return False
        return True


def reconstructed(values: Sequence[int], bits: int, error: int) -> Optional[RationalVector]:
    """Fractions over one denominator near numbers of some binary digits (rational reconstruction).

    Each number is first tried over the denominator of those before it. Two different fractions
    with denominators up to q are at least 1 / q^2 apart, so that one within half of that is the
    only one; it is the best approximation, found by continued fractions.

    Args:
        values: Numerators over 2 to the power of `bits`.
        bits: At least 1.
        error: By how much each of the numerators may be off.

    Returns:
        In the order of the values; whether they are right is not known yet. None where one is near
        no fraction that its digits could tell.
    """
    denominator = 1
    half = 1 << bits - 1
    found: List[Tuple[int, int]] = []
    for value in checked(values):
        scaled, room = value * denominator, denominator * error
        numerator, factor = (scaled + half) >> bits, 1
        if abs(scaled - (numerator << bits)) > room:
            largest = max(isqrt(half // room), 1)
            near = Fraction(scaled, 1 << bits).limit_denominator(largest)
            numerator, factor = near.as_integer_ratio()
            if abs(scaled * factor - (numerator << bits)) > room * factor:
                return None
            denominator *= factor
        found.append((numerator, denominator))
    return RationalVector([p * (denominator // q) for p, q in found], denominator)
