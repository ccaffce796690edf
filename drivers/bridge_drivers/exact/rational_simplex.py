"""The simplex method in whole numbers, for small linear programs.

What it finds optimal, infeasible or unbounded is so exactly, whatever doubles make of it. The
tableau has an equation of whole numbers by basic variable. Infeasibilities of basic variables are
summed up and minimised first, and then the objective (composite phase one); the steepest price
enters, and after some steps without a gain the first one, so that no cycle goes on (Bland 1977).

Columns count over `bound_scale` of the program, as their bounds do. Row i is the variable n + i, by
its activity over `row_scale` and `bound_scale`; the objective is the variable n + m, over
`cost_scale` and `bound_scale`, without the constant. `refutations` runs it where `is_small` says
so: on a linear program, on the relaxation of an integer one at last, and for points and rays.
"""

from __future__ import annotations

from fractions import Fraction
from typing import Callable, Dict, Iterable, List, NamedTuple, Optional, Sequence

from ..model.integer_form import Bound, IntegerProgram, Point, scaled
from .clp import LpStatus
from .linear_systems import IntegerRows
from .points import nearest_bound

MOST_ROWS = 250
MOST_NUMBERS = 6000  # coefficients and columns of a program that is small
MOST_DEGENERATE_STEPS = 30  # without a gain, from which on Bland's rule holds
ZERO = Fraction(0)


class SimplexResult(NamedTuple):
    """What a program's optimum is, exactly.

    Attributes:
        status: OPTIMAL, INFEASIBLE or UNBOUNDED.
        point: By column, in the program's own units: the optimum, or of UNBOUNDED a feasible point;
            None where there is none.
        multipliers: By row, without zeros: of OPTIMAL the duals, minimised, which are rates of
            change of the objective; of INFEASIBLE Farkas multipliers, whose factor counts nothing;
            else none.
        ray: Of UNBOUNDED: an improving direction without end, by column.
    """

    status: LpStatus
    point: Optional[Point] = None
    multipliers: Dict[int, Fraction] = {}
    ray: Optional[Point] = None


class RatioTest(NamedTuple):
    """How far an entering variable goes.

    Attributes:
        step: In units of the entering variable; not below 0.
        leaving: The basic variable that meets a bound first; None where the entering variable goes
            to its other bound.
        bound: Which that variable meets, or the entering one where none leaves; over that
            variable's scales.
    """

    step: Fraction
    leaving: Optional[int]
    bound: int


def is_small(program: IntegerProgram) -> bool:
    """Whether the simplex method in whole numbers is worth a try, by rows and coefficients; integer
    marks count nothing."""
    return program.m <= MOST_ROWS and program.matrix.count + program.n <= MOST_NUMBERS


class RationalSimplex(IntegerRows):
    """One run of the simplex method: `install_basis`, then `run`.

    Attributes:
        rows: The tableau, by basic variable: coefficients by variable, which times the variables
            sum up to 0.
        lower: Of all variables, over their scales; None: there is no bound. The objective has none.
        upper: The same from above.
        objective: The number of its variable, n + m, which is always basic.
        x: The values of all variables, over their scales; those that are not basic stand at a
            bound, or at 0 where they have none.
        degenerate_steps: Steps without a gain in a row.
    """

    def __init__(self, program: IntegerProgram, check: Callable[[], None]) -> None:
        """A tableau whose basis is that of the rows. Values of variables come by `install_basis`
        alone.

        Args:
            program: Its integer marks are not looked at.
            check: Is called at each step, and raises what is to end the run.
        """
        super().__init__()
        self.program = program
        self.check = check
        scale = program.row_scale
        self.lower: List[Bound] = [*program.lower, *(scaled(b, scale) for b in program.row_lower)]
        self.upper: List[Bound] = [*program.upper, *(scaled(b, scale) for b in program.row_upper)]
        self.lower.append(None)
        self.upper.append(None)
        self.objective = program.n + program.m
        for i, row in enumerate(program.rows):
            self.add(program.n + i, {program.n + i: -1, **dict(row)})
        costs = {j: c for j, c in enumerate(program.costs) if c}
        self.add(self.objective, {self.objective: -1, **costs})
        self.x: List[Fraction] = [ZERO] * (self.objective + 1)
        self.degenerate_steps = 0

    def install_basis(self, columns: Iterable[int], x: Sequence[float]) -> None:
        """Begins with these basic columns, as far as they are independent, and sets the values of
        all variables.

        Each takes the place of the row with the shortest equation that has it. To be called before
        `run`, also without columns. What `check` raises goes on to the caller.

        Args:
            x: By column, in the program's own units: what is not basic stands at its bound near x,
                or at 0.
        """
        for j in columns:
            rows = [b for b in self.names_with[j] if self.program.n <= b < self.objective]
            if j not in self.rows and rows:
                self.check()
                self._pivot(min(rows, key=lambda b: len(self.rows[b])), j)
        self._stand_at_bounds(x)
        for basic, row in self.rows.items():
            total = sum((a * self.x[k] for k, a in row.items() if k != basic), ZERO)
            self.x[basic] = -total / row[basic]

    def _stand_at_bounds(self, x: Sequence[float]) -> None:
        """Sets the variables that are not basic to their bounds near x, of rows near their
        activities there; to 0 where they have none."""
        for k, near in enumerate([*x, *self.program.matrix.activities_in_doubles(x)]):
            if k not in self.rows:
                value = near * self.program.bound_scale
                self.x[k] = Fraction(nearest_bound(self.lower[k], self.upper[k], value) or 0)

    def run(self) -> SimplexResult:
        """Steps to the end: an optimum, a refutation or a ray. `check` may raise at each step."""
        while True:
            self.check()
            infeasible = self.infeasibilities()
            prices = self.prices(infeasible)
            entering = self.entering(prices)
            if entering is None:
                return self._refutation(infeasible, prices) if infeasible else self._optimum(prices)
            direction = 1 if prices[entering] < 0 else -1
            test = self.ratio_test(entering, direction, infeasible)
            if test is None:
                ray = self._ray(entering, direction)
                return SimplexResult(LpStatus.UNBOUNDED, self._point(), {}, ray)
            self.pivot_or_flip(entering, direction, test)

    def infeasibilities(self) -> Dict[int, int]:
        """The basic variables beyond a bound: 1 above the upper one, -1 below the lower one. While
        there are any, phase one goes on."""
        found = {}
        for basic in self.rows:
            lower, upper = self.lower[basic], self.upper[basic]
            if lower is not None and self.x[basic] < lower:
                found[basic] = -1
            elif upper is not None and self.x[basic] > upper:
                found[basic] = 1
        return found

    def prices(self, infeasible: Dict[int, int]) -> Dict[int, Fraction]:
        """By variable that is not basic, its reduced cost: by what a step of 1 changes what is
        missed in all, or where nothing is missed the objective. Zeros may be among them.

        Args:
            infeasible: As `infeasibilities` says. All variables count in their own scales.
        """
        found: Dict[int, Fraction] = {}
        for basic, sign in (infeasible or {self.objective: 1}).items():
            row = self.rows[basic]
            for k, a in row.items():
                if k != basic:
                    found[k] = found.get(k, ZERO) + sign * Fraction(-a, row[basic])
        return found

    def entering(self, prices: Dict[int, Fraction]) -> Optional[int]:
        """The variable to enter, of those that improve and can move; None where there is none.

        Of a price below 0 it goes up, else down. It is the one with the price largest in size, of
        equal ones the first; after MOST_DEGENERATE_STEPS without a gain simply the first (Bland's
        rule).
        """
        improving = [
            k
            for k, price in prices.items()
            if price and self.x[k] != (self.upper[k] if price < 0 else self.lower[k])
        ]
        if self.degenerate_steps > MOST_DEGENERATE_STEPS:
            return min(improving, default=None)
        return max(improving, key=lambda k: (abs(prices[k]), -k)) if improving else None

    def ratio_test(
        self, entering: int, direction: int, infeasible: Dict[int, int]
    ) -> Optional[RatioTest]:
        """The first bound that is met, of a basic variable or of the entering one; None where none
        is, so that the direction is a ray.

        Of basic variables that meet a bound at once, the first one leaves.

        Args:
            direction: 1: the entering variable goes up; -1: down.
            infeasible: As `infeasibilities` says: such a variable meets the bound that it is
                beyond, on its way back, and none on its way out.
        """
        bound = self.upper[entering] if direction > 0 else self.lower[entering]
        best = None
        if bound is not None:
            best = RatioTest(abs(bound - self.x[entering]), None, bound)
        for basic in self.names_with[entering]:
            rate = direction * self._rate(basic, entering)
            bound = self._bound_met(basic, rate, infeasible.get(basic, 0))
            if bound is not None:
                test = RatioTest((bound - self.x[basic]) / rate, basic, bound)
                best = test if best is None or _comes_before(test, best) else best
        return best

    def pivot_or_flip(self, entering: int, direction: int, test: RatioTest) -> None:
        """Takes the step of a ratio test in `x`, and exchanges the variables where one leaves; else
        the entering one is at its other bound, and the basis stays. Counts `degenerate_steps`.

        Args:
            direction: 1: the entering variable goes up; -1: down.
        """
        self.degenerate_steps = 0 if test.step else self.degenerate_steps + 1
        if test.step:
            for basic in self.names_with[entering]:
                self.x[basic] += direction * test.step * self._rate(basic, entering)
            self.x[entering] += direction * test.step
        if test.leaving is not None:
            self.x[test.leaving] = Fraction(test.bound)
            self._pivot(test.leaving, entering)

    def _pivot(self, leaving: int, entering: int) -> None:
        """Makes `entering` basic in place of `leaving`: the row of the one becomes that of the
        other, which goes out of all other rows. `x` stays."""
        self.add(entering, self.eliminate(leaving, entering))

    def _rate(self, basic: int, entering: int) -> Fraction:
        """By how much a basic variable changes for 1 of the entering one, each in its own scales."""
        row = self.rows[basic]
        return Fraction(-row[entering], row[basic])

    def _bound_met(self, basic: int, rate: Fraction, infeasible: int) -> Bound:
        """The bound that a basic variable meets next; None where none is on its way.

        Args:
            rate: By which it moves; above 0 upwards.
            infeasible: 1 where it is above its bounds, -1 below, 0 within: from beyond a bound it
                meets that one, on its way back, and none on its way out.
        """
        is_up = rate > 0
        if not infeasible:
            return (self.upper if is_up else self.lower)[basic]
        if is_up != (infeasible < 0):
            return None
        return (self.lower if is_up else self.upper)[basic]

    def _refutation(self, infeasible: Dict[int, int], prices: Dict[int, Fraction]) -> SimplexResult:
        """INFEASIBLE, with Farkas multipliers: what is missed in all is at its least, and above 0.

        They are the prices of rows; of a basic row that is beyond a bound, 1 below and -1 above.
        """
        shares = {**prices, **{basic: Fraction(-sign) for basic, sign in infeasible.items()}}
        return SimplexResult(LpStatus.INFEASIBLE, None, self._of_rows(shares))

    def _optimum(self, prices: Dict[int, Fraction]) -> SimplexResult:
        """OPTIMAL, with the duals: the prices of rows, turned from the scales of objective and rows
        into the program's own units."""
        scale = Fraction(self.program.row_scale, self.program.cost_scale)
        duals = {i: price * scale for i, price in self._of_rows(prices).items()}
        return SimplexResult(LpStatus.OPTIMAL, self._point(), duals)

    def _of_rows(self, prices: Dict[int, Fraction]) -> Dict[int, Fraction]:
        """The prices, by variable, of the variables of rows: by row, without zeros."""
        n = self.program.n
        return {k - n: price for k, price in prices.items() if k >= n and price}

    def _point(self) -> Point:
        """The values of the columns in the program's own units."""
        return [self.x[j] / self.program.bound_scale for j in range(self.program.n)]

    def _ray(self, entering: int, direction: int) -> Point:
        """How all columns change for 1 of the entering variable in that direction (1 up, -1 down),
        where no bound is met. Only the direction counts, so that scales stay in it."""
        found = {b: direction * self._rate(b, entering) for b in self.names_with[entering]}
        found[entering] = Fraction(direction)
        return [found.get(j, ZERO) for j in range(self.program.n)]


def _comes_before(test: RatioTest, other: RatioTest) -> bool:
    """Whether a ratio test wins over another: by the smaller step, of equal ones by the first
    leaving variable. One without a leaving variable comes behind those that have one."""
    if test.step != other.step:
        return test.step < other.step
    return other.leaving is None or (test.leaving is not None and test.leaving < other.leaving)
