"""A direction from a solution of rows and bounds into their inside, by one linear program.

The rows and bounds that the solution meets are tight. Along the direction each of them gets room,
if it can have any: then the solution may be rounded, after a small step, without leaving them. Of
the tight rows those that get no room are equations, said or implied, and are met exactly.

The program, over directions v, with room s:

    maximise   sum of s      subject to   a v = 0          in equations
                                          a v >= |a| s     in tight rows (a turned inwards)
                                          v >= s           in tight bounds (turned inwards)
                                          0 <= s <= 1,     |v| <= reach * max(1, |solution|)

with |a| the greatest coefficient of the row. Whatever can have room has room at some direction, so
by convexity there is one at which all has it (the relative interior of the cone of feasible
directions; Freund, Roundy and Todd 1985 find it by such a program). A short reach costs little of
the objective, a long one finds room where it is narrow.
"""

from __future__ import annotations

from array import array
from dataclasses import dataclass
from fractions import Fraction
from typing import Dict, Iterator, List, NamedTuple, Optional, Sequence, Tuple

from ..model.double_form import DoubleProgram, SparseColumns
from ..system.deadline import Deadline
from .clp import Clp, LpStatus
from .row_system import BASE_BITS, RowSystem, is_met
from .work_limit import check_work

LEAST_ROOM = 1e-3  # of 1: from which on a row or a bound counts as one with room
MOVE_COST = (
    1e-7  # of what goes on beyond the room of a bound, so that it goes no farther than it must
)
TOLERANCE = 1e-9  # of CLP
MOST_DUAL_COLUMNS = 20_000  # of a program of which the dual simplex method is tried first


@dataclass
class InsideDirection:
    """A direction into the inside, and what is met exactly all along it.

    Attributes:
        direction: By unknown.
        fixed: By unknown that does not move the bound that it stays at.
        exact_rows: By row that gets no room its side, over `side_scale`.
    """

    direction: List[float]
    fixed: Dict[int, Fraction]
    exact_rows: Dict[int, int]


class _TightRow(NamedTuple):
    """A row that is no equation and meets a bound; `sign` is 1 at the lower one, else -1."""

    row: int
    side: int
    sign: int


class _Tightness:
    """What a solution meets: of unknowns and of rows.

    Attributes:
        sign: By unknown 1 at its lower bound, -1 at its upper one, 0 between them.
        is_fixed: By unknown: it meets both.
        equations: By row that is one its side.
        rows: Those that are tight and no equations.
    """

    def __init__(self, system: RowSystem, base: Sequence[int], near: float) -> None:
        self.system = system
        self.near = near
        self.sign: List[int] = []
        self.is_fixed: List[bool] = []
        for lower, upper, value in zip(system.lower, system.upper, base):
            is_low = is_met(lower, system.side_scale, value, 1, near)
            is_high = is_met(upper, system.side_scale, value, 1, near)
            self.sign.append(1 if is_low else -int(is_high))
            self.is_fixed.append(is_low and is_high)
        self.equations: Dict[int, int] = {}
        self.rows: List[_TightRow] = []
        for i, value in enumerate(system.activities(base)):
            self._add_row(i, value)

    def _add_row(self, row: int, activity: int) -> None:
        """Adds a row to `equations`, or to `rows` where it meets a bound."""
        system = self.system
        lower, upper = system.row_lower[row], system.row_upper[row]
        if lower is not None and lower == upper:
            self.equations[row] = lower
            return
        for sign, side in ((1, lower), (-1, upper)):
            scale = system.coefficient_scale
            if side is not None and is_met(side, system.side_scale, activity, scale, self.near):
                self.rows.append(_TightRow(row, side, sign))
                return


class _DirectionProgram:
    """The linear program of the module's head, as CLP gets it.

    Its columns are, by unknown that is not fixed: the direction where no bound is tight; else the
    room of the tight bound, and what the direction goes beyond that room. Behind these stand the
    rooms of tight rows. Its rows are the equations, then the tight rows.
    """

    def __init__(
        self, system: RowSystem, base: Sequence[int], tight: _Tightness, reach: float
    ) -> None:
        self.system = system
        self.tight = tight
        self.parts: List[List[int]] = []  # by unknown the columns whose sum is its direction
        self.lower: List[Optional[float]] = []
        self.upper: List[Optional[float]] = []
        self.costs: List[float] = []
        for sign, is_fixed, value in zip(tight.sign, tight.is_fixed, base):
            self.parts.append([])
            if is_fixed:
                continue
            if sign:
                self._add_column(0.0, 1.0, -1.0)
                self._add_column(0.0, reach, MOVE_COST)
            else:
                end = reach * max(1.0, abs(value / (1 << BASE_BITS)))
                self._add_column(-end, end, 0.0)
        self.first_room = len(self.costs)
        for _ in tight.rows:
            self.lower.append(0.0)
            self.upper.append(1.0)
            self.costs.append(-1.0)

    def _add_column(self, lower: float, upper: float, cost: float) -> None:
        """A column of the last unknown."""
        self.parts[-1].append(len(self.costs))
        self.lower.append(lower)
        self.upper.append(upper)
        self.costs.append(cost)

    def program(self) -> DoubleProgram:
        """As CLP takes it: each row over its greatest coefficient."""
        count = len(self.tight.equations)
        rooms = len(self.tight.rows)
        starts = array("i", [0])
        entry_rows = array("i")
        values = array("d")
        for parts, column in zip(self.parts, self._columns()):
            for _ in parts:
                entry_rows.extend([i for i, _ in column])
                values.extend([a for _, a in column])
                starts.append(len(entry_rows))
        columns = SparseColumns(starts, entry_rows, values)
        columns = columns.with_units((place, -1.0) for place in range(count, count + rooms))
        row_upper: List[Optional[float]] = [0.0] * count + [None] * rooms
        row_lower: List[Optional[float]] = [0.0] * (count + rooms)
        return DoubleProgram(self.lower, self.upper, self.costs, row_lower, row_upper, columns)

    def _columns(self) -> Iterator[List[Tuple[int, float]]]:
        """By unknown its coefficients in rows of the program; none of one that is fixed."""
        places = {row: (place, 1) for place, row in enumerate(self.tight.equations)}
        for place, (row, _, sign) in enumerate(self.tight.rows, len(places)):
            places[row] = (place, sign)
        rows = self.system.matrix.rows
        sizes = {i: max((abs(a) for _, a in rows[i]), default=1) for i in places}
        for j, parts in enumerate(self.parts):
            turn = self.tight.sign[j] or 1
            entries = self.system.matrix.column(j) if parts else []
            yield [
                (places[i][0], a * turn * places[i][1] / sizes[i])
                for i, a in entries
                if i in places
            ]

    def read(self, solution: Sequence[float]) -> InsideDirection:
        """The direction that a solution of this linear program means.

        An unknown whose bound gets less than LEAST_ROOM is fixed there, and a tight row that gets
        less becomes an equation.

        Args:
            solution: What CLP found, by column of this program.
        """
        direction = [0.0] * len(self.parts)
        fixed: Dict[int, Fraction] = {}
        for j, parts in enumerate(self.parts):
            moved = sum(solution[k] for k in parts)
            if parts and (not self.tight.sign[j] or moved >= LEAST_ROOM):
                direction[j] = moved * (self.tight.sign[j] or 1)
            else:
                fixed[j] = self._tight_bound(j)
        exact_rows = dict(self.tight.equations)
        for room, (row, side, _) in zip(solution[self.first_room :], self.tight.rows):
            if room < LEAST_ROOM:
                exact_rows[row] = side
        return InsideDirection(direction, fixed, exact_rows)

    def _tight_bound(self, unknown: int) -> Fraction:
        """The bound that an unknown meets."""
        is_lower = self.tight.sign[unknown] > 0
        side = (self.system.lower if is_lower else self.system.upper)[unknown]
        assert side is not None, "a bound that is met"
        return Fraction(side, self.system.side_scale)


def inside_direction(
    system: RowSystem, base: Sequence[int], reach: float, near: float, deadline: Deadline
) -> Optional[InsideDirection]:
    """A direction from a solution into the inside.

    The direction 0 is feasible, so that the primal simplex method has its second phase alone. It is
    tried first from MOST_DUAL_COLUMNS on, where it is the quicker one, and else behind the dual one.

    Args:
        base: The solution by unknown, over 2 to the power of BASE_BITS.
        reach: How far it may go, in sizes of each unknown, or of 1.
        near: A share of a bound's size, or of 1, within which it counts as met.
        deadline: For CLP.

    Returns:
        None where CLP finds none in time.
    """
    check_work()
    made = _DirectionProgram(system, base, _Tightness(system, base, near), reach)
    if not made.costs:
        return made.read([])
    clp = Clp(made.program())
    clp.limit(deadline)
    clp.set_tolerance(TOLERANCE)
    is_large = clp.n > MOST_DUAL_COLUMNS
    is_optimal = any(
        clp.solve(by_primal=by_primal) is LpStatus.OPTIMAL for by_primal in (is_large, not is_large)
    )
    return made.read(clp.values()) if is_optimal else None
