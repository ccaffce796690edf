"""The order in which rows of a system are met exactly, each by unknowns of its own.

Rows are peeled off one by one: a row that has unknowns which stand in no other row that is left can
be met by these, whatever the others are. So, in the reverse order, each row is solved by its own
unknowns and disturbs none that is solved before it. Where no row has an unknown of its own, one is
eliminated from all other rows, in whole numbers (Markowitz 1957).

Digits decide what comes first. A row whose own unknowns have coefficients without a common factor
is met in the digits that the others have (Bezout's identity); a factor of twos and fives costs
decimals, any other one a denominator. First in, first out: chains of rows, each of which rests on
the one before, stay short so.
"""

from __future__ import annotations

from collections import defaultdict, deque
from fractions import Fraction
from math import gcd, lcm
from typing import DefaultDict, Deque, Dict, Iterator, List, NamedTuple, Optional, Set, Tuple

from ..system.deadline import Deadline
from .inside_direction import InsideDirection
from .row_system import RowSystem
from .work_limit import check_work

MOST_WORK = 500_000  # coefficients that are touched, of 64 bits each
MOST_BITS = 1000  # of a pivot
MOST_UNIT_LENGTH = 40  # unknowns of a row whose unknown of coefficient 1 is eliminated early
MOST_UNIT_FILL = 60  # coefficients that such an elimination may bring in
LOOK_AGAIN = 0.97
MOST_LOOKED = 1_000_000  # coefficients that are looked at for such unknowns
UNIT_ROWS = 60  # shortest rows that are looked at for such an unknown
PIVOT_ROWS = 12  # the same for any other unknown


class Step(NamedTuple):
    """A row in whole numbers without a common factor: what meets it.

    Attributes:
        coefficients: By unknown that may move.
        side: What they sum up to.
        own: Unknowns that stand in no row that is solved before it.
    """

    coefficients: Dict[int, int]
    side: Fraction
    own: List[int]


class _Pivot(NamedTuple):
    """Of less cost first."""

    cost: float
    row: int
    unknown: int


def without_twos_and_fives(number: int) -> int:
    """What is left of a number's size when all factors 2 and 5 are taken out; 0 of 0."""
    number = abs(number)
    if not number:
        return 0
    number >>= (number & -number).bit_length() - 1
    while number % 5 == 0:
        number //= 5
    return number


class PeelingOrder:
    """Orders the exact rows of a direction.

    Attributes:
        steps: In the order in which they are solved.
        is_whole: False: it was too much work, or the time was over, and `steps` is of no use.
    """

    def __init__(
        self, system: RowSystem, inside: InsideDirection, deadline: Deadline, *, eager: bool
    ) -> None:
        """
        Args:
            deadline: Of the work.
            eager: Unknowns of coefficient 1 are eliminated before a row is peeled off that costs
                digits.
        """
        self.eager = eager
        self.deadline = deadline
        self.work = 0
        self.looked = 0
        self.looks_at = len(inside.exact_rows)  # rows that are left: then such unknowns are sought
        self.rows: Dict[int, Dict[int, int]] = {}
        self.sides: Dict[int, Fraction] = {}
        self.rows_of: DefaultDict[int, Set[int]] = defaultdict(set)
        self.own: DefaultDict[int, Set[int]] = defaultdict(set)
        self.by_length: DefaultDict[int, Set[int]] = defaultdict(set)
        self.queues: Tuple[Deque[int], Deque[int], Deque[int]] = (deque(), deque(), deque())
        self._grids: Dict[int, Dict[int, int]] = {}
        self._read(system, inside)
        self.steps: List[Step] = []
        self.is_whole = self._order()
        self.steps.reverse()

    def grid(self, most: int) -> Dict[int, int]:
        """By unknown of what its value is to be a multiple, so that later divisions leave nothing.

        Demands go backwards through the order: a row whose own unknowns have the common factor g
        wants what its others add to be a multiple of g. Those of more than `most` are left out.

        Args:
            most: At 1 there are none.
        """
        if most not in self._grids:
            found: DefaultDict[int, int] = defaultdict(lambda: 1)
            for step in reversed(self.steps) if most > 1 else ():
                common = gcd(*(step.coefficients[j] * found[j] for j in step.own))
                own = set(step.own)
                for j, a in step.coefficients.items() if common > 1 else ():
                    wanted = lcm(found[j], common // gcd(common, a))
                    if j not in own and wanted <= most:
                        found[j] = wanted
            self._grids[most] = dict(found)
        return self._grids[most]

    def _read(self, system: RowSystem, inside: InsideDirection) -> None:
        """Takes the exact rows, over the unknowns that move."""
        entries = system.matrix.rows
        for i, side in inside.exact_rows.items():
            row: Dict[int, int] = {}
            fixed = Fraction(0)
            for j, a in entries[i]:
                value = inside.fixed.get(j)
                if value is None:
                    row[j] = a
                elif value:
                    fixed += a * value
            self._set(i, row, Fraction(side * system.coefficient_scale, system.side_scale) - fixed)
            for j in row:
                self.rows_of[j].add(i)
        for j, names in self.rows_of.items():
            if len(names) == 1:
                self.own[next(iter(names))].add(j)
        for i in list(self.own):
            self._queue(i)

    def _set(self, name: int, row: Dict[int, int], side: Fraction) -> None:
        """Puts a row under its name, over its greatest common factor."""
        common = gcd(*row.values())
        if common > 1:
            row = {j: a // common for j, a in row.items()}
            side /= common
        self.rows[name] = row
        self.sides[name] = side
        self.by_length[len(row)].add(name)

    def _queue(self, name: int) -> None:
        """A row with unknowns of its own stands in line, by what it costs in digits."""
        row = self.rows[name]
        common = gcd(*(row[j] for j in self.own[name]))
        kind = int(common != 1) + int(without_twos_and_fives(common) != 1)
        self.queues[kind].append(name)

    def _order(self) -> bool:
        """Peels off and eliminates until no row is left; whether it came to that."""
        while self.rows:
            for name in list(self.by_length[0]):  # implied by others
                self.by_length[0].discard(name)
                del self.rows[name]
            if not self._advance():
                return False
        return True

    def _advance(self) -> bool:
        """Takes one step; False: there is too much work."""
        free, *costly = self.queues
        if free:
            self._peel(free.popleft())
            return True
        pivot = self._unit_pivot()
        waiting = next(filter(None, costly), None)
        if pivot is None and waiting is not None:
            self._peel(waiting.popleft())
            return True
        pivot = pivot or self._pivot()
        if pivot is None:
            return not self.rows or bool(self.by_length[0])
        self._eliminate(pivot)
        return self.work <= MOST_WORK and not self.deadline.is_over()

    def _peel(self, name: int) -> None:
        """Takes a row away that has unknowns of its own, if it still stands."""
        if name not in self.rows or not self.own.get(name):
            return
        row = self.rows.pop(name)
        self.by_length[len(row)].discard(name)
        self.steps.append(Step(row, self.sides[name], sorted(self.own.pop(name))))
        for j in row:
            self.rows_of[j].discard(name)
            self._found_alone(j)

    def _found_alone(self, unknown: int) -> None:
        """Where an unknown stands in one row alone, that row may be peeled off."""
        names = self.rows_of[unknown]
        if len(names) == 1:
            name = next(iter(names))
            self.own[name].add(unknown)
            self._queue(name)

    def _shortest(self) -> Iterator[int]:
        """Rows, the shortest first."""
        for length in sorted(length for length, names in self.by_length.items() if names):
            yield from self.by_length[length]

    def _unit_pivot(self) -> Optional[_Pivot]:
        """An unknown of coefficient 1 in a short row whose elimination brings little in.

        Where there is none, none is looked for until LOOK_AGAIN of the rows are left; after
        MOST_LOOKED coefficients never again.
        """
        if not self.eager or len(self.rows) > self.looks_at:
            return None
        found: List[_Pivot] = []
        for count, name in enumerate(self._shortest(), 1):
            row = self.rows[name]
            if len(row) > MOST_UNIT_LENGTH or found and count > UNIT_ROWS:
                break
            found += self._units_of(name)
        self.eager = self.looked <= MOST_LOOKED and self.work <= MOST_WORK // 4
        best = min(found, default=None)
        if best is not None and best.cost <= MOST_UNIT_FILL:
            return best
        self.looks_at = int(LOOK_AGAIN * len(self.rows))
        return None

    def _units_of(self, name: int) -> List[_Pivot]:
        """The unknowns of coefficient 1 that a row has and others have, too."""
        row = self.rows[name]
        self.looked += len(row)
        units = [j for j, a in row.items() if abs(a) == 1 and len(self.rows_of[j]) > 1]
        return [_Pivot((len(row) - 1) * (len(self.rows_of[j]) - 1), name, j) for j in units]

    def _pivot(self) -> Optional[_Pivot]:
        """An unknown of a short row that brings few coefficients and digits in (Markowitz)."""
        best: Optional[_Pivot] = None
        for looked, name in enumerate(self._shortest(), 1):
            row = self.rows[name]
            for j, a in row.items():
                fill = (len(row) - 1) * (len(self.rows_of[j]) - 1)
                key = _Pivot(fill * _digits_of(a), name, j)
                best = key if best is None else min(best, key)
            if looked > PIVOT_ROWS:
                break
        return best

    def _eliminate(self, pivot: _Pivot) -> None:
        """Takes an unknown out of all rows but one, which it then belongs to."""
        check_work()
        line, side = self.rows[pivot.row], self.sides[pivot.row]
        for name in sorted(self.rows_of[pivot.unknown] - {pivot.row}):
            row = self.rows[name]
            self.by_length[len(row)].discard(name)
            common = gcd(line[pivot.unknown], row[pivot.unknown])
            keep, share = line[pivot.unknown] // common, row[pivot.unknown] // common
            combined = self._combined(name, row, keep, line, share)
            self.work += len(combined) * (1 + keep.bit_length() // 64)
            if keep.bit_length() > MOST_BITS:
                self.work = MOST_WORK + 1
                return
            self._set(name, combined, self.sides[name] * keep - share * side)
        self.own[pivot.row].add(pivot.unknown)
        self._queue(pivot.row)

    def _combined(
        self, name: int, row: Dict[int, int], keep: int, line: Dict[int, int], share: int
    ) -> Dict[int, int]:
        """`keep` times a row less `share` times another one; keeps `rows_of` and `own` true."""
        found: Dict[int, int] = {}
        for j, a in row.items():
            value = a * keep - share * line.get(j, 0)
            if value:
                found[j] = value
            else:
                self.rows_of[j].discard(name)
                self._found_alone(j)
        for j, a in line.items():
            if j not in row:
                found[j] = -share * a
                for other in self.rows_of[j]:
                    self.own[other].discard(j)
                self.rows_of[j].add(name)
        return found


def _digits_of(coefficient: int) -> float:
    """What an elimination by this coefficient costs in digits, as a factor."""
    if abs(coefficient) == 1:
        return 1.0
    if without_twos_and_fives(coefficient) == 1:
        return 1.5
    return 3 + coefficient.bit_length() / 8
