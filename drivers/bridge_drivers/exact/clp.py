"""CLP in this process, by its C interface, for relaxations that are solved again and again.

The library is loaded when it is first asked for. What CLP answers is in doubles and is proved
elsewhere; each solve begins from the basis of the one before. `Clp` is made by `relaxation`, and
where a program in doubles was changed by `basis` and `short_points`.
"""

from __future__ import annotations

import ctypes
import ctypes.util
import enum
import math
import time
from typing import Any, Iterable, Iterator, List, Mapping, NamedTuple, Optional, Sequence, Tuple

from ..model.double_form import DoubleBound, DoubleProgram
from ..system.deadline import Deadline
from ..system.errors import NotInstalled
from .work_limit import check_work

INFINITE = 1.7976931348623157e308  # COIN's own
STATUS_BITS = 7  # of a byte of a basis: the other bits are flags of CLP's own
ITERATIONS = 100_000  # of one relaxation
LEAST_SOLVE_SECONDS = 1.0  # that a solve gets, however little time is left
MOST_SOLVE_SECONDS = 30.0
FIRST_SLICE = 1.0  # seconds of the processor, which is what CLP's own limit counts
MOST_SLICE = 4.0  # after which at last an interrupt is seen
SMALL = 1e-3  # bounds and costs below are scaled up
LIBRARY_NAMES = ("libClp.so.1", "libClp.so", "libClp.1.dylib", "libClp.dylib")

_POINTER = ctypes.c_void_p
_INT = ctypes.c_int
_DOUBLE = ctypes.c_double


class _Signature(NamedTuple):
    """The types of C that a call of the library returns and takes."""

    returns: Any  # None: nothing
    takes: Tuple[Any, ...]


_SIGNATURES: Mapping[str, _Signature] = {
    "newModel": _Signature(_POINTER, ()),
    "deleteModel": _Signature(None, (_POINTER,)),
    "setLogLevel": _Signature(None, (_POINTER, _INT)),
    "loadProblem": _Signature(None, (_POINTER, _INT, _INT) + 8 * (_POINTER,)),
    "setSmallElementValue": _Signature(None, (_POINTER, _DOUBLE)),
    "chgColumnLower": _Signature(None, (_POINTER, _POINTER)),
    "chgColumnUpper": _Signature(None, (_POINTER, _POINTER)),
    "chgRowLower": _Signature(None, (_POINTER, _POINTER)),
    "chgRowUpper": _Signature(None, (_POINTER, _POINTER)),
    "chgObjCoefficients": _Signature(None, (_POINTER, _POINTER)),
    "numberIterations": _Signature(_INT, (_POINTER,)),
    "setNumberIterations": _Signature(None, (_POINTER, _INT)),
    "setMaximumIterations": _Signature(None, (_POINTER, _INT)),
    "setMaximumSeconds": _Signature(None, (_POINTER, _DOUBLE)),
    "setPrimalTolerance": _Signature(None, (_POINTER, _DOUBLE)),
    "dual": _Signature(_INT, (_POINTER, _INT)),
    "primal": _Signature(_INT, (_POINTER, _INT)),
    "status": _Signature(_INT, (_POINTER,)),
    "objectiveValue": _Signature(_DOUBLE, (_POINTER,)),
    "primalColumnSolution": _Signature(_POINTER, (_POINTER,)),
    "dualRowSolution": _Signature(_POINTER, (_POINTER,)),
    "infeasibilityRay": _Signature(_POINTER, (_POINTER,)),
    "freeRay": _Signature(None, (_POINTER, _POINTER)),
    "statusArray": _Signature(_POINTER, (_POINTER,)),
    "copyinStatus": _Signature(None, (_POINTER, _POINTER)),
}
LOADED: List[Optional[ctypes.CDLL]] = []  # once it was looked for: the library, or None


class ClpNotInstalled(NotInstalled):
    """CLP's library is not there."""

    def __init__(self) -> None:
        super().__init__("CLP's library (coinor-libclp1) is not installed")


class LpStatus(enum.Enum):
    """How the last solve of a relaxation ended; the values are CLP's own, but for the last.

    It is what CLP says in doubles, by its tolerances: a proof is made elsewhere.
    """

    OPTIMAL = 0
    INFEASIBLE = 1
    UNBOUNDED = 2
    OTHER = 3  # it was stopped, or has no optimum that CLP finds


class VariableStatus(enum.IntEnum):
    """How a column or a row stands in a basis; the values are CLP's own."""

    FREE = 0
    BASIC = 1
    AT_UPPER = 2
    AT_LOWER = 3


class Basis(NamedTuple):
    """A basis, by the numbers of columns and rows.

    Attributes:
        columns: Those that are basic.
        rows: Those that are not basic: as many as columns, where CLP's basis is complete.
    """

    columns: List[int]
    rows: List[int]


def library() -> Optional[ctypes.CDLL]:
    """CLP's library with the types of its calls; None where it is not installed.

    It is looked for once in a process.
    """
    if not LOADED:
        LOADED.append(_load())
    return LOADED[0]


def _load() -> Optional[ctypes.CDLL]:
    """The first library by the known names that has all calls, whose types are set; else None."""
    for name in _library_names():
        try:
            found = ctypes.CDLL(name)
            for call, signature in _SIGNATURES.items():
                function = getattr(found, "Clp_" + call)
                function.restype = signature.returns
                function.argtypes = list(signature.takes)
            return found
        except (OSError, AttributeError):
            continue
    return None


def _library_names() -> Iterator[str]:
    """The known names; and then what the system finds, which starts `ldconfig` and takes long."""
    yield from LIBRARY_NAMES
    found = ctypes.util.find_library("Clp")
    if found is not None:
        yield found


class Clp:
    """A relaxation whose bounds change. What is asked of it is of the last `solve`.

    CLP's tolerances are of fixed size and hide what small numbers say: so columns with small bounds
    are multiplied by a power of two, and so are small costs, and columns that the caller names.
    CLP scales rows itself. What methods take and answer is in the program's own units.

    Attributes:
        deadline_of_all: With which each solve of any relaxation ends at last. All seconds of solves
            are those of its clock, the wall's or the processor's.
        deadline: Of what this relaxation is solved for: a solve gets the time that is left of it
            when it begins, with a least and a most.
        seconds: That one solve may take of a relaxation that has no such deadline.
        n: The count of columns.
        m: The count of rows.
        column_factors: By column: CLP's value is this times the column's own.
        cost_factor: CLP's objective is this times the program's.
        lower: Bounds of columns in CLP's units, an array of C; INFINITE in size: there is none. All
            bounds are given to CLP at the beginning of a solve.
        upper: The same from above.
        row_lower: Bounds of rows, as those of columns, but that rows have no factors.
        row_upper: The same from above.

    Raises:
        ClpNotInstalled: There is no library of CLP.
    """

    deadline_of_all = Deadline()
    deadline: Optional[Deadline] = None
    seconds = math.inf

    @classmethod
    def restrict(cls, deadline: Deadline) -> None:
        """From now on each solve of any relaxation of this process stops where it is over."""
        cls.deadline_of_all = deadline

    @classmethod
    def shorten(cls, deadline: Deadline) -> None:
        """Each solve of any relaxation, a running one too, stops when the seconds of this deadline
        are over, or where it would have stopped, if that is earlier. At an interrupt."""
        cls.restrict(cls.deadline_of_all.within(deadline.left()))

    def __init__(
        self, program: DoubleProgram, enlargements: Optional[Sequence[float]] = None
    ) -> None:
        """Gives the program to CLP; nothing is solved yet, and the basis is CLP's first one.

        Args:
            enlargements: By column, a power of two that it is multiplied by beside its bounds'
                own; None: 1 for all.
        """
        found = library()
        if found is None:
            raise ClpNotInstalled()
        self.lib = found
        self.model = found.Clp_newModel()
        self.n = len(program.costs)
        self.m = len(program.row_lower)
        self.column_factors = [_column_factor(pair) for pair in zip(program.lower, program.upper)]
        for j, by in enumerate(enlargements or ()):
            self.column_factors[j] *= by
        costs = [c / by for c, by in zip(program.costs, self.column_factors)]
        self.cost_factor = scaling_power(max((abs(c) for c in costs), default=0.0))
        self.lower = _bounds(self._scaled(program.lower), -INFINITE)
        self.upper = _bounds(self._scaled(program.upper), INFINITE)
        self.row_lower = _bounds(program.row_lower, -INFINITE)
        self.row_upper = _bounds(program.row_upper, INFINITE)
        self._load_problem(program, costs)

    def __del__(self) -> None:
        """Gives CLP's memory back; also where `__init__` has failed."""
        if getattr(self, "model", None):
            self.lib.Clp_deleteModel(self.model)
            self.model = None

    def limit(self, deadline: Deadline) -> None:
        """From now on each solve gets the time that the deadline has left when the solve begins.

        That is at least LEAST_SOLVE_SECONDS and at most MOST_SOLVE_SECONDS.
        """
        self.deadline = deadline

    def seconds_of_solve(self) -> float:
        """How long a solve may take that begins now."""
        seconds = self.seconds
        if self.deadline is not None:
            seconds = min(max(self.deadline.left(), LEAST_SOLVE_SECONDS), MOST_SOLVE_SECONDS)
        return min(seconds, self.deadline_of_all.left())

    def set_tolerance(self, tolerance: float) -> None:
        """Sets by how much later solves may miss rows and bounds: CLP's primal tolerance.

        It is in CLP's units, where columns with small bounds are multiplied.
        """
        self.lib.Clp_setPrimalTolerance(self.model, tolerance)

    def set_bounds(self, column: int, lower: DoubleBound, upper: DoubleBound) -> None:
        """Gives a column other bounds, from the next solve on; None: there is no such bound."""
        factor = self.column_factors[column]
        self.lower[column] = -INFINITE if lower is None else lower * factor
        self.upper[column] = INFINITE if upper is None else upper * factor

    def set_row_bounds(self, row: int, lower: DoubleBound, upper: DoubleBound) -> None:
        """Gives a row other bounds, from the next solve on; None: there is no such bound."""
        self.row_lower[row] = -INFINITE if lower is None else lower
        self.row_upper[row] = INFINITE if upper is None else upper

    def solve(self, most_iterations: int = ITERATIONS, *, by_primal: bool = False) -> LpStatus:
        """Solves from the basis that it has, by the dual simplex method or the primal one.

        CLP's own limit counts seconds of the processor, of which a busy machine gives few: it gets
        slices, and after each the clock is looked at. A slice is at most twice the one before,
        MOST_SLICE, and what the processor gives in the time that is left, by what it gave in that
        one. An interrupt, which shortens `deadline_of_all`, ends the solve behind its slice.

        Args:
            most_iterations: Of the method; 0: the values and duals of the basis are wanted.

        Returns:
            OTHER where it was stopped by iterations, `seconds` or `deadline_of_all`.

        Raises:
            TimeOver: The time of exact work was over before it began.
        """
        check_work()
        lib, model = self.lib, self.model
        self._send_bounds()
        lib.Clp_setNumberIterations(model, 0)
        lib.Clp_setMaximumIterations(model, most_iterations)
        clock = time.process_time if self.deadline_of_all.of_processor else time.monotonic
        now = clock()
        portion = FIRST_SLICE
        end = now + self.seconds_of_solve()
        while True:
            seconds = max(min(end - now, portion), 0.0)
            lib.Clp_setMaximumSeconds(model, seconds)
            (lib.Clp_primal if by_primal else lib.Clp_dual)(model, 0)
            if not self._is_stopped() or lib.Clp_numberIterations(model) >= most_iterations:
                break
            began, now = now, clock()
            end = min(end, now + self.deadline_of_all.left())
            if now >= end:
                break
            by_clock = (end - now) * seconds / max(now - began, seconds)
            portion = min(2 * portion, MOST_SLICE, by_clock)
        status = lib.Clp_status(model)
        return LpStatus(status) if status in (0, 1, 2) else LpStatus.OTHER

    def solve_by_either(self) -> LpStatus:
        """Solves by the dual simplex method, and by the primal one where that finds no optimum.

        Each of both has the whole of `seconds`. The status is that of the last.
        """
        status = self.solve()
        return status if status is LpStatus.OPTIMAL else self.solve(by_primal=True)

    def objective(self) -> float:
        """The objective that the last solve ended at, minimised, without the constant."""
        return float(self.lib.Clp_objectiveValue(self.model)) / self.cost_factor

    def values(self) -> List[float]:
        """By column the value that the last solve ended at."""
        found = _read(self.lib.Clp_primalColumnSolution(self.model), self.n)
        return [x / factor for x, factor in zip(found, self.column_factors)]

    def duals(self) -> List[float]:
        """By row the dual that the last solve ended at, as the program is minimised.

        It is above 0 at a lower row bound, and below 0 at an upper one, but for rounding.
        """
        found = _read(self.lib.Clp_dualRowSolution(self.model), self.m)
        return [dual / self.cost_factor for dual in found]

    def farkas_multipliers(self) -> List[float]:
        """After an infeasible solve: by row, multipliers of any size that refute the rows.

        They may be meant times -1: the caller tries both. Empty where CLP has none.
        """
        place = self.lib.Clp_infeasibilityRay(self.model)
        if not place:
            return []
        multipliers = _read(place, self.m)
        self.lib.Clp_freeRay(self.model, place)
        return multipliers

    def row_of_inverse(self, column: int, basis: bytes) -> List[float]:
        """The row of a basic column in the inverse of a basis: multipliers by row.

        They leave 1 in this column and 0 in the other basic ones, so that they are the basis'
        duals where the column alone has a cost. The costs of this relaxation are lost: it is good
        for no other solve afterwards.

        Args:
            basis: As `saved_basis` has it.
        """
        costs = [0.0] * self.n
        costs[column] = self.cost_factor / self.column_factors[column]
        self.lib.Clp_chgObjCoefficients(self.model, _doubles(costs))
        self.restore_basis(basis)
        self.solve(0, by_primal=True)
        return self.duals()

    def saved_basis(self) -> bytes:
        """The present basis, a byte for each column and then for each row.

        For `restore_basis` of this relaxation, or of one with as many columns and rows.
        """
        return ctypes.string_at(self.lib.Clp_statusArray(self.model), self.n + self.m)

    def restore_basis(self, basis: bytes) -> None:
        """The next solve begins from this basis, as `saved_basis` has it."""
        self.lib.Clp_copyinStatus(self.model, basis)

    def warm_start(self, basis: Basis, x: Sequence[float]) -> None:
        """The next solve begins from this basis.

        A column that is not basic stands at its bound that is nearer to x, and a row at its lower
        bound where it has one, else at the upper.

        Args:
            x: By column; only values of columns that are not basic are looked at.
        """
        statuses = bytearray([VariableStatus.BASIC] * (self.n + self.m))
        is_basic = set(basis.columns)
        for j in range(self.n):
            if j not in is_basic:
                value = x[j] * self.column_factors[j]
                statuses[j] = _nearest_bound(self.lower[j], self.upper[j], value)
        for i in basis.rows:
            has_lower = self.row_lower[i] > -INFINITE
            status = VariableStatus.AT_LOWER if has_lower else VariableStatus.AT_UPPER
            statuses[self.n + i] = status
        self.restore_basis(bytes(statuses))

    def basis(self) -> Basis:
        """The basis of the last solve, or the one that was given since."""
        basic = [status & STATUS_BITS == VariableStatus.BASIC for status in self.saved_basis()]
        return Basis(
            [j for j in range(self.n) if basic[j]],
            [i for i in range(self.m) if not basic[self.n + i]],
        )

    def _scaled(self, bounds: Iterable[DoubleBound]) -> Iterable[DoubleBound]:
        """Bounds by column in CLP's units; None where there is none."""
        return (bound and bound * by for bound, by in zip(bounds, self.column_factors))

    def _load_problem(self, program: DoubleProgram, costs: Sequence[float]) -> None:
        """Gives CLP the program, which tells nothing of its own and drops no small coefficient.

        Args:
            costs: By column, over its factor, not yet times `cost_factor`.
        """
        columns = program.columns.over(self.column_factors)
        self.lib.Clp_setLogLevel(self.model, 0)
        self.lib.Clp_setSmallElementValue(self.model, 0.0)
        self.lib.Clp_loadProblem(
            self.model,
            self.n,
            self.m,
            _memory(ctypes.c_int, columns.starts),
            _memory(ctypes.c_int, columns.rows),
            _memory(ctypes.c_double, columns.values),
            self.lower,
            self.upper,
            _doubles([c * self.cost_factor for c in costs]),
            self.row_lower,
            self.row_upper,
        )

    def _send_bounds(self) -> None:
        """Gives CLP all bounds as they stand in the arrays; at the beginning of each solve."""
        self.lib.Clp_chgColumnLower(self.model, self.lower)
        self.lib.Clp_chgColumnUpper(self.model, self.upper)
        if self.m:
            self.lib.Clp_chgRowLower(self.model, self.row_lower)
            self.lib.Clp_chgRowUpper(self.model, self.row_upper)

    def _is_stopped(self) -> bool:
        """Whether the last solve was stopped by its time or its iterations: CLP's status 3."""
        return bool(self.lib.Clp_status(self.model) == 3)


def scaling_power(size: float) -> float:
    """The power of two that brings a number below SMALL to about 1; 1 for 0 and other numbers."""
    return 2.0 ** -math.frexp(size)[1] if 0 < size < SMALL else 1.0


def _column_factor(bounds: Tuple[DoubleBound, DoubleBound]) -> float:
    """The power of two that a column is multiplied by in CLP.

    It is above 1 where both bounds are there, are not both 0, and are below SMALL in size.
    """
    if None in bounds:
        return 1.0
    return scaling_power(max((abs(bound) for bound in bounds if bound), default=1.0))


def _doubles(values: Sequence[float]) -> Any:
    """An array of C with these doubles; one 0 where there are none, since CLP wants an address."""
    return (ctypes.c_double * max(len(values), 1))(*values)


def _bounds(bounds: Iterable[DoubleBound], infinite: float) -> Any:
    """An array of C with these bounds, and `infinite` (with its sign) where there is none."""
    return _doubles([infinite if bound is None else bound for bound in bounds])


def _memory(kind: Any, values: Any) -> Any:
    """The numbers of an array where they stand, without a copy, as an array of C.

    Args:
        kind: Their type of C.
        values: An array of that type, or one of NumPy; where it is empty the answer has one 0.
    """
    return (kind * len(values)).from_buffer(values) if len(values) else (kind * 1)()


def _read(place: int, count: int) -> List[float]:
    """A copy of the `count` doubles at an address of CLP's, which may be null where it is 0."""
    return list((ctypes.c_double * count).from_address(place)) if count else []


def _nearest_bound(lower: float, upper: float, value: float) -> VariableStatus:
    """The bound that a column which is not basic stands at: the nearer one, or the lower of equals.

    Args:
        lower: In CLP's units; -INFINITE: there is none.
        upper: The same; INFINITE: there is none. Without any bound the column is FREE.
        value: Of the column, in CLP's units.
    """
    if lower <= -INFINITE:
        return VariableStatus.FREE if upper >= INFINITE else VariableStatus.AT_UPPER
    is_near_upper = abs(upper - value) < abs(value - lower)
    return VariableStatus.AT_UPPER if is_near_upper else VariableStatus.AT_LOWER
