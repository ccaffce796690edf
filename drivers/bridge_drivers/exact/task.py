"""What all that is tried for one certificate has in common: the program, the limits, the answer.

`certifier` makes one `CertificationTask` for a certificate; the certifiers and the refuter ask it
for searches, relaxations and exact points.
"""

from __future__ import annotations

from dataclasses import dataclass, field
from fractions import Fraction
from functools import cached_property
from typing import Callable, Mapping, NamedTuple, Optional, Sequence

from .search_deadline import SearchDeadline
from ..model.integer_form import IntegerProgram, Point
from ..system.deadline import Deadline
from . import points
from .clp import Clp, LpStatus, library
from .evidence import AnswerByPlace, Number
from .evidence_store import EvidenceStore
from .lattice_search import LatticeOptimum, lattice_optimum
from .parallel import ParallelSearch
from .portfolio import Portfolio
from .relaxation import relaxation
from .worker_pools import SearchProblem, WorkerPool

ONE_LEAF_SECONDS = 1.0  # of the relaxation, where one leaf is tried alone
LATTICE_SHARE = 0.4  # of the seconds that are left, for a search over a lattice


@dataclass(frozen=True)
class SearchOptions:
    """What is asked of a search for a certificate.

    Attributes:
        objective: Its number in the file, from 0.
        proves: Searches may be long; else what takes one leaf or the plain search is tried.
        is_relaxation: The answer is one of the relaxation.
        wants_bound: A bound of the relaxation is wanted, too, also without `proves`.
        shortens: After a tree, a shorter one is looked for.
    """

    objective: int = 0
    proves: bool = True
    is_relaxation: bool = False
    wants_bound: bool = False
    shortens: bool = False


class SolvedRelaxation(NamedTuple):
    """A relaxation that was solved; `clp` is None where CLP's library is not there, and its status
    OTHER then."""

    clp: Optional[Clp]
    status: LpStatus

    def optimal_clp(self) -> Optional[Clp]:
        """The relaxation at its optimum; None where it has none."""
        return self.clp if self.status is LpStatus.OPTIMAL else None


class ExactAnswer(NamedTuple):
    """The optimum of a linear program in fractions, as another program answered it.

    It is believed in nothing: the certifier looks whether it is feasible and optimal.

    Attributes:
        point: By column.
        duals: By row, rates of change of the objective in its own sense.
    """

    point: Point
    duals: Mapping[int, Fraction]


# asks another program for an exact optimum within a deadline; None: it has none
ExactSolver = Callable[[Deadline], Optional[ExactAnswer]]


@dataclass
class CertificationTask:
    """One program with the answer to it.

    Attributes:
        program: In whole numbers.
        store: What is known of it.
        deadline: The time that there is.
        options: What is asked.
        answer: What a solver said.
        pool: Other processes that search; None: this one alone.
        exact_solver: Of the same program; None: there is none.
        is_linear: The program has no integer columns.
    """

    program: IntegerProgram
    store: EvidenceStore
    deadline: SearchDeadline
    options: SearchOptions = SearchOptions()
    answer: AnswerByPlace = AnswerByPlace()
    pool: Optional[WorkerPool] = None
    exact_solver: Optional[ExactSolver] = None
    is_linear: bool = field(init=False)

    def __post_init__(self) -> None:
        self.is_linear = not any(self.program.is_integer)

    @cached_property
    def lattice_optimum(self) -> Optional[LatticeOptimum]:
        """What an exact search over the lattice of the equations' solutions finds; None where the
        program is too large for it, has no equations of integer columns, or they have no integer
        solution. It is made when it is first asked for, within LATTICE_SHARE of what is left."""
        self.deadline.tell_step("the lattice of the equations")
        until = self.deadline.spent() + LATTICE_SHARE * self.deadline.left()
        return lattice_optimum(self.program, lambda: self.deadline.check_search(0, until))

    def portfolio(self, program: IntegerProgram, value: Optional[Fraction]) -> Portfolio:
        """A portfolio that has not begun, for trees that no point of the program is better than the
        value.

        Args:
            program: The task's, or it without costs.
            value: Minimised, with the constant; None: there is to be no point at all.
        """
        return Portfolio(
            program,
            value,
            self.exact_point,
            self.deadline,
            shortens=self.options.shortens,
            pool=self.pool,
        )

    def point_search(self, program: IntegerProgram) -> ParallelSearch:
        """A search that has not begun, which ends with any point of the program, or a tree that
        there is none.

        Args:
            program: The task's, without costs or within closer bounds.
        """
        return ParallelSearch(SearchProblem(program), self.exact_point, self.deadline, self.pool)

    def exact_point(self, x: Sequence[Number]) -> Optional[Point]:
        """An exact point of the task's program that has the integer columns of x, which is near
        one; None where none is found.

        Args:
            x: By column: an answer's values, or a relaxation's in a search.
        """
        return points.point_with_integers(self.program, x, self.deadline)

    def solve_relaxation(self, answer: AnswerByPlace = AnswerByPlace()) -> SolvedRelaxation:
        """The program's relaxation, solved now by either simplex method from the basis of an
        answer, where that has one and values.

        With `proves`, and of a linear program, a solve may take what CLP gets of the deadline; else
        ONE_LEAF_SECONDS.
        """
        if library() is None:
            return SolvedRelaxation(None, LpStatus.OTHER)
        self.deadline.tell_step("the relaxation by CLP")
        clp = relaxation(self.program)
        if answer.basis is not None and answer.values is not None:
            clp.warm_start(answer.basis, answer.doubles())
        if self.options.proves or self.is_linear:
            clp.limit(self.deadline)
        else:
            clp.seconds = ONE_LEAF_SECONDS
        return SolvedRelaxation(clp, clp.solve_by_either())
