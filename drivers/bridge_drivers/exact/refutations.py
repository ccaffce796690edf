"""Proofs that a program has no point, or that its objective has no bound.

That there is no point is shown by one split disjunction that rounding gives, by Farkas multipliers,
or by a tree whose leaves are such; that the objective has no bound, by a point and a ray. The
certifiers share one `Refuter`; what it yields is `Evidence`, mostly claims that the judge has
looked at, and the caller takes the first that is proved.
"""

from __future__ import annotations

import contextlib
import math
from typing import Callable, Iterator, Optional, Union

from ..model.integer_form import IntegerProgram, Point
from ..system.deadline import Deadline
from ..system.errors import SearchEnded
from . import points
from .certificate import refutation_lines
from .clp import ClpNotInstalled, LpStatus
from .dual_bound import MultiplierKind
from .evidence import AnswerByPlace, Evidence, not_proved
from .hermite import empty_interval, hermite_refutation
from .leaf_proofs import from_fractions
from .rational_simplex import RationalSimplex, SimplexResult, is_small
from .relaxation import relaxation
from .search import ImprovedIncumbent
from .task import CertificationTask

# goes on where a search for a refutation finds a point
OnPoint = Callable[[Point], Iterator[Evidence]]


class Refuter:
    """Refutes one program, as far as there is time.

    Attributes:
        has_sought_ray: A ray was looked for to the end, whether one was found or not.
    """

    def __init__(self, task: CertificationTask) -> None:
        """Nothing is tried yet. The program and the store are those of the task."""
        self.task = task
        self.program = task.program
        self.store = task.store
        self.has_sought_ray = False

    def refute(self, on_point: OnPoint) -> Iterator[Evidence]:
        """Yields proofs that there is no point, the cheapest first; where a search finds one, what
        follows from it.

        Where nothing is proved, the last evidence says why.

        Args:
            on_point: What is yielded from a point that a search finds.
        """
        yield from self.rounding_refutations()
        lattice = None if self.task.is_linear else self.task.lattice_optimum
        if lattice is not None:
            yield from self.by_lattice()
            if lattice.point is not None:
                yield from on_point(lattice.point)
        try:
            if self.task.is_linear and is_small(self.program):
                yield from self.by_rational_simplex()
            found = self._refute_by_tree()
        except (ClpNotInstalled, SearchEnded) as ended:
            yield from self.by_relaxation_at_last()
            yield not_proved(ended)
            return
        if isinstance(found, ImprovedIncumbent):
            yield from on_point(found.point)
        else:
            yield found

    def rounding_refutations(self) -> Iterator[Evidence]:
        """Yields proofs by one split disjunction, which is asked for in each run, since it is
        quick.

        An integer column or row of such has no integer between its bounds, or equations have no
        integer solution. Nothing is yielded where neither is so.
        """
        for find_refutation, figures in (
            (empty_interval, "no whole number between two ends"),
            (hermite_refutation, "equations without a whole solution"),
        ):
            refutation = find_refutation(self.program)
            if refutation is not None:
                lines = refutation_lines(refutation, self.program.m)
                yield self.store.judged(lines, figures)

    def by_lattice(self) -> Iterator[Evidence]:
        """Yields what an exact search over the lattice of a small program's equations proves: that
        it has no point, or its optimum. Nothing is yielded where that search has no tree."""
        found = self.task.lattice_optimum
        if found is not None and found.tree is not None:
            yield self.store.claim_of_tree(found.tree, found.point)

    def by_relaxation_at_last(self) -> Iterator[Evidence]:
        """Yields what the relaxation of a small integer program proves in fractions: that it has no
        point, or an optimum or ray at an integer one. Called where the search ended without a tree.

        Only what is proved is yielded, and without duals, which are not those of the integer
        program.
        """
        if self.task.is_linear or not is_small(self.program):
            return
        for evidence in self.by_rational_simplex():
            if evidence.is_proved:
                yield evidence._replace(duals={})

    def by_rational_simplex(
        self, answer: AnswerByPlace = AnswerByPlace(), limit: Deadline = Deadline()
    ) -> Iterator[Evidence]:
        """Yields what is true of a small linear program, from the basis of an answer, by the
        simplex method in fractions.

        Of an integer program that is something where its relaxation has no point, or ends at an
        integer one. An optimum goes to the store, too: its point, and its duals as a bound. Where
        the time ends it is `not proved`.

        Args:
            answer: Its basis and values are where the method begins; without them, at the rows'
                basis and near 0.
            limit: When it ends, if that is before the deadline.
        """
        self.task.deadline.tell_step("the simplex method in fractions")
        try:
            ended = self._run_rational_simplex(self.program, answer, limit)
        except SearchEnded as late:
            yield not_proved(late)
            return
        point, is_infeasible = ended.point, ended.status is LpStatus.INFEASIBLE
        kind = MultiplierKind.FARKAS if is_infeasible else MultiplierKind.DUAL
        leaf = from_fractions(self.program, ended.multipliers, kind)
        if is_infeasible:
            yield self.store.claim_of_leaf("infeasible", leaf)
        elif point is not None and self.program.is_feasible(point):
            if ended.status is LpStatus.UNBOUNDED:
                yield self.store.claim_of_ray(point, ended.ray)
            else:
                self.store.add_point(point)
                self.store.add_leaf(leaf, is_exact=True)
                yield from self.store.claim_of_optimum(point, leaf)

    def certify_ray(self) -> Evidence:
        """That the objective has no bound, where a point and a ray are found; else `not proved`
        with the reason.

        Of an answer to the relaxation of an integer program nothing is tried: that says nothing of
        the program. Where the time ends it is `not proved`, too, so that what is known is told.
        """
        if self.task.options.is_relaxation and not self.task.is_linear:
            return not_proved("only the relaxation is unbounded")
        try:
            ray = self.find_ray()
            point = None if ray is None else self._any_point()
        except SearchEnded as ended:
            return not_proved(ended)
        if ray is None:
            return not_proved("no exact ray was found")
        if point is None:
            return not_proved("no exact point was found")
        return self.store.claim_of_ray(point, ray)

    def ray_of_point(self, point: Optional[Point]) -> Iterator[Evidence]:
        """Yields that the objective has no bound, by a known point and a ray. Such is looked for
        wherever a point but no bound is known. Where the time ends nothing is yielded, so that what
        is known is told.
        """
        if point is None or self.store.bound is not None:
            return
        ray = None
        with contextlib.suppress(SearchEnded):
            ray = self.find_ray()
        if ray is not None:
            yield self.store.claim_of_ray(point, ray)

    def find_ray(self) -> Optional[Point]:
        """A ray of the program, by column in its own units, however little it improves. CLP looks
        for it first, then of a small program the simplex method in fractions. Integer marks count
        nothing.

        Sets `has_sought_ray` when it comes to its end.

        Returns:
            None where columns' bounds say that there is none, at once, or none is found.

        Raises:
            SearchEnded: The time ended in the simplex method in fractions.
        """
        if has_no_ray(self.program):
            return None
        cone = self.program.recession_cone()
        found = points.find_ray(cone)
        if found is None and is_small(cone):
            ray = self._run_rational_simplex(cone, AnswerByPlace()).point
            if ray is not None and points.is_ray(cone, ray):
                found = ray
        self.has_sought_ray = True
        return found

    def may_be_unbounded(self) -> bool:
        """Whether no bound is known, no ray was looked for to the end, and columns' bounds do not
        exclude one. It is told where the time was over."""
        is_known = self.has_sought_ray or self.store.bound is not None
        return not is_known and not has_no_ray(self.program)

    def _refute_by_tree(self) -> Union[Evidence, ImprovedIncumbent]:
        """A claim by a tree whose leaves are all Farkas multipliers, as the judge has it, or a
        point.

        Raises:
            SearchEnded: There is no tree; the reason is the plain search's, or an interrupt.
            ClpNotInstalled: There is no library of CLP.
        """
        portfolio = self.task.portfolio(self.program.without_costs(), None)
        is_race = self.task.options.proves and not self.task.is_linear
        improved = portfolio.race() if is_race else portfolio.run_plain()
        if improved is not None:
            return improved
        if portfolio.best is None:
            report = portfolio.strategies[0].report.partition(": ")[2]
            raise SearchEnded(self.task.deadline.why(report))
        return self.store.claim_of_tree(portfolio.best)

    def _run_rational_simplex(
        self, program: IntegerProgram, answer: AnswerByPlace, limit: Deadline = Deadline()
    ) -> SimplexResult:
        """Runs the simplex method in fractions, from the basis of an answer, or from that of the
        rows.

        Args:
            program: The task's, or a cone or relaxation of it with as many columns.
            limit: When it ends, if that is before the deadline.

        Raises:
            SearchEnded: The time is over, or an interrupt came.
        """

        def check() -> None:
            self.task.deadline.check_search(0, math.inf)
            limit.check()

        tableau = RationalSimplex(program, check)
        columns = answer.basis.columns if answer.basis is not None else []
        tableau.install_basis(columns, answer.doubles() or [0.0] * program.n)
        return tableau.run()

    def _any_point(self) -> Optional[Point]:
        """An exact feasible point, whatever its objective; None where none is found. Of an integer
        program by a search, which may take all the time that is left."""
        program = self.program.without_costs()
        if self.task.is_linear:
            return self._any_linear_point(program)
        deadline = self.task.deadline
        try:
            found = self.task.point_search(program).resume(deadline.spent() + deadline.left())
        except SearchEnded:
            return None
        return found.point if isinstance(found, ImprovedIncumbent) else None

    def _any_linear_point(self, program: IntegerProgram) -> Optional[Point]:
        """An exact feasible point near that of CLP, else by the simplex method in fractions; None
        where there is none.

        Args:
            program: Without integer columns and costs.
        """
        clp, found = relaxation(program), None
        if clp.solve() is LpStatus.OPTIMAL:
            found = next(points.nearby_points(program, clp.values()), None)
            if found is None:
                found = points.vertex(program, clp.basis(), clp.values())
        if found is None and is_small(program):
            return self._run_rational_simplex(program, AnswerByPlace()).point
        return found


def has_no_ray(program: IntegerProgram) -> bool:
    """Whether each column with a cost is bounded on its better side: then there is no ray. False
    says nothing."""
    bounds = zip(program.costs, program.lower, program.upper)
    return all((lower if cost > 0 else upper) is not None for cost, lower, upper in bounds if cost)
