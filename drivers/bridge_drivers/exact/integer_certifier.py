"""What is true of an integer program: what trees over it prove at its best point, and a bound.

`Certifier` has one `IntegerCertifier`, which it asks where the program has integer columns. What is
tried is yielded as evidence, proved or not, of which the caller takes the first that is proved.
"""

from __future__ import annotations

import contextlib
import itertools
from fractions import Fraction
from typing import Iterator, Optional, Sequence

from .short_duals import NO_MULTIPLIERS, box_bound
from ..model.integer_form import Box, Point
from ..system.errors import SearchEnded
from . import points
from .clp import ClpNotInstalled, LpStatus
from .dual_bound import MultiplierKind
from .evidence import Evidence, Number, not_proved
from .evidence_store import BoundEvidence, first_proved
from .leaf_proofs import LeafProver, basis_duals
from .linear_certifier import LinearCertifier
from .portfolio import Portfolio
from .refutations import Refuter
from .search import ImprovedIncumbent
from .task import CertificationTask

NO_EXACT_POINT = "no exact point has the answer's whole variables"
ROUNDING = Fraction(1, 10**12)  # of the largest term of a row: as much may be rounding
# of a bound, or of 1: no answer's value is so much better by rounding
FAR_BEYOND = Fraction(1, 10**6)
REPAIR_NODES = 200  # of a search beside an answer
REPAIR_SHARE = 0.25  # of the seconds that are left, for such a search


class IntegerCertifier:
    """Certifies one integer program.

    Attributes:
        store: Points and bounds that are known, which all that is tried here adds to.
        refuter: Of the same program: shows that it has no point, or no bound.
        linear: Of the same program: adds bounds of its relaxation to the store.
        incumbent: The point whose value the portfolio is for; None before there is one.
        portfolio: That portfolio.
        is_answer_contradicted: No point has the answer's integer columns: they miss rows or bounds
            by more than rounding, or CLP finds no values for the other columns.
    """

    def __init__(self, task: CertificationTask, refuter: Refuter, linear: LinearCertifier) -> None:
        self.task = task
        self.program = task.program
        self.store = task.store
        self.refuter = refuter
        self.linear = linear
        self.incumbent: Optional[Point] = None
        self.portfolio: Optional[Portfolio] = None
        self.is_answer_contradicted = False

    def certify_answer(self, x: Sequence[Number]) -> Evidence:
        """What is proved from an answer: at an exact point that has its integer columns, else at
        one near it, else of the program without a point.

        Sets `is_answer_contradicted` where no exact point has them.

        Args:
            x: By column, in doubles, or fractions where the answer is exact.
        """
        point, violation = self.task.exact_point(x), Fraction(0)
        if point is None:
            violation = points.integer_residual(self.program, x)
            deadline = self.task.deadline
            self.is_answer_contradicted = violation > ROUNDING or points.integers_are_infeasible(
                self.program, x, deadline
            )
            if violation > ROUNDING:
                point = self.repaired_point(x)
        if point is None:
            return self._without_exact_point(x, violation)
        return first_proved(self.certify_from_point(point))

    def certify_from_point(self, point: Point) -> Iterator[Evidence]:
        """What is proved from a feasible point, the strongest first.

        That is `unbounded` by a ray; `optimal` where bounds of columns alone show it, by a search
        over the lattice of a small program's equations, or by a tree at the best point that the searches find; what the relaxation proves in fractions; the
        claims of the points and the bound in the store. At last it says why there is no more. Adds
        the point, and better ones, to the store, and sets what `_search_from` sets.
        """
        program, store = self.program, self.store
        store.add_point(point)
        yield from self.refuter.ray_of_point(store.point or self.incumbent)
        if box_bound(program) == program.value(point):  # bounds of columns alone say it
            yield store.claim_of_leaf("optimal", NO_MULTIPLIERS, point)._replace(duals={})
        yield from self.refuter.by_lattice()
        portfolio = self._search_from(point)
        point = self.incumbent or point
        if portfolio.best is not None:
            yield store.claim_of_tree(portfolio.best, point)
        reports = portfolio.reports() or [str(ClpNotInstalled())]
        if self.task.options.proves or self.task.options.wants_bound:
            self.add_root_bound()
        yield from self.refuter.by_relaxation_at_last()
        yield from store.claims()
        yield not_proved(self.task.deadline.why(reports[-1]), point)

    def repaired_point(self, x: Sequence[Number]) -> Optional[Point]:
        """A feasible point beside an answer that breaks rows; None where a short search finds none.

        The answer's integer values may be off in the digits that a solver does not print; then also
        columns are free that have a cost and stand in an equation, which gives them. Each of the
        two searches has REPAIR_SHARE of the seconds that are left, and REPAIR_NODES nodes.

        Args:
            x: The answer's values by column.
        """
        for frees_equations in (False, True):
            near = points.restricted_to(self.program, x, frees_equations=frees_equations)
            deadline = self.task.deadline
            try:
                until = deadline.spent() + deadline.left() * REPAIR_SHARE
                found = self.task.point_search(near).resume(until, REPAIR_NODES)
            except (ClpNotInstalled, SearchEnded):
                continue
            if isinstance(found, ImprovedIncumbent):
                return found.point
        return None

    def claim_bounds(self) -> Iterator[Evidence]:
        """Adds the relaxation's bound to the store, for the caller to claim, without a known point.

        Yields what is more: a refutation where CLP finds the relaxation infeasible (or what follows
        from a point that is found), and what the relaxation proves in fractions.
        """
        if self.task.solve_relaxation().status is LpStatus.INFEASIBLE:
            yield from self.refuter.refute(self.certify_from_point)
        self.add_root_bound()
        yield from self.refuter.by_relaxation_at_last()

    def claim_known_tree(self) -> Iterator[Evidence]:
        """Yields the claim of the last portfolio's best tree at its point, if it has one.

        Asked for where the time is over, when the tree may not have been judged yet.
        """
        point = self.incumbent or self.store.point
        if point is not None and self.portfolio is not None and self.portfolio.best is not None:
            yield self.store.claim_of_tree(self.portfolio.best, point)

    def add_root_bound(self) -> None:
        """Adds the bound that the searches prove to the store, and that of the relaxation.

        The relaxation is solved where there is no bound yet, or with `proves`: its duals in
        decimals, then the exact duals of its basis, whose bound is kept in all its digits.
        """
        self._add_searched_bound()
        if self.store.bound is not None and not self.task.options.proves:
            return
        program = self.program
        clp = self.task.solve_relaxation().optimal_clp()
        if clp is None or not any(program.costs):
            return
        self.linear.add_short_bound(clp)
        duals = basis_duals(program, *clp.basis())
        box = Box(program.lower, program.upper)
        proof = LeafProver(program, None).prove_from_fractions(duals, MultiplierKind.DUAL, box)
        if proof is not None:
            self.store.add_leaf(proof.multipliers, is_exact=True)

    def _search_from(self, point: Point) -> Portfolio:
        """Runs a portfolio at the point's value, minimised, and at that of each better one found.

        Sets `portfolio`, and what `_take_incumbent` sets. With `proves` the portfolio is a race,
        else the plain search alone.

        Returns:
            The portfolio, whose `best` is None where it found no tree: where the time was over, a
            node did not close, or CLP is not installed.
        """
        portfolio = self.task.portfolio(self.program, self.program.value(point))
        portfolio.on_improved = self._take_incumbent
        self.portfolio = portfolio
        self._take_incumbent(point)
        with contextlib.suppress(ClpNotInstalled):
            if self.task.options.proves:
                portfolio.race()
            else:
                portfolio.run_plain()
        return portfolio

    def _take_incumbent(self, point: Point) -> None:
        """Adds a point to the store, makes it `incumbent`, and tells the deadline the best value in
        the file's sense."""
        self.store.add_point(point)
        self.incumbent = point
        best = self.store.point
        if best is not None:
            self.task.deadline.incumbent = float(self.program.sign * self.program.value(best))

    def _add_searched_bound(self) -> None:
        """Adds the bound that a stopped search proves to the store. The search cannot go on."""
        if self.portfolio is None:
            return
        reports = "; ".join(self.portfolio.reports())
        found = self.portfolio.prove_bound()
        if found is not None:
            bound = BoundEvidence(found.value, found.tree.lines, reports, {}, is_tree=True)
            self.store.add_bound(bound)

    def _without_exact_point(self, x: Sequence[Number], violation: Fraction) -> Evidence:
        """Where no exact point has the answer's integer columns: a refutation, or what is found.

        A claim of a point that is worse than the answer does not take the answer's place, unless it
        is `optimal` or the answer is contradicted, as it is by a bound that is far beyond its
        value. Where nothing takes it, the answer comes back as not proved, with the reason and with
        `contradicts_answer`.

        Args:
            x: The answer's values by column.
            violation: By how much x misses what integer columns alone decide
                (`points.integer_residual`); up to ROUNDING it may be rounding alone.
        """
        found = first_proved(self._tried_without_point(violation))
        value = self.program.value([Fraction(v) for v in x])
        is_worse = self._is_worse_point(found, value)
        if self._is_beyond_bound(value):
            self.is_answer_contradicted = True
        if found.is_proved and (self.is_answer_contradicted or not is_worse):
            return found
        reason = _reason_without_exact_point(violation)
        return not_proved(reason)._replace(contradicts_answer=self.is_answer_contradicted)

    def _is_worse_point(self, found: Evidence, value: Fraction) -> bool:
        """Whether a claim tells of a point that is worse than an answer of this value, minimised,
        and not of an optimum."""
        if found.point is None or found.claim == "optimal":
            return False
        return self.program.value(found.point) > value

    def _is_beyond_bound(self, value: Fraction) -> bool:
        """Whether the store's bound contradicts an answer of this value, minimised: the value is
        better by more than FAR_BEYOND of the bound, or of 1."""
        bound = self.store.bound
        if bound is None:
            return False
        return bound.value - value > FAR_BEYOND * max(Fraction(1), abs(bound.value))

    def _tried_without_point(self, violation: Fraction) -> Iterator[Evidence]:
        """A refutation, or what follows from a point that its search finds.

        Where rows are missed by rounding alone the answer may well be right: without `proves` only
        what is quick is tried, which is one disjunction (where all numbers of the program are
        whole) and a relaxation whose exact optimum is integer.

        Args:
            violation: By how much the answer misses what integer columns alone decide, as a share
                of the largest term (`points.integer_residual`).
        """
        if self.task.options.proves or self.is_answer_contradicted or not violation:
            return self.refuter.refute(self.certify_from_point)
        has_whole_numbers = self.program.row_scale == self.program.bound_scale == 1
        refutations: Iterator[Evidence] = iter(())
        if has_whole_numbers:
            refutations = self.refuter.rounding_refutations()
        at_last = self.refuter.by_relaxation_at_last()
        optimal = (evidence for evidence in at_last if evidence.claim == "optimal")
        return itertools.chain(refutations, optimal)


def _reason_without_exact_point(violation: Fraction) -> str:
    """Why no exact point has an answer's integer columns, in words.

    Args:
        violation: As in `IntegerCertifier._without_exact_point`.
    """
    if 0 < violation <= ROUNDING:
        return (
            f"rows of whole variables are missed by {float(violation):.2g} of "
            "their largest term, which is rounding"
        )
    return NO_EXACT_POINT
