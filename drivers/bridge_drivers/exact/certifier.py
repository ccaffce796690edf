"""The front of this package: a program in, a certificate out.

Which proofs are tried for what a solver said, and what is told of them where the time is over. The
judge alone decides what is proved: whatever goes wrong here costs a certificate, and no more.
`pipeline.certification` calls `certify` once for each answer.
"""

from __future__ import annotations

import contextlib
import itertools
from typing import Callable, Dict, Iterator, Mapping, Optional

from .short_duals import box_bound, rounded_duals
from ..model.integer_form import IntegerProgram, Point
from ..system.deadline import Deadline
from ..system.errors import DeadlineExceeded, SearchEnded, TimeOver
from .clp import Clp, ClpNotInstalled
from .dual_bound import DOUBLES_NOTE, is_optimal_in_doubles
from .evidence import AnswerByPlace, AnswerClaim, Evidence, Judge, not_proved
from .evidence_store import EvidenceStore, first_proved
from .integer_certifier import IntegerCertifier
from .linear_certifier import LinearCertifier
from .refutations import Refuter
from .search_deadline import KEPT_SECONDS, SearchDeadline, SearchProgress
from .task import CertificationTask, ExactSolver, SearchOptions
from .work_limit import limit_work
from .worker_pools import WorkerPool

BEYOND_DOUBLES = "a number of the model is beyond the range of doubles, by which is searched"
DENIALS_OF_A_POINT = (AnswerClaim.INFEASIBLE,)
DENIALS_OF_AN_OPTIMUM = (
    AnswerClaim.INFEASIBLE,
    AnswerClaim.UNBOUNDED,
    AnswerClaim.INFEASIBLE_OR_UNBOUNDED,
)


def certify(
    program: IntegerProgram,
    judge: Judge,
    *,
    claim: AnswerClaim,
    answer: AnswerByPlace = AnswerByPlace(),
    deadline: Optional[SearchDeadline] = None,
    on_progress: Optional[Callable[[SearchProgress], None]] = None,
    options: SearchOptions = SearchOptions(),
    pool: Optional[WorkerPool] = None,
    exact_solver: Optional[ExactSolver] = None,
) -> Evidence:
    """What can be proved of a program, beginning with what a solver said of it.

    While it works, the time of all exact work of this thread and of all solves of CLP is limited;
    at its end that limit is lifted.

    Args:
        judge: Is given certificates, and says what each of them proves.
        claim: What the solver said.
        answer: The solver's numbers; those of a claim of a point have values.
        deadline: The time that there is. An interrupt of it ends the search, and what is known then
            is claimed. None: as long as it takes.
        on_progress: Is told what goes on, in place of what the deadline had told.
        options: What is asked; among it the number of the objective.
        pool: Other processes that search.
        exact_solver: Is asked for the exact optimum of a linear program where no basis has it.

    Returns:
        The first evidence that is proved, else why nothing is. Its numbers are by columns and rows
        of the program, and in the objective's own sense.
    """
    deadline = deadline or SearchDeadline()
    if on_progress is not None:
        deadline.on_progress = on_progress
    store = EvidenceStore(program, judge, options.objective, deadline)
    task = CertificationTask(program, store, deadline, options, answer, pool, exact_solver)
    return Certifier(task).certify(claim)


def limit_all_work(deadline: Deadline) -> None:
    """From now on exact work of this thread, and each solve of CLP in this process, end with it.

    Exact work then raises TimeOver; a solve just stops, with the status OTHER.
    """
    limit_work(deadline)
    Clp.restrict(deadline)


class Certifier:
    """Tries proofs of one program: each method is one way, by what the solver said.

    What is found on the way stays in `store`, so that it is claimed where the time is over.
    """

    def __init__(self, task: CertificationTask) -> None:
        """
        Args:
            task: The program, the solver's answer and the limits, which all certifiers share.
        """
        self.task = task
        self.store = task.store
        self.refuter = Refuter(task)
        self.linear = LinearCertifier(task, self.refuter)
        self.integer = IntegerCertifier(task, self.refuter, self.linear)

    def certify(self, claim: AnswerClaim) -> Evidence:
        """Tries what fits the claim, within the deadline of the task.

        Where the time is over, what is known by then is claimed instead, with `may_be_unbounded`.
        Where CLP is not installed or a search ended, that is the reason why nothing is proved.

        A claim without a point is contradicted by a known point or optimum, though it is too wide
        for a certificate.
        """
        found = self._certified(claim)
        if found.claim == "feasible":  # also where the time ended within the search for a ray alone
            is_open = found.may_be_unbounded or self.refuter.may_be_unbounded()
            return found._replace(may_be_unbounded=is_open)
        if found.claim not in ("", "bound"):
            return found
        knows_optimum = self.store.is_optimum_known
        is_known = claim in DENIALS_OF_A_POINT and self._has_point()
        is_contradicted = is_known or claim in DENIALS_OF_AN_OPTIMUM and knows_optimum
        return found._replace(
            contradicts_answer=found.contradicts_answer or is_contradicted,
            is_optimum_known=knows_optimum,
        )

    def _certified(self, claim: AnswerClaim) -> Evidence:
        """As `certify`, without what is known beside the evidence."""
        try:
            limit_all_work(self.task.deadline.to_find())
            return self._tried(claim)
        except (TimeOver, DeadlineExceeded):
            found = self._with_optimality_in_doubles(first_proved(self._known()))
            return found._replace(may_be_unbounded=self.refuter.may_be_unbounded())
        except (ClpNotInstalled, SearchEnded) as ended:
            return not_proved(ended)
        except OverflowError:
            return self._known_or(BEYOND_DOUBLES)
        finally:
            limit_all_work(Deadline())

    def _known_or(self, reason: str) -> Evidence:
        """What is proved by now of what is known, else that nothing is, for a reason in words."""
        limit_all_work(Deadline(KEPT_SECONDS))
        try:
            found = first_proved(self._known())
        except (OverflowError, TimeOver, DeadlineExceeded):
            return not_proved(reason)
        return found if found.is_proved else not_proved(reason)

    def certify_point(self) -> Evidence:
        """Where the solver has a point: that it is optimal, else a point and a bound.

        Of the relaxation of an integer program only bounds are tried.
        """
        if self.task.is_linear:
            return first_proved(self.linear.certify(self.task.answer))
        if self.task.options.is_relaxation:
            return first_proved(self._without_answer())
        values = self.task.answer.values
        assert values is not None, "a claim of a point has its values"
        return self.integer.certify_answer(values)

    def certify_infeasible(self) -> Evidence:
        """Where the solver found no point: that there is none, else what a point shows."""
        return first_proved(self.refute())

    def certify_unknown(self) -> Evidence:
        """Where the solver says nothing: a bound.

        Of an integer program, unless its relaxation is meant, a disjunction that refutes it comes
        first, and with `proves` a tree that does, or what follows from a point found by it.
        """
        tried = [self._without_answer()]
        if not self.task.is_linear and not self.task.options.is_relaxation:
            refutations = itertools.chain(
                self.refuter.rounding_refutations(), self.refuter.by_lattice()
            )
            proves = self.task.options.proves
            tried = [refutations, self.refute(), *tried] if proves else [refutations, *tried]
        return first_proved(itertools.chain(*tried))

    def certify_unbounded(self) -> Evidence:
        """Where the solver said unbounded: a point and a ray; else what is optimal, or a bound.

        A disjunction that refutes the program comes before all. Of an integer program a refutation
        by a tree is tried behind the ray with `proves`, or where bounds of columns alone bound the
        objective; of its relaxation nothing more is tried.

        Returns:
            What is proved, else why a ray is not.
        """
        first = self._refutation_or_ray()
        options, is_linear = self.task.options, self.task.is_linear
        if first.is_proved or options.is_relaxation and not is_linear:
            return first
        tried = self._without_answer()
        has_box_bound = box_bound(self.task.program) is not None
        if not is_linear and (options.proves or has_box_bound):
            tried = itertools.chain(self.refute(), tried)
        found = first_proved(tried)
        return found if found.is_proved else first

    def certify_infeasible_or_unbounded(self) -> Evidence:
        """Where the solver does not say which of both it is: a ray, then that there is no point."""
        first = self._refutation_or_ray()
        return first if first.is_proved else first_proved(self.refute())

    def refute(self) -> Iterator[Evidence]:
        """That there is no point; where one is found, what follows from it.

        Each is tried when it is asked for.
        """
        return self.refuter.refute(self._certify_from_point)

    def _tried(self, claim: AnswerClaim) -> Evidence:
        """What is found in the way that fits the claim.

        Errors, and the end of the time, are left to `certify`.
        """
        ways: Mapping[AnswerClaim, Callable[[], Evidence]] = {
            AnswerClaim.POINT: self.certify_point,
            AnswerClaim.INFEASIBLE: self.certify_infeasible,
            AnswerClaim.UNBOUNDED: self.certify_unbounded,
            AnswerClaim.INFEASIBLE_OR_UNBOUNDED: self.certify_infeasible_or_unbounded,
            AnswerClaim.UNKNOWN: self.certify_unknown,
        }
        return ways[claim]()

    def _certify_from_point(self, point: Point) -> Iterator[Evidence]:
        """What follows from a feasible point that a refutation has found instead of a proof."""
        if self.task.is_linear:
            return self.linear.certify_from_point(point)
        return self.integer.certify_from_point(point)

    def _refutation_or_ray(self) -> Evidence:
        """That a disjunction refutes the program, which is tried first, or a point and a ray.

        Where neither is proved, why there is no ray.
        """
        found = first_proved(self.refuter.rounding_refutations())
        return found if found.is_proved else self.refuter.certify_ray()

    def _without_answer(self) -> Iterator[Evidence]:
        """What can be said without an answer's point: of an integer program mostly a bound.

        Of a linear program all that is tried for an answer. Then come claims of what is stored, the
        bound by bounds of columns alone among it, and at last why nothing is proved.
        """
        if self.task.is_linear:
            yield from self.linear.certify(AnswerByPlace())
        else:
            yield from self.integer.claim_bounds()
        self.linear.add_box_bound()
        yield from self.store.claims()
        yield not_proved("there is no point")

    def _known(self) -> Iterator[Evidence]:
        """What there is where the time is over: a tree, the best point, the closest bound.

        Exact work and CLP are unlimited here, but for a bound that is still made: that ends
        KEPT_SECONDS before all must have ended. The last says why there is no proof, and whether
        the answer is contradicted.
        """
        limit_all_work(Deadline())
        yield from self.integer.claim_known_tree()
        limit_all_work(self.task.deadline.to_find_at_last())
        with contextlib.suppress(TimeOver, SearchEnded):
            self._add_bound_at_last()
        limit_all_work(Deadline())
        yield from self.store.claims()
        reason = self.task.deadline.why("time")
        is_contradicted = self.integer.is_answer_contradicted
        yield not_proved(reason)._replace(contradicts_answer=is_contradicted)

    def _add_bound_at_last(self) -> None:
        """Adds to the store a bound that is had in short time.

        Of a linear program that of the answer's duals, rounded to few digits; of an integer one, of
        which a point is known and a bound is wanted, that of its stopped searches and relaxation.
        """
        task, options = self.task, self.task.options
        if task.is_linear and task.answer.duals is not None:
            duals = rounded_duals(task.program, self._duals_in_doubles())
            self.linear.add_short_duals(duals)
        elif not task.is_linear and self._has_point():
            if options.proves or options.wants_bound:
                self.integer.add_root_bound()

    def _has_point(self) -> bool:
        """Whether an exact feasible point is known, be it too wide for a certificate."""
        return self.store.point is not None or self.integer.incumbent is not None

    def _duals_in_doubles(self) -> Dict[int, float]:
        """The answer's duals by row, as the program is minimised; empty where it has none."""
        sign = self.task.program.sign
        return {row: float(sign * dual) for row, dual in (self.task.answer.duals or {}).items()}

    def _with_optimality_in_doubles(self, evidence: Evidence) -> Evidence:
        """The evidence, with what the answer's own duals say in doubles; no proof rests on that.

        Where they bound the objective at the answer's point, `is_optimal_in_doubles` and the note
        are set. That is for answers with values and duals, of linear programs or relaxations, in
        runs without `proves` whose time is over before `optimal` is proved; else nothing changes.
        """
        task = self.task
        answer, options = task.answer, task.options
        is_told = answer.values is not None and answer.duals is not None
        is_one_program = task.is_linear or options.is_relaxation
        if options.proves or not is_told or not is_one_program or evidence.claim == "optimal":
            return evidence
        if not is_optimal_in_doubles(task.program, answer.doubles(), self._duals_in_doubles()):
            return evidence
        return evidence._replace(is_optimal_in_doubles=True, note=DOUBLES_NOTE)
