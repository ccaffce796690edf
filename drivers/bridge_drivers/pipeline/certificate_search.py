"""The search for the certificate of one answer: what it is given, and what it proves.

`certification` makes a `CertificateSearch` for each answer. It loads this module, and with it NumPy
and the search of `exact`, when a certificate is first asked for.
"""

from __future__ import annotations

from dataclasses import dataclass, field
from fractions import Fraction
from typing import Callable, Mapping, Optional, Sequence

from ..exact import clp
from ..exact.certificate import lines_of_answer
from ..exact.certifier import certify
from ..exact.evidence import AnswerByPlace, AnswerClaim, Evidence, not_proved
from ..exact.search_deadline import SearchDeadline
from ..exact.task import SearchOptions
from ..exact.worker_pools import WorkerPool, open_pool
from ..formats.numbers import decimal
from ..model.integer_form import IntegerProgram
from ..program.bridge import Bridge
from ..program.refusal import Refusal
from ..program.verdict import Claim
from ..solvers.base import SolverStatus
from ..solvers.run import SolverRun
from ..system.errors import ProgramFailed, UnsupportedModel
from ..system.signals import interrupts_to
from .answer import Answer
from .answer_places import answer_by_place
from .contradiction import contradiction_words
from .exact_optimum import ExactOptimum
from .judge import CertificateJudge
from .judged_start import judged_start
from .monitor import Monitor
from .row_factors import whole_form
from .search_facts import SearchFacts, WrittenNumbers
from .settings import Settings
from .start_point import StartPoint
from .time_shares import TimeShares

ONE_LEAF_SECONDS = 1.0  # of a search without prove=1
LARGE_PROGRAM = 400_000  # bytes of an exported program that have a second each
PLACES = 9  # decimals that doubles are rounded to, where they do not pass as they are
CLAIM_OF_STATUS: Mapping[SolverStatus, AnswerClaim] = {
    SolverStatus.OPTIMAL: AnswerClaim.POINT,
    SolverStatus.FEASIBLE: AnswerClaim.POINT,
    SolverStatus.LIMIT_WITH_POINT: AnswerClaim.POINT,
    SolverStatus.INFEASIBLE: AnswerClaim.INFEASIBLE,
    SolverStatus.UNBOUNDED: AnswerClaim.UNBOUNDED,
    SolverStatus.INFEASIBLE_OR_UNBOUNDED: AnswerClaim.INFEASIBLE_OR_UNBOUNDED,
    SolverStatus.LIMIT: AnswerClaim.UNKNOWN,
}  # what is tried first


@dataclass
class CertificateSearch:
    """Searches for a certificate of one answer; `evidence` is called once.

    Attributes:
        bridge: The proved program, which judges.
        model: The path of the model as the proved program reads it.
        run: The solver's run, with the program and a folder for files.
        settings: Those of the whole run.
        monitor: Is told what goes on, and the seconds.
        shares: Of the time of the whole run.
        start: Values that the search may begin with; None where there are none.
        numbers: The numbers of an answer as they are written. Raises Refusal where the proved
            program does not take the answer back.
        facts: Is told what became of the search.
        proves: A long search is made, with other processes: prove=1 was given, and the user has not
            interrupted the solver.
        judge: Of the certificates; its deadline is that of the search.
    """

    bridge: Bridge
    model: str
    run: SolverRun
    settings: Settings
    monitor: Monitor
    shares: TimeShares
    start: Optional[StartPoint]
    numbers: Callable[[Answer], WrittenNumbers]
    facts: SearchFacts
    proves: bool = field(init=False)
    judge: CertificateJudge = field(init=False)

    def __post_init__(self) -> None:
        """The time of the search begins."""
        self.proves = self.settings.certificate.prove and not self.run.is_interrupted
        deadline = self._deadline()
        path = self.run.path("certificate")
        self.judge = CertificateJudge(self.bridge, self.model, path, deadline)

    def evidence(self, answer: Answer) -> Evidence:
        """What is proved of an answer, at the end of the search, which `facts` is told of.

        Where a large program has no certificate when the time of the search is over, the answer is
        tried as it stands.
        """
        settings, deadline = self.settings.certificate, self.judge.deadline
        self.facts.lacks_library = settings.prove and clp.library() is None
        pool = open_pool(settings.processes, settings.cluster, deadline) if self.proves else None
        self.monitor.stage_begins("certificate", deadline.seconds)
        try:
            with self.monitor.timing("certify"):
                evidence = self._from_start_or_answer(answer, pool)
        finally:
            self.monitor.stage_begins("", 0.0)
            if pool is not None:
                self._close(pool)
        self.facts.is_interrupted = deadline.is_interrupted
        self.facts.is_out_of_time = self.proves and deadline.is_over()
        return (
            self._by_answer_itself(answer, evidence)
            if self._is_open(answer, evidence)
            else evidence
        )

    def _is_relaxed(self) -> bool:
        """Whether the program has integer variables, and they are relaxed."""
        return bool(self.run.program.integer_count) and self.run.settings.relax

    def _deadline(self) -> SearchDeadline:
        """The time of the search, from now on.

        A long one has all of its share, in seconds of the wall. Another one has a second of the
        processor, or one for each LARGE_PROGRAM bytes of the program where that is more, and at
        most its share.
        """
        if self.proves:
            return self.shares.for_search()
        by_size = len(self.run.program.text) / LARGE_PROGRAM
        return self.shares.for_search(max(by_size, ONE_LEAF_SECONDS))

    def _close(self, pool: WorkerPool) -> None:
        """Ends the processes of a pool; `facts` has what is to be said of them."""
        pool.close()
        self.facts.pool_note = pool.note
        if pool.fault:
            self.facts.pool_note = "the search went on in one process: " + pool.fault

    def _from_start_or_answer(self, answer: Answer, pool: Optional[WorkerPool]) -> Evidence:
        """What the search proves; the start itself where that is proved and the search proves
        nothing.

        Args:
            answer: The solver's.
            pool: Other processes that search; None for none.
        """
        start = self._certified_start(answer)
        evidence = self._searched(answer, start, pool)
        return start if start is not None and not evidence.is_proved else evidence

    def _certified_start(self, answer: Answer) -> Optional[Evidence]:
        """The start where it is a feasible point and better than the answer; `facts` has a note."""
        if self.start is None or self._is_relaxed():
            return None
        found = judged_start(self.start, answer, lambda values: self._judged(values, []))
        self.facts.start_note = found.note
        return found.evidence

    def _searched(
        self, answer: Answer, start: Optional[Evidence], pool: Optional[WorkerPool]
    ) -> Evidence:
        """What the search proves of an answer, or why it proves nothing.

        The search has the file's rows in whole numbers, the answer and the evidence here have the
        exported ones. An interrupt in the search ends it alone. The time of a short search begins
        once the program is made.

        Args:
            answer: Whose status and numbers the search begins with.
            start: A certified point that is better than the answer, and takes its place; None for
                none.
            pool: Other processes that search; None for none.

        Returns:
            Its duals are by the file's constraint, of the exported rows.
        """
        exported, deadline = self.run.program, self.judge.deadline
        try:
            whole = whole_form(self.bridge, self.model, exported, self.settings.objective)
        except (Refusal, ProgramFailed) as fault:
            return not_proved(fault.text)
        except UnsupportedModel as fault:
            return not_proved(fault)
        if not self.proves:
            deadline.restart()
        with interrupts_to(deadline.interrupt):
            evidence = certify(
                whole.program,
                self.judge,
                claim=CLAIM_OF_STATUS[answer.found.status] if start is None else AnswerClaim.POINT,
                answer=(
                    answer_of_whole_rows(answer, whole.factors)
                    if start is None
                    else AnswerByPlace(start.point)
                ),
                deadline=deadline,
                on_progress=self.monitor.tell_search,
                options=self._options(),
                pool=pool,
                exact_solver=ExactOptimum.of(exported, whole.factors, deadline),
            )
        self._note_contradiction(evidence, whole.program)
        return of_exported_rows(evidence, whole.factors)

    def _options(self) -> SearchOptions:
        """What is asked of the search."""
        settings = self.settings.certificate
        return SearchOptions(
            objective=self.settings.objective,
            proves=self.proves,
            is_relaxation=self._is_relaxed(),
            wants_bound=settings.bound,
            shortens=settings.shorten,
        )

    def _note_contradiction(self, evidence: Evidence, program: IntegerProgram) -> None:
        """Tells `facts` which rows and bounds contradict each other, where that is proved."""
        if evidence.certificate is not None and evidence.claim == Claim.INFEASIBLE.value:
            names = self.run.program.own_names
            self.facts.contradiction = contradiction_words(evidence.certificate, program, names)

    def _is_open(self, answer: Answer, evidence: Evidence) -> bool:
        """Whether nothing is proved of an answer with a point, and the program is so large that
        the search may have ended too early.
        """
        if evidence.is_proved or self._is_relaxed():
            return False
        has_point = CLAIM_OF_STATUS[answer.found.status] is AnswerClaim.POINT
        return has_point and len(self.run.program.text) > LARGE_PROGRAM

    def _by_answer_itself(self, answer: Answer, evidence: Evidence) -> Evidence:
        """The answer's own certificate where it is accepted, else the evidence of the search.

        The note of the search, its bound in doubles and an open ray are kept with the former.
        """
        stands = self._from_answer_itself(answer)
        if not stands.is_proved:
            return evidence
        return stands._replace(
            is_optimal_in_doubles=evidence.is_optimal_in_doubles,
            note=evidence.note,
            may_be_unbounded=evidence.may_be_unbounded,
        )

    def _from_answer_itself(self, answer: Answer) -> Evidence:
        """What an answer proves by itself: its values and duals are the certificate.

        They are tried as they are written, then rounded to PLACES decimals.

        Only the rounded one has its point in the evidence.
        """
        try:
            numbers = self.numbers(answer)
        except Refusal as fault:
            return not_proved(fault.text)
        evidence = self._judged(*numbers)
        if evidence.is_proved:
            return evidence
        values, duals = (
            [decimal(round(float(text), PLACES))[0] for text in texts] for texts in numbers
        )
        second = self._judged(values, duals)
        if not second.is_proved:
            return evidence
        return second._replace(point=list(map(Fraction, values)))

    def _judged(self, values: Sequence[str], duals: Sequence[str]) -> Evidence:
        """What the certificate proves whose point and one leaf are these values and duals.

        Args:
            values: A decimal for each of the file's variables.
            duals: One for each of its constraints; without duals the claim is that the values are
                feasible.
        """
        lines = list(lines_of_answer(values, duals, self.settings.objective))
        judgement = self.judge(lines)
        if not judgement.is_proved:
            return not_proved(judgement.line)
        return Evidence(judgement.line, certificate=("\n".join(lines) + "\n").encode("ascii"))


def answer_of_whole_rows(answer: Answer, factors: Mapping[int, int]) -> AnswerByPlace:
    """The solver's numbers by the file's own, its duals for rows without their factors.

    Args:
        answer: To the exported program.
        factors: What `bridge export` multiplied rows by, by the file's constraint, where that is
            not 1. The dual of such a row is multiplied by its factor.
    """
    given = answer_by_place(answer)
    if given.duals is None or not factors:
        return given
    duals = {row: factors.get(row, 1) * dual for row, dual in given.duals.items()}
    return given._replace(duals=duals)


def of_exported_rows(evidence: Evidence, factors: Mapping[int, int]) -> Evidence:
    """Evidence whose duals are for rows as they are exported, each divided by its factor."""
    if not factors:
        return evidence
    exported = {row: dual / factors.get(row, 1) for row, dual in evidence.duals.items()}
    return evidence._replace(duals=exported)


def certificate_of_values(values: Sequence[str], objective: int) -> bytes:
    """The text of a certificate that values are feasible, and no more.

    Args:
        values: A decimal for each of the file's variables.
        objective: Its number in the file, from 0.
    """
    return ("\n".join(lines_of_answer(values, [], objective)) + "\n").encode("ascii")
