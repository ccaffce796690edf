"""What is certified of small programs, against all their points, by a judge that is in Python."""

from __future__ import annotations

import os
import signal
import time
from fractions import Fraction
from typing import NoReturn, Sequence
from unittest import mock

import pytest
from hypothesis import given, settings

from bridge_drivers.exact.certifier import certify
from bridge_drivers.exact.clp import library
from bridge_drivers.exact.evidence import AnswerByPlace, AnswerClaim
from bridge_drivers.exact.evidence_store import EvidenceStore, first_proved
from bridge_drivers.exact.evidence import not_proved
from bridge_drivers.exact.rational_simplex import SimplexResult
from bridge_drivers.exact.refutations import Refuter
from bridge_drivers.exact.search import BranchAndBound
from bridge_drivers.exact.search_deadline import SearchDeadline, SearchProgress
from bridge_drivers.exact.task import CertificationTask, SearchOptions
from bridge_drivers.exact.work_limit import check_work
from bridge_drivers.model.integer_form import IntegerProgram
from bridge_drivers.system.deadline import Deadline
from bridge_drivers.system.errors import SearchPaused
from bridge_drivers.system.signals import interrupts_to
from integer_programs import COINS, COVER, EQUATION, KNAPSACK, KNAPSACKS, LOTS, PIGEONS
from integer_programs import boxed_programs, mixed_programs, optimum_of
from judging import Judge, certified
from programs import Column, Row, program

pytestmark = pytest.mark.skipif(library() is None, reason="CLP's library is not there")


@given(boxed_programs())
@settings(max_examples=40)
def test_small_programs(p: IntegerProgram) -> None:
    best = optimum_of(p)
    found = certified(p)
    assert found.line == ("infeasible" if best is None else f"optimal {best}")
    assert found.value == best
    assert found.certificate is not None and found.certificate.startswith(b"certificate 1\n")


@pytest.mark.parametrize(
    "p",
    [KNAPSACK, EQUATION, COVER, KNAPSACKS],
    ids=["knapsack", "equation", "cover", "knapsacks"],
)
@pytest.mark.parametrize("claim", [AnswerClaim.UNKNOWN, AnswerClaim.INFEASIBLE_OR_UNBOUNDED])
def test_claims_that_do_not_hold(p: IntegerProgram, claim: AnswerClaim) -> None:
    """Whatever a solver says, what is told is what is true."""
    found = certified(p, claim)
    value = found.line.split()[-1]
    assert found.claim == "optimal" and Fraction(value) == found.value
    assert found.line == certified(p).line


class NoTimeForFractions(Refuter):
    """The time ends whenever the simplex method in fractions is asked."""

    def _run_rational_simplex(
        self, program: IntegerProgram, answer: AnswerByPlace, limit: Deadline = Deadline()
    ) -> SimplexResult:
        raise SearchPaused("time")


FREE_COST = program(
    [Column(0, None, is_integer=True, cost=-1), Column(0, None, cost=1)],
    [Row(None, 3, {0: 2, 1: -1}), Row(0, 9, {0: 1, 1: 1})],
)


def test_the_time_ends_while_a_ray_is_sought() -> None:
    """What is known is told all the same."""
    store = EvidenceStore(FREE_COST, Judge(FREE_COST), 0, SearchDeadline(60.0))
    refuter = NoTimeForFractions(CertificationTask(FREE_COST, store, store.deadline))
    assert list(refuter.ray_of_point([Fraction(1), Fraction(0)])) == []
    assert refuter.certify_ray().line == "not proved: time"
    with mock.patch("bridge_drivers.exact.certifier.Refuter", NoTimeForFractions):
        answer = AnswerByPlace([1.0, 0.0])
        found = certified(FREE_COST, AnswerClaim.POINT, answer=answer)
    assert found.is_proved and found.value is not None


def test_an_exact_bound_is_kept() -> None:
    """Of the simplex method in fractions, in all its digits."""
    p = program([Column(0, None, cost=1)], [Row(1, None, {0: "0.123456789012345678901"})])
    store = EvidenceStore(p, Judge(p), 0, SearchDeadline(60.0))
    refuter = Refuter(CertificationTask(p, store, store.deadline))
    found = list(refuter.by_rational_simplex())
    assert [evidence.claim for evidence in found] == ["optimal"]
    assert store.bound is not None and store.bound.value == found[0].value


def test_no_point() -> None:
    found = certified(PIGEONS)
    assert found.line == "infeasible" and found.point is None


def test_unbounded() -> None:
    p = program(
        [Column(0, None, is_integer=True, cost=1) for _ in range(2)],
        [Row(None, 3, {0: 1, 1: -1})],
        "max",
    )
    assert certified(p, AnswerClaim.UNBOUNDED).line == "unbounded"


@pytest.mark.parametrize("values", [(1, 1, 0), (0, 0, 1), (0, 0, 0), (1.0, 0.9999999, 0)])
@pytest.mark.parametrize("proves", [True, False])
def test_answers(values: Sequence[float], proves: bool) -> None:
    """A bad one does no harm."""
    answer, options = AnswerByPlace(values), SearchOptions(proves=proves)
    found = certified(KNAPSACK, AnswerClaim.POINT, answer=answer, options=options)
    assert found.line == "optimal 17"


def test_an_answer_that_breaks_rows() -> None:
    answer = AnswerByPlace([1.0, 1.0, 1.0])
    found = certified(KNAPSACK, AnswerClaim.POINT, answer=answer)
    assert found.line == "optimal 17"


def test_without_time() -> None:
    """A point that is known is told, and no more is claimed than is judged."""
    found = certified(
        KNAPSACKS, AnswerClaim.INFEASIBLE, seconds=0.001, options=SearchOptions(wants_bound=True)
    )
    assert found.line.startswith(("not proved: ", "optimal ", "within ", "feasible "))


def test_the_first_that_is_proved() -> None:
    judge = Judge(KNAPSACK)
    store = EvidenceStore(KNAPSACK, judge, 0, SearchDeadline())
    store.add_point([Fraction(0)] * 3)
    store.add_point([Fraction(1), Fraction(1), Fraction(0)])
    found = first_proved(iter([not_proved("x"), *store.claims()]))
    assert found.line == "feasible 17"
    assert found.point == [Fraction(1), Fraction(1), Fraction(0)]
    assert first_proved([]).line == "not proved: no certificate was found"
    assert AnswerByPlace([Fraction(1, 2)]).doubles() == [0.5]


@given(mixed_programs())
@settings(max_examples=40)
def test_mixed_programs(p: IntegerProgram) -> None:
    """Each has a claim that is accepted, of whatever kind."""
    found = certified(p, AnswerClaim.INFEASIBLE_OR_UNBOUNDED)
    assert found.is_proved, found.line
    assert found.point is None or p.is_feasible(found.point)


@pytest.mark.parametrize("off", [-3, 4, 5000])
@pytest.mark.parametrize("proves", [True, False])
def test_an_answer_beside_a_point(off: int, proves: bool) -> None:
    """An objective column that is off by the digits of a solver, or by more: the point stays."""
    columns = [
        Column(0, 9, is_integer=True),
        Column(0, 9, is_integer=True),
        Column(0, 10**7, is_integer=True, cost=1),
    ]
    rows = [Row(0, 0, {0: 123457, 1: 98765, 2: -1}), Row(None, 11, {0: 1, 1: 1})]
    best = 9 * 123457 + 2 * 98765
    answer = AnswerByPlace([9.0, 2.0, float(best + off)])
    p, options = program(columns, rows, "max"), SearchOptions(proves=proves)
    found = certified(p, AnswerClaim.POINT, answer=answer, options=options)
    assert found.point == [Fraction(9), Fraction(2), Fraction(best)] and found.claim in (
        "optimal",
        "within",
        "feasible",
    )


@pytest.mark.parametrize("load", [1.0, 25.0])
def test_a_busy_machine(load: float, monkeypatch: pytest.MonkeyPatch) -> None:
    """A short search of many terms ends the same where the wall's clock goes 25 times as fast."""
    wall, began = time.monotonic(), time.process_time()
    monkeypatch.setattr(time, "monotonic", lambda: wall + load * (time.process_time() - began))
    rows = 1000
    columns = [Column(0, 1, is_integer=True, cost=1 + j % 7) for j in range(10 * rows)]
    p = program(columns, [Row(1, None, {10 * i + k: 1 for k in range(10)}) for i in range(rows)])
    values = [
        float(j % 10 == min(range(10), key=lambda k: (j - j % 10 + k) % 7)) for j in range(p.n)
    ]
    deadline = SearchDeadline(1.0, of_processor=True)
    found = certify(
        p,
        Judge(p),
        claim=AnswerClaim.POINT,
        answer=AnswerByPlace(values),
        deadline=deadline,
        options=SearchOptions(proves=False),
    )
    assert found.claim == "optimal"


def test_coins_that_make_no_sum() -> None:
    """Forms of a reduced lattice refute it in few nodes."""
    found = certified(COINS)
    assert found.line == "infeasible"
    assert found.certificate is not None and len(found.certificate) < 2000


def test_lots() -> None:
    found = certified(LOTS)
    assert found.line == "optimal 143/10" and found.value == Fraction(143, 10)


def test_one_leaf_alone() -> None:
    """Without `proves` a bound is told where it is wanted."""
    answer = AnswerByPlace([1, 1, 0])
    with mock.patch("bridge_drivers.exact.search.MOST_DEPTH", -1):
        for wants_bound, line in ((False, "feasible 17"), (True, "within 19 17")):
            options = SearchOptions(proves=False, wants_bound=wants_bound)
            found = certified(KNAPSACK, AnswerClaim.POINT, answer=answer, options=options)
            assert found.line == line
    options = SearchOptions(is_relaxation=True)
    found = certified(KNAPSACK, AnswerClaim.POINT, answer=answer, options=options)
    assert found.line == "bound 250/13"


def endless(*words: object) -> NoReturn:
    while True:
        check_work()


@pytest.mark.parametrize(
    "part, line",
    [
        ("parallel.ParallelSearch.resume", "within 19 17"),
        ("portfolio.Portfolio.prove_bound", "optimal 17"),
        ("refutations.hermite_refutation", "optimal 17"),
    ],
)
def test_a_step_that_takes_all_time(part: str, line: str) -> None:
    """It is ended, and what is known then is judged."""
    answer = AnswerByPlace([Fraction(1), Fraction(1), Fraction(0)])
    with mock.patch("bridge_drivers.exact." + part, endless):
        found = certified(KNAPSACK, AnswerClaim.POINT, answer=answer, seconds=0.5)
    assert found.line == line


def test_an_interrupt_from_the_terminal() -> None:
    """It ends the search and nothing else; what is known is told."""
    looks = BranchAndBound.check_limits

    def interrupted(search: BranchAndBound) -> None:
        if search.nodes >= 5:
            os.kill(os.getpid(), signal.SIGINT)
        looks(search)

    deadline, told = SearchDeadline(60.0), list[SearchProgress]()
    before = signal.getsignal(signal.SIGINT)
    with mock.patch.object(BranchAndBound, "check_limits", interrupted):
        with interrupts_to(deadline.interrupt):
            found = certify(
                KNAPSACKS,
                Judge(KNAPSACKS),
                claim=AnswerClaim.INFEASIBLE,
                deadline=deadline,
                on_progress=told.append,
            )
    assert signal.getsignal(signal.SIGINT) is before and deadline.is_interrupted
    assert found.line.startswith(("not proved: interrupted", "feasible", "within"))
