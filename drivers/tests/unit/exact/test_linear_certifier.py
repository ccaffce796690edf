"""What a linear program's certifier does with exact answers of others, and with notes."""

from __future__ import annotations

from fractions import Fraction
from typing import Iterator

import pytest

from bridge_drivers.exact import linear_certifier
from bridge_drivers.exact.basis import NearBasis, can_lift
from bridge_drivers.exact.certifier import certify
from bridge_drivers.exact.clp import library
from bridge_drivers.exact.evidence import AnswerByPlace, AnswerClaim, Evidence
from bridge_drivers.exact.linear_certifier import LinearCertifier
from bridge_drivers.exact.search_deadline import SearchDeadline
from bridge_drivers.exact.task import ExactAnswer, SearchOptions
from bridge_drivers.model.integer_form import IntegerProgram
from bridge_drivers.system.deadline import Deadline
from bridge_drivers.system.errors import NotSolved, TooManyBits
from judging import Judge
from programs import Column, Row, program

pytestmark = pytest.mark.skipif(library() is None, reason="no library of CLP")
F = Fraction
OPTIMUM = ExactAnswer([F(17, 13), F(1, 26)], {0: F(12, 13), 1: F(-10, 13)})


def two_rows() -> IntegerProgram:
    """max -2 x - 3 y, 3 x + 2 y >= 4, x - 1.5 y <= 1.25; the optimum is -71/26."""
    return program(
        [Column(cost=-2), Column(0, 7, cost=-3)],
        [Row(4, None, {0: 3, 1: 2}), Row(None, "1.25", {0: 1, 1: "-1.5"})],
        "max",
    )


@pytest.fixture
def no_bases(monkeypatch: pytest.MonkeyPatch) -> None:
    """No basis of doubles has the optimum, nor does a point near them, nor the simplex method."""

    def none(*_: object) -> Iterator[NearBasis]:
        return iter(())

    monkeypatch.setattr(LinearCertifier, "bases", none)
    monkeypatch.setattr(LinearCertifier, "_by_points", none)
    monkeypatch.setattr(LinearCertifier, "_by_rational_simplex", none)


def certified_by(answer: ExactAnswer | None, *, proves: bool = True) -> tuple[Evidence, int]:
    """Beside how often the other program was asked."""
    asked = []

    def ask(deadline: Deadline) -> ExactAnswer | None:
        asked.append(deadline.left())
        return answer

    model = two_rows()
    evidence = certify(
        model,
        Judge(model),
        claim=AnswerClaim.POINT,
        answer=AnswerByPlace(),
        deadline=SearchDeadline(60.0),
        options=SearchOptions(proves=proves),
        exact_solver=ask,
    )
    assert all(0 < left <= 15.0 for left in asked)
    return evidence, len(asked)


@pytest.mark.usefixtures("no_bases")
def test_an_exact_answer_is_the_optimum() -> None:
    """Its duals are in the objective's own sense, which is a maximum here."""
    own = ExactAnswer(OPTIMUM.point, {i: -y for i, y in OPTIMUM.duals.items()})
    evidence, asked = certified_by(own)
    assert (evidence.line, asked) == ("optimal -71/26", 1)
    assert evidence.duals == own.duals


@pytest.mark.usefixtures("no_bases")
@pytest.mark.parametrize(
    "answer",
    [
        None,
        ExactAnswer([F(1), F(0)], {}),
        ExactAnswer([F(7), F(7)], {i: -y for i, y in OPTIMUM.duals.items()}),
        ExactAnswer(OPTIMUM.point, OPTIMUM.duals),
        ExactAnswer(OPTIMUM.point, {0: F(-1)}),
    ],
)
def test_a_wrong_exact_answer_counts_nothing(answer: ExactAnswer | None) -> None:
    """Short numbers come next."""
    evidence, asked = certified_by(answer)
    assert (evidence.claim, asked) == ("within", 1)
    low, high = sorted(map(F, evidence.line.split()[1:]))
    assert high - low <= 3 * F(1, 10**9)
    assert low <= F(-71, 26) <= high


def test_nobody_is_asked_where_a_basis_has_the_optimum() -> None:
    evidence, asked = certified_by(OPTIMUM)
    assert (evidence.line, asked) == ("optimal -71/26", 0)


@pytest.mark.usefixtures("no_bases")
def test_nobody_is_asked_in_a_short_search() -> None:
    assert certified_by(OPTIMUM, proves=False)[1] == 0


def test_what_needs_the_bits_is_told() -> None:
    """A chain of rows, each of which divides what the one before has left."""
    count = 61
    rows = [Row("1.1", None, {j + 1: 7, j: 3}) for j in range(count - 1)]
    model = program([Column(cost=1) for _ in range(count)], [*rows, Row(1, 1, {0: 7})])
    evidence = certify(model, Judge(model), claim=AnswerClaim.POINT, deadline=SearchDeadline(60.0))
    assert evidence.claim == "within"
    bound, value = map(F, evidence.line.split()[1:])
    assert 0 <= value - bound <= value / 10**9
    for part in ("its point", "its duals", "its value"):
        assert part in evidence.note


@pytest.mark.skipif(not can_lift(), reason="no SciPy")
@pytest.mark.parametrize("wide", [True, False])
def test_no_points_near_the_answer_of_a_large_program_that_is_too_wide(
    monkeypatch: pytest.MonkeyPatch, wide: bool
) -> None:
    """They are looked for where no basis is optimal, and not where one has too many bits: of a
    large program that takes long, and a vertex of long numbers has no short ones in its place."""
    asked = []

    def fails(*_: object) -> None:
        raise TooManyBits(169) if wide else NotSolved("it is not optimal")

    def no_points(*_: object) -> Iterator[Evidence]:
        asked.append(True)
        return iter(())

    monkeypatch.setattr(linear_certifier, "LARGE_ENTRIES", 1)
    monkeypatch.setattr(linear_certifier, "exact_optimum", fails)
    monkeypatch.setattr(LinearCertifier, "_by_points", no_points)
    model = two_rows()
    evidence = certify(
        model,
        Judge(model),
        claim=AnswerClaim.POINT,
        answer=AnswerByPlace(),
        deadline=SearchDeadline(60.0),
        options=SearchOptions(proves=False),
    )
    assert evidence.claim == ("within" if wide else "optimal")
    assert bool(asked) is not wide
