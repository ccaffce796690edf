"""The code that each finding earns: the table of CODES.md row by row, and what holds of every finding."""

from __future__ import annotations

import itertools
import re
from pathlib import Path
from typing import Dict, Iterator, Mapping, Sequence, Set

import pytest

from bridge_drivers.pipeline.outcome import (
    BOUND_AWAY,
    NOTHING_PROVES_IT,
    NO_BOUND,
    NO_EXACT_POINT,
    Findings,
    PointSource,
    Ruling,
    Violation,
    code_of_error,
    decide,
)
from bridge_drivers.program.verdict import FINAL
from bridge_drivers.system import errors
from bridge_drivers.system.codes import Code

CODES_PAGE = Path(__file__).parents[3] / "CODES.md"
SOLVED = Code.SOLVED
UNSURE = Code.UNSURE
LIMIT = Code.LIMIT
STOPPED = Code.LIMIT_WITH_POINT
EITHER = Code.INFEASIBLE_OR_UNBOUNDED
INFEASIBLE = Code.INFEASIBLE
UNBOUNDED = Code.UNBOUNDED
SAID = (SOLVED, UNSURE, STOPPED, LIMIT, INFEASIBLE, EITHER, UNBOUNDED)
CLAIMS = ("", "optimal", "within", "feasible", "bound", "infeasible", "unbounded")
WORDS_ALONE = {
    INFEASIBLE: Code.SAID_INFEASIBLE,
    EITHER: Code.SAID_INFEASIBLE_OR_UNBOUNDED,
    UNBOUNDED: Code.SAID_UNBOUNDED,
}
PROGRAMS = (
    {"is_continuous": False, "is_relaxed": False},
    {"is_continuous": True, "is_relaxed": False},
    {"is_continuous": True, "is_relaxed": True},
)
FLAGS_OF_ALL = ("is_gap", "is_proving", "is_ray_open", "is_met_in_doubles", "is_contradicted")
FLAGS_OF_CLAIMS: Mapping[str, Sequence[str]] = {
    "": ("is_optimum_known",),
    "feasible": ("has_other_objective",),
    "within": ("has_other_objective", "is_bound_met", "is_within_gap"),
    "bound": ("is_bound_met", "is_within_gap", "beats_bound", "is_optimum_known"),
}  # what there can be beside each claim that is not final
POINT_CLAIMS = ("optimal", "feasible", "within")


def findings_of(claim: str) -> Iterator[Findings]:
    """Every finding that there can be with a claim, but for `is_strict`."""
    flags = (*FLAGS_OF_ALL, *FLAGS_OF_CLAIMS.get(claim, ()))
    kinds = ("", "a better") if claim in POINT_CLAIMS else ("",)
    for said, kind, violation, program in itertools.product(SAID, kinds, Violation, PROGRAMS):
        for values in itertools.product((False, True), repeat=len(flags)):
            named: Dict[str, bool] = {**program, **dict(zip(flags, values))}
            yield Findings(said, claim, kind=kind, violation=violation, **named)


def all_findings() -> Iterator[Findings]:
    """Every finding that there can be, but for `is_strict`; nothing is proved without a check."""
    for claim in CLAIMS:
        yield from findings_of(claim)
    yield from (found._replace(is_checked=False) for found in findings_of(""))


def codes_of_page() -> Dict[str, Set[int]]:
    """The codes that CODES.md lets stand above a last line, by its first word."""
    text = CODES_PAGE.read_text(encoding="utf-8")
    rows = re.findall(r"^\| `(\w+).* \| (.*) \|$", text, re.MULTILINE)
    return {
        word: set(map(int, re.findall(r"\b(?:0|[1-4]\d[05])\b", codes))) for word, codes in rows
    }


def check(found: Findings, got: Ruling) -> None:
    """What holds of each finding."""
    if found.claim in FINAL:  # what is proved is never lost, and nothing else has its code
        final = {"optimal": SOLVED, "infeasible": INFEASIBLE, "unbounded": UNBOUNDED}
        assert got.code == final[found.claim], found
    elif found.is_checked:
        # nothing but a proof says that there is no point, or no best one
        assert got.code not in (INFEASIBLE, EITHER, UNBOUNDED), found
    if got.code == SOLVED and found.is_checked and found.claim != "optimal":
        check_code_0(found, got)
    if got.source is PointSource.ANSWER and found.violation is Violation.MUCH:
        assert got.code == UNSURE, found  # a point that misses the model is none
    if got.source is PointSource.NONE and found.claim not in FINAL and found.is_checked:
        # where there is a point to a limit it is 400, and no point has another code
        assert got.code in (LIMIT, WORDS_ALONE.get(found.said)), found
    if got.code == STOPPED:
        assert found.said in (LIMIT, STOPPED), found
    is_denied = got.code == UNSURE and found.said == SOLVED and not found.kind
    if is_denied or got.code in WORDS_ALONE.values():
        assert got.shortfall, found  # a code that is not the solver's own says why


def check_code_0(found: Findings, got: Ruling) -> None:
    """What code 0 rests on where the model's optimum is not proved."""
    is_near = found.is_bound_met or found.is_within_gap
    is_relaxed_bound = found.claim == "bound" and found.is_bound_met and found.is_relaxed
    if found.is_proving:
        assert found.claim in ("feasible", "within", "bound") and is_near, found
        assert found.claim != "bound" or is_relaxed_bound, found
    elif found.is_continuous:
        # of a linear program: a point and a bound stand together
        assert found.is_bound_met or found.is_met_in_doubles or found.is_within_gap, found
        is_known = found.is_optimum_known or found.is_met_in_doubles or found.is_relaxed
        assert got.source is PointSource.PROVED or is_known, found
    else:
        # of an integer program: an exact point, which nothing speaks against
        assert got.source is PointSource.PROVED, found
        is_other = bool(found.kind) or found.has_other_objective
        assert not is_other or is_near, found
        assert got.is_word or is_near or found.is_met_in_doubles, found
    if got.is_word:
        is_own = found.said == SOLVED and not found.kind and not found.has_other_objective
        assert is_own and not found.is_continuous and not found.is_proving, found
        is_open = found.claim == "feasible" and found.is_ray_open
        assert not found.is_bound_met and not is_open, found


def test_every_finding() -> None:
    """With all codes of the table in CODES.md, and no others: of a claim, the answer was checked."""
    seen: Dict[str, Set[int]] = {}
    for found in all_findings():
        got = decide(found)
        check(found, got)
        if found.is_checked or not found.claim:
            seen.setdefault(found.claim or "not", set()).add(int(got.code))
    assert seen == codes_of_page()


def test_strict() -> None:
    """All but what is proved to the end has code 100."""
    for found in all_findings():
        got = decide(found._replace(is_strict=True))
        assert found.claim in FINAL or got.code == UNSURE, found
        assert found.claim not in FINAL or got == decide(found), found


PROVED, OWN = PointSource.PROVED, PointSource.ANSWER


@pytest.mark.parametrize(
    "found, ruling",
    [
        (Findings(SOLVED, "within", is_continuous=True, is_bound_met=True), Ruling(SOLVED, PROVED)),
        (Findings(SOLVED, "within", is_continuous=True), Ruling(UNSURE, PROVED, BOUND_AWAY)),
        (Findings(SOLVED, "feasible", is_continuous=True), Ruling(UNSURE, PROVED, NO_BOUND)),
        (
            Findings(SOLVED, "feasible", is_continuous=True, is_met_in_doubles=True),
            Ruling(SOLVED, PROVED),
        ),
        (
            Findings(SOLVED, "bound", is_continuous=True, is_bound_met=True),
            Ruling(UNSURE, OWN, NO_EXACT_POINT),
        ),
        (
            Findings(SOLVED, "bound", is_continuous=True, is_bound_met=True, is_optimum_known=True),
            Ruling(SOLVED, OWN),
        ),
        (
            Findings(
                SOLVED,
                "bound",
                is_continuous=True,
                is_bound_met=True,
                is_optimum_known=True,
                is_proving=True,
            ),
            Ruling(UNSURE, OWN, NO_EXACT_POINT),
        ),
        (
            Findings(SOLVED, "bound", is_continuous=True, is_relaxed=True, is_bound_met=True),
            Ruling(SOLVED, OWN),
        ),
        (Findings(SOLVED, "bound", is_continuous=True), Ruling(UNSURE, OWN, BOUND_AWAY)),
        (
            Findings(
                SOLVED, "bound", is_continuous=True, is_bound_met=True, violation=Violation.LITTLE
            ),
            Ruling(UNSURE, OWN, "no exact point is near it"),
        ),
        (Findings(SOLVED, "", is_continuous=True, is_met_in_doubles=True), Ruling(SOLVED, OWN)),
        (Findings(SOLVED, "", is_continuous=True), Ruling(UNSURE, OWN, NO_BOUND)),
        (Findings(SOLVED, "", is_continuous=True, is_checked=False), Ruling(SOLVED, OWN)),
        (Findings(SOLVED, "feasible"), Ruling(SOLVED, PROVED, is_word=True)),
        (Findings(SOLVED, "feasible", is_proving=True), Ruling(UNSURE, PROVED, NO_BOUND)),
        (Findings(SOLVED, "within"), Ruling(SOLVED, PROVED, is_word=True)),
        (Findings(SOLVED, "within", is_proving=True), Ruling(UNSURE, PROVED, BOUND_AWAY)),
        (
            Findings(SOLVED, "within", is_proving=True, is_bound_met=True),
            Ruling(SOLVED, PROVED),
        ),
        (
            Findings(SOLVED, "within", is_proving=True, is_within_gap=True),
            Ruling(SOLVED, PROVED),
        ),
        (Findings(SOLVED, "feasible", is_ray_open=True), Ruling(UNSURE, PROVED, NO_BOUND)),
        (Findings(SOLVED, "within", is_ray_open=True), Ruling(SOLVED, PROVED, is_word=True)),
        (Findings(SOLVED, "feasible", kind="a better"), Ruling(UNSURE, PROVED)),
        (
            Findings(SOLVED, "within", has_other_objective=True),
            Ruling(UNSURE, PROVED, "its digits are not those of an exact point"),
        ),
        (Findings(SOLVED), Ruling(UNSURE, OWN, NO_EXACT_POINT)),
        (
            Findings(SOLVED, is_contradicted=True),
            Ruling(UNSURE, OWN, "no exact point has its whole values"),
        ),
        (Findings(UNSURE, "within", is_gap=True, is_within_gap=True), Ruling(SOLVED, PROVED)),
        (Findings(UNSURE, "within", is_gap=True), Ruling(UNSURE, PROVED, "the gap is not proved")),
        (Findings(STOPPED, violation=Violation.MUCH), Ruling(LIMIT)),
        (Findings(LIMIT, "feasible"), Ruling(STOPPED, PROVED)),
        (Findings(UNBOUNDED, "bound"), Ruling(LIMIT)),
        (Findings(INFEASIBLE), Ruling(Code.SAID_INFEASIBLE, shortfall=NOTHING_PROVES_IT)),
        (Findings(INFEASIBLE, "bound"), Ruling(Code.SAID_INFEASIBLE, shortfall=NOTHING_PROVES_IT)),
        (Findings(EITHER), Ruling(Code.SAID_INFEASIBLE_OR_UNBOUNDED, shortfall=NOTHING_PROVES_IT)),
        (Findings(UNBOUNDED), Ruling(Code.SAID_UNBOUNDED, shortfall=NOTHING_PROVES_IT)),
        (Findings(INFEASIBLE, is_contradicted=True), Ruling(LIMIT)),
        (Findings(UNBOUNDED, is_contradicted=True), Ruling(LIMIT)),
        (Findings(INFEASIBLE, is_checked=False), Ruling(INFEASIBLE)),
        (Findings(INFEASIBLE, "feasible", kind="a"), Ruling(UNSURE, PROVED)),
    ],
)
def test_one_finding(found: Findings, ruling: Ruling) -> None:
    assert decide(found) == ruling


@pytest.mark.parametrize(
    "error, code",
    [
        (errors.TakesNoIntegers("CLP", 3), Code.TAKES_NO_INTEGERS),
        (errors.ModelRefused("x"), Code.REFUSED),
        (errors.Damaged("m.nl", "x"), Code.REFUSED),
        (errors.WrongOption("x"), Code.BAD_OPTION),
        (errors.NotFound("cbc", "install it"), Code.NOT_FOUND),
        (errors.FileFault("m.nl", "x", errors.FileAction.READ), Code.FILE),
        (errors.UnusableAnswer("CBC", "x"), Code.NO_ANSWER),
        (errors.NotReturned("x"), Code.NOT_RETURNED),
        (errors.RunInterrupted(2), Code.STOPPED),
        (errors.DriverFault("x"), Code.FAULT),
    ],
)
def test_codes_of_errors(error: errors.BridgeError, code: Code) -> None:
    assert code_of_error(error) == code
