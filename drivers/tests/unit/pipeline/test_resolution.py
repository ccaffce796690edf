"""What is passed on beside each claim that is proved: code, point and words."""

from __future__ import annotations

from fractions import Fraction
from typing import NamedTuple

import pytest

from bridge_drivers.exact.evidence import Evidence
from bridge_drivers.model.linear_program import LinearProgram
from bridge_drivers.pipeline.answer import Answer
from bridge_drivers.pipeline.outcome import BOUND_AWAY, NO_BOUND, NO_EXACT_POINT
from bridge_drivers.pipeline.resolution import Resolution, RunFacts, resolve
from bridge_drivers.pipeline.settings import Settings
from bridge_drivers.solvers.base import SolverAnswer, SolverStatus
from bridge_drivers.system.codes import Code

S = SolverStatus
C = Code
WHOLE = (
    b"NAME nl\nOBJSENSE\n MAX\nROWS\n N obj\n L c0\nCOLUMNS\n M0 'MARKER' 'INTORG'\n"
    b" x0 obj 1\n x0 c0 1\n M1 'MARKER' 'INTEND'\nRHS\n RHS c0 9\nENDATA\n"
)  # the largest whole number up to 9
CONTINUOUS = WHOLE.replace(b" M0 'MARKER' 'INTORG'\n", b"").replace(b" M1 'MARKER' 'INTEND'\n", b"")
PROGRAMS = {
    "whole": WHOLE,
    "small": WHOLE.replace(b"x0 obj 1", b"x0 obj 1e-9"),
    "linear": CONTINUOUS,
}


class Case(NamedTuple):
    """An answer, a verdict, and what is passed on.

    Attributes:
        program: Which of the programs is solved.
        status: What the solver says.
        value: Of its one variable; "" where the answer has none.
        line: The verdict.
        code: What is passed on.
        passed: The value that is passed on; "" where none is.
        kind: What the point is beside the answer's.
        words: The code in words, where the solver's own do not hold.
        shortfall: What code 0 is not earned for.
        gap: That was asked for and reached; "" where none was.
        proves: A proof was asked for.
        knows_optimum: An exact optimum is known that no certificate holds.
    """

    program: str
    status: SolverStatus
    value: str
    line: str
    code: Code
    passed: str
    kind: str = ""
    words: str = ""
    shortfall: str = ""
    gap: str = ""
    proves: bool = False
    knows_optimum: bool = False


CASES = (
    Case("whole", S.OPTIMAL, "5", "optimal 5", C.SOLVED, "5"),
    Case("whole", S.OPTIMAL, "5", "optimal 7", C.SOLVED, "7", "a better", "optimal solution"),
    Case("whole", S.FEASIBLE, "5", "optimal 5", C.SOLVED, "5", "", "optimal solution"),
    Case("whole", S.FEASIBLE, "5", "optimal 7", C.SOLVED, "7", "a better", "optimal solution"),
    Case("whole", S.LIMIT_WITH_POINT, "5", "optimal 5", C.SOLVED, "5", "", "optimal solution"),
    Case(
        "whole", S.LIMIT_WITH_POINT, "5", "optimal 7", C.SOLVED, "7", "a better", "optimal solution"
    ),
    Case("whole", S.LIMIT, "", "optimal 5", C.SOLVED, "5", "a", "optimal solution"),
    Case("whole", S.LIMIT, "", "optimal 7", C.SOLVED, "7", "a", "optimal solution"),
    Case("whole", S.INFEASIBLE, "", "optimal 5", C.SOLVED, "5", "a", "optimal solution"),
    Case("whole", S.INFEASIBLE, "", "optimal 7", C.SOLVED, "7", "a", "optimal solution"),
    Case(
        "whole", S.INFEASIBLE_OR_UNBOUNDED, "", "optimal 5", C.SOLVED, "5", "a", "optimal solution"
    ),
    Case(
        "whole", S.INFEASIBLE_OR_UNBOUNDED, "", "optimal 7", C.SOLVED, "7", "a", "optimal solution"
    ),
    Case("whole", S.UNBOUNDED, "", "optimal 5", C.SOLVED, "5", "a", "optimal solution"),
    Case("whole", S.UNBOUNDED, "", "optimal 7", C.SOLVED, "7", "a", "optimal solution"),
    Case("whole", S.OPTIMAL, "5", "feasible 5", C.SOLVED, "5"),
    Case("whole", S.OPTIMAL, "5", "feasible 7", C.UNSURE, "7", "a better", "feasible solution"),
    Case("whole", S.OPTIMAL, "5", "feasible 3", C.UNSURE, "3", "another", "feasible solution"),
    Case("whole", S.FEASIBLE, "5", "feasible 5", C.UNSURE, "5"),
    Case("whole", S.LIMIT_WITH_POINT, "5", "feasible 5", C.LIMIT_WITH_POINT, "5"),
    Case(
        "whole",
        S.LIMIT_WITH_POINT,
        "5",
        "feasible 7",
        C.LIMIT_WITH_POINT,
        "7",
        "a better",
        "stopped with a feasible solution",
    ),
    Case(
        "whole",
        S.LIMIT,
        "",
        "feasible 5",
        C.LIMIT_WITH_POINT,
        "5",
        "a",
        "stopped with a feasible solution",
    ),
    Case("whole", S.INFEASIBLE, "", "feasible 5", C.UNSURE, "5", "a", "feasible solution"),
    Case(
        "whole",
        S.INFEASIBLE_OR_UNBOUNDED,
        "",
        "feasible 5",
        C.UNSURE,
        "5",
        "a",
        "feasible solution",
    ),
    Case("whole", S.UNBOUNDED, "", "feasible 5", C.UNSURE, "5", "a", "feasible solution"),
    Case("whole", S.OPTIMAL, "5", "within 9 5", C.SOLVED, "5"),
    Case("whole", S.OPTIMAL, "5", "within 9 7", C.UNSURE, "7", "a better", "feasible solution"),
    Case("whole", S.OPTIMAL, "5", "within 9 3", C.UNSURE, "3", "another", "feasible solution"),
    Case("whole", S.FEASIBLE, "5", "within 9 5", C.UNSURE, "5"),
    Case("whole", S.LIMIT_WITH_POINT, "5", "within 9 5", C.LIMIT_WITH_POINT, "5"),
    Case(
        "whole",
        S.LIMIT_WITH_POINT,
        "5",
        "within 9 7",
        C.LIMIT_WITH_POINT,
        "7",
        "a better",
        "stopped with a feasible solution",
    ),
    Case(
        "whole",
        S.LIMIT,
        "",
        "within 9 5",
        C.LIMIT_WITH_POINT,
        "5",
        "a",
        "stopped with a feasible solution",
    ),
    Case("whole", S.INFEASIBLE, "", "within 9 5", C.UNSURE, "5", "a", "feasible solution"),
    Case(
        "whole",
        S.INFEASIBLE_OR_UNBOUNDED,
        "",
        "within 9 5",
        C.UNSURE,
        "5",
        "a",
        "feasible solution",
    ),
    Case("whole", S.UNBOUNDED, "", "within 9 5", C.UNSURE, "5", "a", "feasible solution"),
    Case(
        "whole",
        S.OPTIMAL,
        "5",
        "bound 5",
        C.UNSURE,
        "5",
        "",
        "",
        NO_EXACT_POINT,
    ),
    Case(
        "whole",
        S.OPTIMAL,
        "5",
        "bound 6",
        C.UNSURE,
        "5",
        "",
        "",
        NO_EXACT_POINT,
    ),
    Case(
        "whole",
        S.OPTIMAL,
        "5",
        "bound 4",
        C.UNSURE,
        "5",
        "",
        "",
        "it is better than what is possible",
    ),
    Case("whole", S.LIMIT_WITH_POINT, "5", "bound 5", C.LIMIT_WITH_POINT, "5"),
    Case("whole", S.LIMIT, "", "bound 5", C.LIMIT, ""),
    Case(
        "whole", S.UNBOUNDED, "", "bound 5", C.LIMIT, "", "", "stopped without a feasible solution"
    ),
    Case(
        "whole", S.INFEASIBLE, "", "bound 5", C.SAID_INFEASIBLE, "", shortfall="nothing proves it"
    ),
    Case(
        "whole",
        S.INFEASIBLE,
        "",
        "not proved: x",
        C.LIMIT,
        "",
        words="stopped without a feasible solution",
        knows_optimum=True,
    ),
    Case("linear", S.OPTIMAL, "5", "bound 5", C.SOLVED, "5", knows_optimum=True),
    Case("linear", S.OPTIMAL, "5", "bound 1250001/250000", C.SOLVED, "5", knows_optimum=True),
    Case("linear", S.OPTIMAL, "5", "bound 5", C.UNSURE, "5", shortfall=NO_EXACT_POINT),
    Case(
        "linear",
        S.OPTIMAL,
        "5",
        "bound 5",
        C.UNSURE,
        "5",
        shortfall=NO_EXACT_POINT,
        proves=True,
        knows_optimum=True,
    ),
    Case("whole", S.OPTIMAL, "5", "within 9 5", C.UNSURE, "5", shortfall=BOUND_AWAY, proves=True),
    Case("whole", S.OPTIMAL, "5", "feasible 5", C.UNSURE, "5", shortfall=NO_BOUND, proves=True),
    Case("whole", S.OPTIMAL, "5", "within 1250001/250000 5", C.SOLVED, "5", proves=True),
    Case(
        "whole",
        S.OPTIMAL,
        "3",
        "within 1250001/250000 5",
        C.SOLVED,
        "5",
        "a better",
        "optimal solution",
    ),
    Case("whole", S.OPTIMAL, "5", "within 6 5", C.SOLVED, "5", gap="0.5", proves=True),
    Case("linear", S.OPTIMAL, "5", "within 1250001/250000 5", C.SOLVED, "5", proves=True),
    Case("linear", S.OPTIMAL, "0", "within 1/10000000 0", C.SOLVED, "0"),
    Case(
        "linear",
        S.OPTIMAL,
        "0",
        "within 1/10000000 0",
        C.UNSURE,
        "0",
        shortfall=BOUND_AWAY,
        proves=True,
    ),
    Case(
        "linear",
        S.OPTIMAL,
        "5",
        "bound 6",
        C.UNSURE,
        "5",
        "",
        "",
        "the bound that is proved is away from it",
    ),
    Case(
        "linear",
        S.OPTIMAL,
        "5",
        "bound 4",
        C.UNSURE,
        "5",
        "",
        "",
        "it is better than what is possible",
    ),
    Case("linear", S.OPTIMAL, "5", "within 5 5", C.SOLVED, "5"),
    Case("linear", S.OPTIMAL, "5", "within 1250001/250000 5", C.SOLVED, "5"),
    Case(
        "linear",
        S.OPTIMAL,
        "5",
        "within 125001/25000 5",
        C.UNSURE,
        "5",
        "",
        "",
        "the bound that is proved is away from it",
    ),
    Case("linear", S.OPTIMAL, "5", "feasible 5", C.UNSURE, "5", "", "", "no bound is proved"),
    Case("linear", S.FEASIBLE, "5", "within 6 5", C.SOLVED, "5", gap="0.5"),
    Case(
        "linear",
        S.FEASIBLE,
        "5",
        "within 6 5",
        C.UNSURE,
        "5",
        "",
        "",
        "the gap is not proved",
        gap="0.01",
    ),
    Case(
        "linear",
        S.FEASIBLE,
        "5",
        "within 8 7",
        C.SOLVED,
        "7",
        "a better",
        "solution within the gap that was asked for",
        gap="0.5",
    ),
    Case(
        "linear",
        S.FEASIBLE,
        "5",
        "optimal 7",
        C.SOLVED,
        "7",
        "a better",
        "optimal solution",
        gap="0.5",
    ),
    Case(
        "small",
        S.OPTIMAL,
        "0",
        "feasible 1/250000000",
        C.UNSURE,
        "4",
        "a better",
        "feasible solution",
    ),
    Case(
        "whole",
        S.OPTIMAL,
        "1234570",
        "feasible 1234567",
        C.UNSURE,
        "1234567",
        "",
        "",
        "its digits are not those of an exact point",
    ),
    Case("whole", S.OPTIMAL, "1234570", "optimal 1234567", C.SOLVED, "1234567"),
    Case(
        "whole",
        S.OPTIMAL,
        "1234600",
        "feasible 1234567",
        C.UNSURE,
        "1234567",
        "another",
        "feasible solution",
    ),
)


def resolution(case: Case) -> Resolution:
    """The value of a claim is its last word, but of a bound."""
    found = SolverAnswer(case.status, "told", is_gap=bool(case.gap) and not case.proves)
    if case.value:
        found.values = [float(case.value)]
    is_proved = not case.line.startswith("not")
    value = None
    point = None
    if is_proved and not case.line.startswith("bound"):
        value = Fraction(case.line.split()[-1])
        point = [value * 10**9 if case.program == "small" else value]
    verdict = Evidence(case.line, point, b"kept" if is_proved else None, "", value)
    is_denied = case.knows_optimum and case.status is S.INFEASIBLE
    verdict = verdict._replace(is_optimum_known=case.knows_optimum, contradicts_answer=is_denied)
    answer = Answer(LinearProgram.of(PROGRAMS[case.program]), found, Settings())
    return resolve(answer, verdict, RunFacts(gap=float(case.gap or 0), is_proving=case.proves))


@pytest.mark.parametrize("case", CASES)
def test_what_is_passed_on(case: Case) -> None:
    found = resolution(case)
    assert (found.code, found.answer.code) == (case.code, case.code)
    assert (found.kind, found.text or "", found.shortfall) == (
        case.kind,
        case.words,
        case.shortfall,
    )
    values = None if found.answer.values is None else list(found.answer.values)
    assert values == ([case.passed] if case.passed else None)


def test_a_proved_claim_is_never_lost() -> None:
    """Whatever the solver said, `infeasible` and `unbounded` have their codes, and no point."""
    for status in SolverStatus:
        if status is SolverStatus.NO_ANSWER:
            continue
        for line, code in (("infeasible", Code.INFEASIBLE), ("unbounded", Code.UNBOUNDED)):
            values = [5.0] if status.has_point() else None
            answer = Answer(
                LinearProgram.of(WHOLE), SolverAnswer(status, "told", values), Settings()
            )
            found = resolve(answer, Evidence(line, None, b"kept"))
            assert (found.code, found.answer.values) == (code, None)


@pytest.mark.parametrize("value, passed", [("80/9", "80/9"), ("79/9", "89/10"), ("91/10", "89/10")])
def test_an_exact_answer_is_not_moved_to_a_point_in_few_digits(value: str, passed: str) -> None:
    """Unless it is worse than that, or beyond the proved bound, which is 9.05 here."""
    own = Fraction(value)
    told = SolverAnswer(S.OPTIMAL, "told", [own], objective=own)
    answer = Answer(LinearProgram.of(CONTINUOUS), told, Settings())
    evidence = Evidence("within 181/20 80/9", [Fraction(80, 9)], b"kept", value=Fraction(80, 9))
    low = Evidence("within 181/20 89/10", [Fraction(89, 10)], b"kept", value=Fraction(89, 10))
    found = resolve(answer, evidence if passed == "80/9" else low)
    assert found.answer.found.values == [Fraction(passed)]
    doubles = SolverAnswer(S.OPTIMAL, "told", [float(own)], objective=float(own))
    moved = resolve(Answer(LinearProgram.of(CONTINUOUS), doubles, Settings()), low)
    assert moved.answer.found.values == [Fraction(89, 10)]
