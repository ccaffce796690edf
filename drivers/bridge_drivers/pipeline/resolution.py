"""What is passed on: code, point and objective, by an answer and what was proved of the model.

A proved claim holds whatever the solver said, and nothing contradicts it. `answered_run` calls
`resolve` once the proof is there. It makes the `Findings`, has `outcome.decide` rule on them, and
carries the ruling out.
"""

from __future__ import annotations

import math
from fractions import Fraction
from typing import Mapping, NamedTuple, Sequence

from ..exact.evidence import Evidence
from ..system.codes import Code
from ..model.analysis import (
    NO_RESIDUAL,
    ROUNDING_OF_A_ROW,
    TOLERANCE_OF_INTEGERS,
    Residual,
)
from ..model.linear_program import EPIGRAPH_COLUMN, ObjectiveTerms
from ..program.verdict import Claim, Statement, statement_of
from ..formats.numbers import nearest_double
from .answer import Answer
from .outcome import NOT_STRICT, Findings, PointSource, Ruling, Violation, decide

RELATIVE_DIFFERENCE = 1e-6  # of the largest term or the sum: between unequal objectives
RELATIVE_GAP = Fraction(1, 10**6)  # of the objective: a bound that is at it
PRINTED_DIGITS = 1e-5  # of values that are the same: a solver may print six digits
WORDS: Mapping[Code, str] = {
    Code.SOLVED: "optimal solution",
    Code.UNSURE: "feasible solution",
    Code.INFEASIBLE: "infeasible",
    Code.UNBOUNDED: "unbounded",
    Code.LIMIT_WITH_POINT: "stopped with a feasible solution",
    Code.LIMIT: "stopped without a feasible solution",
}
WORDS_OF_GAP = "solution within the gap that was asked for"


class RunFacts(NamedTuple):
    """What decides on a code beside the answer and the verdict.

    Attributes:
        residual: What the solver's own values miss most.
        gap: The relative gap that was asked for; 0 for none.
        is_checked: The proved program was asked.
        is_proving: A proof was asked for.
        is_strict: What is not proved is not solved.
    """

    residual: Residual = NO_RESIDUAL
    gap: float = 0.0
    is_checked: bool = True
    is_proving: bool = False
    is_strict: bool = False


class Resolution(NamedTuple):
    """What is passed on.

    Attributes:
        code: Its code.
        answer: Its numbers, with that code.
        text: What is told in place of the solver's own words; None where these hold.
        kind: What the point is beside the solver's: `a`, `a better`, `another`; "" where it is the
            same.
        shortfall: Why the code of the solver's status is not earned, in words; "" where there is
            nothing to say.
        is_word: That the point is optimal is the solver's word alone.
    """

    code: Code
    answer: Answer
    text: str | None = None
    kind: str = ""
    shortfall: str = ""
    is_word: bool = False


class ProvedPoint(NamedTuple):
    """A point that is proved, beside an answer.

    Attributes:
        values: By column of the program, that of a nonlinear objective's value too.
        objective: The terms of the objective at it, in doubles and in its own sense.
        has_other_objective: Than the answer has, in doubles; False where the answer has no point.
        kind: What it is beside the answer, as in `Resolution`.
    """

    values: Sequence[Fraction]
    objective: ObjectiveTerms
    has_other_objective: bool
    kind: str


def resolve(answer: Answer, verdict: Evidence, facts: RunFacts = RunFacts()) -> Resolution:
    """What is passed on, by the ruling on all that was found.

    Args:
        answer: The solver's own, with the code of its status.
        verdict: What is proved of the model; its point is by the file's variable.
        facts: What else decides.
    """
    proved = proved_point(answer, verdict)
    ruling = decide(findings_of(answer, verdict, facts, proved))
    code, shortfall = ruling.code, ruling.shortfall
    if ruling.source is PointSource.PROVED and proved is not None:
        if is_exact_and_no_worse(answer, verdict, facts):
            return Resolution(code, answer.with_code(code), None, "", shortfall)
        return _at_proved_point(answer, verdict, proved, ruling)
    if ruling.source is PointSource.ANSWER:
        text = NOT_STRICT if shortfall == NOT_STRICT else None
        return Resolution(code, answer.with_code(code), text, "", shortfall)
    if code == Code.UNSURE:
        return Resolution(code, answer.with_code(code), shortfall)
    if answer.values is None and answer.code == code:
        return Resolution(code, answer)
    if shortfall:
        return Resolution(code, answer.without_point(code), None, "", shortfall)
    return Resolution(code, answer.without_point(code), WORDS[code])


def findings_of(
    answer: Answer, verdict: Evidence, facts: RunFacts, proved: ProvedPoint | None
) -> Findings:
    """What decides on the code.

    Args:
        answer: The solver's own.
        verdict: What is proved.
        facts: What else decides.
        proved: What `proved_point` says of both; None where no point is proved.
    """
    said = statement_of(verdict.line) if verdict.is_proved else None
    is_relaxed = answer.is_continuous and answer.program.integer_count > 0
    return Findings(
        said=answer.code,
        claim=verdict.claim,
        is_continuous=answer.is_continuous,
        is_gap=answer.found.is_gap,
        kind=proved.kind if proved else "",
        has_other_objective=_has_other_objective(answer, proved),
        is_bound_met=said is not None and is_bound_met(answer, proved, said, facts),
        is_within_gap=said is not None and is_within(said, facts.gap),
        violation=violation_of(answer, facts.residual),
        beats_bound=said is not None and beats_proved_bound(answer, said),
        is_contradicted=verdict.contradicts_answer,
        is_relaxed=is_relaxed,
        is_optimum_known=verdict.is_optimum_known,
        is_met_in_doubles=verdict.is_optimal_in_doubles,
        is_ray_open=verdict.may_be_unbounded,
        is_checked=facts.is_checked,
        is_proving=facts.is_proving,
        is_strict=facts.is_strict,
    )


def is_exact_and_no_worse(answer: Answer, verdict: Evidence, facts: RunFacts) -> bool:
    """Whether an answer in fractions stands beside a proved point that is not the optimum.

    That is where its own objective is no worse than the point's, and not beyond the proved bound,
    and it misses nothing: its numbers are too wide for a certificate, and a point in few digits is
    no correction of it.

    Args:
        answer: The solver's own.
        verdict: With a proved point.
        facts: What the answer misses.
    """
    said = statement_of(verdict.line)
    values, own = answer.found.values, answer.found.objective
    if said is None or said.claim is not Claim.WITHIN or said.value is None or said.bound is None:
        return False
    if not isinstance(own, Fraction) or not all(isinstance(v, Fraction) for v in values or [0.0]):
        return False
    if violation_of(answer, facts.residual) is not Violation.NOTHING:
        return False
    low, high = sorted((said.bound, said.value))
    return low <= own <= high


def _has_other_objective(answer: Answer, proved: ProvedPoint | None) -> bool:
    """Whether an integer program's proved point is the answer's but for digits and objective."""
    if proved is None or proved.kind or not answer.program.integer_count:
        return False
    return proved.has_other_objective


def violation_of(answer: Answer, residual: Residual) -> Violation:
    """How much a residual is.

    It is MUCH beyond its tolerance; else LITTLE where its share of the row's largest term is above
    ROUNDING_OF_A_ROW, or with integer columns that are not relaxed above TOLERANCE_OF_INTEGERS.
    """
    if residual.is_significant():
        return Violation.MUCH
    rounding = ROUNDING_OF_A_ROW if answer.is_continuous else TOLERANCE_OF_INTEGERS
    return Violation.LITTLE if residual.relative > rounding else Violation.NOTHING


def is_bound_met(
    answer: Answer, proved: ProvedPoint | None, said: Statement, facts: RunFacts
) -> bool:
    """Whether the proved bound is so near to an objective that this is solved.

    Where a proof was asked for, and of an integer program with a proved point, the bound is within
    RELATIVE_GAP of that point's objective alone; else it is as `meets_bound` says.
    """
    if said.value is not None and (facts.is_proving or not answer.is_continuous):
        return is_near(said)
    return meets_bound(answer, proved, said)


def is_near(said: Statement) -> bool:
    """Whether a bound is proved within RELATIVE_GAP of the proved value, exactly.

    It is |bound - value| <= RELATIVE_GAP * |value|, so that a value of 0 wants a bound of 0.
    """
    if said.bound is None or said.value is None:
        return False
    return abs(said.bound - said.value) <= RELATIVE_GAP * abs(said.value)


def meets_bound(answer: Answer, proved: ProvedPoint | None, said: Statement) -> bool:
    """Whether the proved bound is at the objective of the proved point, else of the answer.

    They may be apart by RELATIVE_GAP times the largest of |objective|, 1 and the sum of the sizes
    of its terms. A bound that is the proved value exactly is at it.

    Args:
        answer: The solver's own.
        proved: A point that is proved; None for none.
        said: What is proved, in the objective's own sense.
    """
    if said.bound is None or said.bound == said.value:
        return said.bound is not None
    if proved is not None and said.value is not None:
        value, objective = said.value, proved.objective
    elif answer.values is not None and math.isfinite(answer.objective_terms.value):
        value, objective = Fraction(answer.objective_terms.value), answer.objective_terms
    else:
        return False
    terms = Fraction(objective.total) if objective.total < math.inf else Fraction(0)
    return abs(said.bound - value) <= RELATIVE_GAP * max(abs(value), Fraction(1), terms)


def is_within(said: Statement, gap: float) -> bool:
    """Whether the bound is as near to the point's objective as a relative gap that was asked for.

    That is |bound - value| <= gap * max(|bound|, |value|), exactly; False unless both are proved.
    """
    if said.bound is None or said.value is None:
        return False
    return abs(said.bound - said.value) <= Fraction(gap) * max(abs(said.bound), abs(said.value))


def proved_point(answer: Answer, verdict: Evidence) -> ProvedPoint | None:
    """The point of a verdict beside an answer; None where the verdict has none.

    Its objective's value stands behind the values of the file's variables where the program has a
    column for it.
    """
    if not verdict.is_proved or verdict.point is None:
        return None
    program = answer.program
    values: Sequence[Fraction] = verdict.point
    if program.names.columns[-1:] == [EPIGRAPH_COLUMN] and verdict.value is not None:
        values = [*values, verdict.value]
    doubles = nearest_doubles(values)
    objective = program.objective_terms(doubles)
    if answer.values is None:
        return ProvedPoint(values, objective, has_other_objective=False, kind="a")
    is_apart = have_other_values(answer.objective_terms, objective)
    kind = kind_beside(answer, doubles, objective) if is_apart else ""
    return ProvedPoint(values, objective, is_apart, kind)


def proved_duals(answer: Answer, verdict: Evidence) -> dict[int, Fraction]:
    """The duals of a certificate of one leaf, by row of the program, in the objective's own sense.

    The verdict has them by the file's constraint; rows without one are left out, and so is that of
    a nonlinear objective.
    """
    if not verdict.duals:
        return {}
    rows = enumerate(answer.program.names.rows)
    numbers = {row: int(name[1:]) for row, name in rows if name[1:].isdigit()}
    return {
        row: verdict.duals[number] for row, number in numbers.items() if number in verdict.duals
    }


def kind_beside(answer: Answer, doubles: Sequence[float], objective: ObjectiveTerms) -> str:
    """What a point of another objective is beside the answer.

    Args:
        answer: One with a point.
        doubles: The values of the point, by column.
        objective: The objective's terms at the point.

    Returns:
        `a better` or `another`; "" where each value is within PRINTED_DIGITS of the answer's, of
        the larger of both.
    """
    pairs = zip(doubles, answer.doubles)
    if all(abs(v - old) <= PRINTED_DIGITS * max(abs(v), abs(old)) for v, old in pairs):
        return ""
    is_more = objective.value > answer.objective_terms.value
    return "a better" if is_more == answer.program.maximise else "another"


def have_other_values(old: ObjectiveTerms, new: ObjectiveTerms) -> bool:
    """Whether two objectives are not the same in doubles.

    They are apart by more than RELATIVE_DIFFERENCE of the largest term, or of the old one's sum.
    """
    size = max(old.largest, new.largest, abs(old.value))
    return abs(old.value - new.value) > RELATIVE_DIFFERENCE * size


def beats_proved_bound(answer: Answer, said: Statement) -> bool:
    """Whether the answer is better than a bound, beside which no point is proved.

    It is where it is so by more than RELATIVE_DIFFERENCE of the bound or of the largest term of its
    own objective, in doubles.
    """
    if answer.values is None or said.bound is None or said.claim is not Claim.BOUND:
        return False
    own, limit = answer.objective_terms, double_or_infinite(said.bound)
    surplus = own.value - limit if answer.program.maximise else limit - own.value
    return surplus > RELATIVE_DIFFERENCE * max(own.largest, abs(limit))


def double_or_infinite(value: Fraction) -> float:
    """The nearest double of a fraction; beyond doubles it is infinite, with the fraction's sign."""
    double = nearest_double(value)
    if double is not None:
        return double
    return math.inf if value > 0 else -math.inf


def nearest_doubles(values: Sequence[Fraction]) -> list[float]:
    """The double of each, as `double_or_infinite`.

    Each object is looked at once: most stand many times.
    """
    objects = {id(value): value for value in values}
    known = {place: double_or_infinite(value) for place, value in objects.items()}
    return [known[id(value)] for value in values]


def _at_proved_point(
    answer: Answer, verdict: Evidence, proved: ProvedPoint, ruling: Ruling
) -> Resolution:
    """What is passed on at the point that was proved.

    The answer is moved to it, or near it where it is the answer's own but for digits.

    Where it is the answer's own, the solver's words stay with its own code, with a shortfall, or
    with a gap that was asked for. With code 0 the duals of the certificate go with it.

    Args:
        answer: The solver's own.
        verdict: What is proved.
        proved: Its point.
        ruling: The code, and what it falls short of.
    """
    code, shortfall = ruling.code, ruling.shortfall
    kind = proved.kind
    duals = proved_duals(answer, verdict) if code == Code.SOLVED else {}
    if kind:
        moved = answer.moved_to(proved.values, duals, code)
    else:
        moved = answer.moved_near(proved.values, duals, code)
    if shortfall == NOT_STRICT:
        return Resolution(code, moved, NOT_STRICT, kind, shortfall)
    if ruling.is_word:
        return Resolution(code, moved, is_word=True)
    keeps_words = code == answer.code or bool(shortfall) or answer.found.is_gap
    text = _words_of_code(answer, verdict, code)
    if not kind and keeps_words:
        text = None
    return Resolution(code, moved, text, kind, shortfall)


def _words_of_code(answer: Answer, verdict: Evidence, code: Code) -> str | None:
    """The words of a code that are told in place of the solver's own.

    A gap that was asked for and is met has words of its own.
    """
    is_within = code == Code.SOLVED and verdict.claim == "within"
    return WORDS_OF_GAP if is_within and answer.found.is_gap else WORDS[code]
