"""The one place where a code is decided, by what was found of a model and of an answer to it.

drivers/CODES.md is the same in words, and a test goes through every pair of them. `resolution`
makes the `Findings` and carries the `Ruling` out; `code_of_error` is for runs without an outcome.
"""

from __future__ import annotations

import enum
from typing import Mapping, NamedTuple, Sequence

from ..program.verdict import FINAL
from ..system import errors
from ..system.codes import Code

NO_BOUND = "no bound is proved"
BOUND_AWAY = "the bound that is proved is away from it"
NOT_STRICT = "not proved, as strict=1 wants it"
NOTHING_PROVES_IT = "nothing proves it"
NO_EXACT_POINT = "no exact point is proved near it"
POINT_CODES = (Code.SOLVED, Code.UNSURE, Code.LIMIT_WITH_POINT)  # of an answer that has a point
# what a solver says of a model without a point, and its code where nothing proves that: modelling
# systems take codes from 200 to 399 for facts (MiniZinc shows 290 as UNSATISFIABLE, too), and those
# from 400 to 499 for the end of a limit
CODES_OF_WORDS: Mapping[Code, Code] = {
    Code.INFEASIBLE: Code.SAID_INFEASIBLE,
    Code.INFEASIBLE_OR_UNBOUNDED: Code.SAID_INFEASIBLE_OR_UNBOUNDED,
    Code.UNBOUNDED: Code.SAID_UNBOUNDED,
}


class Violation(enum.Enum):
    """How much the answer's own values miss of the model, by `resolution.violation_of`."""

    NOTHING = "nothing"  # or the rounding of a row's own terms
    LITTLE = "little"
    MUCH = "much"  # so much that they are no point


class PointSource(enum.Enum):
    """Whose point is passed on with a code."""

    NONE = "none"
    ANSWER = "answer"
    PROVED = "proved"


class Findings(NamedTuple):
    """What is known of a model and of an answer to it.

    Attributes:
        said: The code that the solver's status has by itself.
        claim: The first word of what is proved of the model; "" where nothing is.
        is_continuous: There are no integer variables, or they are relaxed.
        is_gap: The solver stopped at a gap that was asked for.
        kind: What the proved point is beside the answer: `a` (which has none), `a better` or
            `another`; "" where it is the same up to the digits that are printed, or none is proved.
        has_other_objective: It is the same so, and has another objective all the same.
        is_bound_met: The proved bound is at the objective of the proved point, or of the answer
            where none is proved, up to 1e-6 (`resolution.meets_bound`).
        is_within_gap: It is as near to it as the gap that was asked for.
        violation: What the answer's own values miss.
        beats_bound: The answer is better than the bound that is proved.
        is_contradicted: No point has the answer's values of integer variables; or the answer says
            that there is no point or no best one, and one is known that no certificate can hold.
        is_met_in_doubles: The answer's duals in doubles, rounded to the safe side, say as much as
            `is_bound_met`.
        is_ray_open: No bound is known, and the time ended before it was known whether there is a
            ray.
        is_relaxed: There are integer variables, which are relaxed.
        is_optimum_known: An exact optimum is known that no certificate can hold.
        is_checked: The proved program was asked.
        is_proving: A proof was asked for (prove=1): the solver's word earns no code 0.
        is_strict: What is not proved is not solved.
    """

    said: Code
    claim: str = ""
    is_continuous: bool = False
    is_gap: bool = False
    kind: str = ""
    has_other_objective: bool = False
    is_bound_met: bool = False
    is_within_gap: bool = False
    violation: Violation = Violation.NOTHING
    beats_bound: bool = False
    is_contradicted: bool = False
    is_met_in_doubles: bool = False
    is_ray_open: bool = False
    is_relaxed: bool = False
    is_optimum_known: bool = False
    is_checked: bool = True
    is_proving: bool = False
    is_strict: bool = False


class Ruling(NamedTuple):
    """A code, and whose point is passed on with it.

    Attributes:
        code: What is earned.
        source: Whose point is passed on.
        shortfall: Why the code of the solver's own status is not earned, in words for the message;
            "" where it did not claim it, and where its claim stands.
        is_word: Code 0 rests on the solver's word: the point is proved, and not that it is optimal.
    """

    code: Code
    source: PointSource = PointSource.NONE
    shortfall: str = ""
    is_word: bool = False


# of each kind of error its code; the first class that an error is of counts
CODES_OF_ERRORS: Sequence[tuple[type[errors.BridgeError], Code]] = (
    (errors.TakesNoIntegers, Code.TAKES_NO_INTEGERS),
    (errors.ModelRefused, Code.REFUSED),
    (errors.ProgramFailed, Code.REFUSED),
    (errors.WrongOption, Code.BAD_OPTION),
    (errors.NotInstalled, Code.NOT_FOUND),
    (errors.FileFault, Code.FILE),
    (errors.SolverFailed, Code.NO_ANSWER),
    (errors.NotReturned, Code.NOT_RETURNED),
    (errors.RunInterrupted, Code.STOPPED),
    (errors.BridgeError, Code.FAULT),
)


def code_of_error(error: errors.BridgeError) -> Code:
    """AMPL's code of a run that ended by this error.

    It is that of the first class in CODES_OF_ERRORS that the error is of.
    """
    return next(code for kind, code in CODES_OF_ERRORS if isinstance(error, kind))


def decide(findings: Findings) -> Ruling:
    """The code that was earned: by what is proved, whatever the solver said; else by its answer.

    With `strict`, whatever is not proved optimal, infeasible or unbounded has code 100.
    """
    ruling = _by_claim(findings)
    if findings.is_strict and findings.claim not in FINAL:
        return Ruling(Code.UNSURE, ruling.source, NOT_STRICT)
    return ruling


def _by_claim(found: Findings) -> Ruling:
    """The ruling without `strict`. A final claim decides alone."""
    if found.claim == "infeasible":
        return Ruling(Code.INFEASIBLE)
    if found.claim == "unbounded":
        return Ruling(Code.UNBOUNDED)
    if found.claim == "optimal":
        return Ruling(Code.SOLVED, PointSource.PROVED)
    if found.claim in ("feasible", "within"):
        return _of_proved_point(found)
    if found.said in POINT_CODES:
        return _of_answer(found)
    return _without_point(found)


def _without_point(found: Findings) -> Ruling:
    """The ruling where no point is proved, and the answer has none: 200 and 300 are not earned.

    An `unbounded` that a proved bound contradicts is a limit, and so is what a point contradicts
    that is known and cannot be proved.
    """
    if not found.is_checked:
        return Ruling(found.said)
    is_bounded = found.said == Code.UNBOUNDED and found.claim == "bound"
    if is_bounded or found.is_contradicted:
        return Ruling(Code.LIMIT)
    if found.said in CODES_OF_WORDS:
        return Ruling(CODES_OF_WORDS[found.said], shortfall=NOTHING_PROVES_IT)
    return Ruling(found.said)


def _of_proved_point(found: Findings) -> Ruling:
    """The ruling where a point is proved, and not that it is optimal.

    It is solved where the bound is met up to 1e-6 or up to the gap that was asked for, or where the
    solver's `optimal` is of the same point and nothing speaks against it.
    """
    proved = PointSource.PROVED
    if found.is_bound_met or (found.is_gap or found.is_proving) and found.is_within_gap:
        return Ruling(Code.SOLVED, proved)
    if found.said in (Code.LIMIT, Code.LIMIT_WITH_POINT):
        return Ruling(Code.LIMIT_WITH_POINT, proved)
    if found.kind or found.said != Code.SOLVED:
        return Ruling(Code.UNSURE, proved, "the gap is not proved" if found.is_gap else "")
    shortfall = _shortfall_of_own_point(found)
    if shortfall:
        return Ruling(Code.UNSURE, proved, shortfall)
    return Ruling(Code.SOLVED, proved, is_word=not found.is_met_in_doubles)


def _shortfall_of_own_point(found: Findings) -> str:
    """Why a solver's `optimal` earns no code 0 though its own point is proved feasible.

    It is "" where it earns it.

    Without a bound that is met, and where no proof was asked for, it does in an integer program,
    unless it is open whether it is unbounded.
    """
    if found.has_other_objective:
        return "its digits are not those of an exact point"
    if found.is_met_in_doubles and not found.is_proving:
        return ""
    has_end = found.claim == "within" or not found.is_ray_open
    if not found.is_continuous and has_end and not found.is_proving:
        return ""
    return BOUND_AWAY if found.claim == "within" else NO_BOUND


def _of_answer(found: Findings) -> Ruling:
    """The ruling where no point is proved, and the answer has one.

    What its values miss counts first, then a bound that they beat, then what its `optimal` lacks.
    """
    answer = PointSource.ANSWER
    if found.violation is Violation.MUCH:
        if found.said == Code.LIMIT_WITH_POINT:
            return Ruling(Code.LIMIT)
        return Ruling(Code.UNSURE, answer, "its point misses the model")
    if found.beats_bound:
        return Ruling(Code.UNSURE, answer, "it is better than what is possible")
    if found.said != Code.SOLVED or not found.is_checked:
        return Ruling(found.said, answer)
    shortfall = _shortfall_of_answer(found)
    return Ruling(Code.UNSURE if shortfall else Code.SOLVED, answer, shortfall)


def _shortfall_of_answer(found: Findings) -> str:
    """Why a solver's `optimal` earns no code 0 where no point is proved; "" where it does.

    It does only of a continuous program, and where no proof was asked for: with a bound that is met
    beside an exact optimum that is known, or by doubles. Of a relaxation a bound that is met will
    do, since no certificate holds a point of it.
    """
    if found.is_contradicted:
        return "no exact point has its whole values"
    if not found.is_continuous:
        return NO_EXACT_POINT
    if found.violation is Violation.LITTLE:
        return "no exact point is near it"
    is_met = found.claim == "bound" and found.is_bound_met
    is_believed = found.is_met_in_doubles or is_met and found.is_optimum_known
    if is_met and found.is_relaxed or is_believed and not found.is_proving:
        return ""
    if found.claim != "bound":
        return NO_BOUND
    return NO_EXACT_POINT if is_met else BOUND_AWAY
