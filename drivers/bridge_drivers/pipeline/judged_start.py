"""Whether the values that a run begins with are a feasible point that is better than the answer.

`certification` asks before a search, and begins it with such a point.
"""

from __future__ import annotations

from fractions import Fraction
from typing import Callable, List, NamedTuple, Optional

from ..exact.evidence import Evidence
from ..formats.numbers import decimal_or_fraction, exact_decimal, nearest_decimal
from ..program.verdict import statement_of
from .answer import Answer
from .start_point import StartPoint

LEAST_GAIN = 1e-9  # relative, by which a start is better than an answer


class JudgedStart(NamedTuple):
    """What the proved program says of a start.

    Attributes:
        evidence: That it is feasible, with the point and its objective; None where it is not, or is
            no better than the answer.
        note: A line for the message on what became of it; "" where there is nothing to say.
    """

    evidence: Optional[Evidence] = None
    note: str = ""


def judged_start(
    start: StartPoint, answer: Answer, judge: Callable[[List[str]], Evidence]
) -> JudgedStart:
    """Has a start judged where it seems to be better than the answer.

    Args:
        start: The values, which are completed by 0.
        answer: The solver's, of the same program.
        judge: Says what a certificate proves that claims that these values are feasible, a decimal
            for each of the file's variables.
    """
    if not seems_better(start, answer):
        return JudgedStart()
    values = start.completed(answer.program)
    texts = [exact_decimal(value) or nearest_decimal(value) for value in values]
    evidence = judge(texts)
    said = statement_of(evidence.line) if evidence.is_proved else None
    if said is None or said.value is None:
        note = f"the start is no feasible point: {evidence.line}" if start.is_named else ""
        return JudgedStart(note=note)
    value = decimal_or_fraction(str(said.value))
    note = f"the search begins with the start, whose objective is exactly {value}"
    point = list(map(Fraction, texts))
    return JudgedStart(evidence._replace(point=point, value=said.value), note)


def seems_better(start: StartPoint, answer: Answer) -> bool:
    """Whether the objective of a start is better than that of an answer, in doubles.

    True where the answer has no point. False where the objective is nonlinear: its value is no part
    of a start.
    """
    program = answer.program
    doubles = [float(value) for value in start.completed(program)]
    if len(doubles) < len(program.names.columns):
        return False
    if answer.values is None or not answer.found.status.has_point():
        return True
    own, other = program.objective_terms(doubles).value, answer.objective_terms.value
    gain = own - other if program.maximise else other - own
    return gain > LEAST_GAIN * max(1.0, abs(other))
