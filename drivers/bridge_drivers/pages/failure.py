"""Why a certificate does not show its claim, by the line of the proved program, and by how much."""

from __future__ import annotations

import re
from fractions import Fraction
from typing import List, NamedTuple, Optional

from ..exact.certificate import NodeKind
from ..program.verdict import decimal, share_of
from ..exact.leaf_sums import Interval, LeafSums, Part, SumTerm, value_at
from .wording import Wording, headed

LEAF_FAULT = re.compile(r"leaf (\d+) (?:gap (\S+)|(too wide)|(row|bound) (\d+) has no side)")
POINT_FAULT = re.compile(r"(ray )?(row|bound|variable) (\d+) (broken|not whole)")
TOO_WIDE = re.compile(r"too wide at (ray )?(?:(row|bound) (\d+)|objective)")
PARTS = {"row": Part.ROW, "bound": Part.COLUMN, "variable": Part.COLUMN}  # by words of a verdict
FEWER_DIGITS = "passes 128 bits: numbers with fewer digits are wanted"


class Failure(NamedTuple):
    """Why a certificate does not hold.

    Attributes:
        text: In a sentence.
        leaf: The place of the first leaf that does not close; None where no leaf is at fault.
        path: The branches that lead to the leaf, in words.
    """

    text: str
    leaf: Optional[int]
    path: List[str]

    def lines(self) -> List[str]:
        """As they are told: the sentence, then the branches."""
        steps = [f"{number}. {step}" for number, step in enumerate(self.path, 1)]
        if self.leaf is not None and not steps:
            steps = ["it is the whole tree"]
        return [headed("fails", self.text), *(headed("path", step) for step in steps)]


def failure_of(line: str, wording: Wording) -> Failure:
    """What the line of a verdict says that proves nothing.

    Args:
        line: Of the proved program, with status 1.
        wording: Of the certificate.
    """
    found = LEAF_FAULT.fullmatch(line)
    if found is None:
        return Failure(_at_point(line, wording), None, [])
    number, value, too_wide, kind, place_number = found.groups()
    place = wording.certificate.place_of_leaf(int(number))
    if too_wide:
        why = f"a sum {FEWER_DIGITS}"
    elif value:
        why = _gap(Fraction(value), place, wording)
    else:
        why = _missing_bound(PARTS[kind], int(place_number), place, wording)
    node = wording.certificate.nodes[place]
    text = f"leaf {node.leaf_number} (line {node.line}): {why}"
    return Failure(text, place, wording.path_words(place))


def _gap(value: Fraction, place: int, wording: Wording) -> str:
    """Of a leaf that shows `value`, which is not enough."""
    if wording.certificate.nodes[place].kind is NodeKind.WEIGHTS:
        return (
            f"its weights show {value}, and contradict each other only above 0: {decimal(-value)} "
            "too little"
        )
    target = None if wording.sums is None else wording.sums.context(place).target
    if target is None or target.value is None:
        return f"its duals show that no point is better than {value}, which is not what is claimed"
    needs = f"the lemma of line {target.cut_line} needs" if target.cut_line else "the claim needs"
    away = abs(value - target.value)
    return (
        f"its duals show that no point of this part is better than {value}, and {needs} "
        f"{target.value}: {decimal(away)}{share_of(away, target.value)} too "
        f"{'high' if target.maximise else 'low'}"
    )


def _missing_bound(part: Part, number: int, place: int, wording: Wording) -> str:
    """Of a leaf whose numbers rest on a bound that is not there."""
    name, sums = wording.named_part(part, number, place), wording.sums
    if sums is None:
        return f"a number asks for a side that {name} has not"
    term = _term_of(sums, place, part, number)
    bound = "lower" if term.is_lower else "upper"
    if part is Part.ROW:
        start = f"the number {term.factor} of {name} asks for its {bound} side"
    else:
        start = f"the numbers leave {name} the cost {term.factor}, which asks for its {bound} bound"
    return f"{start}, and there is none"


def _term_of(sums: LeafSums, place: int, part: Part, number: int) -> SumTerm:
    """The term of a leaf for one row or column; one without a factor where it has none."""
    for term in sums.terms(place, sums.context(place)):
        if (term.part, term.number) == (part, number):
            return term
    return SumTerm(Fraction(0), part, number, is_lower=False, bound=None)


def _at_point(line: str, wording: Wording) -> str:
    """What is wrong at the point, or along the ray."""
    too_wide = TOO_WIDE.fullmatch(line)
    if too_wide is not None:
        ray, kind, number = too_wide.groups()
        what = wording.named_part(PARTS[kind], int(number)) if kind else "the objective"
        where = "along the ray" if ray else "at the point"
        return f"a sum of {what} {where}, or a side of it, {FEWER_DIGITS}"
    if wording.sums is None:
        return line
    found = POINT_FAULT.fullmatch(line)
    if found is not None:
        return _broken(found, wording, wording.sums)
    if line == "ray does not improve":
        change = wording.sums.objective_change(wording.certificate.ray or {})
        return f"along the ray the objective changes by {change}, which is no better"
    return line


def _broken(found: re.Match[str], wording: Wording, sums: LeafSums) -> str:
    """What a row or a variable is, and what it is to be."""
    ray, kind, number, how = found.groups()
    part = PARTS[kind]
    if ray:
        return _broken_along_ray(part, int(number), wording, sums)
    if how == "not whole":
        return _not_whole(int(number), wording)
    return _broken_at_point(part, int(number), wording, sums)


def _not_whole(column: int, wording: Wording) -> str:
    value = (wording.certificate.point or {}).get(column, Fraction(0))
    away = decimal(abs(round(value) - value))
    name = wording.names.variable(column)
    return f"{name} is {value} at the point, {away} from a whole number"


def _broken_along_ray(part: Part, number: int, wording: Wording, sums: LeafSums) -> str:
    ray = wording.certificate.ray or {}
    value = ray.get(number, Fraction(0))
    if part is Part.ROW:
        value = value_at(sums.row(number).terms, ray)
    name = wording.named_part(part, number)
    return f"{name} changes by {value} along the ray, past a side that it has"


def _broken_at_point(part: Part, number: int, wording: Wording, sums: LeafSums) -> str:
    point = wording.certificate.point or {}
    if part is Part.ROW:
        row = sums.row(number)
        value, bounds = value_at(row.terms, point), row.bounds
    else:
        value, bounds = point.get(number, Fraction(0)), sums.column_bounds(number)
    return f"{wording.named_part(part, number)} is {value} at the point, {_beyond(value, bounds)}"


def _beyond(value: Fraction, bounds: Interval) -> str:
    """By how much a value is outside its bounds."""
    lower, upper = bounds
    if lower is not None and value < lower:
        return f"and at least {lower}: {decimal(lower - value)} too little"
    assert upper is not None, "a value that is beyond no bound"
    return f"and at most {upper}: {decimal(abs(value - upper))} too much"
