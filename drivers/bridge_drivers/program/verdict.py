"""The verdict of the proved program on a certificate: its line, read together with the exit status.

`bridge verify` ends with status 0 and one line that says what is proved of the model, such as
`optimal 17`, or with status 1 and one line that says why the certificate does not show its claim,
such as `leaf 0 gap 20`. Every other pair of a status and a text is no verdict. A `Verdict` is made
of the reply to a call alone, so that no line can pass for one without the status that goes with it.
`bridge check` ends so, too, with lines of its own.
"""

from __future__ import annotations

import enum
import math
import re
from dataclasses import dataclass, field
from fractions import Fraction
from math import gcd
from typing import NamedTuple, Optional

from ..formats.numbers import decimal_or_fraction, decimals_over_common_denominator
from ..formats.told_numbers import told_number
from ..model.linear_program import LinearProgram
from ..system.errors import ProgramFailed
from .calls import Reply

LONGEST_LINE = 400  # bytes; a verdict has two numbers of at most 128 bits over 128 bits each
SHOWN_BYTES = 60  # of a text that is no verdict
NUMBER = r"-?\d{1,40}(?:/\d{1,40})?"  # as the program writes one: 128 bits, over as many
PLACE = r"\d{1,10}"  # of a row, a column, a leaf or an objective, from 0
PROVED = re.compile(
    rf"(?:(?P<claim>optimal|feasible|bound) (?P<number>{NUMBER})"
    rf"|(?P<within>within) (?P<bound>{NUMBER}) (?P<value>{NUMBER})"
    rf"|(?P<bare>infeasible|unbounded))"
    rf"(?: of objective (?P<objective>{PLACE}))?",
    re.ASCII,
)
NOT_PROVED = re.compile(
    rf"(?:ray )?(?:row|bound) {PLACE} broken"
    rf"|variable {PLACE} not whole"
    rf"|ray does not improve"
    rf"|too wide at (?:ray )?(?:objective|(?:row|bound) {PLACE})"
    rf"|leaf {PLACE} (?:too wide|gap {NUMBER}|(?:row|bound) {PLACE} has no side)",
    re.ASCII,
)  # docs/verify/theorems.md says what each of these lines means
PROVED_BY_BRANCHES = "proved"  # what `bridge prove` says of a proof that holds
CHECKED = re.compile(rf"yes {NUMBER}", re.ASCII)
NOT_CHECKED = re.compile(
    rf"gap {NUMBER} {NUMBER}"
    rf"|(?:row|bound) {PLACE} (?:broken|has no side)"
    rf"|too wide at (?:objective|total|(?:row|cost) {PLACE})",
    re.ASCII,
)  # of `bridge check`


# how a line begins that says what is proved, or that nothing is; of `check` and `prove`, too
BEGINS_AS_VERDICT = re.compile(
    r"(?:optimal|feasible|within|bound|infeasible|unbounded|yes|proved|not proved)\b", re.ASCII
)
INDENTATION = "  "  # of a line that begins so and is no verdict


class Claim(enum.Enum):
    """What is claimed of a model. The value is the first word of the verdict's line."""

    OPTIMAL = "optimal"  # a feasible point is there, and no feasible point is better
    FEASIBLE = "feasible"  # a feasible point is there
    WITHIN = "within"  # that, and no feasible point is better than a bound
    BOUND = "bound"  # no feasible point is better than a bound
    INFEASIBLE = "infeasible"  # no point is feasible
    UNBOUNDED = "unbounded"  # for each number there is a feasible point with a better objective

    @property
    def is_final(self) -> bool:
        """Whether nothing is left to ask of a model once this is proved of it."""
        return self in (Claim.OPTIMAL, Claim.INFEASIBLE, Claim.UNBOUNDED)


FINAL = frozenset(claim.value for claim in Claim if claim.is_final)  # words of final claims


class Statement(NamedTuple):
    """A claim with its numbers, in the model's own sense. It may be proved or not.

    Attributes:
        claim: What is said.
        value: The objective at a feasible point; None where no point is claimed.
        bound: No feasible point has a better objective than this; None where that is not claimed.
            Of `optimal` it is the value.
        objective: Which objective of the file it is about, from 0.
    """

    claim: Claim
    value: Optional[Fraction] = None
    bound: Optional[Fraction] = None
    objective: int = 0

    def implies(self, other: Statement, *, maximise: bool) -> bool:
        """Whether this, proved of a model, says all that another statement says that is proved of it.

        Args:
            other: What is to follow.
            maximise: Whether the model's objective is maximised.
        """
        if self.claim is Claim.INFEASIBLE:
            return True
        if self.objective != other.objective:
            return False
        if self.claim is Claim.UNBOUNDED:
            return True
        if other.claim in (Claim.INFEASIBLE, Claim.UNBOUNDED):
            return self.claim is Claim.OPTIMAL
        return self._has_as_good_a_value(other, maximise) and self._has_as_close_a_bound(
            other, maximise
        )

    def _has_as_good_a_value(self, other: Statement, maximise: bool) -> bool:
        """Whether a point is claimed wherever the other claims one, with no worse an objective."""
        if other.value is None:
            return True
        if self.value is None:
            return False
        return self.value >= other.value if maximise else self.value <= other.value

    def _has_as_close_a_bound(self, other: Statement, maximise: bool) -> bool:
        """Whether a bound is claimed wherever the other claims one, and is no further away."""
        if other.bound is None:
            return True
        if self.bound is None:
            return False
        return self.bound <= other.bound if maximise else self.bound >= other.bound


class NoVerdict(ProgramFailed):
    """What should be a verdict is none: the program is not the proved one, or it is broken.

    Attributes:
        reply: A pair of a status and a text that the proved program never gives.
    """

    def __init__(self, reply: Reply) -> None:
        """Of the reply, of whose text the first SHOWN_BYTES of a line are told."""
        start = reply.out.partition(b"\n")[0][:SHOWN_BYTES]
        more = " and more" if len(reply.out) > len(start) + 1 else ""
        shown = start.decode("utf-8", "replace")
        super().__init__(f"`{shown}`{more} with status {reply.status} is no verdict")
        self.reply = reply

    def describe(self) -> str:
        """That the program is not the proved one, and what it said."""
        return f"the program `bridge` is not the proved one: {self.reason}"


@dataclass(frozen=True)
class Verdict:
    """What the proved program said of one certificate of one model.

    Attributes:
        reply: How the call of `verify` ended, whose status is 0 or 1.
        statement: What is proved; None where the certificate does not show what it claims.

    Raises:
        NoVerdict: The reply is none: another status, or a text that does not belong to the status.
    """

    reply: Reply
    statement: Optional[Statement] = field(init=False)

    def __post_init__(self) -> None:
        """Reads the reply once; there is no other way to a statement."""
        object.__setattr__(self, "statement", _read_reply(self.reply))

    @property
    def line(self) -> str:
        """The line word for word: what is proved, or why nothing is."""
        return self.reply.out.decode("ascii").rstrip("\n")

    @property
    def is_proved(self) -> bool:
        """Whether the certificate shows what it claims."""
        return self.statement is not None


def _read_reply(reply: Reply) -> Optional[Statement]:
    """What a reply proves; None where its line says why nothing is proved."""
    line = _only_line(reply)
    statement = statement_of(line)
    if reply.status == 0 and statement is not None:
        return statement
    if reply.status == 1 and NOT_PROVED.fullmatch(line):
        return None
    raise NoVerdict(reply)


def set_apart(line: str) -> str:
    """A line that is no verdict, so that it does not begin as one does: it is indented then.

    Names, paths and logs may hold any words. The console asks it of all that it tells beside a
    verdict, and `pipeline.outputs` of the lines above one in a .sol.
    """
    return INDENTATION + line if BEGINS_AS_VERDICT.match(line) else line


def read_proof(reply: Reply) -> str:
    """The line of `bridge prove` on a proof by branches: `proved`, or why it proves nothing.

    Raises:
        NoVerdict: The line does not belong to the status, or is none.
    """
    line = _only_line(reply)
    is_proved = reply.status == 0 and line == PROVED_BY_BRANCHES
    if is_proved or (reply.status == 1 and NOT_PROVED.fullmatch(line)):
        return line
    raise NoVerdict(reply)


def read_check(reply: Reply) -> str:
    """The line of `bridge check` on the point and the duals of a .sol file.

    Returns:
        `yes V` where they show the optimum V of the relaxed program; else what they do not show.

    Raises:
        NoVerdict: The line does not belong to the status, or is none.
    """
    line = _only_line(reply)
    if (CHECKED if reply.status == 0 else NOT_CHECKED).fullmatch(line) and reply.status in (0, 1):
        return line
    raise NoVerdict(reply)


def _only_line(reply: Reply) -> str:
    """The one line of a reply, without its end."""
    text = reply.out[: LONGEST_LINE + 1].decode("latin-1")
    line, end, more = text.partition("\n")
    if more or not end:
        raise NoVerdict(reply)
    return line


def statement_of(line: str) -> Optional[Statement]:
    """What a line would say as that of an accepted certificate; None where it says nothing.

    A line alone proves nothing: only a `Verdict` has the status that goes with it.
    """
    found = PROVED.fullmatch(line)
    if found is None:
        return None
    objective = int(found["objective"] or 0)
    try:
        if found["bare"]:
            return Statement(Claim(found["bare"]), objective=objective)
        if found["within"]:
            value, bound = Fraction(found["value"]), Fraction(found["bound"])
            return Statement(Claim.WITHIN, value, bound, objective)
        claim, number = Claim(found["claim"]), Fraction(found["number"])
    except ZeroDivisionError:
        return None
    value_or_none = None if claim is Claim.BOUND else number
    bound_or_none = None if claim is Claim.FEASIBLE else number
    return Statement(claim, value_or_none, bound_or_none, objective)


class ObjectiveLattice(NamedTuple):
    """The values that an objective can have where all columns with a cost are whole numbers.

    Attributes:
        start: One of these numbers, which need not be the objective of a point.
        step: Above 0. Each value is `start` and a whole multiple of it.
    """

    start: Fraction
    step: Fraction

    def tightest(self, bound: Fraction, *, maximise: bool) -> Fraction:
        """The best value of the lattice that is not better than a bound."""
        steps = (bound - self.start) / self.step
        return self.start + self.step * (math.floor(steps) if maximise else math.ceil(steps))


def objective_lattice(program: LinearProgram) -> Optional[ObjectiveLattice]:
    """None where a column with a cost is continuous, or none has a cost."""
    costs = program.cost_texts
    numbers, scale = decimals_over_common_denominator(list(costs.values()))
    if not any(numbers) or not all(program.is_integer[column] for column in costs):
        return None
    return ObjectiveLattice(-Fraction(program.objective_rhs), Fraction(gcd(*numbers), scale))


def decimal(value: Fraction) -> str:
    """A number in decimals: in full where these are few, else `about` it."""
    told = told_number(value)
    return told.text if told.is_exact else f"about {told.text}"


def with_decimal(value: Fraction) -> str:
    """A number exactly: as a decimal where it has one, else the fraction and about what it is."""
    exact = decimal_or_fraction(str(value))
    return f"{exact} ({decimal(value)})" if "/" in exact else exact


def percentage(share: float | Fraction) -> str:
    """A share in percent by its first two digits, where they stand behind the point: `11.76 %`."""
    value = abs(float(share)) * 100
    if value >= 1 or not value:
        return f"{value:.2f} %"
    places = 1 - math.floor(math.log10(value))
    return f"{value:.{places}f} %"


def share_of(part: Fraction, whole: Fraction) -> str:
    """` (8.8 %)`, or nothing of 0."""
    return f" ({percentage(part / whole)})" if whole else ""


def bound_sentence(
    bound: Fraction, *, maximise: bool, lattice: Optional[ObjectiveLattice], which: str = ""
) -> str:
    """A bound in words, with the closest value that the objective can have.

    For example `no point has more than 59.6, and at whole points the objective goes by 1: none has
    more than 59`.

    Args:
        bound: No feasible point has a better objective.
        maximise: Whether the objective is maximised.
        lattice: The values that the objective can have; None where it can have any.
        which: What the bound is called in front of its number.
    """
    more = "more" if maximise else "less"
    text = f"no point has {more} than {which}{decimal(bound)}"
    if lattice is None:
        return text
    closest = lattice.tightest(bound, maximise=maximise)
    if closest == bound:
        return text
    return (
        f"{text}, and at whole points the objective goes by {decimal(lattice.step)}: none has "
        f"{more} than {decimal(closest)}"
    )


def sentence(
    statement: Statement, *, maximise: bool, lattice: Optional[ObjectiveLattice] = None
) -> str:
    """What a statement says of the objective, in words.

    Args:
        statement: A claim with its numbers.
        maximise: Whether the objective is maximised.
        lattice: The values that the objective can have; None where it can have any.
    """
    better = "above" if maximise else "below"
    if statement.claim is Claim.INFEASIBLE:
        return "no point satisfies the model"
    if statement.claim is Claim.UNBOUNDED:
        return f"the objective goes {better} every number"
    if statement.value is None:
        assert statement.bound is not None, "a claim without a point has a bound"
        return bound_sentence(statement.bound, maximise=maximise, lattice=lattice)
    point = f"a point has the objective {decimal(statement.value)}"
    if statement.claim is Claim.FEASIBLE or statement.bound is None:
        return point
    if statement.claim is Claim.OPTIMAL:
        return point + ", and none is better"
    limit = bound_sentence(statement.bound, maximise=maximise, lattice=lattice, which="the bound ")
    away = abs(statement.bound - statement.value)
    return (
        f"{point}, and {limit}; the bound is {decimal(away)}{share_of(away, statement.value)} "
        f"{better} the point's"
    )
