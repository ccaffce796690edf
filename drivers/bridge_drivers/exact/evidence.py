"""What is known of one program, as the pipeline gets it: what a solver said, and what is proved.

These types load nothing of the search, so that a run without a certificate has them, too. What
makes `Evidence` is in `evidence_store`.
"""

from __future__ import annotations

import enum
from fractions import Fraction
from typing import (
    TYPE_CHECKING,
    Callable,
    Iterable,
    List,
    Mapping,
    NamedTuple,
    Optional,
    Protocol,
    Sequence,
    Union,
)

if TYPE_CHECKING:
    from ..model.integer_form import Point
    from .clp import Basis

NOT_PROVED = "not proved: "
NO_POINT = NOT_PROVED + "no exact point was found near the answer"

Number = Union[float, Fraction]


class Judgement(Protocol):
    """What a judge says of a certificate."""

    @property
    def line(self) -> str:
        """What is proved, its first word the claim; or why nothing is."""

    @property
    def is_proved(self) -> bool:
        """Whether the certificate shows what it claims."""


# takes all the lines of a certificate, which have no ends
Judge = Callable[[Iterable[str]], Judgement]


class AnswerClaim(enum.Enum):
    """What a solver said of a program, which decides what is tried first."""

    POINT = "point"
    INFEASIBLE = "infeasible"
    UNBOUNDED = "unbounded"
    INFEASIBLE_OR_UNBOUNDED = "either"
    UNKNOWN = "nothing"


class AnswerByPlace(NamedTuple):
    """What a solver answered, by columns and rows of the program; None where it did not tell.

    Attributes:
        values: By column; fractions where they are exact.
        duals: By row: rates of change of the objective in its own sense.
        basis: The solver's last one.
    """

    values: Optional[Sequence[Number]] = None
    duals: Optional[Mapping[int, Number]] = None
    basis: Optional[Basis] = None

    def doubles(self) -> List[float]:
        """The values by column, as doubles; empty where there are none."""
        return [float(v) for v in self.values or ()]


class Evidence(NamedTuple):
    """What is proved of a program, or why nothing is.

    Attributes:
        line: The judge's, or `not proved: ..` with the reason.
        point: By column, that the claim speaks of, whether it is proved or not.
        certificate: The accepted text, in ASCII, each line with its end; None: nothing is proved.
        figures: Of the certificate, in a line.
        value: The objective of the point in its own sense.
        duals: By row, rates of change in that sense, where one leaf has them; else empty.
        note: Why it is not `optimal`, where that is known.
        contradicts_answer: No point is found that has the answer's integer columns; or the answer
            said that there is no point, or no best one, and one is known.
        is_optimal_in_doubles: The answer's duals, rounded to the safe side, bound its objective.
        may_be_unbounded: No bound is known, and a ray was not looked for to the end.
        is_optimum_known: An exact optimum was found that no certificate holds.
    """

    line: str
    point: Optional[Point] = None
    certificate: Optional[bytes] = None
    figures: str = ""
    value: Optional[Fraction] = None
    duals: Mapping[int, Fraction] = {}
    note: str = ""
    contradicts_answer: bool = False
    is_optimal_in_doubles: bool = False
    may_be_unbounded: bool = False
    is_optimum_known: bool = False

    @property
    def is_proved(self) -> bool:
        return self.certificate is not None

    @property
    def claim(self) -> str:
        """The word of what is proved, as `optimal`: the first of its line. Empty: nothing is."""
        return self.line.split()[0] if self.is_proved else ""


def not_proved(reason: object, point: Optional[Point] = None) -> Evidence:
    """The evidence that nothing is proved, and why.

    Args:
        reason: An error, or a text.
        point: That something was claimed of.
    """
    return Evidence(f"{NOT_PROVED}{reason}", point)
