"""What is known of one program, and how it is judged: points, bounds, and the claims they make.

Each claim is the text of a certificate that a judge accepts or not. What is known is never thrown
away: the last claim has the best point and the closest bound. All certifiers of one task share an
`EvidenceStore`, and what they yield is `Evidence`.
"""

from __future__ import annotations

import itertools
from dataclasses import dataclass
from fractions import Fraction
from typing import Callable, Dict, Iterable, Iterator, List, Mapping, Optional

from ..model.integer_form import Box, IntegerProgram, Point
from .certificate import RowNumbering, claim_lines, leaf_lines
from .dual_bound import Multipliers, bit_width, dual_bound, fits_certificate
from .evidence import Evidence, Judge, not_proved
from .search_deadline import SearchDeadline
from .short_duals import rounded_bound
from .strategies import TreeText
from .work_limit import check_work

TREE_SHARE = 0.75  # of the seconds that are left, to judge a tree: then a smaller claim has some
MOST_POINTS = 4  # that are known at a time
MOST_BOUND_DIGITS = 15  # of a bound that is told as it is
CERTIFICATE_BITS = 127  # of the numbers in a certificate


def first_proved(tried: Iterable[Evidence]) -> Evidence:
    """The first evidence that is proved, behind which nothing is tried; else the first of all.

    Args:
        tried: Makes each when it is asked for it. Where it makes none, that is the reason.

    Raises:
        TimeOver: The time of exact work was over after one that is not proved.
    """
    first: Optional[Evidence] = None
    for evidence in tried:
        if evidence.is_proved:
            return evidence
        first = first or evidence
        check_work()
    return first or not_proved("no certificate was found")


@dataclass
class BoundEvidence:
    """That no point is better than the value.

    Attributes:
        value: Minimised, with the objective's constant.
        lines: Makes the lines of the certificate's nodes that prove it, each time anew.
        figures: Of these, in a line.
        duals: As those of Evidence.
        is_tree: Whether it is more than a leaf.
    """

    value: Fraction
    lines: Callable[[], Iterator[str]]
    figures: str
    duals: Mapping[int, Fraction]
    is_tree: bool = False


class EvidenceStore:
    """Points and bounds of one program, and the claims that are made of them.

    Attributes:
        program: In whole numbers.
        judge: Says of each certificate what it proves.
        objective: Its number in the file, from 0.
        deadline: Of whose seconds the judge has a share.
        points: Exact ones that a certificate can hold, the best first, at most MOST_POINTS.
        bound: The closest that is known.
        note: Why points and bound are apart, as it is told with what is proved. Once it is set, no
            more bases are tried for the exact optimum.
        is_optimum_known: An exact optimum was found, which a certificate need not be able to hold.
    """

    def __init__(
        self, program: IntegerProgram, judge: Judge, objective: int, deadline: SearchDeadline
    ) -> None:
        """Nothing is known yet; the arguments are the attributes of the same name."""
        self.program = program
        self.judge = judge
        self.objective = objective
        self.deadline = deadline
        self.points: List[Point] = []
        self.bound: Optional[BoundEvidence] = None
        self.note = ""
        self.is_optimum_known = False

    @property
    def point(self) -> Optional[Point]:
        """The best of `points`; None where there is none."""
        return self.points[0] if self.points else None

    def is_closed(self, share: Fraction) -> bool:
        """Whether the best point and the bound are so near each other.

        Args:
            share: Of the point's value, or of 1.
        """
        if self.bound is None or self.point is None:
            return False
        value = self.program.value(self.point)
        return value - self.bound.value <= share * max(Fraction(1), abs(value))

    def add_point(self, point: Point) -> None:
        """Adds an exact feasible point, by column, to `points`, of which only the best stay.

        Nothing is added where a certificate cannot hold one of its values.
        """
        if all(map(fits_certificate, point)) and point not in self.points:
            points = sorted([*self.points, point], key=self.program.value)
            self.points = points[:MOST_POINTS]

    def add_bound(self, bound: BoundEvidence) -> None:
        """Makes it `bound` where it is closer, that is greater, than the one that is known."""
        if self.bound is None or bound.value > self.bound.value:
            self.bound = bound

    def add_leaf(self, leaf: Multipliers, *, is_exact: bool = False) -> None:
        """Adds the bound that a leaf has under the program's own bounds.

        Nothing is added where it is not finite, or a certificate cannot hold a multiplier. The
        value is rounded to few digits, to the worse side, where it has more than MOST_BOUND_DIGITS
        in numerator or denominator or a certificate cannot hold it.

        Args:
            leaf: Duals by row, minimised.
            is_exact: Whether the value is kept as it is wherever a certificate can hold it.
        """
        box = Box(self.program.lower, self.program.upper)
        bound = dual_bound(self.program, leaf, box)
        if not bound.is_finite or not leaf.fits_certificate():
            return
        value = bound.value
        digits = max(len(str(value.numerator)), len(str(value.denominator)))
        if not fits_certificate(value) or digits > MOST_BOUND_DIGITS and not is_exact:
            value = rounded_bound(self.program, value)
        self.add_bound(self.bound_of_leaf(leaf, value))

    def bound_of_leaf(self, leaf: Multipliers, value: Fraction = Fraction(0)) -> BoundEvidence:
        """A leaf as evidence of a bound, which is not added here.

        Args:
            leaf: By row; duals are minimised.
            value: What the leaf proves or less, minimised; of no use where the claim is `optimal`
                or `infeasible`, which do not tell it.

        Returns:
            With the duals of all rows, in the objective's own sense.
        """
        sign, numerators = self.program.sign, leaf.numerators
        duals: Dict[int, Fraction] = dict.fromkeys(range(self.program.m), Fraction(0))
        duals.update((i, Fraction(sign * v, leaf.denominator)) for i, v in numerators.items())
        numbering = RowNumbering({}, 0, sign)
        return BoundEvidence(
            value,
            lambda: leaf_lines(leaf, numbering, {}),
            f"one leaf, {len(numerators)} duals",
            duals,
        )

    def claims(self) -> Iterator[Evidence]:
        """What is known, the strongest claim first; each is judged when it is asked for.

        With a bound, `optimal` or `within` by each point, the best first, then the bound alone; at
        last each point alone. The sums of a better point may be too wide for the judge where those
        of another one are not.
        """
        if self.bound is not None:
            for point in self.points:
                is_met = self.bound.value >= self.program.value(point)
                yield self.claim_of_bound("optimal" if is_met else "within", self.bound, point)
            yield self.claim_of_bound("bound", self.bound)
        for point in self.points:
            lines = claim_lines("feasible", self.objective, None, point)
            yield self.judged(lines, "a point", point)._replace(note=self.note)

    def claim_of_bound(
        self, claim: str, bound: BoundEvidence, point: Optional[Point] = None
    ) -> Evidence:
        """One claim that rests on a bound, judged.

        Args:
            claim: `optimal` or `within`, which need a point; `bound`, or `infeasible`.

        Returns:
            With the bound's duals, and but for `optimal` the store's note, proved or not.
        """
        value = self.program.sign * bound.value if claim in ("within", "bound") else None
        objective = None if claim == "infeasible" else self.objective
        lines = itertools.chain(claim_lines(claim, objective, value, point), bound.lines())
        found = self.judged(lines, bound.figures, point, is_tree=bound.is_tree)
        return found._replace(duals=bound.duals, note="" if claim == "optimal" else self.note)

    def claim_of_leaf(
        self, claim: str, leaf: Multipliers, point: Optional[Point] = None
    ) -> Evidence:
        """`optimal` at a point, or `infeasible`, by one leaf, whose duals are minimised; judged."""
        return self.claim_of_bound(claim, self.bound_of_leaf(leaf), point)

    def claim_of_tree(self, tree: TreeText, point: Optional[Point] = None) -> Evidence:
        """`optimal` at a point, and without one `infeasible`, by a whole tree; judged."""
        figures = f"{tree.strategy} plan, {tree.nodes} nodes, {tree.cuts} rows, {tree.size} bytes"
        if point is None:
            head = claim_lines("infeasible", None)
        else:
            head = claim_lines("optimal", self.objective, None, point)
        return self.judged(itertools.chain(head, tree.lines()), figures, point, is_tree=True)

    def claim_of_optimum(self, point: Point, leaf: Multipliers) -> Iterator[Evidence]:
        """`optimal`, by a point and duals that are exact and of the same value.

        Nothing is claimed where one of their numbers has more than CERTIFICATE_BITS. Sets `note` in
        each case: to that, with the bits of point, duals and value, or to what the judge's line
        says behind its first colon, as its reason against `optimal`: there sums are too wide.
        """
        self.is_optimum_known = True
        duals = (Fraction(y, leaf.denominator) for y in leaf.numerators.values())
        parts = {
            "point": bit_width(point),
            "duals": bit_width(duals),
            "value": bit_width([self.program.value(point)]),
        }
        told = ", ".join(f"its {part} {bits}" for part, bits in parts.items())
        self.note = too_wide_note(f"{max(parts.values())} bits ({told})")
        if max(parts["point"], parts["duals"]) > CERTIFICATE_BITS:
            return
        found = self.claim_of_leaf("optimal", leaf, point)
        if parts["value"] <= CERTIFICATE_BITS:
            reason = found.line.partition(": ")[2]
            self.note = f"the exact optimum: {reason}; bits without sums: {told}"
        yield found

    def claim_of_ray(self, point: Point, ray: Optional[Point]) -> Evidence:
        """`unbounded`, by a feasible point and a ray that improves the objective; judged."""
        lines = claim_lines("unbounded", self.objective, None, point, ray)
        return self.judged(lines, "a point and a ray", point)

    def judged(
        self,
        lines: Iterable[str],
        figures: str,
        point: Optional[Point] = None,
        *,
        is_tree: bool = False,
    ) -> Evidence:
        """What the judge says of a certificate; all claims are made by this.

        Args:
            lines: Of the whole certificate, in ASCII and without ends. They are made while the
                judge reads them.
            figures: Of it, in a line.
            point: That it claims something of.
            is_tree: Whether judging it may take long: then the judge has only TREE_SHARE of the
                seconds that are left.

        Returns:
            With the text, and the value of the point, where it is proved; else with the reason.
        """
        text = bytearray()

        def recorded() -> Iterator[str]:
            """The lines; each is added to `text` before the judge gets it."""
            for line in lines:
                text.extend(line.encode("ascii"))
                text.extend(b"\n")
                yield line

        with self.deadline.judging(TREE_SHARE if is_tree else 1.0):
            judgement = self.judge(recorded())
        if not judgement.is_proved:
            return not_proved(judgement.line, point)
        value = None if point is None else self.program.sign * self.program.value(point)
        return Evidence(judgement.line, point, bytes(text), figures, value)


def too_wide_note(bits: str) -> str:
    """Why an exact optimum is not claimed.

    Args:
        bits: How many its numbers have, as `130 bits` or `more than 4000 bits`.
    """
    return f"the exact optimum needs numbers of {bits}; a certificate holds {CERTIFICATE_BITS}"
