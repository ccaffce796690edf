"""What the leaves of a certificate show, in exact fractions.

A leaf lists multipliers of rows. Each is multiplied by the row bound that its sign rests on; the
costs that the rows leave to columns are multiplied by the column bounds that their signs rest on.
By weak duality the sum is a bound of the objective in the leaf's part of the tree (`duals`), or,
with the objective 0 and a sum above 0, shows that the part has no feasible point (`weights`).
"""

from __future__ import annotations

import enum
from fractions import Fraction
from typing import Dict, Iterable, Iterator, List, Mapping, NamedTuple, Optional, Sequence, Tuple

from .certificate import Certificate, NodeKind
from ..model.integer_form import IntegerProgram

Bound = Optional[Fraction]  # None: there is none
Terms = Sequence[Tuple[int, Fraction]]  # columns and coefficients


class Interval(NamedTuple):
    """The bounds of a row or a column."""

    lower: Bound
    upper: Bound


class LinearRow(NamedTuple):
    """A row in fractions: a constraint, or one that a node of the tree adds."""

    terms: Terms
    bounds: Interval


class LeafTarget(NamedTuple):
    """What a leaf has to show: that no point has a better value of a form than `value`.

    Attributes:
        costs: The form: coefficients by column, of the objective or of the cut that is proved.
        constant: Of the objective.
        maximise: Whether more is better.
        value: The number that is to be shown; None where it is not known.
        cut_line: The line of the cut in whose proof the leaf stands; 0 for the objective.
    """

    costs: Mapping[int, Fraction]
    constant: Fraction
    maximise: bool
    value: Bound
    cut_line: int = 0


class NodeContext(NamedTuple):
    """What holds at a node by the nodes above it.

    Attributes:
        bounds: Of the columns that are split above it.
        added_rows: In the order of their numbers, which follow those of the constraints.
        target: What leaves below the node have to show.
    """

    bounds: Dict[int, Interval]
    added_rows: List[LinearRow]
    target: LeafTarget


class Part(enum.Enum):
    """What a term of a leaf's sum is about."""

    ROW = "row"
    COLUMN = "column"


class SumTerm(NamedTuple):
    """A number of a leaf for a row, or a cost that its rows leave to a column.

    Attributes:
        factor: The number.
        part: Whether it is for a row or a column.
        number: Of the row or column.
        is_lower: Which bound of it the sign of the factor rests on.
        bound: That bound; None where it is missing, so that the leaf shows nothing.
    """

    factor: Fraction
    part: Part
    number: int
    is_lower: bool
    bound: Bound


class LeafSums:
    """The sums of the leaves of one certificate over the program of its file.

    Attributes:
        program: In whole numbers; it is minimised there.
        certificate: Read after its verdict.
        point_value: The objective at the certificate's point, in the file's own sense; None where it
            has no point.
        target: What leaves outside the proofs of cuts have to show.
    """

    def __init__(self, program: IntegerProgram, certificate: Certificate) -> None:
        self.program = program
        self.certificate = certificate
        costs = {
            column: program.sign * cost
            for column, cost in enumerate(program.cost_fractions)
            if cost
        }
        constant = program.sign * program.constant_fraction
        self.point_value: Bound = None
        if certificate.point is not None:
            self.point_value = constant + value_at(costs.items(), certificate.point)
        numbers = certificate.numbers
        value = numbers[0] if numbers else self.point_value
        self.target = LeafTarget(costs, constant, program.maximise, value)

    def row(self, number: int) -> LinearRow:
        """A constraint of the file."""
        program = self.program
        terms = [(column, Fraction(a, program.row_scale)) for column, a in program.rows[number]]
        bounds = self._interval(program.row_lower[number], program.row_upper[number])
        return LinearRow(terms, bounds)

    def column_bounds(self, column: int) -> Interval:
        """Those of the file."""
        return self._interval(self.program.lower[column], self.program.upper[column])

    def _interval(self, lower: Optional[int], upper: Optional[int]) -> Interval:
        return Interval(self._fraction(lower), self._fraction(upper))

    def _fraction(self, bound: Optional[int]) -> Bound:
        return None if bound is None else Fraction(bound, self.program.bound_scale)

    def context(self, place: int) -> NodeContext:
        """What holds at the node at a place."""
        bounds: Dict[int, Interval] = {}
        added_rows: List[LinearRow] = []
        target = self.target
        for node, branch in self.certificate.branches(place):
            if node.kind is NodeKind.SPLIT:
                known = bounds.get(node.column) or self.column_bounds(node.column)
                bounds[node.column] = _branch_of_split(known, Fraction(node.at), branch)
                continue
            terms = [(column, Fraction(number)) for column, number in node.entries]
            at = Fraction(node.at)
            if node.kind is NodeKind.CUT and branch == 0:
                target = LeafTarget(
                    dict(terms), Fraction(0), maximise=True, value=at, cut_line=node.line
                )
                continue
            is_lower = node.kind is NodeKind.DISJUNCTION and branch == 1
            sides = Interval(at + 1, None) if is_lower else Interval(None, at)
            added_rows.append(LinearRow(terms, sides))
        return NodeContext(bounds, added_rows, target)

    def terms(self, place: int, context: NodeContext) -> Iterator[SumTerm]:
        """The terms of a leaf's sum: those of rows, then those of columns."""
        node, target = self.certificate.nodes[place], context.target
        is_farkas = node.kind is NodeKind.WEIGHTS  # the objective is 0, and is minimised
        costs = {} if is_farkas else dict(target.costs)
        maximise = target.maximise and not is_farkas
        for number, text in node.entries:
            multiplier = Fraction(text)
            row = self._row_at(number, context)
            for column, coefficient in row.terms:
                costs[column] = costs.get(column, Fraction(0)) - multiplier * coefficient
            yield _sum_term(multiplier, Part.ROW, number, row.bounds, maximise)
        for column, cost in costs.items():
            if cost:
                bounds = context.bounds.get(column) or self.column_bounds(column)
                yield _sum_term(cost, Part.COLUMN, column, bounds, maximise)

    def _row_at(self, number: int, context: NodeContext) -> LinearRow:
        """A constraint, or a row that is added above a leaf, by its number in the certificate."""
        if number < self.program.m:
            return self.row(number)
        return context.added_rows[number - self.program.m]

    def proved_bound(self, place: int, context: NodeContext) -> Bound:
        """What a leaf shows; None where a bound is missing that one of its terms rests on."""
        is_farkas = self.certificate.nodes[place].kind is NodeKind.WEIGHTS
        total = Fraction(0) if is_farkas else context.target.constant
        for term in self.terms(place, context):
            if term.factor and term.bound is None:
                return None
            total += term.factor * (term.bound or 0)
        return total

    def objective_change(self, ray: Mapping[int, Fraction]) -> Fraction:
        """By how much the objective changes along a ray."""
        return value_at(self.target.costs.items(), ray)


def _branch_of_split(bounds: Interval, at: Fraction, branch: int) -> Interval:
    """The bounds of a column in a branch of its split: at most `at`, or at least `at + 1`."""
    lower, upper = bounds
    if branch == 0:
        return Interval(lower, at if upper is None else min(at, upper))
    return Interval(at + 1 if lower is None else max(at + 1, lower), upper)


def _sum_term(
    factor: Fraction, part: Part, number: int, bounds: Interval, maximise: bool
) -> SumTerm:
    """A term with the bound that it rests on: where less is better, the lower one for a factor above 0."""
    is_lower = (factor > 0) != maximise
    return SumTerm(factor, part, number, is_lower, bounds.lower if is_lower else bounds.upper)


def value_at(terms: Iterable[Tuple[int, Fraction]], point: Mapping[int, Fraction]) -> Fraction:
    """The value of a form at a point; columns that the point does not list are 0 there."""
    return sum((a * point.get(column, Fraction(0)) for column, a in terms), Fraction(0))
