"""A certificate in sentences: what it claims, what its tree is made of, and what holds in its parts.

`explanation` makes one `Wording` of each certificate that it explains.
"""

from __future__ import annotations

from collections import Counter
from fractions import Fraction
from typing import List, Mapping, NamedTuple, Optional, Sequence, Tuple

from ..exact.certificate import Certificate, Node, NodeKind
from ..formats.names import NameLists
from ..formats.told_numbers import IN_BOXES, told_number
from ..program.verdict import Claim, Statement, sentence
from ..system.text import counted, first_of
from ..exact.leaf_sums import LeafSums, Part

MOST_TERMS = 6  # of a form that is told
MOST_LISTED = 12  # values of a point, rows
ABOUT = "\u2248 "  # before a decimal that is rounded
HEAD_WIDTH = 10  # columns of the word that a line begins with
ROOT_ROW = -1  # a place above all nodes, where only constraints are rows


def short_number(value: Fraction) -> str:
    """A number in few decimals, behind a sign where these are not all."""
    told = told_number(value, IN_BOXES)
    return told.text if told.is_exact else ABOUT + told.text


def exact_and_decimal(value: Fraction) -> str:
    """A number exactly, and beside a fraction its decimal."""
    if value.denominator == 1:
        return str(value)
    text = short_number(value)
    return f"{value} {text}" if text.startswith(ABOUT) else f"{value} = {text}"


def headed(head: str, text: str) -> str:
    """A line that begins with a word in a column of its own."""
    return f"{head:{HEAD_WIDTH}}{text}"


class TreeCounts(NamedTuple):
    """What a tree is made of. The names are those of the report.

    Attributes:
        planes: Split disjunctions.
        lemmas: Cuts.
        weights: Leaves that contradict their rows; the other leaves show a bound.
        depth: Of the deepest leaf.
        added: How often leaves use rows that disjunctions and cuts add.
    """

    nodes: int
    splits: int
    planes: int
    lemmas: int
    leaves: int
    weights: int
    depth: int
    added: int


class RowUse(NamedTuple):
    """A constraint, and in how many leaves it is used."""

    row: int
    leaves: int


class BranchSide(NamedTuple):
    """The side on which a branch of a node lies: of the column or form that the node divides."""

    is_at_most: bool
    number: Fraction


class Wording:
    """The names of a model in the sentences of one certificate.

    Attributes:
        certificate: What is told of.
        names: Of constraints and variables.
        sums: Of its leaves; None where the program cannot be read in exact numbers.
        constraints: How many the file has.
        counts: What the tree is made of.
        used: The constraints that leaves use, the most used ones first.
    """

    def __init__(
        self,
        certificate: Certificate,
        names: NameLists,
        sums: Optional[LeafSums],
        constraints: int,
    ) -> None:
        self.certificate = certificate
        self.names = names
        self.sums = sums
        self.constraints = constraints
        nodes = certificate.nodes
        rows = Counter(row for node in nodes if node.is_leaf for row, _ in node.entries)
        used = [RowUse(row, leaves) for row, leaves in rows.items() if row < constraints]
        self.used = sorted(used, key=lambda use: (-use.leaves, use.row))
        self.counts = _counts(nodes, sum(rows.values()) - sum(use.leaves for use in used))

    def column(self, number: int) -> str:
        """The name of a variable, or `x3`."""
        return self.names.column(number) or f"x{number}"

    def row(self, number: int, place: int = ROOT_ROW) -> str:
        """A constraint, or the row of that number which is added above the node at a place."""
        if number < self.constraints:
            return self.names.constraint(number)
        added = [
            node
            for node, branch in self.certificate.branches(place)
            if node.kind is NodeKind.DISJUNCTION or node.kind is NodeKind.CUT and branch == 1
        ]
        if number - self.constraints < len(added):
            node = added[number - self.constraints]
            return f"the {node.kind} of line {node.line}"
        return f"row {number}"

    def named_part(self, part: Part, number: int, place: int = ROOT_ROW) -> str:
        """A row as `row` has it, or a variable with its name."""
        return self.row(number, place) if part is Part.ROW else self.names.variable(number)

    def form(self, entries: Sequence[Tuple[int, str]]) -> str:
        """`10 a + 7 b - z`; of many terms the first."""
        text = ""
        for column, number in entries[:MOST_TERMS]:
            value = Fraction(number)
            sign = "-" if value < 0 else "+"
            if text:
                text += f" {sign} "
            elif value < 0:
                text = sign
            size = "" if abs(value) == 1 else f"{abs(value)} "
            text += size + self.column(column)
        more = f" + .. ({len(entries)} terms)" if len(entries) > MOST_TERMS else ""
        return text + more

    def divided(self, node: Node) -> str:
        """What a node divides the points by: a variable, a form, or the objective."""
        if node.kind is NodeKind.SPLIT:
            return self.column(node.column)
        return self.form(node.entries) if self._objective_factor(node) is None else "objective"

    def _objective_factor(self, node: Node) -> Optional[Fraction]:
        """What the form of a node is multiplied by to give the objective; None where it is another form."""
        if self.sums is None or node.kind is NodeKind.SPLIT or not node.entries:
            return None
        costs = self.sums.target.costs
        form = {column: Fraction(number) for column, number in node.entries}
        first = node.entries[0][0]
        if costs.keys() != form.keys() or not form[first]:
            return None
        factor = costs[first] / form[first]
        is_same = all(costs[column] == factor * number for column, number in form.items())
        return factor if is_same else None

    def side(self, node: Node, branch: int) -> BranchSide:
        """Where a branch of a node lies: of the objective's form by the number of the objective."""
        is_upper = node.kind is not NodeKind.CUT and branch == 1
        at = Fraction(node.at) + (1 if is_upper else 0)
        factor = self._objective_factor(node)
        if factor is None or self.sums is None:
            return BranchSide(not is_upper, at)
        number = factor * at + self.sums.target.constant
        return BranchSide(is_upper == (factor < 0), number)

    def branch_words(self, node: Node, branch: int) -> str:
        """One branch of a node, as `z at most 0`."""
        side = self.side(node, branch)
        text = f"{self.divided(node)} at {'most' if side.is_at_most else 'least'} {side.number}"
        if node.kind is NodeKind.CUT:
            return f"by the lemma: {text}" if branch else f"in the proof of the lemma: {text}"
        return f"{text} (plane)" if node.kind is NodeKind.DISJUNCTION else text

    def path_words(self, place: int, *, with_lines: bool = True) -> List[str]:
        """The branches from the root to a node, each with the line of its node, where that is wanted."""
        return [
            self.branch_words(node, branch) + (f" (line {node.line})" if with_lines else "")
            for node, branch in self.certificate.branches(place)
        ]

    def values(self, point: Mapping[int, Fraction]) -> str:
        """A point or a ray, in its values that are not 0."""
        if not point:
            return "all 0"
        texts = [
            f"{self.column(column)} {exact_and_decimal(value)}" for column, value in point.items()
        ]
        listed = first_of(texts, MOST_LISTED)
        has_all = self.sums is not None and len(point) == self.sums.program.n
        return listed if has_all else listed + "; the others 0"

    def lines(self) -> List[str]:
        """What the certificate is made of, and which rows its leaves use, and how often."""
        lines = []
        if self.certificate.point is not None:
            lines.append(headed("point", self.values(self.certificate.point)))
        if self.certificate.ray is not None:
            lines.append(headed("ray", self.values(self.certificate.ray)))
        if not self.certificate.nodes:
            return lines
        lines.append(headed("tree", self._tree_words()))
        return [*lines, *(headed("uses", use) for use in self._uses())]

    def _tree_words(self) -> str:
        counts = self.counts
        kinds = ", ".join(
            (
                counted(counts.splits, "split"),
                counted(counts.planes, "plane"),
                counted(counts.lemmas, "lemma"),
            )
        )
        leaves = "1 leaf" if counts.leaves == 1 else f"{counts.leaves} leaves"
        return (
            f"{counted(counts.nodes, 'node')}: {kinds}, {leaves} ({counts.weights} by weights); "
            f"depth {counts.depth}"
        )

    def _uses(self) -> List[str]:
        """The rows that leaves use, one a line."""
        uses = [
            f"{self.row(use.row)} in {use.leaves} of {self.counts.leaves} leaves"
            for use in self.used[:MOST_LISTED]
        ]
        if len(self.used) > MOST_LISTED:
            uses.append(f"{len(self.used) - MOST_LISTED} more constraints")
        if self.counts.added:
            uses.append(f"planes and lemmas {counted(self.counts.added, 'time')}")
        return uses or ["no row: the bounds of variables alone"]


def _counts(nodes: Sequence[Node], added: int) -> TreeCounts:
    kinds = Counter(node.kind for node in nodes)
    return TreeCounts(
        nodes=len(nodes),
        splits=kinds[NodeKind.SPLIT],
        planes=kinds[NodeKind.DISJUNCTION],
        lemmas=kinds[NodeKind.CUT],
        leaves=nodes[0].leaves if nodes else 0,
        weights=kinds[NodeKind.WEIGHTS],
        depth=max((node.depth for node in nodes), default=0),
        added=added,
    )


def claim_in_words(
    certificate: Certificate, proved: Optional[Statement], sums: Optional[LeafSums]
) -> str:
    """The claim of a certificate in words, where it holds or not.

    Args:
        certificate: What makes the claim.
        proved: What the proved program says of it; None where it does not hold.
        sums: Over the program, where that can be read in exact numbers.
    """
    statement = proved or claimed(certificate, sums)
    if statement is None:
        return certificate.claim
    return sentence(statement, maximise=sums is not None and sums.program.maximise)


def claimed(certificate: Certificate, sums: Optional[LeafSums]) -> Optional[Statement]:
    """What a certificate claims, with the value of its point; None where that is not known."""
    claim, numbers = Claim(certificate.claim), certificate.numbers
    if claim in (Claim.INFEASIBLE, Claim.UNBOUNDED):
        return Statement(claim)
    if claim is Claim.BOUND:
        return Statement(claim, bound=numbers[0])
    value = None if sums is None else sums.point_value
    if value is None:
        return None
    if claim is Claim.OPTIMAL:
        return Statement(claim, value, value)
    if claim is Claim.WITHIN and numbers:
        return Statement(claim, value, numbers[0])
    return Statement(claim, value)
