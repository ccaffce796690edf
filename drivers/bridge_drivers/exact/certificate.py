"""The text of a certificate, written and read.

A certificate claims something of a program and proves it by a tree. Its lines are

    certificate 1
    CLAIM [OBJECTIVE [NUMBER ..]]       as `optimal 0`, `within 0 7/3`, `infeasible`
    point COUNT                         with a line `COLUMN VALUE` each; so is a ray
    ..                                  the tree, each node before those below it

and a node of the tree is one of

    split COLUMN AT                     two branches: at most AT, and at least AT + 1
    plane COUNT AT                      the same of an integer form, with lines `COLUMN NUMBER`
    lemma COUNT RHS                     a cut, with such lines: first its proof, then what it is for
    duals COUNT, weights COUNT          a leaf: multipliers, with lines `ROW MULTIPLIER`

A plane's branch, and a cut behind its proof, is one row more of the program: below it, it has the
next free number. Text is written from the `tree` of the search (`evidence`, `cuts`), as lines
without ends, and is read as a `Certificate` by the pages that explain it.
"""

from __future__ import annotations

import enum
from fractions import Fraction
from typing import Dict, Iterable, Iterator, List, Mapping, NamedTuple, Optional, Sequence, Tuple

from .hermite import IntegerRefutation
from ..model.integer_form import IntegerProgram, Point
from ..formats.numbers import exact_decimal
from .dual_bound import MultiplierKind, Multipliers
from .mir import MIRProof
from .tree import EmptyDomain, Leaf, Split, Tree

HEADING = "certificate 1"
MOST_ZEROS = 3  # that stand at the end of a whole number; more are written as its exponent
ROOT = -1  # the parent of the first node


class NodeKind(enum.Enum):
    """What a node of a tree is. The values are the words of a certificate's lines."""

    SPLIT = "split"  # of an integer column
    DISJUNCTION = "plane"  # a split disjunction: of an integer form
    CUT = "lemma"
    DUALS = "duals"
    WEIGHTS = "weights"  # Farkas multipliers

    def __str__(self) -> str:
        return self.value

    @property
    def is_leaf(self) -> bool:
        return self in (NodeKind.DUALS, NodeKind.WEIGHTS)


# Text is written


class ObjectiveRow(NamedTuple):
    """The row `form <= floor` of a disjunction on the objective, below which a tree stands.

    Attributes:
        number: Of the row in the text.
        spacing: How much of the minimised objective a step of 1 of its form is.
    """

    number: int
    spacing: Fraction


class RowNumbering(NamedTuple):
    """What rows are called in a text.

    Attributes:
        numbers: Of rows that the search has added, by their place among the program's rows. Rows of
            the file, which are not named here, have their own.
        next_number: Of the row of the first disjunction in the tree.
        dual_sign: -1 where the file maximises, since duals in a text are the file's own; else 1.
        objective_row: Where there is one, minimised duals become Farkas multipliers: with `spacing`
            times this row they prove that nothing better is there.
    """

    numbers: Mapping[int, int]
    next_number: int
    dual_sign: int
    objective_row: Optional[ObjectiveRow] = None


class BranchRows(NamedTuple):
    """The numbers of the innermost rows that bound a form on a path; -1 where there is none."""

    lower: int
    upper: int


FormRows = Dict[int, BranchRows]  # by the place of a form among the program's rows


def number_text(value: int | Fraction) -> str:
    """A number as certificates write it, exactly: the shorter of its decimal and its fraction.

    A decimal begins with its point where it is below 1 in size (`.5`); a whole number that ends in
    more than MOST_ZEROS zeros has an exponent (`12e6`); a fraction is in lowest terms (`7/3`).
    """
    exact = Fraction(value)
    if exact.denominator == 1:
        text = str(exact.numerator)
        short = text.rstrip("0")
        zeros = len(text) - len(short)
        return f"{short}e{zeros}" if zeros > MOST_ZEROS else text
    decimal, fraction = exact_decimal(exact), str(exact)
    if decimal is None:
        return fraction
    if decimal.startswith(("0.", "-0.")):
        decimal = decimal.replace("0.", ".", 1)
    return decimal if len(decimal) <= len(fraction) else fraction


def _listed(head: str, values: Mapping[int, Fraction | int], end: str = "") -> Iterator[str]:
    """The line `HEAD COUNT END`, then a line `INDEX NUMBER` of each value, by rising index.

    Args:
        end: What stands behind the count, with its space.
    """
    yield f"{head} {len(values)}{end}"
    for i in sorted(values):
        yield f"{i} {number_text(values[i])}"


def claim_lines(
    claim: str,
    objective: Optional[int],
    value: Optional[Fraction] = None,
    point: Optional[Point] = None,
    ray: Optional[Point] = None,
) -> Iterator[str]:
    """The lines of a certificate before its tree: heading, claim, and its point and ray.

    Args:
        claim: The word of the claim, as `optimal`; the caller gives what that word needs.
        objective: Its number in the file, from 0; None where the claim is about none.
        value: The bound that is claimed, in the file's own sense, where the claim has one.
        point: By column; values that are 0 are not written.
        ray: The same.
    """
    words = [claim]
    if objective is not None:
        words.append(str(objective))
    if value is not None:
        words.append(number_text(value))
    yield HEADING
    yield " ".join(words)
    for word, x in (("point", point), ("ray", ray)):
        if x is not None:
            yield from _listed(word, {j: v for j, v in enumerate(x) if v})


def lines_of_answer(values: Sequence[str], duals: Sequence[str], objective: int) -> Iterator[str]:
    """The certificate with an answer's own numbers: its values are the point, its duals the leaf.

    The pipeline has it judged to learn what is true of a solver's answer, or of the values of a
    .sol. It claims `optimal`, without duals `feasible`; `0` and `-0` are not written.

    Args:
        values: Texts of decimals, by column.
        duals: Texts of decimals, by row of the file, in the objective's own sense; empty without.
        objective: Its number in the file, from 0.
    """
    yield HEADING
    yield f"{'optimal' if duals else 'feasible'} {objective}"
    listed = [("point", values)]
    if duals:
        listed.append(("duals", duals))
    for word, texts in listed:
        lines = [f"{i} {text}" for i, text in enumerate(texts) if text not in ("0", "-0")]
        yield from (f"{word} {len(lines)}", *lines)


def disjunction_lines(form: Mapping[int, int], floor: int) -> Iterator[str]:
    """The lines of a split disjunction: the form is at most `floor`, or at least `floor + 1`.

    The two branches come behind them, the lower one first.

    Args:
        form: Coefficients by column.
    """
    return _listed(NodeKind.DISJUNCTION.value, form, f" {number_text(floor)}")


def multiplier_lines(values: Mapping[int, Fraction], kind: MultiplierKind) -> Iterator[str]:
    """The lines of a leaf: multipliers by the number that each row has in the text.

    Duals are in the file's own sense.
    """
    return _listed(kind.value, values)


def leaf_lines(
    leaf: Multipliers, numbering: RowNumbering, form_rows: Optional[FormRows] = None
) -> Iterator[str]:
    """The lines of a leaf, whose multipliers are by place among the program's rows.

    Duals get the file's own sense, or below an objective's row become Farkas multipliers.

    Args:
        leaf: Its duals are minimised.
        form_rows: Of the forms that are bounded on the path to the leaf: their multipliers go to
            the rows of branches. One above 0 rests on the lower bound of its row, one below 0 on
            the upper one.
    """
    kind, sign = leaf.kind, 1
    values: Dict[int, Fraction] = {}
    if not leaf.is_farkas and numbering.objective_row is None:
        sign = numbering.dual_sign
    elif not leaf.is_farkas and numbering.objective_row is not None:
        kind = MultiplierKind.FARKAS
        values[numbering.objective_row.number] = -numbering.objective_row.spacing
    for row, numerator in leaf.numerators.items():
        number = numbering.numbers.get(row, row)
        if form_rows is not None and row in form_rows:
            lower, upper = form_rows[row]
            number = lower if numerator > 0 else upper
        values[number] = Fraction(sign * numerator, leaf.denominator)
    yield from multiplier_lines(values, kind)


def tree_lines(program: IntegerProgram, tree: Tree, numbering: RowNumbering) -> Iterator[str]:
    """The lines of all nodes of a tree, in its order.

    The rows of a disjunction's two branches have the same number: `numbering.next_number` plus the
    count of disjunctions above it.

    Args:
        program: On which the tree stands: a split of a column behind its columns is one of the form
            that is the program's row there.
        tree: The whole of it, without subtrees that another process holds.
    """
    waiting: List[Tuple[FormRows, int]] = [({}, numbering.next_number)]
    for node in tree:
        form_rows, number = waiting.pop()
        if isinstance(node, Leaf):
            yield from leaf_lines(node.multipliers(), numbering, form_rows)
        elif isinstance(node, EmptyDomain):
            yield from _empty_domain_lines(node, number)
        elif isinstance(node, Split) and node.column < program.n:
            yield f"{NodeKind.SPLIT.value} {node.column} {number_text(node.at)}"
            waiting += [(form_rows, number)] * 2
        elif isinstance(node, Split):
            row = node.column - program.n
            form = {j: a // program.row_scale for j, a in program.rows[row]}
            yield from disjunction_lines(form, node.at)
            known = form_rows.get(row, BranchRows(-1, -1))
            upper = {**form_rows, row: known._replace(upper=number)}
            lower = {**form_rows, row: known._replace(lower=number)}
            waiting += [(lower, number + 1), (upper, number + 1)]


def _empty_domain_lines(node: EmptyDomain, number: int) -> Iterator[str]:
    """A disjunction on the column, each branch of which contradicts one of its bounds.

    Args:
        number: That the rows of its two branches have in the text.
    """
    yield from disjunction_lines({node.column: 1}, node.at)
    for sign in (-1, 1):
        yield from multiplier_lines({number: Fraction(sign)}, MultiplierKind.FARKAS)


def cut_lines(
    coefficients: Mapping[int, int], rhs: int, proof: MIRProof, numbers: Mapping[int, int]
) -> Iterator[str]:
    """The lines of an MIR cut and its proof: a disjunction, with a leaf of duals in each branch.

    The duals bound the left side from above.

    Args:
        coefficients: Of its left side, by column, which is at most `rhs`.
        numbers: Of rows in the text, by their place among the program's rows; that of `proof.row`
            is the number that the cut itself gets behind its proof.
    """
    yield from _listed(NodeKind.CUT.value, coefficients, f" {number_text(rhs)}")
    yield from disjunction_lines(proof.split.form, proof.split.floor)
    numbering = RowNumbering(numbers, 0, -1)  # the left side is maximised
    for leaf in (proof.low, proof.high):
        yield from leaf_lines(leaf.multipliers(), numbering)


def refutation_lines(refutation: IntegerRefutation, row: int) -> Iterator[str]:
    """The whole certificate of `infeasible`: a disjunction, with Farkas multipliers in each branch.

    In each branch its row contradicts what the refutation shows of the form.

    Args:
        row: The count of the file's rows, which is the number of the branches' own.
    """
    yield from claim_lines("infeasible", None)
    yield from disjunction_lines(refutation.form, refutation.floor)
    for sign, multipliers in (
        (1, refutation.lower_multipliers),
        (-1, refutation.upper_multipliers),
    ):
        weights = {i: sign * u for i, u in multipliers.items()}
        weights[row] = Fraction(-sign)
        yield from multiplier_lines(weights, MultiplierKind.FARKAS)


# Text is read

CLAIMS_WITH_POINT = ("optimal", "within", "feasible", "unbounded")
CLAIMS_WITH_TREE = ("optimal", "within", "bound", "infeasible")


class Node:
    """A node of a certificate that is read.

    Attributes:
        kind: What it is.
        line: Of the text, from 1.
        parent: Its parent's place; `ROOT` where it has none.
        branch: Which child of its parent it is: 0 for `at most` and for the proof of a cut, 1 for
            the other one.
        depth: The count of nodes above it.
        column: That a split is of; -1 of others.
        at: The text of the last number in the line of a split, a disjunction or a cut: the most in
            the lower branch, or the cut's right-hand side. Empty of a leaf.
        entries: The lines behind it, as an index and the text of a number: of a disjunction or a
            cut by column, of a leaf by row; a split has none.
        leaf_number: Of a leaf, from 0 in the order of the text; -1 of others.
        size: Nodes of its subtree, itself among them.
        leaves: Leaves of its subtree.
    """

    __slots__ = (
        "kind",
        "line",
        "parent",
        "branch",
        "depth",
        "column",
        "at",
        "entries",
        "leaf_number",
        "size",
        "leaves",
    )

    def __init__(self, kind: NodeKind, line: int, parent: int, branch: int, depth: int) -> None:
        """A node of which the rest is not read yet; it is the only one of its subtree, and no leaf.

        The arguments are the attributes of the same name.
        """
        self.kind = kind
        self.line = line
        self.parent = parent
        self.branch = branch
        self.depth = depth
        self.column = -1
        self.at = ""
        self.entries: List[Tuple[int, str]] = []
        self.leaf_number = -1
        self.size = 1
        self.leaves = 0

    @property
    def is_leaf(self) -> bool:
        return self.kind.is_leaf


class Certificate(NamedTuple):
    """A certificate that is read.

    Attributes:
        claim: The word of its second line.
        objective: The number of the objective in the file, from 0; None under `infeasible`.
        numbers: The numbers behind it: the bound, of `within` and `bound`.
        point: Values by column that are not 0; None where the claim has no point.
        ray: The same of a ray.
        nodes: Each before those below it; a place is an index into them. Empty where the claim has
            no tree.
    """

    claim: str
    objective: Optional[int]
    numbers: List[Fraction]
    point: Optional[Dict[int, Fraction]]
    ray: Optional[Dict[int, Fraction]]
    nodes: List[Node]

    def children(self, place: int) -> List[int]:
        """The places of the two nodes below a place, that of branch 0 first; of a leaf none."""
        if self.nodes[place].is_leaf:
            return []
        first = place + 1
        return [first, first + self.nodes[first].size]

    def path(self, place: int) -> List[int]:
        """The places from the root to a place, both among them."""
        found = []
        while place != ROOT:
            found.append(place)
            place = self.nodes[place].parent
        return found[::-1]

    def branches(self, place: int) -> List[Tuple[Node, int]]:
        """The nodes above a place, from the root on, each with its `branch` that leads there."""
        path = self.path(place)
        return [
            (self.nodes[above], self.nodes[below].branch) for above, below in zip(path, path[1:])
        ]

    def place_of_leaf(self, number: int) -> int:
        """The place of the leaf of this `leaf_number`, as the judge names the one that fails.

        Raises:
            StopIteration: There is no such leaf.
        """
        return next(p for p, node in enumerate(self.nodes) if node.leaf_number == number)


_Records = Iterator[Tuple[int, List[str]]]  # lines that have words: their numbers from 1, and words


def read_certificate(lines: Iterable[str]) -> Certificate:
    """The certificate of these lines, which the proved program has judged before.

    Nothing is checked but what reading needs, and what stands behind the last node is not read.

    Args:
        lines: Of the text, with ends or without; blank ones count in the numbers of lines alone.

    Raises:
        ValueError: It is not as the proved program takes it.
        IndexError: The same: a line has too few words.
    """
    numbered = ((number, line.split()) for number, line in enumerate(lines, 1))
    records = ((number, words) for number, words in numbered if words)
    try:
        next(records)
        _, words = next(records)
        claim = words[0]
        objective = None if claim == "infeasible" else int(words[1])
        point = _read_values(records) if claim in CLAIMS_WITH_POINT else None
        ray = _read_values(records) if claim == "unbounded" else None
        nodes = _read_tree(records) if claim in CLAIMS_WITH_TREE else []
    except StopIteration:
        raise ValueError("it ends too soon") from None
    numbers = [Fraction(word) for word in words[2:]]
    return Certificate(claim, objective, numbers, point, ray, nodes)


def _read_entries(records: _Records, count: int) -> List[Tuple[int, str]]:
    """The next `count` lines, each as an index and the text of a number.

    Raises:
        StopIteration: There are fewer lines.
    """
    found = []
    for _ in range(count):
        _, words = next(records)
        found.append((int(words[0]), words[1]))
    return found


def _read_values(records: _Records) -> Dict[int, Fraction]:
    """The point or the ray whose head is the next line: values by column.

    Raises:
        StopIteration: There are too few lines.
    """
    _, words = next(records)
    return {j: Fraction(value) for j, value in _read_entries(records, int(words[1]))}


def _read_tree(records: _Records) -> List[Node]:
    """The nodes of the tree that comes next, in the order of the text, until no branch is open.

    Raises:
        StopIteration: There are too few lines.
    """
    nodes: List[Node] = []
    waiting = [(ROOT, 0)]  # branches that are to come: their parents, and which they are
    leaves = 0
    while waiting:
        parent, branch = waiting.pop()
        number, words = next(records)
        depth = 0 if parent == ROOT else nodes[parent].depth + 1
        node = Node(NodeKind(words[0]), number, parent, branch, depth)
        place = len(nodes)
        nodes.append(node)
        if node.kind is NodeKind.SPLIT:
            node.column, node.at = int(words[1]), words[2]
        else:
            node.at = "" if node.is_leaf else words[2]
            node.entries = _read_entries(records, int(words[1]))
        if node.is_leaf:
            node.leaf_number = leaves
            node.leaves = 1
            leaves += 1
        else:
            waiting += [(place, 1), (place, 0)]
    _count_subtrees(nodes)
    return nodes


def _count_subtrees(nodes: Sequence[Node]) -> None:
    """Makes each node's `size` and `leaves` those of its subtree, from its own 1, and 0 or 1.

    Parents stand before children. Called once, at the end of reading a tree.
    """
    for node in reversed(nodes):
        if node.parent != ROOT:
            above = nodes[node.parent]
            above.size += node.size
            above.leaves += node.leaves
