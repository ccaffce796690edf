"""A judge of certificates in Python, for tests: by the rule that `bridge verify` is proved to have.

It shares nothing with the search but the reader of certificates and the program.
"""

from __future__ import annotations

from fractions import Fraction
from typing import Dict, Iterable, List, Mapping, NamedTuple, Optional, Tuple

from bridge_drivers.exact.certificate import Certificate, Node, NodeKind, read_certificate
from bridge_drivers.exact.certifier import certify
from bridge_drivers.exact.evidence import AnswerByPlace, AnswerClaim, Evidence
from bridge_drivers.exact.search_deadline import SearchDeadline
from bridge_drivers.exact.task import SearchOptions
from bridge_drivers.exact.worker_pools import WorkerPool
from bridge_drivers.model.integer_form import IntegerProgram

Number = Optional[Fraction]


class SideRow(NamedTuple):
    """A row with its bounds; None: there is none."""

    coefficients: Mapping[int, Fraction]
    lower: Number
    upper: Number


class Goal(NamedTuple):
    """What duals in a part must show: costs of columns, minimised, and the bound; None: nothing."""

    sign: int
    costs: Mapping[int, Fraction]
    constant: Fraction
    bound: Number


class Part(NamedTuple):
    """Where a node stands."""

    lower: List[Number]
    upper: List[Number]
    rows: List[SideRow]
    goal: Goal


class Judged(NamedTuple):
    line: str
    is_proved: bool


class Judge:
    """Judges certificates of one program, and keeps the texts that it accepted."""

    def __init__(self, program: IntegerProgram) -> None:
        self.program = program
        self.accepted: List[str] = []

    def __call__(self, lines: Iterable[str]) -> Judged:
        text = list(lines)
        certificate = read_certificate(text)
        fault = self.fault(certificate)
        if fault:
            return Judged(fault, is_proved=False)
        self.accepted.append("\n".join(text))
        return Judged(self.line(certificate), is_proved=True)

    def line(self, certificate: Certificate) -> str:
        words = [certificate.claim, *map(str, certificate.numbers)]
        if certificate.claim in ("optimal", "within", "feasible"):
            words.append(str(self.program.sign * self.value(certificate)))
        return " ".join(words)

    def value(self, certificate: Certificate) -> Fraction:
        return self.program.value(self.point(certificate.point))

    def point(self, entries: Optional[Mapping[int, Fraction]]) -> List[Fraction]:
        assert entries is not None
        return [entries.get(j, Fraction(0)) for j in range(self.program.n)]

    def fault(self, certificate: Certificate) -> str:
        """Why a certificate shows nothing; nothing where it does."""
        if certificate.point is not None:
            if not self.program.is_feasible(self.point(certificate.point)):
                return "the point is not feasible"
        bound: Number = None
        if certificate.claim == "optimal":
            bound = self.value(certificate)
        elif certificate.claim in ("within", "bound"):
            bound = self.program.sign * certificate.numbers[0]
        if certificate.claim in ("feasible", "unbounded"):
            return ""
        return self.subtree_fault(certificate, 0, self.root(bound))

    def root(self, bound: Number) -> Part:
        p = self.program

        def over(ends: List[Optional[int]]) -> List[Number]:
            return [None if end is None else Fraction(end, p.bound_scale) for end in ends]

        rows = [
            SideRow({j: Fraction(a, p.row_scale) for j, a in row}, low, high)
            for row, low, high in zip(p.rows, over(p.row_lower), over(p.row_upper))
        ]
        costs = {j: Fraction(c, p.cost_scale) for j, c in enumerate(p.costs)}
        goal = Goal(p.sign, costs, p.constant_fraction, bound)
        return Part(over(p.lower), over(p.upper), rows, goal)

    def subtree_fault(self, certificate: Certificate, place: int, part: Part) -> str:
        node = certificate.nodes[place]
        if node.is_leaf:
            return leaf_fault(node, part)
        if node.kind is NodeKind.CUT:
            parts = cut_parts(node, part)
        elif node.kind is NodeKind.SPLIT:
            parts = self.split_parts(node, part)
        else:
            parts = self.form_parts(node, part)
        for child, below in zip(certificate.children(place), parts):
            fault = self.subtree_fault(certificate, child, below)
            if fault:
                return fault
        return ""

    def split_parts(self, node: Node, part: Part) -> Tuple[Part, Part]:
        assert self.program.is_integer[node.column]
        at = int(node.at)
        low, high = list(part.lower), list(part.upper)
        old_low, old_high = low[node.column], high[node.column]
        high[node.column] = Fraction(at) if old_high is None else min(old_high, Fraction(at))
        low[node.column] = Fraction(at + 1) if old_low is None else max(old_low, Fraction(at + 1))
        return part._replace(upper=high), part._replace(lower=low)

    def form_parts(self, node: Node, part: Part) -> Tuple[Part, Part]:
        form, at = entries_of(node), int(Fraction(number_of(node.at)))
        assert all(self.program.is_integer[j] and a.denominator == 1 for j, a in form.items())
        below = part._replace(rows=[*part.rows, SideRow(form, None, Fraction(at))])
        return below, part._replace(rows=[*part.rows, SideRow(form, Fraction(at + 1), None)])


def number_of(text: str) -> Fraction:
    return Fraction(text)


def entries_of(node: Node) -> Dict[int, Fraction]:
    return {j: number_of(text) for j, text in node.entries}


def cut_parts(node: Node, part: Part) -> Tuple[Part, Part]:
    """A cut is proved as a maximum of its form, and is a row below."""
    form, rhs = entries_of(node), number_of(node.at)
    goal = Goal(-1, {j: -a for j, a in form.items()}, Fraction(0), -rhs)
    below = part._replace(rows=[*part.rows, SideRow(form, None, rhs)])
    return part._replace(goal=goal), below


def leaf_fault(node: Node, part: Part) -> str:
    """Weak duality, in fractions."""
    is_farkas = node.kind is NodeKind.WEIGHTS
    if not is_farkas and part.goal.bound is None:
        return "duals show no contradiction"
    sign = 1 if is_farkas else part.goal.sign
    costs: Dict[int, Fraction] = {} if is_farkas else dict(part.goal.costs)
    total = Fraction(0) if is_farkas else part.goal.constant
    for row, multiplier in entries_of(node).items():
        multiplier *= sign
        side = part.rows[row].lower if multiplier > 0 else part.rows[row].upper
        if side is None:
            return f"row {row} has no side"
        total += multiplier * side
        for j, a in part.rows[row].coefficients.items():
            costs[j] = costs.get(j, Fraction(0)) - multiplier * a
    for j, cost in costs.items():
        if cost:
            end = part.lower[j] if cost > 0 else part.upper[j]
            if end is None:
                return f"bound {j} has no side"
            total += cost * end
    if is_farkas:
        return "" if total > 0 else "no contradiction"
    assert part.goal.bound is not None
    return "" if total >= part.goal.bound else f"gap at {total}"


def certified(
    program: IntegerProgram,
    claim: AnswerClaim = AnswerClaim.INFEASIBLE,
    *,
    seconds: float = 60.0,
    options: SearchOptions = SearchOptions(),
    answer: AnswerByPlace = AnswerByPlace(),
    pool: Optional[WorkerPool] = None,
) -> Evidence:
    """What is proved of a program by this judge."""
    deadline = SearchDeadline(seconds)
    judge = Judge(program)
    return certify(
        program,
        judge,
        claim=claim,
        answer=answer,
        deadline=deadline,
        options=options,
        pool=pool,
    )
