"""Why a model is infeasible: the rows and bounds that contradict each other, for a message.

They are those of a leaf of the accepted certificate: no point satisfies all of them at once, since
their sum by its multipliers says that 0 is more than 0 (`exact.leaf_sums`). `certification` tells
them above the verdict; `nl-bridge explain` shows all.
"""

from __future__ import annotations

from typing import Iterator, List

from ..exact.certificate import Certificate, NodeKind, read_certificate
from ..exact.leaf_sums import LeafSums, NodeContext, Part, SumTerm
from ..formats.names import NameLists
from ..model.integer_form import IntegerProgram

MOST_NAMED = 5  # rows and bounds that are named one by one
MOST_TERMS = 4  # of a row of the tree that is written out


def contradiction_words(accepted: bytes, program: IntegerProgram, names: NameLists) -> str:
    """A line on the contradiction that a certificate of `infeasible` shows.

    Of a tree it is that of its first leaf, which is about one part of the points alone: then the
    line says of how many it is the first, and by which branches.

    Args:
        accepted: The certificate's text, which the proved program has accepted.
        program: Of the model, in whole numbers.
        names: Of its rows and columns.

    Returns:
        "" where no leaf of it shows a contradiction by multipliers.
    """
    certificate = read_certificate(accepted.decode("ascii").splitlines())
    leaves = [place for place, node in enumerate(certificate.nodes) if node.is_leaf]
    farkas = (place for place in leaves if certificate.nodes[place].kind is NodeKind.WEIGHTS)
    place = next(farkas, None)
    if place is None:
        return ""
    sums = LeafSums(program, certificate)
    parts = list(named_parts(sums, place, names))
    shown = parts[:MOST_NAMED]
    left = len(parts) - len(shown)
    listed = ", ".join(shown) + (f" and {left} more rows and bounds" if left else "")
    head = "why"
    if len(leaves) > 1:
        head = f"why, in the first of {len(leaves)} parts{_branches(certificate, place, names)}"
    return f"{head}: these have no point in common: {listed}"


def named_parts(sums: LeafSums, place: int, names: NameLists) -> Iterator[str]:
    """The rows and bounds that a leaf's sum has, each in words, rows first.

    What a branch or a cut of the tree adds is called that; it is told once.

    Args:
        sums: Of the certificate.
        place: Of the leaf.
        names: Of the model's rows and columns.
    """
    context = sums.context(place)
    found: List[str] = []
    for term in sums.terms(place, context):
        if term.factor:
            found.append(_named_part(sums, context, term, names))
    yield from dict.fromkeys(found)


def _named_part(sums: LeafSums, context: NodeContext, term: SumTerm, names: NameLists) -> str:
    """One row or bound in words: `constraint 0 (Cap)`, `x >= 3` of a bound."""
    if term.part is Part.ROW:
        place = term.number - sums.program.m
        return names.constraint(term.number) if place < 0 else _form(context, place, names)
    own = sums.column_bounds(term.number)
    bound = own.lower if term.is_lower else own.upper
    name = names.column(term.number) or f"variable {term.number}"
    told = f"{name} {'>=' if term.is_lower else '<='} {term.bound}"
    return told if bound == term.bound else f"{told} (a branch)"


def _form(context: NodeContext, place: int, names: NameLists) -> str:
    """A row that a node of the tree adds: `a + 7 b <= 29`; one of many terms is not written out."""
    row = context.added_rows[place]
    if len(row.terms) > MOST_TERMS:
        return "a row of the tree"
    is_lower = row.bounds.lower is not None
    terms = [
        f"{'-' if a < 0 else '+'} {'' if abs(a) == 1 else f'{abs(a)} '}"
        + (names.column(column) or f"variable {column}")
        for column, a in row.terms
    ]
    side = row.bounds.lower if is_lower else row.bounds.upper
    return f"{' '.join(terms).removeprefix('+ ')} {'>=' if is_lower else '<='} {side}"


def _branches(certificate: Certificate, place: int, names: NameLists) -> str:
    """The branch that leads to a leaf, where it is one of a column: ` (x <= 3)`; else ""."""
    told = [
        f"{names.column(node.column) or f'variable {node.column}'} "
        + (f"<= {node.at}" if branch == 0 else f">= {int(node.at) + 1}")
        for node, branch in certificate.branches(place)
        if node.kind is NodeKind.SPLIT
    ]
    return f" ({', '.join(told)})" if 0 < len(told) <= MOST_NAMED else ""
