"""Clique cuts: of literals of which each two exclude each other, at most one is 1.

A literal is a binary column or its complement. Two literals exclude each other where one row says
so; these pairs are the edges of a conflict graph, and its cliques give cuts (Atamtürk, Nemhauser
and Savelsbergh 2000). `cuts` asks for `clique_cuts` in each round at the root, and proves them.
"""

from __future__ import annotations

from fractions import Fraction
from typing import Dict, Iterator, List, Mapping, NamedTuple, Optional, Sequence, Set

from ..model.integer_form import IntegerProgram
from .work_limit import check_work

MOST_ROW_ENTRIES = 100  # of a row whose conflicts are looked for
MOST_CLIQUES = 200
MOST_LITERALS = 40  # of a clique, each of which takes a cut from the third on


class Literal(NamedTuple):
    """A binary column, or where `sign` is -1 its complement."""

    column: int
    sign: int


class Item(NamedTuple):
    """A literal, and what it takes of a row's capacity where it is 1: above 0, over `row_scale`."""

    weight: int
    literal: Literal


class KnapsackRow(NamedTuple):
    """One side of a row over its binary literals: weights times literals are at most `capacity`.

    All other columns stand at the bounds where they take least.

    Attributes:
        capacity: At least 0, over `row_scale` as weights are.
    """

    items: List[Item]
    capacity: Fraction


class CliqueCut(NamedTuple):
    """A cut: the columns times `coefficients` are at most `rhs`.

    Attributes:
        violation: How much more the left side is than `rhs` at the relaxation's optimum; below 0
            where the cut is satisfied there.
        coefficients: 1 or -1 by column.
        smaller: Cuts of growing parts of the clique, from three literals on. Below those before it
            each is proved by few nodes: where two of its literals are 1, a pair among them exclude
            each other.
    """

    violation: float
    coefficients: Dict[int, int]
    rhs: int
    smaller: Sequence[CliqueCut] = ()


def knapsack_rows(program: IntegerProgram) -> Iterator[KnapsackRow]:
    """The sides of rows over their binary literals, by row, the upper side first.

    Left out are sides without a bound or that no point within the columns' bounds satisfies, sides
    whose activity has no least value there, and rows of more than MOST_ROW_ENTRIES entries.
    """
    for row, lower, upper in zip(program.rows, program.row_lower, program.row_upper):
        if len(row) > MOST_ROW_ENTRIES:
            continue
        for sign, bound in ((1, upper), (-1, lower)):
            if bound is None:
                continue
            least = _least_activity(program, row, sign)
            if least is None or sign * bound * program.row_scale < least:
                continue
            items = [
                Item(abs(a), Literal(j, 1 if sign * a > 0 else -1))
                for j, a in row
                if _is_binary(program, j)
            ]
            capacity = sign * bound * program.row_scale - least
            yield KnapsackRow(items, Fraction(capacity, program.bound_scale))


def conflict_graph(program: IntegerProgram) -> Dict[Literal, Set[Literal]]:
    """By literal, those that one row excludes beside it: `weight + other weight > capacity`.

    Literals without a conflict are not named.

    Raises:
        TimeOver: Between two rows: the time of exact work is over.
    """
    found: Dict[Literal, Set[Literal]] = {}
    for items, capacity in knapsack_rows(program):
        check_work()
        for k, item in enumerate(items):
            for other in items[:k]:
                if item.weight + other.weight > capacity:
                    found.setdefault(item.literal, set()).add(other.literal)
                    found.setdefault(other.literal, set()).add(item.literal)
    return found


def clique_cuts(program: IntegerProgram, x: Sequence[float]) -> Iterator[CliqueCut]:
    """Cuts of cliques that grow greedily, from each of the MOST_CLIQUES literals of greatest value.

    A clique takes in the literal of greatest value at x that conflicts with all before it. Each of
    at least three literals is yielded once, whether x violates it or not; pairs are left out, since
    a row says them already.

    Args:
        x: The relaxation's optimum, by column.
    """
    graph = conflict_graph(program)
    values = {
        literal: x[literal.column] if literal.sign > 0 else 1 - x[literal.column]
        for literal in graph
    }

    def rank(literal: Literal) -> tuple[float, Literal]:
        """By falling value at x, of equal ones by column and sign."""
        return -values[literal], literal

    seen: Set[frozenset[Literal]] = set()
    for first in sorted(graph, key=rank)[:MOST_CLIQUES]:
        clique, common = [first], graph[first]
        while common and len(clique) < MOST_LITERALS:
            clique.append(min(common, key=rank))
            common = common & graph[clique[-1]]
        if len(clique) > 2 and frozenset(clique) not in seen:
            seen.add(frozenset(clique))
            smaller = [clique_cut(clique[:size], values) for size in range(3, len(clique))]
            yield clique_cut(clique, values)._replace(smaller=smaller)


def clique_cut(literals: Sequence[Literal], values: Mapping[Literal, float]) -> CliqueCut:
    """The cut `sum of the literals <= 1`, where a complement counts as 1 less its column.

    Args:
        literals: Of which each two exclude each other.
        values: By literal, at the relaxation's optimum.

    Returns:
        The cut over columns, without smaller ones.
    """
    return CliqueCut(
        sum(values[literal] for literal in literals) - 1,
        {literal.column: literal.sign for literal in literals},
        1 - sum(literal.sign < 0 for literal in literals),
    )


def _least_activity(
    program: IntegerProgram, row: Sequence[tuple[int, int]], sign: int
) -> Optional[int]:
    """The least of `sign` times a row within the columns' bounds; None where it has no end.

    Args:
        row: Pairs of a column and a coefficient over `row_scale`.
        sign: 1, or -1 where the row's lower side is meant.

    Returns:
        Over `row_scale` and `bound_scale`.
    """
    total = 0
    for j, a in row:
        bound = (program.lower if sign * a > 0 else program.upper)[j]
        if bound is None:
            return None
        total += sign * a * bound
    return total


def _is_binary(program: IntegerProgram, column: int) -> bool:
    """Whether an integer column has the bounds 0 and 1."""
    return (
        program.is_integer[column]
        and program.lower[column] == 0
        and program.upper[column] == program.bound_scale
    )
