"""The tree of a certificate, as data.

A tree is a list of its nodes in the order of the text: a branching node stands before the nodes
that prove its two branches, the lower one first. So whatever joins two subtrees joins two lists.
`fathoming` and `mir` make leaves, `node.join` joins subtrees, `parallel` sends them between
processes, and `certificate` writes them.
"""

from __future__ import annotations

from typing import Iterable, List, Mapping, NamedTuple, Tuple, Union

from .dual_bound import MultiplierKind, Multipliers


class Leaf(NamedTuple):
    """Multipliers that prove a node.

    Attributes:
        packed: The multipliers as ASCII text, since a large tree holds many of them: whether they
            are Farkas multipliers (1 or 0), the denominator, then row and numerator in turns, with
            blanks between.
        added_rows: Rows that the file does not have and that the multipliers use, by their numbers
            in the searched program: of the objective, cuts and forms.
        nodes: Nodes of the certificate's text.
    """

    packed: bytes
    added_rows: Tuple[int, ...]
    nodes: int = 1

    def multipliers(self) -> Multipliers:
        """What `leaf_of` packed."""
        is_farkas, denominator, *pairs = map(int, self.packed.split())
        kind = MultiplierKind.FARKAS if is_farkas else MultiplierKind.DUAL
        return Multipliers(dict(zip(pairs[::2], pairs[1::2])), denominator, kind)


class EmptyDomain(NamedTuple):
    """A proof that an integer column has no integer value: it lies above `at` and below `at + 1`.

    In the text that is a split disjunction on the column with a leaf in each branch, which are its
    3 nodes.
    """

    column: int
    at: int
    nodes: int = 3


class Split(NamedTuple):
    """The branches `at most at` and `at least at + 1` of an integer column, or of an integer form;
    the trees of both stand behind it, that of the lower one first.

    Attributes:
        column: Its number; from n on that of a row without bounds that stands for the form.
        at: In the column's own units, not scaled.
        nodes: Of the text: this node alone.
    """

    column: int
    at: int
    nodes: int = 1


class RemoteSubtree(NamedTuple):
    """Stands for a subtree that another process holds under this key, with the nodes of its text."""

    key: int
    nodes: int


Tree = List[Union[Leaf, EmptyDomain, Split, RemoteSubtree]]


def leaf_of(multipliers: Multipliers, added_rows: Iterable[int]) -> Leaf:
    """The multipliers packed as a leaf.

    Args:
        added_rows: Those of their rows that the file does not have.
    """
    pairs = "".join(f" {row} {v}" for row, v in multipliers.numerators.items())
    packed = f"{int(multipliers.is_farkas)} {multipliers.denominator}{pairs}".encode()
    return Leaf(packed, tuple(added_rows))


def node_count(tree: Tree) -> int:
    """The nodes of the tree's text, those of remote subtrees too."""
    return sum(node.nodes for node in tree)


def rows_used(tree: Tree) -> set[int]:
    """The added rows that its leaves use, by their numbers in the searched program: cuts that are
    not among them are left out of the text."""
    return {row for node in tree if isinstance(node, Leaf) for row in node.added_rows}


def with_remote(tree: Tree, subtrees: Mapping[int, Tree]) -> Tree:
    """The tree with the subtrees, by key, in place of what stands for them; both are left as they
    are."""
    found: Tree = []
    for node in tree:
        if isinstance(node, RemoteSubtree):
            found += subtrees[node.key]
        else:
            found.append(node)
    return found
