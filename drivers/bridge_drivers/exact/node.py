"""The node where a search stands: the branches above it, and the bounds that they give.

Beside integer columns a search branches on integer forms. Such a form is one of the program's last
rows and has no bounds of its own: each branch gives it one. It counts as a column behind all
others: row i has the number n + i. All that is open is values, so that a search in another process
can go on from it. Of the types, `Branch`, `OpenNode` and `ProvedSubtree` travel between processes,
and `Node` stays in one; `search`, `fathoming` and `branching` work on a `Node`, `parallel` and
`worker_pools` hand the values about.
"""

from __future__ import annotations

import contextlib
from typing import FrozenSet, Iterable, Iterator, List, NamedTuple, Optional, Sequence, Tuple

from ..model.integer_form import Bound, Box, IntegerProgram
from .relaxation import relaxation
from .tree import Split, Tree

DOWN, UP = 0, 1  # the directions of the two branches


class Branch(NamedTuple):
    """One branch of a node, with the relaxation that it was chosen by.

    Attributes:
        column: The number of the column whose bound it changes; from n on that of a form (`Node`).
        at: In the column's own units, not scaled: downwards it is at most this, upwards at least
            one more.
        direction: DOWN or UP.
        value: Of the column in the relaxation of the node above.
        bound: The dual bound of that relaxation, minimised, with the constant, in doubles.
        basis: Of that relaxation, as `Clp.saved_basis` has it: both branches start from it.
    """

    column: int
    at: int
    direction: int
    value: float
    bound: float
    basis: bytes

    def sibling(self) -> Branch:
        """The other branch of the same node."""
        return self._replace(direction=1 - self.direction)

    def distance(self) -> float:
        """How far the branch moves its column from the value in the relaxation above.

        For pseudocosts the gain of the dual bound is divided by it; it is mostly between 0 and 1.
        """
        return self.value - self.at if self.direction == DOWN else self.at + 1 - self.value


class ProvedSubtree(NamedTuple):
    """A node whose subtree is proved.

    Attributes:
        tree: Its proof, as lists of nodes in the order of the text.
        needed_depths: The depths of those branches above it that the proof rests on; the branch at
            the root has depth 0.
    """

    tree: Tree
    needed_depths: FrozenSet[int]


class OpenNode(NamedTuple):
    """A branching node on the way to where the search stands.

    Attributes:
        branch: The one of its two branches that the search is in.
        sibling: What is proved of the other branch; None where that is still to be searched.
    """

    branch: Branch
    sibling: Optional[ProvedSubtree] = None


class BoundChange(NamedTuple):
    """A bound of a column or form, with the depth of the branch that gives it; a node keeps one for
    each branch, of what stood there before.

    Attributes:
        column: As in `Branch`.
        is_upper: 1 for the upper bound, 0 for the lower one: the place in a `Box`.
        bound: Over `bound_scale`; None: there is none.
        depth: Of the branch; None where the bound is the program's own.
    """

    column: int
    is_upper: int
    bound: Bound
    depth: Optional[int]


def least_open_bound(open_nodes: Sequence[OpenNode], bound: float) -> float:
    """The dual bound of a subtree by what is open in it: the least of its open nodes' relaxations.

    Where the search stands in a node, the relaxation of the node above speaks for it; so it does
    for each branch whose sibling is not proved.

    Args:
        open_nodes: From the subtree's root to where the search stands.
        bound: Of the node above the subtree, minimised; it is the answer where there are no open
            nodes.

    Returns:
        Minimised, with the constant, in doubles.
    """
    innermost = open_nodes[-1].branch.bound if open_nodes else bound
    return min([innermost, *(node.branch.bound for node in open_nodes if node.sibling is None)])


def join(
    branch: Branch, depth: int, proved: ProvedSubtree, sibling: ProvedSubtree
) -> ProvedSubtree:
    """The proof of the branching node at that depth, by those of this branch and of its sibling.

    Called where both proofs rest on their branch; one that does not proves the node without the
    other.

    Args:
        depth: Of the branch; the node's proof does not rest on it any more.
        proved: Of `branch`; `sibling` is that of the other direction. The tree has the lower branch
            first, whichever that is.
    """
    low, high = (proved, sibling) if branch.direction == DOWN else (sibling, proved)
    return ProvedSubtree(
        [Split(branch.column, branch.at), *low.tree, *high.tree],
        (proved.needed_depths | sibling.needed_depths) - {depth},
    )


class Node:
    """The bounds of one node, kept alike in `box`, in the relaxation, and in the rows of forms.

    A search has one for all its time, and moves it from node to node by `apply` and `undo`.

    Attributes:
        program: Its last rows are the forms, and their bounds in it change with the node.
        clp: The relaxation, under the node's bounds; what it says is of its last solve.
        constant: Of the objective, minimised, in doubles; 0 where the relaxation has no objective.
        forms: The numbers of the forms: n + i for row i.
        box: Bounds of columns, then of rows, over `bound_scale`; only those of columns and forms
            change.
        bound_depths: As `box`, lower and upper: the depth of the branch that gave each bound, None
            for the program's own.
        path: Branches from the root to the subtree that is searched.
        open_nodes: Below these, from the subtree's root on; the search appends and pops them.
        changes: Of each branch that the node is in, from the root on, what its bound was before.
    """

    def __init__(self, program: IntegerProgram, has_objective: bool, forms: int = 0) -> None:
        """A node at the root.

        Args:
            has_objective: Whether the relaxation minimises the program's objective; else any
                feasible point is its optimum.
            forms: How many of the program's last rows are forms.
        """
        self.program = program
        self.clp = relaxation(program, has_costs=has_objective)
        self.constant = float(program.constant_fraction) if has_objective else 0.0
        self.forms = range(program.n + program.m - forms, program.n + program.m)
        self.box = Box([*program.lower, *program.row_lower], [*program.upper, *program.row_upper])
        size = program.n + program.m
        self.bound_depths: Tuple[List[Optional[int]], ...] = ([None] * size, [None] * size)
        self.path: List[Branch] = []
        self.open_nodes: List[OpenNode] = []
        self.changes: List[BoundChange] = []  # one a branch

    @property
    def depth(self) -> int:
        """How many branches lead to the node from the root of the whole tree."""
        return len(self.changes)

    def entries(self, column: int) -> Sequence[Tuple[int, int]]:
        """The rows of a column, or the columns of a form, with the coefficients over `row_scale`.

        Branching prefers columns that have many of them, and a form's value is summed up from them.
        """
        if column < self.program.n:
            return self.program.by_column[column]
        return self.program.rows[column - self.program.n]

    def apply(self, branch: Branch) -> None:
        """Goes into a branch: sets its bound in `box`, the relaxation and the form's row, and
        remembers the one before.

        A bound that is as tight or tighter stays, with the depth of the branch that gave it: what
        rests on it does not rest on this branch.
        """
        is_upper = 1 - branch.direction
        old = self.box[is_upper][branch.column]
        before = BoundChange(
            branch.column, is_upper, old, self.bound_depths[is_upper][branch.column]
        )
        self.changes.append(before)
        bound = (branch.at + branch.direction) * self.program.bound_scale
        is_tighter = old is None or (bound < old if is_upper else bound > old)
        change = before._replace(bound=bound, depth=self.depth - 1) if is_tighter else before
        self._set_bound(change)

    def undo(self) -> None:
        """Leaves the last branch: its bound and depth are those that were there before.

        Where that is broken off in the middle, it can be done again. CLP's basis stays as it is.
        """
        self._set_bound(self.changes[-1])
        self.changes.pop()

    @contextlib.contextmanager
    def trying(self, branch: Branch) -> Iterator[None]:
        """A block within a branch, which is left at its end whatever happens, as strong branching
        needs."""
        self.apply(branch)
        try:
            yield
        finally:
            self.undo()

    def last_branch(self) -> Optional[Branch]:
        """The branch that leads to this node; None at the root."""
        if self.open_nodes:
            return self.open_nodes[-1].branch
        return self.path[-1] if self.path else None

    def move_to(self, path: Sequence[Branch], open_nodes: Iterable[OpenNode] = ()) -> None:
        """Goes to where the search of a subtree stood, from wherever this node is, and gives CLP
        the basis of the last branch.

        Args:
            path: From the root to the subtree.
            open_nodes: Below it, to where its search stood. Both are copied to new lists.
        """
        while self.changes:
            self.undo()
        self.path, self.open_nodes = list(path), list(open_nodes)
        for branch in [*self.path, *(node.branch for node in self.open_nodes)]:
            self.apply(branch)
        last = self.last_branch()
        if last is not None:
            self.clp.restore_basis(last.basis)

    def relaxation_bound(self) -> float:
        """The objective of the relaxation that was solved last, minimised, with its constant, in
        doubles; only where that has an optimum."""
        return self.clp.objective() + self.constant

    def column_without_integers(self, columns: Iterable[int]) -> Optional[int]:
        """The first integer column of these that has both bounds and no integer between them; None
        where there is none. Forms, whose bounds are whole, are skipped."""
        program = self.program
        lower, upper = self.box
        for column in columns:
            if column >= program.n or not program.is_integer[column]:
                continue
            low, high = lower[column], upper[column]
            if low is None or high is None:
                continue
            if -(-low // program.bound_scale) > high // program.bound_scale:
                return column
        return None

    def nearest_to_zero(self, column: int) -> float:
        """The value between a column's bounds that is nearest to 0, in doubles: a value to branch
        at where CLP has no point."""
        low, high = self.box.lower[column], self.box.upper[column]
        least = max(low or 0, 0)
        return (least if high is None else min(least, high)) / self.program.bound_scale

    def _set_bound(self, change: BoundChange) -> None:
        """Writes a bound with its depth, also into CLP and, of a form, into the program's row.
        Called for each branch that is gone into or left."""
        program, column = self.program, change.column
        self.box[change.is_upper][column] = change.bound
        self.bound_depths[change.is_upper][column] = change.depth
        low, high = program.bound_as_double(self.box.lower[column]), program.bound_as_double(
            self.box.upper[column]
        )
        if column < program.n:
            self.clp.set_bounds(column, low, high)
            return
        row = column - program.n
        sides = program.row_upper if change.is_upper else program.row_lower
        sides[row] = change.bound
        self.clp.set_row_bounds(row, low, high)
