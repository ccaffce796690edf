"""Branch and bound, depth first, whose tree is the certificate.

Each node is fathomed by a leaf that is judged exactly, or branched on. Branches that no leaf below
them rests on are left out of the tree, with what stands in their siblings.

A `BranchAndBound` is made by `SearchProblem.search`: one for this process (`parallel`) and one for
each process of a pool (`worker_pools`); `cuts` makes small ones that refute the violators of a cut.
Its `node` says where it stands.
"""

from __future__ import annotations

import math
from fractions import Fraction
from functools import partial
from typing import Callable, Dict, List, NamedTuple, Optional, Sequence, Union

from ..model.integer_form import IntegerProgram, Point
from .points import vertex
from .search_deadline import SearchDeadline
from ..system.deadline import Deadline
from ..system.errors import NodeLimit, SearchEnded
from .branching import LEAST_GAP, STRONG_CANDIDATES, PseudocostBranching, Relaxed
from .clp import LpStatus
from .dual_bound import MultiplierKind, fits_certificate
from .exact_leaf import exact_end
from .fathoming import SMALLEST_INFEASIBILITY, Cutoff, Fathomer
from .node import DOWN, Branch, Node, OpenNode, ProvedSubtree, join, least_open_bound
from .tree import node_count
from .work_limit import check_work

# how far from an integer a value counts as one, of a column as CLP has it: multiplied by its factor
INTEGRALITY_TOLERANCE = 1e-6
LARGEST_FACTOR = 2.0**30  # that counts for this: beyond it doubles near 1 are not told apart
ROUNDING_TOLERANCE = Fraction(1, 10**9)  # below an integer a value branches as if it were that
LARGEST_EXACT_INTEGER = 2.0**53  # from here on doubles do not hold each integer
CUTOFF_TOLERANCE = 1e-7  # of the cutoff: from that near a leaf is tried
MOST_NODES = 2**22  # that the judge takes
MOST_DEPTH = 3000
LEAST_RELAXATION_SECONDS = 0.1
NODES_TO_FINISH = 30  # beyond two for each open node, when a search ends at another cutoff

ExactPoint = Callable[[Sequence[float]], Optional[Point]]


class ImprovedIncumbent(NamedTuple):
    """An exact feasible point that the cutoff says is not there.

    Attributes:
        point: By column.
        value: Its objective, minimised, with the constant.
    """

    point: Point
    value: Fraction


class NodeNotClosed(SearchEnded):
    """A node can be neither closed nor branched on. The rest of the tree can be searched without
    it, and a less demanding cutoff may close it."""


def no_point(x: Sequence[float]) -> Optional[Point]:
    """None, as the `exact_point` of a search that is after a proof alone: where some column is not
    integer, no point is made then."""
    return None


class BranchAndBound:
    """One search, which can pause at any node and go on.

    Attributes:
        node: Where it stands; `move_to` sends it to another subtree.
        fathomer: Finds the leaves, for the cutoff.
        branching: Chooses columns; its pseudocosts go from unit to unit.
        nodes: Of the tree so far, proved or open; what falls away does not count.
        until: The second of the deadline, as `spent` counts, at which it pauses.
        most_nodes: At which it pauses; at MOST_NODES it fails.
        most_depth: Beyond which it fails.
        on_node: Called at nodes, when the progress is due to be told.
    """

    def __init__(
        self,
        program: IntegerProgram,
        cutoff: Cutoff,
        deadline: SearchDeadline,
        exact_point: ExactPoint = no_point,
        forms: int = 0,
        strong_candidates: int = STRONG_CANDIDATES,
    ) -> None:
        """A search at the root of the whole tree.

        Args:
            program: With the objective's row, the cuts and at last the forms as its rows.
            deadline: Of which it looks at the time and at interrupts; `until` alone makes it pause
                earlier.
            exact_point: Makes an exact point of a relaxation's values by column, where one is near
                them; asked only where some column is not integer.
            forms: How many of the program's last rows are integer forms to branch on.
            strong_candidates: Columns that strong branching tries at a node.
        """
        self.program = program
        self.deadline = deadline
        self.exact_point = exact_point
        self.node = Node(program, cutoff.value is not None, forms)
        self.fathomer = Fathomer(self.node, cutoff)
        self.branching = PseudocostBranching(strong_candidates)
        self.nodes = 0
        self.until = math.inf
        self.most_nodes = MOST_NODES
        self.most_depth = float(MOST_DEPTH)
        self.on_node: Optional[Callable[[], None]] = None

    @property
    def cutoff(self) -> Cutoff:
        """What the leaves must show."""
        return self.fathomer.cutoff

    @property
    def cutoff_value(self) -> float:
        """The cutoff in doubles, minimised, with the constant; infinite where there is to be no
        point."""
        return math.inf if self.cutoff.value is None else float(self.cutoff.value)

    @property
    def dual_bound(self) -> float:
        """What no point of the open nodes is better than, minimised, by their relaxations in
        doubles; minus infinity at the root of the whole tree."""
        path = self.node.path
        return least_open_bound(self.node.open_nodes, path[-1].bound if path else -math.inf)

    def set_cutoff(self, cutoff: Cutoff) -> None:
        """Goes on for another cutoff, with whose leaves those that are proved must agree: theirs
        hold for it where it is the value of a better point, or a less demanding one."""
        self.fathomer.set_cutoff(cutoff)

    def run(self) -> Union[ProvedSubtree, ImprovedIncumbent]:
        """Searches the subtree that `node` was moved to, from where it stands.

        Returns:
            The proof of the subtree, or a point that is better than the cutoff. After a point the
            search stands where it found it.

        Raises:
            SearchPaused: Its seconds or nodes are over; it can go on.
            NodeNotClosed: It stands in a node that fails; elsewhere it can go on.
            SearchEnded: It cannot: an interrupt, MOST_NODES, or too deep.
        """
        while True:
            found = self.solve_node(self.node.last_branch())
            if isinstance(found, ImprovedIncumbent):
                return found
            if isinstance(found, Branch):
                self.nodes += 1
                self.node.open_nodes.append(OpenNode(found))
                self.node.apply(found)
                continue
            self.nodes += node_count(found.tree)
            proved = self._backtrack(found)
            if proved is not None:
                return proved

    def _backtrack(self, proved: ProvedSubtree) -> Optional[ProvedSubtree]:
        """Joins what is proved, upwards, until a sibling is still to be searched.

        A branch that the proof does not rest on falls away: then it proves the node above too, and
        `nodes` loses that node and what its sibling had.

        Args:
            proved: The node where the search stands.

        Returns:
            The whole subtree; None where the search now stands in a sibling.
        """
        node = self.node
        while node.open_nodes:
            branch, sibling = node.open_nodes.pop()
            node.undo()
            depth = node.depth
            if depth not in proved.needed_depths:
                self.nodes -= 1 + (node_count(sibling.tree) if sibling is not None else 0)
            elif sibling is not None:
                proved = join(branch, depth, proved, sibling)
            else:
                branch = branch.sibling()
                node.open_nodes.append(OpenNode(branch, proved))
                node.clp.restore_basis(branch.basis)
                node.apply(branch)
                return None
        return proved

    def solve_node(
        self, branch: Optional[Branch]
    ) -> Union[Branch, ProvedSubtree, ImprovedIncumbent]:
        """Solves the node's relaxation, and says what follows from it. At each node, also at one to
        which the search comes back.

        The dual simplex method comes first, and the primal one where that finds neither an optimum
        nor a proof.

        Args:
            branch: That leads to the node; None at the root.

        Returns:
            The branch to search first, or the node's proof, or a better point.

        Raises:
            SearchPaused: The seconds or nodes are over; the node can be solved again.
            NodeNotClosed: CLP finds no end of the relaxation, or no leaf closes.
            SearchEnded: The search cannot go on.
        """
        self.check_limits()
        changed = range(self.program.n) if branch is None else [branch.column]
        column = self.node.column_without_integers(changed)
        if column is not None:
            return self.fathomer.empty_domain(column)
        self.node.clp.seconds = self._seconds_of_solve()
        state = LpStatus.OTHER
        for by_primal in (False, True):
            state = self.node.clp.solve(by_primal=by_primal)
            proved = self.fathomer.by_farkas() if state is LpStatus.INFEASIBLE else None
            if proved is not None:
                return proved
            if state is LpStatus.OPTIMAL:
                return self._after_optimum(branch)
        if state is LpStatus.INFEASIBLE:  # which cannot be proved: CLP's tolerances may be all
            x = [self.node.nearest_to_zero(j) for j in range(self.program.n)]
            return self._branch_or_fathom(x, self.cutoff_value, state)
        self.deadline.check_search(self.nodes, self.until)  # CLP stops where the time is over
        raise NodeNotClosed(f"a relaxation is {state.name.lower()}")

    def _seconds_of_solve(self) -> float:
        """That CLP may take for a relaxation: until the search pauses."""
        return max(self.until - self.deadline.spent(), LEAST_RELAXATION_SECONDS)

    def _after_optimum(
        self, branch: Optional[Branch]
    ) -> Union[Branch, ProvedSubtree, ImprovedIncumbent]:
        """What follows where the relaxation has an optimum: a leaf by its duals where its bound is
        near the cutoff, else a branch.

        From the bound that a branch gained pseudocosts are learnt first.

        Args:
            branch: That leads to the node; None at the root.
        """
        bound = self.node.relaxation_bound()
        if branch is not None:
            gain, distance = bound - branch.bound, branch.distance()
            self.branching.pseudocosts.learn(branch.column, branch.direction, gain, distance)
        cutoff = self.cutoff_value
        if bound >= cutoff - CUTOFF_TOLERANCE * max(1.0, abs(cutoff)):
            proved = self.fathomer.by_duals()
            if proved is not None:
                return proved
        return self._branch_or_fathom(self.node.clp.values(), bound, LpStatus.OPTIMAL)

    def check_limits(self) -> None:
        """Looks at the limits, at each node and each round of a pool; calls `on_node` where the
        progress is due.

        Raises:
            SearchPaused: Seconds or nodes are over; it can go on.
            SearchEnded: It cannot: an interrupt, MOST_NODES, or the node is too deep.
        """
        self.deadline.check_search(self.nodes, self.until)
        if self.nodes >= self.most_nodes:
            if self.most_nodes < MOST_NODES:
                raise NodeLimit(self.most_nodes)
            raise SearchEnded(f"more than {self.most_nodes} nodes")
        if self.node.depth > self.most_depth:
            raise SearchEnded("the tree is too deep")
        if self.on_node is not None and self.deadline.is_progress_due():
            self.on_node()

    def close_and_bound(self) -> float:
        """The least dual bound of what is open, minimised, each node solved once more; this empties
        `node.open_nodes`.

        A node whose relaxation has no optimum has the bound of the node above it; the root may have
        none, which is minus infinity. Infinite: no open node has a point.

        Raises:
            TimeOver: The time of exact work is over.
        """
        node = self.node
        least = self._bound_of_node(node.last_branch())
        while node.open_nodes:
            check_work()
            branch, sibling = node.open_nodes.pop()
            node.undo()
            if sibling is None:
                node.clp.restore_basis(branch.basis)
                with node.trying(branch.sibling()):
                    least = min(least, self._bound_of_node(branch))
        return least

    def _bound_of_node(self, branch: Optional[Branch]) -> float:
        """The dual bound of the node where `node` is, minimised: infinite where it is proved empty.

        Args:
            branch: Whose bound is taken where CLP finds neither; None at the root, which has minus
                infinity.
        """
        if self.node.column_without_integers(range(self.program.n)) is not None:
            return math.inf
        state = self.node.clp.solve()
        if state is LpStatus.OPTIMAL:
            return self.node.relaxation_bound()
        if state is LpStatus.INFEASIBLE and self.fathomer.by_farkas() is not None:
            return math.inf
        return -math.inf if branch is None else branch.bound

    def finish_at_cutoff(self, cutoff: Cutoff) -> Union[ProvedSubtree, ImprovedIncumbent]:
        """What is left of the subtree, at a cutoff that is not better, each open node by few nodes.

        What is proved already holds for that cutoff too. The time does not count, and no progress
        is told: so it stays for this search, which has that cutoff from here on.

        Raises:
            SearchEnded: Where few nodes are not enough (then a SearchPaused), or a leaf does not
                close.
        """
        self.set_cutoff(cutoff)
        self.deadline = SearchDeadline()
        self.until = math.inf
        self.on_node = None
        self.most_depth = math.inf
        self.most_nodes = self.nodes + 2 * len(self.node.open_nodes) + NODES_TO_FINISH
        return self.run()

    def _branch_or_fathom(
        self, x: Sequence[float], bound: float, state: LpStatus
    ) -> Union[Branch, ProvedSubtree, ImprovedIncumbent]:
        """A branching on what is not integer, else what is left to do with an integer point.

        Columns and forms compete where some integer column is not integer; where only forms are
        not, which then is rounding, nothing is branched on.

        Args:
            x: Values of columns; those of large integers are made exact first.
            bound: The dual bound of the node, minimised.
            state: Of the relaxation that x is of: OPTIMAL, or INFEASIBLE without a proof.

        Returns:
            The branch to search first, or the node's proof, or a better point.
        """
        if state is LpStatus.OPTIMAL and self._has_large_integers(x):
            x = self._exact_values(x)
        values = self._with_forms(x)
        distances = self._distances(values)
        fractional = [
            j
            for j, distance in distances.items()
            if distance > self._tolerance(j) and not self._is_settled(j)
        ]
        if fractional and fractional[0] < self.program.n:
            relaxed = Relaxed(values, bound, max(self.cutoff_value - bound, LEAST_GAP))
            column, direction = self.branching.choose(self.node, relaxed, fractional)
            return self._branch(column, values[column], direction, bound)
        if state is LpStatus.OPTIMAL:
            improved = self._improved_incumbent(x)
            if improved is not None:
                return improved
        return self._fathom_integer_point(x, distances, bound, state)

    def _is_settled(self, column: int) -> bool:
        """Whether a column, not a form, is fixed at a whole number in the node: beside a large
        coefficient CLP may still have it at another value, and branching would not move that."""
        if column >= self.program.n:
            return False
        lower, upper = (bounds[column] for bounds in self.node.box)
        return lower is not None and lower == upper and lower % self.program.bound_scale == 0

    def _tolerance(self, column: int) -> float:
        """How far from an integer the value of a column or form counts as one.

        It is INTEGRALITY_TOLERANCE of the column as CLP has it: where that is multiplied, a value
        that is near an integer may be far from it in the rows.
        """
        if column >= self.program.n:
            return INTEGRALITY_TOLERANCE
        return INTEGRALITY_TOLERANCE / min(self.node.clp.column_factors[column], LARGEST_FACTOR)

    def _fathom_integer_point(
        self, x: Sequence[float], distances: Dict[int, float], bound: float, state: LpStatus
    ) -> Union[Branch, ProvedSubtree, ImprovedIncumbent]:
        """Where all integer columns are integer in x, and no better point is known: a proof, or a
        branch on a column that is not fixed.

        CLP's tolerances may hide that there is no better point, and so may what it calls
        infeasible. So columns are branched on that are not fixed, until multipliers show it. Where
        all are fixed, what is left is solved exactly.

        Args:
            x: Values of columns.
            distances: Of integer columns and forms from integers, by number.
            bound: The dual bound of the node, minimised.
            state: OPTIMAL, or INFEASIBLE without a proof: then a point at x is looked for at last.

        Raises:
            NodeNotClosed: All are fixed, and no leaf closes.
        """
        proved = self.fathomer.by_phase_one()
        if proved is not None:
            return proved
        column = self._unfixed_column(distances)
        if column is not None:
            return self._branch(column, x[column], DOWN, bound)
        if state is not LpStatus.OPTIMAL:
            improved = self._improved_incumbent(x)
            if improved is not None:
                return improved
        proved = self.fathomer.by_row()
        if proved is None:
            proved = self.fathomer.by_phase_one(SMALLEST_INFEASIBILITY)
        return self._solve_leaf_exactly() if proved is None else proved

    def _solve_leaf_exactly(self) -> Union[ProvedSubtree, ImprovedIncumbent]:
        """Where all integer columns are fixed, and doubles show nothing: a better point, or a leaf
        by exact multipliers.

        What is left is a linear program, whose optimum in fractions is either better than the
        cutoff, or has duals that reach it. It goes on beyond the second at which the search pauses,
        since it would begin anew else.

        Raises:
            NodeNotClosed: It is not solved exactly, or a certificate cannot hold its numbers.
            SearchPaused: The seconds are over.
        """
        program, n = self.program, self.program.n
        linear = program.with_bounds(self.node.box.lower[:n], self.node.box.upper[:n])
        if self.cutoff.value is None:
            linear = linear.without_costs()
        check = partial(self.deadline.check_search, self.nodes, math.inf)
        ended = exact_end(linear, self.node.clp, check, Deadline(self._seconds_of_solve()))
        if ended is None or ended.status is LpStatus.UNBOUNDED:
            raise NodeNotClosed("a leaf does not close")
        improved = None if ended.point is None else self._improved_by(ended.point)
        if improved is not None:
            return improved
        is_infeasible = ended.status is LpStatus.INFEASIBLE
        kind = MultiplierKind.FARKAS if is_infeasible else MultiplierKind.DUAL
        proved = self.fathomer.by_fractions(ended.multipliers, kind)
        if proved is None:
            raise NodeNotClosed("a leaf does not close")
        return proved

    def _has_large_integers(self, x: Sequence[float]) -> bool:
        """Whether doubles may not tell an integer column's value from its neighbours."""
        return any(
            is_integer and abs(v) >= LARGEST_EXACT_INTEGER
            for v, is_integer in zip(x, self.program.is_integer)
        )

    def _exact_values(self, x: Sequence[float]) -> Sequence[float]:
        """The vertex of the basis in fractions, else x with exact bounds where it is at these.

        It is for integer columns beyond LARGEST_EXACT_INTEGER. The fractions stand in place of
        doubles from there on.
        """
        n, node = self.program.n, self.node
        linear = self.program.with_bounds(node.box.lower[:n], node.box.upper[:n])
        linear = linear.with_integers([False] * n)
        found = vertex(linear, node.clp.basis(), x)
        if found is not None:
            return found  # type: ignore[return-value]
        at_bounds: List[Union[float, Fraction]] = [
            next((end for end in linear.finite_bounds(j) if float(end) == v), v)
            for j, v in enumerate(x)
        ]
        return at_bounds  # type: ignore[return-value]

    def _with_forms(self, x: Sequence[float]) -> Dict[int, float]:
        """Values of the columns, and of the forms behind them, by number, in their own units."""
        values = dict(enumerate(x))
        for form in self.node.forms:
            entries = self.node.entries(form)
            values[form] = sum(a // self.program.row_scale * x[k] for k, a in entries)
        return values

    def _distances(self, values: Dict[int, float]) -> Dict[int, float]:
        """How far integer columns, and forms, are from integers, by number; other columns are left
        out.

        Args:
            values: As `_with_forms` has them.
        """
        return {
            j: abs(v - round(v))
            for j, v in values.items()
            if j >= self.program.n or self.program.is_integer[j]
        }

    def _improved_incumbent(self, x: Sequence[float]) -> Optional[ImprovedIncumbent]:
        """The exact point at x, where it is feasible in the searched program and better than the
        cutoff.

        It is the rounded x where all columns are integer, else what `exact_point` makes of it.
        """
        program = self.program
        if all(program.is_integer):
            point: Optional[Point] = [Fraction(round(v)) for v in x]
        else:
            point = self.exact_point(x)
        return None if point is None else self._improved_by(point)

    def _improved_by(self, point: Point) -> Optional[ImprovedIncumbent]:
        """The point, where it is feasible in the searched program and better than the cutoff.

        Where the cutoff has a value, a point that a certificate cannot hold does not count: a leaf
        is closed for a value that is a little worse than that of the best one that can be told.
        """
        is_told = self.cutoff.value is None or all(map(fits_certificate, point))
        if not is_told or not self.program.is_feasible(point):
            return None
        value = self.program.value(point)
        return ImprovedIncumbent(point, value) if self.cutoff.is_improved_by(value) else None

    def _unfixed_column(self, distances: Dict[int, float]) -> Optional[int]:
        """An integer column that is not fixed; None where all are.

        The one that is farthest from an integer, then one with a cost, then the one with the
        nearest bounds: the others are rounded by what it is.
        """
        lower, upper = self.node.box

        def rank(column: int) -> tuple[float, bool, float]:
            """What is greatest is branched on: the distance, whether it has a cost, and the width
            of its bounds, negative."""
            low, high = lower[column], upper[column]
            width = math.inf if low is None or high is None else float(high - low)
            return distances[column], bool(self.program.cost_fractions[column]), -width

        unfixed = [
            j
            for j in distances
            if j < self.program.n and (lower[j] is None or lower[j] != upper[j])
        ]
        return max(unfixed, key=rank) if unfixed else None

    def _branch(self, column: int, value: float, direction: int, bound: float) -> Branch:
        """The branch on a column or form at its value, in that direction; one of both parts may be
        empty, but never both.

        Bounds of integer columns need not be integers. So the two branches meet where both have
        room as far as that goes. CLP's basis at the time goes with it.

        Args:
            bound: The dual bound of the node, minimised.
        """
        low, high = self.node.box.lower[column], self.node.box.upper[column]
        unit = self.program.bound_scale
        at = math.floor(value + ROUNDING_TOLERANCE)
        if column < self.program.n:
            if high is not None:
                at = min(at, -(-high // unit) - 1)
            if low is not None:
                at = max(at, low // unit)
        return Branch(column, at, direction, float(value), bound, self.node.clp.saved_basis())
