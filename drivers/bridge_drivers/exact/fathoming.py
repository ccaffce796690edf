"""Proofs that a node has no point better than the cutoff, as leaves of the tree.

A leaf is fathomed by dual multipliers whose bound reaches the cutoff, or by Farkas multipliers,
which prove that the node has no point at all (`dual_bound`). What the bound has beyond the cutoff
is used up: bounds of branches are given back where the file's own bound will do, so that the leaf
rests on fewer branches, and then multipliers are left out that it does not need.

`BranchAndBound` has one `Fathomer`, which it asks at each node that may be closed, and whose
`Cutoff` says what the leaves are to show.
"""

from __future__ import annotations

from fractions import Fraction
from typing import Callable, List, Mapping, NamedTuple, Optional, Sequence, Tuple

from ..model.integer_form import Box, IntegerProgram
from .clp import Clp, LpStatus
from .dual_bound import MultiplierKind, Multipliers
from .leaf_proofs import LeafProof, LeafProver, basis_duals, phase_one_duals
from .node import Node, ProvedSubtree
from .relaxation import PHASE_ONE_TOLERANCE, phase_one
from .tree import EmptyDomain, leaf_of

LEAST_INFEASIBILITY = 1e-9  # of phase one, for a contradiction
SMALLEST_INFEASIBILITY = 1e-14  # the same where nothing else is left to try
EXACT_DECIMALS = (9, 12, 15, 18)  # of exact multipliers that are rounded
MOST_ENTRIES_BY_ROW = 10**6  # rows times columns of a program whose single rows are tried

# Of a program, the basic columns and the rows that are not basic of a basis: its duals by row, None
# where they are not found.
ExactDuals = Callable[
    [IntegerProgram, Sequence[int], Sequence[int]], Optional[Mapping[int, Fraction]]
]


class Cutoff(NamedTuple):
    """What the leaves of a search must show.

    Attributes:
        value: The bound that duals must reach, minimised; None: there is to be no point at all.
        is_strict: Whether the bound must exceed it.
    """

    value: Optional[Fraction]
    is_strict: bool = False

    def is_improved_by(self, objective: Fraction) -> bool:
        """Whether a feasible point of this objective, minimised, is what the leaves are to exclude.

        That is a point below `value`, or at it where `is_strict`, and any point where there is no
        `value`. A search ends with such a point.
        """
        if self.value is None:
            return True
        return objective < self.value or self.is_strict and objective == self.value


class BoundUse(NamedTuple):
    """A bound that a branch gave and that a leaf rests on.

    Attributes:
        depth: Of the branch: 0 for the one at the root of the tree. Each branch gives one bound.
        column: Whose bound it is; from `n` on a form.
        reduced_cost: Of the column, as in `LeafProof.reduced_costs`; of a form the numerator of
            its row's multiplier. Above 0 the leaf rests on the lower bound, below 0 on the upper.
    """

    depth: int
    column: int
    reduced_cost: int


class Fathomer:
    """Finds leaves for the node where a search stands.

    Each way to a leaf returns it with the depths of the branches that it rests on, or None where
    that way shows nothing; what it returns is proved in whole numbers.

    Attributes:
        node: That of the search, which moves it.
        cutoff: What leaves are to show.
        prover: Judges multipliers by that cutoff.
    """

    def __init__(self, node: Node, cutoff: Cutoff) -> None:
        self.node = node
        self.program = node.program
        self._phase_one: Optional[Clp] = None
        self.set_cutoff(cutoff)

    def set_cutoff(self, cutoff: Cutoff) -> None:
        """Makes `cutoff` and `prover` those for the leaves from here on.

        At the start, and where a stopped search is finished at a cutoff that is less demanding.
        """
        self.cutoff = cutoff
        self.prover = LeafProver(self.program, cutoff.value, cutoff.is_strict)

    def by_duals(self) -> Optional[ProvedSubtree]:
        """A leaf by the duals of the node's relaxation, which CLP has just solved to its optimum.

        The roundings of CLP's duals are tried first, then the exact duals of its basis. Asked for
        where the relaxation's optimum reaches the cutoff in doubles.
        """
        proof = self._proof_of(self.node.clp, MultiplierKind.DUAL, basis_duals)
        return None if proof is None else self._proved(proof)

    def by_farkas(self) -> Optional[ProvedSubtree]:
        """A leaf by Farkas multipliers, where CLP has called the node's relaxation infeasible.

        They are CLP's ray, with both signs since CLP does not say which is right, else what
        `by_phase_one` finds.
        """
        ray = self.node.clp.farkas_multipliers()
        for sign in (1, -1):
            multipliers = {row: sign * v for row, v in enumerate(ray)}
            proof = self.prover.prove_from_doubles(
                multipliers, MultiplierKind.FARKAS, self.node.box
            )
            if proof is not None:
                return self._proved(proof)
        return self.by_phase_one()

    def by_row(self) -> Optional[ProvedSubtree]:
        """A leaf by the first row that misses one of its bounds at all points of the node's box.

        The row has the Farkas multiplier 1 or -1; other rows come in where a column lacks a bound
        that this needs. Asked for where all integer columns are fixed, and neither a better
        point nor a violation in phase one is seen. Not tried where the program has more than
        MOST_ENTRIES_BY_ROW rows times columns.
        """
        program = self.program
        if program.m * program.n > MOST_ENTRIES_BY_ROW:
            return None
        for row in range(program.m):
            for bound, sign in ((program.row_lower[row], 1), (program.row_upper[row], -1)):
                if bound is None:
                    continue
                multipliers = Multipliers({row: sign}, 1, MultiplierKind.FARKAS)
                proof = self.prover.prove(multipliers, self.node.box)
                if proof is not None:
                    return self._proved(proof)
        return None

    def by_fractions(
        self, multipliers: Mapping[int, Fraction], kind: MultiplierKind
    ) -> Optional[ProvedSubtree]:
        """A leaf by exact multipliers, or by roundings of them, which are shorter.

        Asked for where the node was solved exactly. Roundings of doubles come first, and those to
        many decimals where a certificate cannot hold the exact ones: of multipliers of very
        different sizes doubles do not have as many.

        Args:
            multipliers: By row, minimised.
        """
        doubles = {row: float(v) for row, v in multipliers.items()}
        proof = self.prover.prove_from_doubles(doubles, kind, self.node.box)
        if proof is None:
            proof = self.prover.prove_from_fractions(multipliers, kind, self.node.box)
        for places in EXACT_DECIMALS if proof is None else ():
            unit = Fraction(1, 10**places)
            rounded = {row: round(v / unit) * unit for row, v in multipliers.items()}
            proof = self.prover.prove_from_fractions(rounded, kind, self.node.box)
            if proof is not None:
                break
        return None if proof is None else self._proved(proof)

    def by_phase_one(self, least: float = LEAST_INFEASIBILITY) -> Optional[ProvedSubtree]:
        """A leaf by the duals of phase one, which minimises by how much rows are violated.

        They are Farkas multipliers: the roundings of CLP's duals, else the exact duals of its
        basis.

        Args:
            least: The optimum of phase one from which on multipliers are tried: the sum of the
                violations, that of each row over its `row_unit`. CLP's tolerance is at most this.
        """
        clp = self._phase_one_in_node()
        clp.set_tolerance(min(PHASE_ONE_TOLERANCE, least))
        if clp.solve() is not LpStatus.OPTIMAL or clp.objective() < least:
            return None
        proof = self._proof_of(clp, MultiplierKind.FARKAS, phase_one_duals)
        return None if proof is None else self._proved(proof)

    def empty_domain(self, column: int) -> ProvedSubtree:
        """The proof at a node where this integer column has no integer between its two bounds.

        Multipliers do not see that, a split disjunction on the column does. The proof rests on the
        branches that gave the two bounds. Asked for before the relaxation is solved.
        """
        upper = self.node.box.upper[column]
        assert upper is not None
        depths = [part[column] for part in self.node.bound_depths]
        return ProvedSubtree(
            [EmptyDomain(column, upper // self.program.bound_scale)],
            frozenset(depth for depth in depths if depth is not None),
        )

    def _phase_one_in_node(self) -> Clp:
        """CLP's phase one of the program with the node's bounds of columns and forms, not solved.

        It is made once and keeps its last basis.
        """
        node, program = self.node, self.program
        if self._phase_one is None:
            self._phase_one = phase_one(program)
        lower, upper = ([program.bound_as_double(bound) for bound in part] for part in node.box)
        for column in range(program.n):
            self._phase_one.set_bounds(column, lower[column], upper[column])
        for form in node.forms:
            self._phase_one.set_row_bounds(form - program.n, lower[form], upper[form])
        return self._phase_one

    def _proof_of(
        self, clp: Clp, kind: MultiplierKind, exact_duals: ExactDuals
    ) -> Optional[LeafProof]:
        """A proof at the node by the roundings of CLP's duals, else by the exact ones of its basis.

        Args:
            clp: The relaxation or phase one, at its optimum.
            kind: DUAL for the relaxation, FARKAS for phase one.
            exact_duals: `basis_duals` or `phase_one_duals`, as fits `clp`.
        """
        duals = dict(enumerate(clp.duals()))
        proof = self.prover.prove_from_doubles(duals, kind, self.node.box)
        if proof is not None:
            return proof
        exact = exact_duals(self.program, *clp.basis())
        return self.prover.prove_from_fractions(exact, kind, self.node.box)

    def _proved(self, proof: LeafProof) -> ProvedSubtree:
        """The node as it is closed by a proof: its leaf, and the depths of branches that it needs.

        The proof's surplus is spent first on giving bounds of branches back, the deepest first,
        then on leaving out multipliers.
        """
        program = self.program
        kept, surplus = self._without_needless_bounds(proof)
        box = Box(*(self._kept_bounds(kept, is_upper) for is_upper in (0, 1)))
        proof = self.prover.sparsified(proof._replace(surplus=surplus), box)
        added = (row for row in proof.multipliers.numerators if row >= program.constraint_count)
        depths = {use.depth for use in self._bounds_used(proof)}
        return ProvedSubtree([leaf_of(proof.multipliers, added)], frozenset(kept & depths))

    def _without_needless_bounds(self, proof: LeafProof) -> Tuple[set[int], int]:
        """The branches that a proof rests on, when it spends its surplus on the file's own bounds.

        A column whose bound goes back to the file's own one lowers the dual bound by its reduced
        cost times the difference. The deepest branches are given back first; a bound of a form, or
        one that the file does not have, is never given back.

        Returns:
            The depths of the branches that are kept, and the surplus that is left, in the units of
            `LeafProof.surplus`.
        """
        program, surplus = self.program, proof.surplus
        used = self._bounds_used(proof)
        kept = {use.depth for use in used}
        for depth, column, reduced_cost in sorted(used, reverse=True):
            if column >= program.n:
                continue
            lower_or_upper = 0 if reduced_cost > 0 else 1
            own = (program.lower, program.upper)[lower_or_upper][column]
            bound = self.node.box[lower_or_upper][column]
            if own is None or bound is None:
                continue
            loss = reduced_cost * (bound - own)
            if loss <= surplus:
                surplus -= loss
                kept.discard(depth)
        return kept, surplus

    def _kept_bounds(self, kept: set[int], is_upper: int) -> List[Optional[int]]:
        """Bounds by column, over `bound_scale`: the node's where a kept branch gave it, else the
        file's own.

        Args:
            kept: Depths of branches.
            is_upper: 1 for the upper bounds, 0 for the lower ones: the place in a `Box`.
        """
        own_bounds = (self.program.lower, self.program.upper)[is_upper]
        node_bounds, depths = self.node.box[is_upper], self.node.bound_depths[is_upper]
        return [
            bound if depth in kept else own
            for bound, depth, own in zip(node_bounds, depths, own_bounds)
        ]

    def _bounds_used(self, proof: LeafProof) -> List[BoundUse]:
        """The bounds of branches that a proof at the node rests on; the file's own are left out.

        The sign of a column's reduced cost, or of the multiplier of a form's row, says which of
        its two bounds counts.
        """
        lower_depths, upper_depths = self.node.bound_depths
        n, numerators = self.program.n, proof.multipliers.numerators
        used = [(j, cost) for j, cost in enumerate(proof.reduced_costs) if cost]
        used += [(j, numerators[j - n]) for j in self.node.forms if j - n in numerators]
        found = []
        for column, cost in used:
            depth = lower_depths[column] if cost > 0 else upper_depths[column]
            if depth is not None:
                found.append(BoundUse(depth, column, cost))
        return found
