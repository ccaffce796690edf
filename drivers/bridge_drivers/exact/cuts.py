"""Cuts at the root, one below the other, each with a proof of its own, which shorten the tree.

Where the objective is a multiple of a spacing at all integer points, a split disjunction on it
comes first: in the branch that is better than the cutoff all leaves are Farkas leaves, and the
other branch is proved at once. Below it come cuts in rounds: of the relaxation's optimum those that
it violates most. A clique cut is kept where a small tree refutes its violators, that is, proves
that there is no point beyond it. An MIR cut has its proof with it (`mir`). `portfolio` runs a
`RootCutLoop` bit by bit beside its searches, and writes each tree by `CertificateWithCuts`.
"""

from __future__ import annotations

import enum
import math
from fractions import Fraction
from typing import Dict, FrozenSet, Iterator, List, Mapping, NamedTuple, Optional, Sequence, Union

from .search_deadline import SearchDeadline
from ..model.integer_form import IntegerProgram, ObjectiveLattice, Row
from ..system.errors import SearchEnded
from . import certificate
from .certificate import ObjectiveRow, RowNumbering
from .cliques import CliqueCut, clique_cuts
from .clp import Clp, LpStatus
from .dual_bound import MultiplierKind
from .fathoming import Cutoff
from .mir import MIRCut, MIRProof, prove_mir_cut
from .mir_separation import MIRSeparator
from .relaxation import relaxation
from .search import BranchAndBound, ImprovedIncumbent
from .tree import Tree, node_count, rows_used

MOST_ROUNDS = 30
CLIQUES_OF_A_ROUND = 20
MIR_CUTS_OF_A_ROUND = 40
MOST_STALLED_ROUNDS = 10
LEAST_GAP_SHARE = 1e-3  # that a round closes, else it is stalled
LEAST_VIOLATION = 1e-3
LARGEST_COSINE_SQUARED = 0.81  # of the angle between two cuts of one round
CLOSED_GAP = 1e-9  # of the bound beyond the cutoff, where no more cuts are wanted
REFUTING_NODES = 12
REFUTING_SECONDS = 2.0
REFUTING_CANDIDATES = 4  # of strong branching

Cut = Union[CliqueCut, MIRCut]


class CutKind(enum.Enum):
    """By which separator a cut is found; a strategy of the `portfolio` has a set of these."""

    MIR = "mir"
    CLIQUE = "clique"


class ProvedCut(NamedTuple):
    """A cut at the root: the columns times `coefficients` are at most `rhs`.

    Attributes:
        coefficients: By column, those that are not 0.
        proof: Of a clique cut the tree that there is no point at least `rhs + 1`; of an MIR cut the
            two leaves of its split disjunction. It may rest on the file's rows, on that of the
            objective and on cuts before this one.
    """

    coefficients: Dict[int, int]
    rhs: int
    proof: Union[Tree, MIRProof]

    def row(self) -> Row:
        """The cut as a row that is added to a program."""
        return Row(self.coefficients, None, self.rhs)

    def trees(self) -> Sequence[Tree]:
        """The trees of its proof, for the rows that they use; of an MIR cut one for each leaf."""
        if isinstance(self.proof, MIRProof):
            return [self.proof.low], [self.proof.high]
        return (self.proof,)

    def nodes(self) -> int:
        """How many nodes of a certificate it takes: the cut itself, and its proof."""
        return 1 + (3 if isinstance(self.proof, MIRProof) else node_count(self.proof))


class ObjectiveCutoff:
    """A value that no point is to be better than, as the search below the objective's row has it.

    Attributes:
        value: Minimised, with the constant, and on the lattice where there is one; None: there is
            to be no point.
        lattice: Of the objective; None where it has none.
        rhs: The greatest k for which the constant and k times the lattice's spacing are better; 0
            without a lattice or a value.
        cutoff: For the leaves. Below the row to exceed the next better value on the lattice will
            do, since each point below it is at least as good as that; without a lattice they reach
            the value.
        rows: Where there is a lattice, the row `better than the value` alone: the lattice's form is
            at most `rhs`.
    """

    def __init__(
        self,
        program: IntegerProgram,
        value: Optional[Fraction],
        lattice: Optional[ObjectiveLattice],
    ) -> None:
        """
        Args:
            program: Whose constant the objective has.
            value: As the attribute.
            lattice: That of the program.
        """
        self.value = value
        self.lattice = lattice
        self.rhs = 0
        self.cutoff = Cutoff(value)
        self.rows: List[Row] = []
        if lattice is not None:
            if value is not None:
                steps = (value - program.constant_fraction) / lattice.spacing
                self.rhs = math.ceil(steps) - 1
                self.cutoff = Cutoff(value - lattice.spacing, is_strict=True)
            self.rows = [Row(lattice.coefficients, None, self.rhs)]

    def open_rows(self) -> List[Row]:
        """`rows` in the same places, but without their bound.

        Relaxations and searches stand below these: so their dual bounds can come beyond the value.
        """
        return [Row(row.coefficients) for row in self.rows]


class Relaxed(NamedTuple):
    """A relaxation that was solved to its optimum, with the program that it is of.

    Attributes:
        program: Behind the file's rows it has the objective's, without its bound, and the cuts.
    """

    program: IntegerProgram
    clp: Clp


class RootCutLoop:
    """Makes cuts for a cutoff, as long as the deadline says.

    Attributes:
        program: Without the objective's row and cuts.
        dual_bound: Of the last relaxation that had an optimum, minimised, with the constant, in
            doubles; minus infinity before.
        cutoff: That of the leaves, minimised, in doubles; infinite where there is to be no point.
        most_stalled: How many rounds in a row may gain next to nothing.
    """

    def __init__(
        self, program: IntegerProgram, objective: ObjectiveCutoff, deadline: SearchDeadline
    ) -> None:
        """
        Args:
            objective: What no point is to be better than; its row stands above all cuts.
            deadline: Is asked at each cut, and told the progress.
        """
        self.program = program
        self.deadline = deadline
        self.dual_bound = -math.inf
        self.set_objective(objective)
        self.most_stalled = MOST_STALLED_ROUNDS if any(program.costs) else MOST_ROUNDS

    def set_objective(self, objective: ObjectiveCutoff) -> None:
        """Goes on for another value, which is better: cuts that are proved hold for it too."""
        self.objective = objective
        value = objective.cutoff.value
        self.cutoff = math.inf if value is None else float(value)

    def solve_relaxation(self, cuts: Sequence[ProvedCut]) -> Optional[Relaxed]:
        """The relaxation under these cuts, solved; None where it has no optimum.

        Sets `dual_bound`, and tells the progress of it where that is due.
        """
        program = self.program.with_rows(
            [*self.objective.open_rows(), *(cut.row() for cut in cuts)]
        )
        clp = relaxation(program)
        if clp.solve() is not LpStatus.OPTIMAL:
            return None
        self.dual_bound = clp.objective() + float(self.program.constant_fraction)
        if self.deadline.is_progress_due() and any(self.program.costs):
            self.deadline.tell_numbers(cuts=len(cuts), bound=self.program.sign * self.dual_bound)
        return Relaxed(program, clp)

    def is_over(self, until: float) -> bool:
        """Whether an interrupt came, or that second of the deadline (as `spent` counts) is over."""
        return self.deadline.spent() > until or self.deadline.is_interrupted

    def closed_share(self, root_bound: float) -> float:
        """The share of the gap between a bound without cuts and the cutoff that is closed now.

        It is 0 where the cutoff is infinite, and may exceed 1.

        Args:
            root_bound: The dual bound without cuts, minimised.
        """
        return (self.dual_bound - root_bound) / max(self.cutoff - root_bound, CLOSED_GAP)

    def run(
        self, kinds: FrozenSet[CutKind], before: Sequence[ProvedCut], until: float
    ) -> List[ProvedCut]:
        """Rounds of cuts, until they close the gap, gain no more, or the time is over.

        A round that closes less than LEAST_GAP_SHARE of what is left of the gap is stalled: after
        more than `most_stalled` in a row, or a round without a new cut, there is no other one. Sets
        `dual_bound` in each round.

        Args:
            kinds: Of the cuts that are looked for.
            before: Cuts that are there already; the list stays as it is.
            until: The second of the deadline at which it ends.

        Returns:
            Those of before, and new ones below them: each is proved by those before it.
        """
        cuts = list(before)
        seen = {_key(cut.coefficients, cut.rhs) for cut in cuts}
        stalled, last_bound = 0, -math.inf
        for _ in range(MOST_ROUNDS):
            relaxed = self.solve_relaxation(cuts)
            least_gain = LEAST_GAP_SHARE * (self.cutoff - self.dual_bound)
            stalled = stalled + 1 if self.dual_bound - last_bound < least_gain else 0
            is_closed = self.dual_bound >= self.cutoff + CLOSED_GAP
            if relaxed is None or is_closed or stalled > self.most_stalled:
                break
            last_bound, size = self.dual_bound, len(cuts)
            self._add_round(relaxed, kinds, cuts, seen, until)
            if len(cuts) == size or self.is_over(until):
                break
        return cuts

    def _add_round(
        self,
        relaxed: Relaxed,
        kinds: FrozenSet[CutKind],
        cuts: List[ProvedCut],
        seen: set[object],
        until: float,
    ) -> None:
        """Adds to `cuts` what one round proves, without cuts that are nearly parallel.

        Args:
            relaxed: That of the cuts so far: its optimum is what new ones are to cut off.
            cuts: All so far.
            seen: Keys of all cuts that were tried in any round, to which those of this one are
                added: none is tried twice.
            until: The second of the deadline at which it ends.
        """
        used: List[Mapping[int, int]] = []
        for cut in self._candidates(relaxed, kinds, used, until):
            if self.is_over(until):
                break
            key = _key(cut.coefficients, cut.rhs)
            if key in seen:
                continue
            seen.add(key)
            if any(is_parallel(cut.coefficients, other) for other in used):
                continue
            if self._prove(cut, cuts, relaxed.program):
                used.append(cut.coefficients)

    def _candidates(
        self,
        relaxed: Relaxed,
        kinds: FrozenSet[CutKind],
        used: Sequence[object],
        until: float,
    ) -> Iterator[Cut]:
        """The cuts that a round may try: clique cuts, then MIR cuts, of each the deepest first.

        It goes on until the caller has proved CLIQUES_OF_A_ROUND of the former, and then
        MIR_CUTS_OF_A_ROUND of the latter.

        Args:
            used: The cuts that are proved in this round, to which the caller adds while it takes
                candidates; only how many they are is looked at.
            until: The second of the deadline at which no more MIR cuts are looked for.
        """
        x = relaxed.clp.values()
        cliques: List[CliqueCut] = []
        if CutKind.CLIQUE in kinds:
            found = clique_cuts(relaxed.program, x)
            cliques = [cut for cut in found if cut.violation > LEAST_VIOLATION]
        for cut in sorted(cliques, key=lambda cut: -_efficacy(cut)):
            if len(used) >= CLIQUES_OF_A_ROUND:
                break
            yield cut
        most = len(used) + MIR_CUTS_OF_A_ROUND
        if CutKind.MIR not in kinds:
            return
        separator = MIRSeparator(relaxed.program, relaxed.clp, x)
        for mir_cut in separator.cuts(lambda: self.is_over(until)):
            if len(used) >= most:
                break
            yield mir_cut

    def _prove(self, cut: Cut, cuts: List[ProvedCut], program: IntegerProgram) -> bool:
        """Proves a cut by those so far and adds it to them; whether that was done.

        Before a clique cut its smaller ones are proved and added, which stay where it fails.

        Args:
            cuts: All so far, of this round too.
            program: Of the relaxation that the cut was found by, whose rows an MIR proof uses.
        """
        if isinstance(cut, MIRCut):
            proof = prove_mir_cut(program, cut)
            if proof is not None:
                cuts.append(ProvedCut(cut.coefficients, cut.rhs, proof))
            return proof is not None
        for one in (*cut.smaller, cut):
            is_there = any(
                known.coefficients == one.coefficients and known.rhs == one.rhs for known in cuts
            )
            if one is cut or not is_there:
                tree = self.refute_violators(one, cuts)
                if tree is None:
                    return False
                cuts.append(ProvedCut(one.coefficients, one.rhs, tree))
        return True

    def refute_violators(self, cut: CliqueCut, cuts: Sequence[ProvedCut]) -> Optional[Tree]:
        """A tree that no point better than the cutoff is beyond the cut, that is, at least rhs + 1.

        It stands below the objective's row and the cuts so far, and all its leaves are Farkas
        multipliers. None where it needs more than REFUTING_NODES or REFUTING_SECONDS, or there is
        such a point.
        """
        rows = [
            *self.objective.rows,
            *(known.row() for known in cuts),
            Row(cut.coefficients, cut.rhs + 1),
        ]
        search = BranchAndBound(
            self.program.with_rows(rows),
            Cutoff(None),
            self.deadline,
            strong_candidates=REFUTING_CANDIDATES,
        )
        search.until = self.deadline.spent() + REFUTING_SECONDS
        search.most_nodes = REFUTING_NODES
        try:
            found = search.run()
        except SearchEnded:
            return None
        return None if isinstance(found, ImprovedIncumbent) else found.tree


def _key(coefficients: Mapping[int, int], rhs: int) -> object:
    """What is equal for equal cuts alone, and can stand in a set."""
    return (tuple(sorted(coefficients.items())), rhs)


def _efficacy(cut: CliqueCut) -> float:
    """The Euclidean distance of the relaxation's optimum from the cut, which it violates."""
    return cut.violation / math.hypot(*cut.coefficients.values())


def is_parallel(a: Mapping[int, int], b: Mapping[int, int]) -> bool:
    """Whether the squared cosine of the angle between two cuts is above LARGEST_COSINE_SQUARED.

    Args:
        a: Coefficients of one cut by column.
        b: Those of the other.
    """
    product = sum(v * b.get(j, 0) for j, v in a.items())
    sizes = sum(v * v for v in a.values()), sum(v * v for v in b.values())
    return product**2 > LARGEST_COSINE_SQUARED * sizes[0] * sizes[1]


class CertificateWithCuts:
    """The certificate's text from the tree on, of a tree below cuts.

    Cuts that neither the tree nor the proof of a kept cut uses are left out.

    Attributes:
        numbers: By row of the searched program, the number that a cut has in the text.
        kept: By that number, the cuts of the text, in their order.
        end: The next number: that of the first disjunction in the tree.
    """

    def __init__(
        self,
        program: IntegerProgram,
        searched: IntegerProgram,
        objective: ObjectiveCutoff,
        cuts: Sequence[ProvedCut],
        tree: Tree,
    ) -> None:
        """Decides which cuts are kept.

        Args:
            program: The file's.
            searched: That of the tree: with the objective's row, the cuts and the forms.
            objective: What the tree proves.
            cuts: All that the tree stands below, in the order of their rows.
            tree: The whole of it.
        """
        self.program = program
        self.searched = searched
        self.objective = objective
        self.tree = tree
        first = program.m + len(objective.rows)
        used = rows_used(tree)
        for place in range(len(cuts) - 1, -1, -1):
            if first + place in used:
                used.update(*map(rows_used, cuts[place].trees()))
        kept = [place for place in range(len(cuts)) if first + place in used]
        self.numbers = {first + place: first + k for k, place in enumerate(kept)}
        self.kept = {first + k: cuts[place] for k, place in enumerate(kept)}
        self.end = first + len(kept)

    def nodes(self) -> int:
        """How many nodes the text has: of the objective's split and leaf, the cuts and the tree."""
        of_objective = 2 * len(self.objective.rows)
        return node_count(self.tree) + of_objective + sum(cut.nodes() for cut in self.kept.values())

    def lines(self) -> Iterator[str]:
        """The lines of all nodes, without ends, for a certificate whose claim stands before them.

        The objective's split, the cuts, the tree, the trees of clique cuts from the deepest, and
        the leaf of the objective's other branch. A clique cut is a split disjunction, whose upper
        branch its own tree refutes; an MIR cut has its proof behind it.
        """
        lattice = self.objective.lattice
        if lattice is not None:
            yield from certificate.disjunction_lines(lattice.coefficients, self.objective.rhs)
        refuting: List[tuple[int, Tree]] = []
        for number, (coefficients, rhs, proof) in self.kept.items():
            if isinstance(proof, MIRProof):
                numbers = {**self.numbers, proof.row: number}
                yield from certificate.cut_lines(coefficients, rhs, proof, numbers)
            else:
                yield from certificate.disjunction_lines(coefficients, rhs)
                refuting.append((number + 1, proof))
        row = self.program.m
        objective_row = None if lattice is None else ObjectiveRow(row, lattice.spacing)
        yield from self._tree_lines(self.tree, self.end, objective_row)
        for first, tree in reversed(refuting):
            yield from self._tree_lines(tree, first)
        if lattice is not None:
            dual = self.program.sign * lattice.spacing
            yield from certificate.multiplier_lines({row: dual}, MultiplierKind.DUAL)

    def _tree_lines(
        self, tree: Tree, first: int, objective_row: Optional[ObjectiveRow] = None
    ) -> Iterator[str]:
        """The lines of one tree of the text.

        Args:
            first: The number of the first row that it may add.
            objective_row: Above it, where its leaves may be duals; None: all are Farkas
                multipliers, or there is no such row.
        """
        naming = RowNumbering(self.numbers, first, self.program.sign, objective_row)
        return certificate.tree_lines(self.searched, tree, naming)
