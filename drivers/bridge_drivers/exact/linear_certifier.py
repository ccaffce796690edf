"""What is true of a linear program: its exact optimum, from short numbers, from a basis, or by the
simplex method in fractions; else a point and a bound in short numbers.

`Certifier` has one `LinearCertifier`, which it asks where the program has no integer columns; the
certifier of integer programs adds bounds of the relaxation by it. What is tried is yielded as
evidence, proved or not, of which the caller takes the first that is proved. Short numbers are such
as a certificate can hold, in few digits.
"""

from __future__ import annotations

import itertools
from fractions import Fraction
from typing import Iterable, Iterator, List, Mapping, NamedTuple, Optional, Sequence

from .short_duals import NO_MULTIPLIERS, ShortDuals, box_bound, rounded_duals, short_duals
from .short_points import NEAR_OF_DOUBLES, NEAR_OF_EXACT, fixed_points, point_fits, short_point
from ..model.integer_form import Box, IntegerProgram, Point
from ..system.deadline import Deadline
from ..system.errors import NotSolved, TooManyBits
from . import points
from .basis import IterativeRefinement, NearBasis, Optimum, can_lift, exact_optimum
from .clp import Clp, LpStatus
from .dual_bound import MultiplierKind, dual_bound, fits_certificate
from .evidence import NO_POINT, AnswerByPlace, Evidence, Number
from .evidence_store import too_wide_note
from .leaf_proofs import LeafProof, LeafProver, basis_duals, from_fractions
from .rational_simplex import is_small
from .refutations import Refuter
from .row_system import BASE_BITS
from .task import CertificationTask, ExactAnswer

LARGE_ENTRIES = 3000  # from which on bases come first, where SciPy is there
MOST_REFINED_ENTRIES = 200_000  # of a program whose bases are refined
SHORT_SECONDS = 6.0  # of the processor, for a short point, and again for short duals
SHORT_ENTRIES_PER_SECOND = 50_000  # coefficients of a large program that have a second each
LARGE_SHORT_ENTRIES = 200_000  # from which on duals are rounded as they are, too
SHORT_ROUNDS = 2  # of refinement, where no exact basis is looked for: some 1e-27
NEAR_ENOUGH = Fraction(1, 10**9)  # of the value, or of 1: between a point and a bound
MOST_ASKED_ENTRIES = 50_000  # of a program that another one is asked to solve in fractions
EXACT_SHARE = 0.25  # of the time that is left, for that
MOST_ASKED_SECONDS = 30.0
SIMPLEX_SECONDS = 3.0  # of the simplex method in fractions, where short numbers are near already


class NearOptimum(NamedTuple):
    """What short numbers are made of: a point and duals that are optimal, or nearly so.

    Attributes:
        point: By column, over 2 to the power of `row_system.BASE_BITS`.
        duals: By row, minimised, over the same.
        near: A share of a bound's size, or of 1, within which it counts as met.
    """

    point: Sequence[int]
    duals: Sequence[int]
    near: float


class LinearCertifier:
    """Certifies one linear program, in an order in which what is likely comes first.

    Attributes:
        store: Points and bounds that are known, to which all is added, and the note that says why
            no exact optimum is claimed. Where there is a note, no more bases are tried.
        refuter: Of the same program: shows that it has no point, or no bound.
        optimum: The exact one, where a basis had it, whether it fits a certificate or not.
        refinement: Of the last bases that were tried; None: there was none.
        is_refuting: A refutation was tried; what is found by it does not begin another one.
    """

    def __init__(self, task: CertificationTask, refuter: Refuter) -> None:
        self.task = task
        self.program = task.program
        self.store = task.store
        self.refuter = refuter
        self.optimum: Optional[Optimum] = None
        self.refinement: Optional[IterativeRefinement] = None
        self.is_refuting = False

    def certify_from_point(self, point: Point) -> Iterator[Evidence]:
        """What is proved from a feasible point, as of an answer with these values alone.

        The point goes to the store. Nothing more is tried of one that a refutation found here.
        """
        self.store.add_point(point)
        if not self.is_refuting:
            yield from self.certify(AnswerByPlace(point))

    def certify(self, answer: AnswerByPlace) -> Iterator[Evidence]:
        """`optimal`, else `unbounded`, else the strongest claims that can be had.

        Short numbers near the answer come first, then bases, then fractions; of a large program the
        answer's basis at once, and short numbers where no basis is exactly optimal and none is too
        wide. Where the optimum's exact numbers are too wide, or it is not found, a point and a
        bound in short ones.

        Args:
            answer: Without values where the solver gave none.
        """
        is_large = self._is_large()
        if is_large and answer.basis is not None and answer.values is not None:
            yield from self.by_bases([NearBasis(answer.basis, answer.doubles())])
        relaxed = self.task.solve_relaxation(answer)
        clp = relaxed.optimal_clp()
        if not is_large or clp is None:
            yield from self._by_points(answer, clp)
        if relaxed.status is LpStatus.UNBOUNDED:
            yield self.refuter.certify_ray()
        if clp is not None:
            yield from self._by_relaxation(answer, clp, is_large=is_large)
        yield from self._by_rational_simplex(answer, clp)
        yield from self._by_what_is_known()

    def _by_relaxation(
        self, answer: AnswerByPlace, clp: Clp, *, is_large: bool
    ) -> Iterator[Evidence]:
        """`optimal` by bases from CLP's optimum on, else by another exact solver.

        Short numbers near that optimum go to the store; of a large program they are looked for
        before the exact solver is asked, where no basis was exactly optimal and none was too wide.
        """
        yield from self.by_bases(self.bases(clp))
        if is_large and self.optimum is None and not self.store.note:
            yield from self._by_points(answer, clp)
        yield from self._by_exact_solver()
        self.add_short_numbers(clp)

    def by_bases(self, bases: Iterable[NearBasis]) -> Iterator[Evidence]:
        """`optimal` by the first basis that is exactly optimal, where a certificate can hold it.

        The store's note is set where that is found to be too wide. Nothing is tried where there is
        a note already.

        Args:
            bases: Each with values by column that are near its own: they say at which of two bounds
                a column or row stands that is not basic.
        """
        if self.store.note:
            return
        for basis, x in bases:
            try:
                self.optimum = exact_optimum(self.program, basis, x)
            except NotSolved:
                continue
            except TooManyBits as wide:
                self.store.note = too_wide_note(f"{wide} (its point or its duals)")
                return
            yield from self.store.claim_of_optimum(*self.optimum)
            return

    def bases(self, clp: Clp) -> Iterator[NearBasis]:
        """CLP's basis, then such that come nearer to the exact optimum (iterative refinement).

        Args:
            clp: The relaxation at its optimum, from whose basis refinement goes on; of a program
                with more than MOST_REFINED_ENTRIES coefficients it is the only one.
        """
        yield NearBasis(clp.basis(), clp.values())
        if self.program.matrix.count <= MOST_REFINED_ENTRIES:
            self.refinement = IterativeRefinement(self.program, clp, self.task.deadline)
            yield from self.refinement.bases()

    def _by_exact_solver(self) -> Iterator[Evidence]:
        """`optimal` by another program that solves in fractions, where no basis had the optimum.

        It is asked of programs of at most MOST_ASKED_ENTRIES coefficients, in a search with
        `proves`, and has EXACT_SHARE of the time that is left. What it answers is looked at here:
        where the point is not feasible, or the duals do not meet its value, it is no optimum.
        """
        ask = self.task.exact_solver
        is_small_enough = self.program.matrix.count <= MOST_ASKED_ENTRIES
        if ask is None or not is_small_enough or not self.task.options.proves:
            return
        if self.optimum is None and not self.store.note:
            deadline = self.task.deadline
            deadline.tell_step("the exact optimum by QSopt_ex")
            found = ask(Deadline(min(EXACT_SHARE * deadline.left(), MOST_ASKED_SECONDS)))
            if found is not None and self.program.is_feasible(found.point):
                yield from self._by_exact_answer(found)

    def _by_exact_answer(self, found: ExactAnswer) -> Iterator[Evidence]:
        """`optimal` at a feasible point where the duals meet its value; sets `optimum` then."""
        duals = {i: self.program.sign * y for i, y in found.duals.items()}
        leaf = from_fractions(self.program, duals, MultiplierKind.DUAL)
        bound = dual_bound(self.program, leaf, self._box())
        if bound.is_finite and bound.value == self.program.value(found.point):
            self.optimum = Optimum(found.point, leaf)
            yield from self.store.claim_of_optimum(*self.optimum)

    def add_short_numbers(self, clp: Clp) -> None:
        """Adds to the store a point and a bound in short numbers, near each other.

        The exact optimum is the point where that fits by itself, and only its duals do not.

        Args:
            clp: The relaxation at its optimum.
        """
        near = self.near_optimum(clp)
        self.task.deadline.tell_step("short duals")
        self._add_short_duals(near)
        self.task.deadline.tell_step("a short point")
        if self.optimum is not None and point_fits(self.program, self.optimum.point):
            self.store.add_point(self.optimum.point)
            return
        point = short_point(self.program, near.point, near.near, self._short_deadline())
        if point is not None:
            self.store.add_point(point.point)

    def add_short_bound(self, clp: Clp) -> None:
        """Adds to the store the bound of duals in short numbers, as of the relaxation of an integer
        program.

        Args:
            clp: The relaxation at its optimum.
        """
        self._add_short_duals(self.near_optimum(clp))

    def _add_short_duals(self, near: NearOptimum) -> None:
        """Adds to the store the bound of duals in short numbers; of a large program that of rounded
        ones, too, where those are no better."""
        program = self.program
        value = value_near(program, near)
        duals = short_duals(program, near.duals, value, near.near, self._short_deadline())
        if duals is not None:
            self.add_short_duals([duals])
        if duals is None or program.matrix.count > LARGE_SHORT_ENTRIES:
            one = 1 << BASE_BITS
            doubles = {i: v / one for i, v in enumerate(near.duals)}
            self.add_short_duals(rounded_duals(program, doubles))

    def _short_deadline(self) -> Deadline:
        """The time for a short point, or for short duals: SHORT_SECONDS, or more of a large
        program."""
        by_size = self.program.matrix.count / SHORT_ENTRIES_PER_SECOND
        return Deadline(max(SHORT_SECONDS, by_size), of_processor=True)

    def near_optimum(self, clp: Clp) -> NearOptimum:
        """The exact optimum where it is known, else the refined one, else CLP's.

        Args:
            clp: The relaxation at its optimum.
        """
        if self.optimum is not None:
            point, leaf = self.optimum
            denominator = leaf.denominator
            duals = [
                Fraction(leaf.numerators.get(i, 0), denominator) for i in range(self.program.m)
            ]
            return NearOptimum(fixed_points(point), fixed_points(duals), NEAR_OF_EXACT)
        refined = self.refinement
        is_large = self.program.matrix.count > MOST_REFINED_ENTRIES
        if not is_large and (refined is None or not refined.rounds):
            refined = IterativeRefinement(self.program, clp, self.task.deadline)
            for _ in itertools.islice(refined.bases(), SHORT_ROUNDS):
                pass
        if refined is not None and refined.rounds:
            return NearOptimum(refined.point, refined.duals, NEAR_OF_EXACT)
        x, duals_of_clp = clp.values(), clp.duals()
        return NearOptimum(fixed_points(x), fixed_points(duals_of_clp), NEAR_OF_DOUBLES)

    def add_short_duals(self, found: Iterable[ShortDuals]) -> None:
        """Adds the bound of each to the store, which keeps the closest."""
        for duals in found:
            self.store.add_leaf(duals.multipliers)

    def add_box_bound(self) -> None:
        """Adds to the store the bound that bounds of columns give by themselves, if it is finite.

        Asked for at last, where no closer one may be known.
        """
        value = box_bound(self.program)
        if value is not None:
            self.store.add_bound(self.store.bound_of_leaf(NO_MULTIPLIERS, value))

    def _is_large(self) -> bool:
        """Whether a basis is tried before short numbers: the program has many coefficients, a cost,
        and SciPy is there."""
        is_large = self.program.matrix.count > LARGE_ENTRIES
        return is_large and can_lift() and any(self.program.costs)

    def _by_rational_simplex(self, answer: AnswerByPlace, clp: Optional[Clp]) -> Iterator[Evidence]:
        """`optimal` of a small program, of which no basis had the optimum, by the simplex method
        in fractions.

        It has SIMPLEX_SECONDS where a point and a bound in short numbers are near each other.

        Args:
            clp: The relaxation at its optimum; None: it has none.
        """
        if self.store.note or not is_small(self.program):
            return
        start = answer
        if clp is not None:
            start = AnswerByPlace(clp.values(), None, clp.basis())
        limit = Deadline()
        if self.store.is_closed(NEAR_ENOUGH):
            limit = Deadline(SIMPLEX_SECONDS, of_processor=True)
        yield from self.refuter.by_rational_simplex(start, limit)

    def _by_what_is_known(self) -> Iterator[Evidence]:
        """`within` by a point and a bound in short numbers, else what there is.

        Where no point is known, a refutation is tried, and what follows from a point that it finds.
        Each claim has the store's note, which says why it is not `optimal`.
        """
        self.store.note = self.store.note or "no basis was found that is exactly optimal"
        if self.store.point is None and not self.is_refuting:
            self.is_refuting = True
            yield Evidence(NO_POINT)
            yield from self.refuter.refute(self.certify_from_point)
        self.add_box_bound()
        yield from self.refuter.ray_of_point(self.store.point)
        yield from self.store.claims()

    def _by_points(self, answer: AnswerByPlace, clp: Optional[Clp]) -> Iterator[Evidence]:
        """`optimal` at each point that a certificate can hold and whose value a leaf's bound meets.

        Adds each of the points to the store.

        Args:
            clp: The relaxation at its optimum; None: it has none.
        """
        seen: List[Point] = []
        for point in self._narrow_points(answer, clp):
            if point is None or point in seen or not all(map(fits_certificate, point)):
                continue
            seen.append(point)
            self.store.add_point(point)
            proof = self._leaf_that_meets(self.program.value(point), answer, clp)
            if proof is not None:
                yield self.store.claim_of_leaf("optimal", proof.multipliers, point)

    def _narrow_points(
        self, answer: AnswerByPlace, clp: Optional[Clp]
    ) -> Iterator[Optional[Point]]:
        """Feasible points near the answer, else the vertex of its basis; then CLP's vertex, and
        points near CLP's values. None stands for a vertex that is not feasible.

        Args:
            answer: Without values: nothing is tried of it.
            clp: The relaxation at its optimum; None: it has none.
        """
        program, is_near = self.program, False
        if answer.values is not None:
            for point in points.nearby_points(program, answer.values):
                is_near = True
                yield point
            if answer.basis is not None and not is_near:
                yield points.vertex(program, answer.basis, answer.doubles())
        if clp is not None:
            self.task.deadline.tell_step("the exact vertex")
            yield points.vertex(program, clp.basis(), clp.values())
            yield from points.nearby_points(program, clp.values())

    def _leaf_that_meets(
        self, value: Fraction, answer: AnswerByPlace, clp: Optional[Clp]
    ) -> Optional[LeafProof]:
        """A leaf whose bound reaches the value: by CLP's duals, its basis' or the answer's.

        Args:
            value: The objective of a feasible point, minimised.
            clp: The relaxation at its optimum; None: it has none.
        """
        prover = LeafProver(self.program, value)
        if not any(self.program.costs):
            return prover.prove_from_doubles({}, MultiplierKind.DUAL, self._box())
        self.task.deadline.tell_step("exact duals")
        proof = None if clp is None else self._leaf_by_clp(prover, clp)
        if proof is None and answer.duals is not None:
            proof = self._leaf_by_answer(prover, answer.duals)
        return proof

    def _leaf_by_clp(self, prover: LeafProver, clp: Clp) -> Optional[LeafProof]:
        """By the roundings of CLP's duals, else by the exact ones of its basis.

        Args:
            prover: With the value that the bound must reach.
            clp: The relaxation at its optimum.
        """
        dual, box = MultiplierKind.DUAL, self._box()
        proof = prover.prove_from_doubles(dict(enumerate(clp.duals())), dual, box)
        if proof is not None:
            return proof
        return prover.prove_from_fractions(basis_duals(self.program, *clp.basis()), dual, box)

    def _leaf_by_answer(
        self, prover: LeafProver, answered: Mapping[int, Number]
    ) -> Optional[LeafProof]:
        """By the answer's duals, rounded, or as they are where they are fractions.

        Args:
            prover: With the value that the bound must reach.
            answered: By row, rates of change of the objective in the file's sense.
        """
        dual, box = MultiplierKind.DUAL, self._box()
        duals = {i: self.program.sign * y for i, y in answered.items()}
        proof = prover.prove_from_doubles({i: float(y) for i, y in duals.items()}, dual, box)
        if proof is None and all(isinstance(y, Fraction) for y in duals.values()):
            fractions = {i: Fraction(y) for i, y in duals.items()}
            proof = prover.prove_from_fractions(fractions, dual, box)
        return proof

    def _box(self) -> Box:
        """The program's own bounds of columns."""
        return Box(self.program.lower, self.program.upper)


def value_near(program: IntegerProgram, near: NearOptimum) -> Fraction:
    """The objective at a nearly optimal point, minimised, with its constant."""
    total = sum([c * v for c, v in zip(program.costs, near.point) if c])
    return program.constant_fraction + Fraction(total, program.cost_scale << BASE_BITS)
