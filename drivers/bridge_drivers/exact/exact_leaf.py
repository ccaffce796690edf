"""How the linear program ends, exactly, that is left of a node whose integer columns are all fixed.

Doubles may not close such a node, since its numbers are too far apart for CLP's tolerances. Small
programs are solved by the simplex method in whole numbers, larger ones by bases that iterative
refinement finds. `search` asks for it where nothing else closes a leaf.
"""

from __future__ import annotations

from fractions import Fraction
from typing import Callable, Iterator, Optional

from ..model.integer_form import IntegerProgram
from ..system.deadline import Deadline
from ..system.errors import NotSolved
from .basis import IterativeRefinement, NearBasis, exact_optimum
from .clp import Clp, LpStatus
from .rational_simplex import RationalSimplex, SimplexResult, is_small

MOST_REFINED_ENTRIES = 20_000  # of a program whose bases are refined at a leaf


def exact_end(
    program: IntegerProgram, clp: Clp, check: Callable[[], None], deadline: Deadline
) -> Optional[SimplexResult]:
    """How a linear program ends: its optimum, multipliers that refute it, or a ray.

    Args:
        program: With the bounds of a node; its integer marks are not looked at.
        clp: Its relaxation, solved: from its basis all goes on.
        check: Is called at each step of the simplex method, and raises what is to end it.
        deadline: Of CLP's solves where bases are refined.

    Returns:
        None where no way takes it.
    """
    if is_small(program):
        tableau = RationalSimplex(program, check)
        free = [j for j in clp.basis().columns if program.lower[j] != program.upper[j]]
        tableau.install_basis(free, clp.values())
        return tableau.run()
    for basis, x in _bases(program, clp, deadline):
        try:
            point, duals = exact_optimum(program, basis, x)
        except NotSolved:
            continue
        multipliers = {i: Fraction(v, duals.denominator) for i, v in duals.numerators.items()}
        return SimplexResult(LpStatus.OPTIMAL, point, multipliers)
    return None


def _bases(program: IntegerProgram, clp: Clp, deadline: Deadline) -> Iterator[NearBasis]:
    """CLP's basis, then such that come nearer to the exact optimum, of a program that is not too
    large."""
    yield NearBasis(clp.basis(), clp.values())
    if program.matrix.count <= MOST_REFINED_ENTRIES:
        yield from IterativeRefinement(program, clp, deadline).bases()
