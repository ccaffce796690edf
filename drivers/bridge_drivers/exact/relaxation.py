"""The relaxation of a program, and its phase one, ready to be solved by CLP.

Whatever needs CLP's answer on an `IntegerProgram` (nodes, cuts, points, certifiers) makes its `Clp`
here.
"""

from __future__ import annotations

import math
from fractions import Fraction
from typing import List

from .clp import Clp, scaling_power
from ..model.double_form import DoubleProgram
from ..model.integer_form import IntegerProgram

# times the least coefficient of a row: from there on a column is made greater for CLP
BIG_COEFFICIENT = 1e4
# how much CLP may miss rows and bounds of phase one, whose optimum is compared with 0
PHASE_ONE_TOLERANCE = 1e-9


def relaxation(program: IntegerProgram, *, has_costs: bool = True) -> Clp:
    """The program in doubles without its integer marks, not solved yet.

    Args:
        has_costs: False: all costs are 0, since any feasible point is wanted.

    Raises:
        ClpNotInstalled: There is no library of CLP.
    """
    return Clp(program.in_doubles(has_costs=has_costs), enlargements(program))


def enlargements(program: IntegerProgram) -> List[float]:
    """By column the power of two that CLP's column is multiplied by, for coefficients that are far
    greater than others of their rows.

    CLP leaves a binary column basic at 6e-9, which is within its tolerance of 0; times a big M of
    1e9 that is 6 units, so that the row says nothing. Multiplied by the ratio of the coefficients,
    the column is 0 or seen to be none. Only programs with integer columns have other factors than 1.
    """
    if not any(program.is_integer):
        return [1.0] * program.n
    return [
        2.0 ** math.frexp(ratio)[1] if ratio >= BIG_COEFFICIENT else 1.0
        for ratio in program.dominance
    ]


def phase_one(program: IntegerProgram) -> Clp:
    """The relaxation of the program that minimises by how much rows are missed, not solved yet. Its
    duals are Farkas multipliers, where the ray that CLP has proves nothing.

    Each row has two artificial columns more, in its own `row_unit`: column n + i adds to row i, and
    n + m + i takes away from it. Each costs 1. The optimum is 0 where the rows have a point. The
    columns' bounds are the program's own; the caller sets those of a node.
    """
    doubles = program.in_doubles(has_costs=False)
    m = program.m
    artificial = [(i, float(sign * row_unit(program, i))) for sign in (1, -1) for i in range(m)]
    clp = Clp(
        DoubleProgram(
            doubles.lower + [0.0] * (2 * m),
            doubles.upper + [None] * (2 * m),
            [0.0] * program.n + [1.0] * (2 * m),
            doubles.row_lower,
            doubles.row_upper,
            doubles.columns.with_units(artificial),
        ),
        enlargements(program),
    )
    clp.set_tolerance(PHASE_ONE_TOLERANCE)
    return clp


def row_unit(program: IntegerProgram, row: int) -> Fraction:
    """By how much a row is missed, in the row's own units, where that counts as 1 in phase one.

    It is 1, but where all coefficients of the row are below `clp.SMALL` a power of two near the
    greatest of them.
    """
    greatest = max((abs(a) for _, a in program.rows[row]), default=0) / program.row_scale
    return 1 / Fraction(scaling_power(greatest))
