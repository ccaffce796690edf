"""MIR cuts hold at all integer points, and both leaves of their proofs are accepted."""

from __future__ import annotations

import itertools
from fractions import Fraction
from math import ceil, floor
from typing import Dict, List, Tuple

from hypothesis import HealthCheck, assume, given, settings
from hypothesis import strategies as st

from bridge_drivers.exact.mir import SplitDisjunction, Substitutions, mir_cut, prove_mir_cut
from bridge_drivers.exact.mir_separation import (
    DIVISOR_MULTIPLES,
    TABLEAU_MULTIPLES,
    best_divisor,
    mir_coefficient,
    variable_bounds,
)
from bridge_drivers.model.integer_form import IntegerProgram
from programs import Column, Row, program


def test_a_variable_upper_bound() -> None:
    """y <= 10 x and y <= 7 with x binary: y <= 7 x, by the split of -x at -1."""
    p = program(
        [Column(0, 7, cost=1), Column(0, 1, is_integer=True)], [Row(None, 0, {0: 1, 1: -10})]
    )
    assert variable_bounds(p) == {0: [(10.0, 1, 0, 1.0)]}
    substitutions = Substitutions(p, [7.0, 0.7])
    divisor = best_divisor(substitutions, {0: 1.0}, DIVISOR_MULTIPLES)
    assert divisor is not None
    cut = mir_cut(substitutions, {0: 1.0}, divisor)
    assert cut is not None
    assert (cut.coefficients, cut.rhs) == ({0: 1, 1: -7}, 0)
    assert cut.split == SplitDisjunction({1: -1}, -1)
    assert prove_mir_cut(p, cut) is not None


def test_a_continuous_term_that_is_taken_away() -> None:
    """x - y <= 1/2 gives x - 2 y <= 0, which holds at x = 3/2, y = 1: by no divisor there is a cut."""
    p = program([Column(0, 3, is_integer=True), Column(0, 5)], [Row(None, "0.5", {0: 1, 1: -1})])
    assert best_divisor(Substitutions(p, [1.5, 1.0]), {0: 1.0}, ((1, 1),)) is None
    divisor = best_divisor(Substitutions(p, [1.5, 0.5]), {0: 1.0}, ((1, 1),))
    assert divisor is not None
    cut = mir_cut(Substitutions(p, [1.5, 0.5]), {0: 1.0}, divisor)
    assert cut is not None and (cut.coefficients, cut.rhs) == ({0: 1, 1: -2}, 0)


@given(st.floats(-50, 50), st.floats(0.01, 0.99))
def test_the_function_of_mir(quotient: float, fraction: float) -> None:
    """It lies between the number rounded down and the number rounded up, and below the number."""
    lifted = mir_coefficient(quotient, fraction)
    assert floor(quotient) - 1e-6 <= lifted <= ceil(quotient) + 1e-6
    assert lifted <= quotient + 1e-6


HALVES = st.lists(st.integers(-18, 18), min_size=4, max_size=4)
FACTORS = st.sampled_from((-0.5, 1 / 3, 1.0, 2.0, 0.7))


Case = Tuple[IntegerProgram, List[int], List[float], Dict[int, float]]


@st.composite
def mixed_programs(draw: st.DrawFn) -> Case:
    """One continuous and three integer columns, rows with decimals, and a point to cut off."""
    uppers = draw(st.lists(st.integers(1, 3), min_size=4, max_size=4))
    columns = [Column(0, upper, is_integer=j > 0) for j, upper in enumerate(uppers)]
    rows = []
    for is_lower in (False, True, False):
        coefficients = {j: k / 2 for j, k in enumerate(draw(HALVES))}
        side = draw(st.integers(0, 15)) + 0.5
        rows.append(Row(-side if is_lower else None, None if is_lower else side, coefficients))
    shares = draw(st.lists(st.integers(1, 15), min_size=4, max_size=4))
    point = [upper * share / 16 for upper, share in zip(uppers, shares)]
    combination = dict(enumerate(draw(st.lists(FACTORS, min_size=3, max_size=3))))
    return program(columns, rows), uppers, point, combination


@settings(
    max_examples=30, suppress_health_check=[HealthCheck.filter_too_much, HealthCheck.too_slow]
)
@given(mixed_programs())
def test_cuts_hold_and_are_proved(case: Case) -> None:
    """Of any combination of the rows, at any point that is to be cut off."""
    p, uppers, x, combination = case
    substitutions = Substitutions(p, x)
    divisor = best_divisor(substitutions, combination, TABLEAU_MULTIPLES)
    cut = None if divisor is None else mir_cut(substitutions, combination, divisor)
    assume(cut is not None)
    assert cut is not None
    assert prove_mir_cut(p, cut) is not None
    assert sum(a * x[j] for j, a in cut.coefficients.items()) > cut.rhs
    halves = [Fraction(k, 2) for k in range(2 * uppers[0] + 1)]
    for point in itertools.product(halves, *(map(Fraction, range(top + 1)) for top in uppers[1:])):
        if p.is_feasible(list(point)):
            assert sum(a * point[j] for j, a in cut.coefficients.items()) <= cut.rhs
            form = sum(a * point[j] for j, a in cut.split.form.items())
            assert form.denominator == 1
