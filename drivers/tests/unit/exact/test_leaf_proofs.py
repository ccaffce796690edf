"""Short multipliers that prove leaves: what is found is judged by the exact rule again."""

from __future__ import annotations

from fractions import Fraction
from typing import Optional, Tuple

import pytest
from hypothesis import given
from hypothesis import strategies as st

from bridge_drivers.model.integer_form import Box, IntegerProgram
from bridge_drivers.exact import leaf_proofs
from bridge_drivers.exact.dual_bound import MultiplierKind, Multipliers, dual_bound
from bridge_drivers.exact.leaf_proofs import LeafProver, basis_duals, last_convergent
from programs import Column, Row, box_of, program

DUAL, FARKAS = MultiplierKind.DUAL, MultiplierKind.FARKAS


@pytest.fixture
def mixed() -> IntegerProgram:
    """max x + 2 y: a free x, integers y up to 2.5 and z up to 3."""
    columns = [
        Column(None, None, cost=1),
        Column(0, "2.5", is_integer=True, cost=2),
        Column(0, 3, is_integer=True),
    ]
    rows = [Row(None, 3, {0: "1.5", 1: 2, 2: -1}), Row(1, 5, {1: 2, 2: 4})]
    return program(columns, rows, "max")


@pytest.mark.parametrize(
    "cutoff, is_strict, is_proved",
    [
        (Fraction(-6), False, True),
        (Fraction(-17, 3), False, True),
        (Fraction(-17, 3), True, False),
        (Fraction(-5), False, False),
    ],
)
def test_the_cutoff(
    mixed: IntegerProgram, cutoff: Fraction, is_strict: bool, is_proved: bool
) -> None:
    """The dual 2/3 of the first row makes the free column's reduced cost 0; it shows -17/3."""
    prover = LeafProver(mixed, cutoff, is_strict)
    proof = prover.prove_from_doubles({0: -0.66666667, 1: 0.0}, DUAL, box_of(mixed))
    assert (proof is not None) is is_proved
    if proof is not None:
        assert proof.multipliers.reduced().numerators == {0: -2}
        assert proof.multipliers.reduced().denominator == 3
        assert proof.surplus >= 0


def test_farkas_multipliers_are_small_whole_numbers(mixed: IntegerProgram) -> None:
    box = Box(list(mixed.lower), list(mixed.upper))
    box.upper[1] = box.upper[2] = 0
    prover = LeafProver(mixed, None)
    proof = prover.prove_from_doubles({1: 0.25}, FARKAS, box)
    assert proof is not None
    assert proof.multipliers == ({1: 1}, 1, FARKAS)
    assert prover.prove_from_doubles({1: 0.25}, FARKAS, box_of(mixed)) is None
    assert prover.prove_from_doubles({}, FARKAS, box_of(mixed)) is None


def test_duals_are_made_smaller_at_last(monkeypatch: pytest.MonkeyPatch) -> None:
    """They miss the cost of a column without an upper bound by less than is rounded."""
    steep = program([Column(cost=1), Column(cost="1e9")], [Row(7, None, {0: 3, 1: "3e9"})])
    monkeypatch.setattr(leaf_proofs, "DECIMAL_DIGITS", ())
    monkeypatch.setattr(leaf_proofs, "DENOMINATORS", {})
    duals = {0: 1 / 3 + 1e-13}
    near = LeafProver(steep, Fraction(7, 3) - Fraction(1, 10**8))
    proof = near.prove_from_doubles(duals, DUAL, box_of(steep))
    assert proof is not None
    assert Fraction(proof.multipliers.numerators[0], proof.multipliers.denominator) < Fraction(1, 3)
    exact = LeafProver(steep, Fraction(7, 3))
    assert exact.prove_from_doubles(duals, DUAL, box_of(steep)) is None


def test_duals_of_a_basis(mixed: IntegerProgram) -> None:
    assert basis_duals(mixed, [0], [0]) == {0: Fraction(-2, 3)}
    assert basis_duals(mixed, [0, 1], [0]) is None


@given(st.floats(-1e6, 1e6), st.integers(1, 10**6))
def test_a_convergent_is_near(value: float, largest: int) -> None:
    """It has a denominator up to `largest`, and is off by less than one over both denominators."""
    numerator, denominator = last_convergent(value, largest)
    assert 1 <= denominator <= largest
    assert abs(Fraction(value) - Fraction(numerator, denominator)) <= Fraction(1, largest)


@st.composite
def knapsacks(draw: st.DrawFn) -> Tuple[IntegerProgram, Fraction, float]:
    """A knapsack of real columns from 0 to 1, minimised, and doubles near its optimal dual."""
    count = draw(st.integers(1, 6))
    weights = [draw(st.integers(1, 20)) for _ in range(count)]
    costs = [draw(st.integers(-20, -1)) for _ in range(count)]
    columns = [Column(0, 1, cost=cost) for cost in costs]
    room = draw(st.integers(0, sum(weights)))
    p = program(columns, [Row(None, room, dict(enumerate(weights)))])
    ratios = sorted(Fraction(cost, weight) for cost, weight in zip(costs, weights))
    dual = draw(st.sampled_from(ratios))
    return p, dual, float(dual) + draw(st.floats(-1e-9, 1e-9))


@given(knapsacks(), st.one_of(st.none(), st.just(0)))
def test_what_is_proved_reaches_the_cutoff(
    case: Tuple[IntegerProgram, Fraction, float], shift: Optional[int]
) -> None:
    """Whatever rounding is taken, the exact bound of what is returned is at the cutoff or above."""
    p, dual, near = case
    exact = dual_bound(p, leaf_proofs.from_fractions(p, {0: dual}, DUAL), box_of(p)).value
    cutoff = None if shift is None else exact
    prover = LeafProver(p, cutoff)
    proof = prover.prove_from_doubles({0: near}, DUAL, box_of(p))
    for one in filter(None, (proof, proof and prover.sparsified(proof, box_of(p)))):
        bound = dual_bound(p, one.multipliers, box_of(p))
        assert bound.is_finite
        assert bound.reduced_costs == one.reduced_costs
        assert cutoff is None or bound.value >= cutoff


@st.composite
def proofs_of_many_rows(draw: st.DrawFn) -> Tuple[IntegerProgram, Multipliers, Fraction]:
    """A program of bounded columns, multipliers of five rows, and a cutoff below their bound."""
    small = st.lists(st.integers(-4, 4), min_size=3, max_size=3)
    columns = [Column(-1, upper, cost=cost) for upper, cost in zip((1, 2, 3), draw(small))]
    rows = [
        Row(draw(st.integers(-3, 3)), None, {j: a for j, a in enumerate(draw(small)) if a})
        for _ in range(5)
    ]
    p = program(columns, rows)
    numerators = {i: draw(st.integers(1, 3)) for i in range(5)}
    multipliers = Multipliers(numerators, draw(st.integers(1, 3)), DUAL)
    bound = dual_bound(p, multipliers, box_of(p)).value
    return p, multipliers, bound - draw(st.integers(0, 8))


@given(proofs_of_many_rows())
def test_sparsified_proofs_still_reach_the_cutoff(
    case: Tuple[IntegerProgram, Multipliers, Fraction],
) -> None:
    p, multipliers, cutoff = case
    prover = LeafProver(p, cutoff)
    proof = prover.prove(multipliers, box_of(p))
    assert proof is not None
    sparse = prover.sparsified(proof, box_of(p))
    bound = dual_bound(p, sparse.multipliers, box_of(p))
    assert sparse.multipliers.numerators.items() <= proof.multipliers.numerators.items()
    assert bound.value >= cutoff
    assert bound.reduced_costs == sparse.reduced_costs
    assert sparse.surplus >= 0
