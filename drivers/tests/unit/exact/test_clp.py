"""Relaxations by CLP's library, where it is installed."""

from __future__ import annotations

from fractions import Fraction
from typing import Callable

import pytest
from hypothesis import given
from hypothesis import strategies as st

from bridge_drivers.exact import clp as clp_module
from bridge_drivers.exact import search_deadline
from bridge_drivers.exact.certifier import limit_all_work
from bridge_drivers.exact.clp import Basis, Clp, ClpNotInstalled, LpStatus, library
from bridge_drivers.exact.dual_bound import MultiplierKind, dual_bound
from bridge_drivers.exact.leaf_proofs import LeafProver, from_fractions
from bridge_drivers.exact.relaxation import phase_one, relaxation
from bridge_drivers.exact.search_deadline import SearchDeadline
from bridge_drivers.model.integer_form import IntegerProgram
from bridge_drivers.system.deadline import Deadline
from programs import Column, Row, box_of, program

pytestmark = pytest.mark.skipif(library() is None, reason="no library of CLP")


def two_rows() -> IntegerProgram:
    """min 2 x + 3 y, 3 x + 2 y >= 4, x - 1.5 y <= 1.25: both are tight at the optimum."""
    return program(
        [Column(cost=2), Column(0, 7, cost=3)],
        [Row(4, None, {0: 3, 1: 2}), Row(None, "1.25", {0: 1, 1: "-1.5"})],
    )


def test_an_optimum() -> None:
    clp = relaxation(two_rows())
    assert clp.solve() is LpStatus.OPTIMAL
    assert clp.objective() == pytest.approx(71 / 26)
    assert clp.values() == pytest.approx([17 / 13, 1 / 26])
    assert clp.duals() == pytest.approx([12 / 13, -10 / 13])
    assert clp.basis() == Basis([0, 1], [0, 1])


class InterruptedLibrary:
    """Stops each solve by its time, and the user interrupts the first."""

    def __init__(self, clp: Clp, deadline: SearchDeadline) -> None:
        self.library = clp.lib
        self.deadline = deadline
        self.solves = 0

    def __getattr__(self, name: str) -> Callable[..., object]:
        call: Callable[..., object] = getattr(self.library, name)
        return call

    def Clp_dual(self, model: object, passes: int) -> int:
        self.solves += 1
        assert self.solves < 1000
        if self.solves == 1:
            self.deadline.interrupt()
        return 0

    def Clp_status(self, model: object) -> int:
        return 3


def test_an_interrupt_ends_a_solve(monkeypatch: pytest.MonkeyPatch) -> None:
    """Behind the slice that runs, also where there is no limit of time."""
    monkeypatch.setattr(search_deadline, "INTERRUPT_SECONDS", 0.0)
    clp, deadline = relaxation(two_rows()), SearchDeadline()
    interrupted = InterruptedLibrary(clp, deadline)
    monkeypatch.setattr(clp, "lib", interrupted)
    try:
        assert clp.solve() is LpStatus.OTHER
        assert interrupted.solves == 1
    finally:
        limit_all_work(Deadline())


def test_bounds_that_change() -> None:
    clp = relaxation(two_rows())
    clp.set_bounds(1, 3.0, 7.0)
    assert clp.solve() is LpStatus.OPTIMAL
    assert clp.objective() == pytest.approx(9.0)
    clp.set_row_bounds(0, 16.0, None)
    assert clp.solve() is LpStatus.OPTIMAL
    assert clp.objective() == pytest.approx(2 * 10 / 3 + 9)
    clp.set_bounds(1, 0.0, 0.5)
    assert clp.solve() is LpStatus.INFEASIBLE


def test_a_warm_start_from_the_optimal_basis_takes_no_step() -> None:
    clp = relaxation(two_rows())
    clp.warm_start(Basis([0, 1], [0, 1]), [1.3, 0.04])
    assert clp.basis() == Basis([0, 1], [0, 1])
    assert clp.solve(0) is LpStatus.OPTIMAL


def test_a_warm_start_from_a_basis_of_rows_alone() -> None:
    """Columns that are not basic stand at the bound that is near: y at 7."""
    clp = relaxation(two_rows())
    clp.warm_start(Basis([], []), [0.0, 7.0])
    assert clp.basis() == Basis([], [])
    assert clp.solve() is LpStatus.OPTIMAL
    assert clp.objective() == pytest.approx(71 / 26)


def test_a_basis_is_saved_and_restored() -> None:
    first = relaxation(two_rows())
    first.solve()
    second = relaxation(two_rows())
    second.restore_basis(first.saved_basis())
    assert second.solve(0) is LpStatus.OPTIMAL


def test_rows_of_the_inverse() -> None:
    """They leave 1 in their own basic column and 0 in the other."""
    p = two_rows()
    clp = relaxation(p)
    clp.solve()
    basis = clp.saved_basis()
    for column in (0, 1):
        multipliers = clp.row_of_inverse(column, basis)
        for j in (0, 1):
            total = sum(multipliers[i] * a / p.row_scale for i, a in p.by_column[j])
            assert total == pytest.approx(float(j == column))


def test_farkas_multipliers_refute_the_rows() -> None:
    p = program([Column(0, 4)], [Row(3, None, {0: 1}), Row(None, 2, {0: 1})])
    clp = relaxation(p)
    assert clp.solve() is LpStatus.INFEASIBLE
    found = clp.farkas_multipliers()
    refuted = []
    for sign in (1, -1):
        values = {i: Fraction(sign * v) for i, v in enumerate(found)}
        multipliers = from_fractions(p, values, MultiplierKind.FARKAS)
        refuted.append(dual_bound(p, multipliers, box_of(p)).numerator > 0)
    assert any(refuted)


def test_an_unbounded_relaxation() -> None:
    p = program([Column(cost=-1), Column(0, 1)], [Row(None, 3, {0: -1, 1: 1})])
    assert relaxation(p).solve_by_either() is LpStatus.UNBOUNDED


def test_phase_one_is_by_how_much_rows_are_missed() -> None:
    p = program([Column(0, 4)], [Row(3, None, {0: 1}), Row(None, 2, {0: 1})])
    clp = phase_one(p)
    assert clp.solve() is LpStatus.OPTIMAL
    assert clp.objective() == pytest.approx(1.0)


def test_small_bounds_and_costs_are_seen() -> None:
    """Bounds of 1e-12 are far below CLP's tolerances, and so are costs of 1e-12."""
    p = program(
        [Column(0, "1e-12", cost="-1e-12"), Column(0, "1e-12", cost="-2e-12")],
        [Row(None, "1.5e-12", {0: 1, 1: 1})],
    )
    clp = relaxation(p)
    assert clp.solve() is LpStatus.OPTIMAL
    assert clp.values() == pytest.approx([0.5e-12, 1e-12])


def test_no_solve_goes_on_after_the_end_of_all() -> None:
    Clp.restrict(Deadline(0.0))
    try:
        assert relaxation(two_rows()).solve() is LpStatus.OTHER
    finally:
        Clp.restrict(Deadline())
    assert relaxation(two_rows()).solve() is LpStatus.OPTIMAL


def test_without_the_library(monkeypatch: pytest.MonkeyPatch) -> None:
    monkeypatch.setattr(clp_module, "LOADED", [None])
    assert library() is None
    with pytest.raises(ClpNotInstalled, match="coinor-libclp1"):
        relaxation(two_rows())


SMALL = st.integers(-4, 4)


@st.composite
def bounded_programs(draw: st.DrawFn) -> IntegerProgram:
    count = draw(st.integers(1, 4))
    columns = [Column(0, draw(st.integers(1, 5)), cost=draw(SMALL)) for _ in range(count)]
    rows = []
    for _ in range(draw(st.integers(1, 3))):
        coefficients = {j: draw(SMALL) for j in range(count)}
        rows.append(Row(None, draw(st.integers(-5, 9)), coefficients))
    return program(columns, rows)


@given(bounded_programs())
def test_what_clp_answers_is_proved(p: IntegerProgram) -> None:
    """Its duals prove its objective, and those of phase one that there is no point."""
    clp = relaxation(p)
    status = clp.solve_by_either()
    if status is LpStatus.OPTIMAL:
        kind = MultiplierKind.DUAL
        prover = LeafProver(p, Fraction(clp.objective()) - Fraction(1, 10**6))
    else:
        assert status is LpStatus.INFEASIBLE
        kind = MultiplierKind.FARKAS
        prover = LeafProver(p, None)
        clp = phase_one(p)
        assert clp.solve() is LpStatus.OPTIMAL
    duals = dict(enumerate(clp.duals()))
    assert prover.prove_from_doubles(duals, kind, box_of(p)) is not None
