"""Exact work ends soon after its deadline: within so many steps of each loop, which are counted."""

from __future__ import annotations

from fractions import Fraction
from typing import Iterator, List, Mapping, Sequence, TypeVar, Union, overload

import pytest
from bridge_drivers.exact import leaf_proofs
from bridge_drivers.exact.clp import (
    LEAST_SOLVE_SECONDS,
    MOST_SOLVE_SECONDS,
    Clp,
    library,
)
from bridge_drivers.exact.dual_bound import MultiplierKind
from bridge_drivers.exact.leaf_proofs import LARGEST_DENOMINATOR, common_denominator
from bridge_drivers.exact.linear_systems import Equation, reconstructed, solve_exactly
from bridge_drivers.exact.points import nearby_points
from bridge_drivers.exact.relaxation import relaxation
from bridge_drivers.exact.work_limit import STEPS_BETWEEN_CHECKS, checked, limit_work
from bridge_drivers.model.integer_form import IntegerProgram
from bridge_drivers.system.deadline import Deadline
from bridge_drivers.system.errors import TimeOver
from programs import Column, Row, program

MANY = 4 * STEPS_BETWEEN_CHECKS  # steps of a loop that is to be ended

Number = TypeVar("Number", bound=float)


class Counted(Sequence[Number]):
    """Numbers that count how many of them were taken, and end exact work at one of them."""

    def __init__(self, values: Sequence[Number], ends_at: int = 0) -> None:
        self.values = values
        self.ends_at = ends_at
        self.taken = 0

    def __len__(self) -> int:
        return len(self.values)

    @overload
    def __getitem__(self, place: int) -> Number:
        ...

    @overload
    def __getitem__(self, place: slice) -> Sequence[Number]:
        ...

    def __getitem__(self, place: Union[int, slice]) -> Union[Number, Sequence[Number]]:
        return self.values[place]

    def __iter__(self) -> Iterator[Number]:
        for value in self.values:
            if self.taken == self.ends_at:
                limit_work(Deadline(-1.0))
            self.taken += 1
            yield value


@pytest.fixture(autouse=True)
def no_limit() -> Iterator[None]:
    yield
    limit_work(Deadline())


def wide(columns: int) -> IntegerProgram:
    """As many columns, each of which stands in one row."""
    return program([Column(0, 9, cost=1)] * columns, [Row(1, None, {j: 1}) for j in range(columns)])


@pytest.mark.parametrize("ends_at", [0, 1, 300, MANY - STEPS_BETWEEN_CHECKS])
def test_a_checked_loop_ends_within_so_many_steps(ends_at: int) -> None:
    items, done = Counted([0.0] * MANY, ends_at), 0
    with pytest.raises(TimeOver):
        for _ in checked(items):
            done += 1
    assert ends_at <= items.taken <= ends_at + STEPS_BETWEEN_CHECKS
    assert done <= items.taken


def test_a_checked_loop_has_all_items_in_their_order() -> None:
    assert list(checked(range(MANY))) == list(range(MANY))
    assert not list(checked([]))


def test_points_near_many_values() -> None:
    x = Counted([0.5] * MANY)
    with pytest.raises(TimeOver):
        next(nearby_points(wide(MANY), x))
    assert x.taken <= STEPS_BETWEEN_CHECKS


def test_values_that_are_shortened(monkeypatch: pytest.MonkeyPatch) -> None:
    """The deadline comes while the values of one candidate are made."""
    steps: List[int] = []

    def step(*_: object) -> Fraction:
        steps.append(0)
        limit_work(Deadline(-1.0))
        return Fraction(1, 2)

    monkeypatch.setattr("bridge_drivers.exact.points._short_value", step)
    with pytest.raises(TimeOver):
        next(nearby_points(wide(MANY), [0.5] * MANY))
    assert len(steps) <= STEPS_BETWEEN_CHECKS


def test_equations_that_are_taken() -> None:
    taken: List[int] = []

    def system() -> Iterator[Equation]:
        for j in range(MANY):
            taken.append(j)
            yield {j: 2}, 1

    limit_work(Deadline(-1.0))
    with pytest.raises(TimeOver):
        solve_exactly(system())
    assert len(taken) <= STEPS_BETWEEN_CHECKS


def test_fractions_near_digits() -> None:
    values = Counted([1 << 40] * MANY)
    with pytest.raises(TimeOver):
        reconstructed(values, 64, 2)
    assert values.taken <= STEPS_BETWEEN_CHECKS


def test_convergents_of_multipliers(monkeypatch: pytest.MonkeyPatch) -> None:
    steps: List[int] = []

    def step(value: float, largest: int) -> leaf_proofs.Ratio:
        steps.append(0)
        limit_work(Deadline(-1.0))
        return 1, 2

    monkeypatch.setattr(leaf_proofs, "last_convergent", step)
    values: Mapping[int, float] = {i: 0.5 for i in range(MANY)}
    with pytest.raises(TimeOver):
        leaf_proofs.short_fractions(wide(MANY), values, 12, MultiplierKind.DUAL)
    assert len(steps) <= STEPS_BETWEEN_CHECKS


@pytest.mark.parametrize(
    "denominators, common",
    [([], 1), ([1, 1], 1), ([2, 3, 4], 12), ([10**24], 10**24), ([10**24, 7], None)],
)
def test_a_common_denominator_that_is_not_long(denominators: List[int], common: object) -> None:
    ratios = [(1, denominator) for denominator in denominators]
    assert common_denominator(ratios, LARGEST_DENOMINATOR) == common


def test_a_long_common_denominator_is_not_made() -> None:
    """No more denominators are looked at than those that make it too long."""
    taken: List[int] = []

    def ratios() -> Iterator[leaf_proofs.Ratio]:
        for denominator in range(1, 10**5):
            taken.append(denominator)
            yield 1, denominator

    assert common_denominator(ratios(), LARGEST_DENOMINATOR) is None
    assert len(taken) < 100


def test_long_fractions_are_no_candidates() -> None:
    """Duals whose short fractions have no short common denominator are tried as decimals alone."""
    values = {i: 1 / (2 * i + 3) for i in range(200)}
    p = wide(200)
    dual = MultiplierKind.DUAL
    assert leaf_proofs.short_fractions(p, values, 1000, dual) is None
    assert all(
        candidate.denominator <= 10**17
        for candidate in leaf_proofs.short_candidates(p, values, dual)
        if len(candidate.numerators) == 200
    )


needs_clp = pytest.mark.skipif(library() is None, reason="CLP is not installed")


@needs_clp
def test_no_solve_begins_after_the_end() -> None:
    clp = relaxation(wide(3))
    limit_work(Deadline(-1.0))
    with pytest.raises(TimeOver):
        clp.solve()


@needs_clp
def test_each_solve_has_what_is_left_when_it_begins(monkeypatch: pytest.MonkeyPatch) -> None:
    """The second of two solves has no more than the first one left."""
    clp = relaxation(wide(3))
    assert clp.seconds_of_solve() == float("inf")
    clp.seconds = 2.5
    assert clp.seconds_of_solve() == 2.5
    deadline = Deadline(20.0)
    clp.limit(deadline)
    for left, seconds in ((20.0, 20.0), (4.0, 4.0), (-3.0, LEAST_SOLVE_SECONDS)):
        monkeypatch.setattr(deadline, "left", lambda left=left: left)
        assert clp.seconds_of_solve() == seconds
    monkeypatch.setattr(deadline, "left", lambda: 1e9)
    assert clp.seconds_of_solve() == MOST_SOLVE_SECONDS
    monkeypatch.setattr(Clp, "deadline_of_all", Deadline(0.5))
    assert clp.seconds_of_solve() <= 0.5
