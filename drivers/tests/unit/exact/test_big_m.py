"""Models whose M is far greater than their times: each is proved, whatever doubles make of it."""

from __future__ import annotations

from fractions import Fraction
from typing import List

import pytest
from hypothesis import given, settings
from hypothesis import strategies as st

from bridge_drivers.exact.clp import library
from bridge_drivers.exact.evidence import AnswerByPlace, AnswerClaim
from bridge_drivers.exact.relaxation import BIG_COEFFICIENT, enlargements
from bridge_drivers.model.integer_form import IntegerProgram, Row as AddedRow
from builders.scheduling import OrderModel, order_model
from judging import certified
from programs import Column, Row, program

NEEDS_CLP = pytest.mark.skipif(library() is None, reason="CLP's library is not there")


def program_of(model: OrderModel) -> IntegerProgram:
    costs = [*model.weights, *[0] * (len(model.columns) - len(model.weights))]
    columns = [
        Column(column.lower, column.upper, column.kind == "B", cost)
        for column, cost in zip(model.columns, costs)
    ]
    return program(columns, [Row(*row) for row in model.rows])


def first_answer(model: OrderModel) -> AnswerByPlace:
    """All jobs in the order of their numbers, far behind their releases."""
    jobs = len(model.weights)
    starts = [Fraction(100 + 10 * job) for job in range(jobs)]
    values: List[Fraction] = [*starts, *[Fraction(0)] * (len(model.columns) - jobs)]
    return AnswerByPlace(values)


@NEEDS_CLP
@pytest.mark.parametrize("has_horizon", [True, False])
@pytest.mark.parametrize("power", [3, 5, 7, 8, 9])
def test_orders_of_four_jobs(power: int, has_horizon: bool) -> None:
    """From a poor answer on, so that better points are found on the way."""
    model = order_model(4, power, has_horizon=has_horizon)
    answer = first_answer(model)
    found = certified(program_of(model), AnswerClaim.POINT, answer=answer)
    assert found.line == f"optimal {model.optimum}"


@NEEDS_CLP
@settings(max_examples=15)
@given(st.integers(2, 4), st.integers(6, 12), st.integers(0, 10**6), st.booleans())
def test_orders_of_any_seed(jobs: int, power: int, seed: int, has_horizon: bool) -> None:
    model = order_model(jobs, power, str(seed), has_horizon=has_horizon)
    found = certified(program_of(model), AnswerClaim.POINT, answer=first_answer(model))
    assert found.line == f"optimal {model.optimum}"


def chain(length: int, start: int) -> IntegerProgram:
    """Of x' = 3.7 x - 0.27 all are 1/10 where the first is; what differs grows beyond all bounds."""
    columns = [Column(-100, 100) for _ in range(length - 1)]
    columns += [Column(-100, 100, cost=1), Column(0, 9, is_integer=True, cost=1)]
    links = [Row("-0.27", "-0.27", {k + 1: 1, k: "-3.7"}) for k in range(length - 1)]
    return program(columns, [*links, Row(0, 0, {start: 10, length: -1})])


@NEEDS_CLP
@pytest.mark.parametrize("start", [0, 3])
@pytest.mark.parametrize("length", [12, 24, 37])
def test_chains_that_amplify(length: int, start: int) -> None:
    """The optimum is 11/10; where its duals are too wide for a certificate, a bound near it."""
    p = chain(length, start)
    wrong = AnswerByPlace([0.1] * (length - 1) + [-100.0, 1.0])
    for claim, answer in (
        (AnswerClaim.POINT, wrong),
        (AnswerClaim.INFEASIBLE, AnswerByPlace()),
    ):
        found = certified(p, claim, answer=answer)
        assert found.value == Fraction(11, 10) and found.claim in ("optimal", "within"), found.line
        if found.claim == "within":
            gap = Fraction(11, 10) - Fraction(found.line.split()[1])
            assert 0 < gap <= Fraction(11, 10**10)


@NEEDS_CLP
@pytest.mark.parametrize("power", [12, 15, 18, 19, 20, 21, 24])
@pytest.mark.parametrize("least, line", [(2, "optimal 4"), (3, "infeasible")])
def test_rows_of_huge_numbers(power: int, least: int, line: str) -> None:
    """One of two binary columns, and then nothing is left for the continuous one."""
    columns = [
        Column(0, 10, cost=1),
        Column(0, 1, is_integer=True, cost=4),
        Column(0, 1, is_integer=True, cost=2),
    ]
    big = 10**power
    rows = [
        Row(None, big, {0: 1, 1: big, 2: big}),
        Row(1, None, {1: 1, 2: 1}),
        Row(least, None, {0: 1, 1: 2, 2: 1}),
    ]
    p = program(columns, rows)
    for values in ([1.0, 0.0, 1.0], [0.0, 1.0, 0.0]):
        assert certified(p, AnswerClaim.POINT, answer=AnswerByPlace(values)).line == line
    assert certified(p).line == line


def mixed(big: str) -> IntegerProgram:
    columns = [Column(0, 9, cost=1), Column(0, 1, is_integer=True), Column(0, 9, is_integer=True)]
    return program(columns, [Row(None, 5, {0: 1, 1: big}), Row(1, None, {0: "0.5", 2: 7})])


def test_columns_that_are_made_greater() -> None:
    """By a power of two above the ratio; what is below stays, and so do programs without integers."""
    factors = enlargements(mixed("300000"))
    assert factors[0] == factors[2] == 1.0
    assert 300000 <= factors[1] <= 600000 and factors[1].is_integer()
    assert enlargements(mixed(str(int(BIG_COEFFICIENT) - 1))) == [1.0] * 3
    continuous = mixed("300000").with_integers([False] * 3)
    assert enlargements(continuous) == [1.0] * 3


@given(st.lists(st.dictionaries(st.integers(0, 4), st.integers(1, 10**9)), max_size=6))
def test_dominance(rows: List[dict[int, int]]) -> None:
    """It is what a loop over all rows says, and rows that are added do not count."""
    p = program(
        [Column(0, 1, is_integer=True) for _ in range(5)], [Row(None, 1, dict(row)) for row in rows]
    )
    wanted = [1.0] * 5
    for row in rows:
        for j, a in row.items():
            wanted[j] = max(wanted[j], a / min(row.values()))
    assert p.dominance == pytest.approx(wanted)
    assert p.with_rows([AddedRow({0: 1, 1: 10**9}, None, 1)]).dominance == pytest.approx(wanted)


@NEEDS_CLP
@pytest.mark.parametrize("digits", [3, 6, 7])
@pytest.mark.parametrize("power", [6, 9, 10, 12])
@pytest.mark.parametrize("claim", [AnswerClaim.INFEASIBLE, AnswerClaim.UNKNOWN])
def test_a_column_that_is_fixed_is_not_branched_on(
    claim: AnswerClaim, power: int, digits: int
) -> None:
    """5 x + y is at most 9 or at least 10, and more than 9 by little: CLP has a column that is fixed
    at 0 at 1e-15, which times M is as much."""
    large, side = 10**power, f"9.{1:0{digits}d}"
    columns = [Column(0, 41, cost=5), Column(0, 42, cost=5), Column(0, 1, is_integer=True, cost=5)]
    either = {0: 5, 1: 1, 2: -large}
    rows = [
        Row(None, 9, either),
        Row(10 - large, None, either),
        Row(side, None, {0: 5, 1: 1}),
    ]
    assert certified(program(columns, rows), claim).line == "optimal 15"
