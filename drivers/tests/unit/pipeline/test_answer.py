"""A solver's answer in decimals: whole numbers, duals, reduced costs, and the text that is returned."""

from __future__ import annotations

from dataclasses import replace
from fractions import Fraction
from pathlib import Path
from typing import List, Optional, Sequence

import pytest
from hypothesis import given
from hypothesis import strategies as st

from bridge_drivers.formats.numbers import Number
from bridge_drivers.model.linear_program import LinearProgram
from bridge_drivers.pipeline.answer import CODE_OF_STATUS, Answer, exact_reduced_costs
from bridge_drivers.pipeline.settings import Settings
from bridge_drivers.solvers.base import SolverAnswer, SolverStatus
from bridge_drivers.solvers.settings import SolverSettings
from bridge_drivers.system.codes import Code
from bridge_drivers.system.errors import NotDecimal

PROGRAMS = Path(__file__).parents[2] / "data" / "mps"
KNAP = LinearProgram.of((PROGRAMS / "knap.mps").read_bytes())  # three integer variables, a row
DIET = LinearProgram.of((PROGRAMS / "diet.mps").read_bytes())  # two variables, two rows
RELAXED = Settings(solver_settings=SolverSettings(relax=True))


def answer(
    values: Sequence[Number],
    settings: Settings = Settings(),
    *,
    duals: Optional[Sequence[Number]] = None,
    reduced_costs: Optional[Sequence[Number]] = None,
    column_basis: Optional[Sequence[int]] = None,
    row_basis: Optional[Sequence[int]] = None,
    objective: Optional[Number] = None,
) -> Answer:
    """An optimal answer to KNAP, where it has three values, else to DIET."""
    program = KNAP if len(values) == 3 else DIET
    found = SolverAnswer(
        SolverStatus.OPTIMAL,
        "told",
        values,
        duals,
        reduced_costs,
        column_basis,
        row_basis,
        objective,
    )
    return Answer(program, found, settings)


def first_value(found: Answer) -> str:
    assert found.values is not None
    return found.values[0]


def test_each_status_has_a_code() -> None:
    assert set(CODE_OF_STATUS) == set(SolverStatus)
    assert CODE_OF_STATUS[SolverStatus.OPTIMAL] == Code.SOLVED


def test_integer_variables() -> None:
    """Within 1e-5 of a whole number they are that number; `round=0` and `relax=1` leave them."""
    assert answer([0.999999, 1e-7, 1.0]).values == ["1", "0", "1"]
    assert first_value(answer([0.999999, 0.0, 1.0], Settings(round_integers=False))) == "0.999999"
    assert first_value(answer([0.999999, 0.0, 1.0], RELAXED)) == "0.999999"


def test_a_value_that_is_not_near() -> None:
    found = answer([0.9, 0.5, 1.0])
    assert found.distances == pytest.approx([0.1, 0.5])
    assert found.residual.is_significant() and not found.is_usable()
    assert found.notes() == ["2 integer variables are not within 1e-05 of a whole number"]


def test_fractions_without_decimals() -> None:
    found = answer([Fraction(1, 3), Fraction(1, 2)], duals=[Fraction(2, 3), Fraction(0)])
    assert (found.rounded_values, found.rounded_duals) == (1, 1)
    assert found.notes()[0].startswith("2 exact values have no decimal")


@pytest.mark.parametrize("value", [float("nan"), float("inf")])
def test_what_is_no_number(value: float) -> None:
    with pytest.raises(NotDecimal):
        answer([value, 1.0])


@pytest.mark.parametrize(
    "objective, text",
    [
        (None, "4.4"),
        (4.4000001, "4.4"),  # that at the values that are written
        (Fraction(22, 5), "22/5"),
        (Fraction(10**50, 3), "3.3333333333333332e+49 (a fraction of 53 digits)"),
    ],
)
def test_the_objective(objective: Optional[Number], text: str) -> None:
    assert answer([4.0, 0.8], objective=objective).objective_text() == text
    assert Answer(DIET, SolverAnswer(SolverStatus.LIMIT, ""), Settings()).objective_text() is None


def test_reduced_costs() -> None:
    """c - A'y: of diet 0.9 - 0.5 y0 - 1.5 y1 and 1 - 2.5 y0 - 0.5 y1."""
    assert exact_reduced_costs(DIET, [Fraction(3, 10), Fraction(1, 2)]) == [0, 0]
    assert exact_reduced_costs(DIET, [Fraction(0), Fraction(1)]) == [
        Fraction(-3, 5),
        Fraction(1, 2),
    ]


@given(st.lists(st.fractions(max_denominator=50), min_size=2, max_size=2))
def test_reduced_costs_are_what_duals_leave(duals: List[Fraction]) -> None:
    """The costs at any point are the duals' share of the rows and the reduced costs' of the point."""
    point = [Fraction(7, 3), Fraction(-2)]
    rows = [[Fraction(1, 2), Fraction(5, 2)], [Fraction(3, 2), Fraction(1, 2)]]
    costs = [Fraction(9, 10), Fraction(1)]
    reduced = exact_reduced_costs(DIET, duals)
    total = sum(c * x for c, x in zip(costs, point))
    by_rows = sum(dual * sum(a * x for a, x in zip(row, point)) for dual, row in zip(duals, rows))
    assert total == by_rows + sum(d * x for d, x in zip(reduced, point))


def test_near_its_own_values() -> None:
    """Duals, reduced costs and basis still stand; proved duals take their place where they are near."""
    own = answer(
        [4.0, 0.8],
        duals=[0.3, 0.5],
        reduced_costs=[0.0, 0.0],
        column_basis=[1, 1],
        row_basis=[3, 3],
    )
    exact = {0: Fraction(3, 10), 1: Fraction(1, 2)}
    near = own.moved_near([Fraction(4), Fraction(4, 5)], exact, Code.SOLVED)
    assert near.found.duals == [Fraction(3, 10), Fraction(1, 2)]
    assert list(near.reduced_costs or ()) == [0.0, 0.0] and near.found.column_basis == [1, 1]
    other = own.moved_near([4.0, 0.8], {0: Fraction(1), 1: Fraction(1, 2)}, Code.SOLVED)
    assert other.found.duals == [0.3, 0.5]


def test_at_another_point() -> None:
    """Proved duals alone stand, where there is one for each row, and what they leave of the costs."""
    own = answer([4.0, 0.8], duals=[0.3, 0.5], reduced_costs=[0.0, 0.0], column_basis=[1, 1])
    moved = own.moved_to([5.0, 1.0], {0: Fraction(0), 1: Fraction(1)}, Code.UNSURE)
    assert (moved.code, moved.values, moved.duals) == (Code.UNSURE, ["5", "1"], ["0", "1"])
    assert list(moved.reduced_costs or ()) == [Fraction(-3, 5), Fraction(1, 2)]
    assert moved.found.column_basis is None
    without = own.moved_to([5.0, 1.0], {0: Fraction(1)}, Code.UNSURE)
    assert without.duals is None and without.reduced_costs is None


def test_the_text_that_is_returned() -> None:
    found = answer(
        [4.0, 0.8],
        duals=[0.3, 0.5],
        reduced_costs=[0.0, 2.0],
        column_basis=[1, 3],
        row_basis=[3, 1],
    )
    assert found.text(["a line", "another"]).decode().split("\n") == [
        "answer 1",
        "status 0",
        "objno 0",
        "message a line",
        "message another",
        "col x0 4",
        "col x1 0.8",
        "row c0 0.3",
        "row c1 0.5",
        "suffix 4 rc x1 2",
        "suffix 0 sstatus x0 1",
        "suffix 0 sstatus x1 3",
        "suffix 1 sstatus c0 3",
        "suffix 1 sstatus c1 1",
        "",
    ]


def test_a_code_alone() -> None:
    found = answer([4.0, 0.8]).without_point(Code.INFEASIBLE)
    settings = replace(Settings(), objective=2)
    assert found.text([]) == b"answer 1\nstatus 200\nobjno 0\n"
    other = Answer(DIET, SolverAnswer(SolverStatus.LIMIT, ""), settings)
    assert other.text([]) == b"answer 1\nstatus 450\nobjno 2\n"
