"""The values that a run begins with, by column, and whether they are judged."""

from __future__ import annotations

from fractions import Fraction
from pathlib import Path
from typing import Dict, List, Optional

import pytest

from bridge_drivers.exact.evidence import Evidence, not_proved
from bridge_drivers.formats.names import NameLists
from bridge_drivers.model.linear_program import LinearProgram
from bridge_drivers.pipeline.answer import Answer
from bridge_drivers.pipeline.judged_start import judged_start
from bridge_drivers.pipeline.settings import Settings
from bridge_drivers.pipeline.start_point import Start, StartPoint, start_point
from bridge_drivers.solvers.base import SolverAnswer, SolverStatus
from bridge_drivers.system.errors import FileFault, WrongOption

KNAPSACK = Path(__file__).parents[2] / "data" / "mps" / "knap.mps"  # values 10, 7, 12; a maximum
ONE = Fraction(1)


def knapsack() -> LinearProgram:
    program = LinearProgram.of(KNAPSACK.read_bytes())
    program.own_names = NameLists.of(["Cap"], ["a", "b", "z"], 1)
    return program


def started(values: Dict[str, int], *, is_named: bool = True) -> StartPoint:
    point = start_point(knapsack(), None, {name: Fraction(v) for name, v in values.items()})
    assert point is not None
    return point._replace(is_named=is_named)


def answered(status: SolverStatus, *values: float) -> Answer:
    found = SolverAnswer(status, "", list(values) or None)
    return Answer(knapsack(), found, Settings())


def test_names_are_those_of_the_user() -> None:
    point = started({"b": 1, "nobody": 4})
    assert (point.values, point.given(), point.is_named) == ([None, ONE, None], 1, True)
    assert point.doubles() == [None, 1.0, None]
    assert point.completed(knapsack()) == [0, 1, 0]


@pytest.mark.parametrize(
    "text, values",
    [
        ("a 1\nz 1\n", [ONE, None, ONE]),
        ('{"values": {"b": "1"}}', [None, ONE, None]),
        ("m\n\nOptions\n0\n1\n0\n3\n3\n1\n1\n0\n", [ONE, ONE, Fraction(0)]),
    ],
)
def test_a_file(tmp_path: Path, text: str, values: List[Optional[Fraction]]) -> None:
    path = tmp_path / "start"
    path.write_text(text)
    point = start_point(knapsack(), None, str(path))
    assert point is not None and point.values == values


def test_the_guess_of_the_model(tmp_path: Path) -> None:
    """Where nothing is named, and one of it is not 0: some systems write all as 0."""
    nl = tmp_path / "m.nl"
    nl.write_bytes(b"g3 1 1 0\nx2\n0 1\n1 1\n")
    point = start_point(knapsack(), str(nl), "")
    assert point is not None and (point.values, point.is_named) == ([ONE, ONE, None], False)
    named = start_point(knapsack(), str(nl), {"z": ONE})
    assert named is not None and named.values == [None, None, ONE]
    nl.write_bytes(b"g3 1 1 0\nx2\n0 0\n1 0\n")
    assert start_point(knapsack(), str(nl), "") is None
    assert start_point(knapsack(), None, "") is None


@pytest.mark.parametrize(
    "text, told",
    [
        ("q 1\n", "a value of no variable"),
        ("a b c\n", "no line NAME VALUE"),
        ("m\n\nOptions\n0\n1\n0\n2\n2\n1\n1\n", "it has 2 values, and the model 3 variables"),
    ],
)
def test_a_file_that_is_no_start(tmp_path: Path, text: str, told: str) -> None:
    path = tmp_path / "start"
    path.write_text(text)
    with pytest.raises(WrongOption, match="^start: .*" + told):
        start_point(knapsack(), None, str(path))


def test_a_file_that_is_not_there() -> None:
    no_file: Start = "/nonexistent/start"
    with pytest.raises(FileFault):
        start_point(knapsack(), None, no_file)


def feasible(texts: List[str]) -> Evidence:
    """What a judge says to whom all points are feasible, with the objective of the knapsack."""
    worth = sum(int(text) * each for text, each in zip(texts, (10, 7, 12)))
    return Evidence(f"feasible {worth}", certificate=b"")


def refused(texts: List[str]) -> Evidence:
    return not_proved("row 0 broken")


NO_POINT = answered(SolverStatus.LIMIT)
WORSE = answered(SolverStatus.LIMIT_WITH_POINT, 1.0, 0.0, 0.0)
AS_GOOD = answered(SolverStatus.OPTIMAL, 1.0, 1.0, 0.0)


@pytest.mark.parametrize("answer", [NO_POINT, WORSE])
def test_a_start_that_is_better(answer: Answer) -> None:
    evidence, note = judged_start(started({"a": 1, "b": 1}), answer, feasible)
    assert evidence is not None
    assert (evidence.point, evidence.value) == ([ONE, ONE, Fraction(0)], Fraction(17))
    assert note == "the search begins with the start, whose objective is exactly 17"


def test_a_start_that_is_no_better() -> None:
    """Nobody is asked."""
    found = judged_start(started({"a": 1, "b": 1}), AS_GOOD, lambda texts: pytest.fail("asked"))
    assert found == (None, "")


@pytest.mark.parametrize("is_named", [True, False])
def test_a_start_that_is_not_feasible(is_named: bool) -> None:
    """That is told where the user named it; of a model's own guess it is nothing to speak of."""
    start = started({"a": 1, "z": 1}, is_named=is_named)
    evidence, note = judged_start(start, NO_POINT, refused)
    assert evidence is None
    assert bool(note) == is_named and (not note or "row 0 broken" in note)
