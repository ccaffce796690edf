"""Why a model is infeasible, in a line with the names of its rows and columns."""

from __future__ import annotations

from typing import List

import pytest

from bridge_drivers.formats.names import NameLists
from bridge_drivers.model.integer_form import IntegerProgram
from bridge_drivers.pipeline.contradiction import MOST_NAMED, contradiction_words
from programs import Column, Row, program

NAMES = NameLists.of(["Cap", "Need"], ["x", "y"], 2)
HEAD = "certificate 1 / infeasible / "


def words(certificate: str, of: IntegerProgram, names: NameLists = NAMES) -> str:
    """The line on a certificate whose lines stand between slashes."""
    text = "\n".join(line.strip() for line in (HEAD + certificate).split("/")) + "\n"
    return contradiction_words(text.encode(), of, names)


def two_rows(*, is_integer: bool = False) -> IntegerProgram:
    """x + y at most 1, and at least 2 of it; both from 0 to 9."""
    columns = [Column(0, 9, is_integer=is_integer) for _ in range(2)]
    return program(columns, [Row(None, 1, {0: 1, 1: 1}), Row(2, None, {0: 1, 1: 1})])


@pytest.mark.parametrize(
    "certificate, told",
    [
        ("weights 2 / 0 -1 / 1 1", "constraint 0 (Cap), constraint 1 (Need)"),
        # 2 x + 2 y >= 4 and x + y <= 1 leave x + y: its bounds from above are used
        ("weights 1 / 1 1", "constraint 1 (Need), x <= 9, y <= 9"),
        ("weights 1 / 0 -1", "constraint 0 (Cap), x >= 0, y >= 0"),
    ],
)
def test_rows_and_bounds(certificate: str, told: str) -> None:
    assert words(certificate, two_rows()) == f"why: these have no point in common: {told}"


def test_without_names() -> None:
    told = words("weights 1 / 1 1", two_rows(), NameLists(""))
    assert told.endswith(": constraint 1, variable 0 <= 9, variable 1 <= 9")


def test_a_tree_is_told_by_its_first_leaf() -> None:
    """With the branches that lead there, and its bounds that are those of branches."""
    told = words("split 0 3 / weights 1 / 1 1 / weights 2 / 0 -1 / 1 1", two_rows(is_integer=True))
    assert told == (
        "why, in the first of 2 parts (x <= 3): these have no point in common: "
        "constraint 1 (Need), x <= 3 (a branch), y <= 9"
    )


def test_a_disjunction_is_written_out() -> None:
    told = words(
        "plane 2 1 / 0 1 / 1 -2 / weights 2 / 1 1 / 2 -1 / weights 2 / 0 -1 / 2 1",
        two_rows(is_integer=True),
    )
    assert "x - 2 y <= 1" in told and told.startswith("why, in the first of 2 parts: ")


@pytest.mark.parametrize("rows", [1, 5, 6, 40])
def test_at_most_five_are_named(rows: int) -> None:
    columns = [Column(0, 9)]
    many = program(columns, [Row(10 + row, None, {0: 1}) for row in range(rows)])
    entries: List[str] = [f"{row} 1" for row in range(rows)]
    names = NameLists.of([f"r{row}" for row in range(rows)], ["x"], rows)
    told = words(f"weights {rows} / " + " / ".join(entries), many, names)
    parts = rows + 1  # and the bound of x
    listed = told.partition("common: ")[2]
    assert listed.count("constraint") == min(rows, MOST_NAMED)
    rest = f" and {parts - MOST_NAMED} more rows and bounds"
    assert told.endswith(rest) == (parts > MOST_NAMED)


def test_a_leaf_of_duals_is_no_contradiction() -> None:
    assert words("duals 0", two_rows()) == ""
