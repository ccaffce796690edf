"""Sentences on certificates, for each kind of node, claim and failure."""

from __future__ import annotations

from fractions import Fraction as F
from typing import List, Optional

import pytest

from bridge_drivers.pages.wording import (
    Wording,
    claimed,
    exact_and_decimal,
    short_number,
)
from bridge_drivers.program.verdict import Claim, Statement
from explained import KNAP, PROGRAMS, certificate, explanation, full_tree

PARITY = "infeasible / plane 3 166 / 0 4 / 1 7 / 2 11 / weights 2 / 0 1/3 / 1 -1 / weights 2 / 0 -1/3 / 1 1"
FLOW = "bound 0 7 / lemma 2 0 / 0 1 / 1 -7 / split 1 0 / duals 1 / 0 1 / duals 0 / duals 1 / 1 1"
NEEDED = "numbers with fewer digits are wanted"


@pytest.mark.parametrize(
    "model, names, words, line, told",
    [
        (
            "knap",
            "a b z",
            KNAP,
            "optimal 17",
            [
                "folder/m.certificate holds of folder/m.nl: optimal 17",
                "claim     a point has the objective 17, and none is better",
                "point     a 1, b 1; the others 0",
                "tree      7 nodes: 3 splits, 0 planes, 0 lemmas, 4 leaves (2 by weights); depth 3",
                "uses      constraint 0 in 2 of 4 leaves",
            ],
        ),
        (
            "parity",
            "a b c",
            PARITY,
            "infeasible",
            [
                "folder/m.certificate holds of folder/m.nl: infeasible",
                "claim     no point satisfies the model",
                "tree      3 nodes: 0 splits, 1 plane, 0 lemmas, 2 leaves (2 by weights); depth 1",
                "uses      constraint 0 in 2 of 2 leaves",
                "uses      planes and lemmas 2 times",
            ],
        ),
        (
            "flow",
            "y x",
            FLOW,
            "bound 7",
            [
                "folder/m.certificate holds of folder/m.nl: bound 7",
                "claim     no point has more than 7",
                "tree      5 nodes: 1 split, 0 planes, 1 lemma, 3 leaves (0 by weights); depth 2",
                "uses      constraint 0 in 1 of 3 leaves",
                "uses      planes and lemmas 1 time",
            ],
        ),
        (
            "endless",
            "",
            "unbounded 0 / point 0 / ray 2 / 0 1 / 1 1",
            "unbounded",
            [
                "folder/m.certificate holds of folder/m.nl: unbounded",
                "claim     the objective goes above every number",
                "point     all 0",
                "ray       x0 1, x1 1",
            ],
        ),
        (
            "wide",
            "",
            full_tree(1, "bound 0 45"),
            "bound 45",
            [
                "folder/m.certificate holds of folder/m.nl: bound 45",
                "claim     no point has more than 45",
                "tree      3 nodes: 1 split, 0 planes, 0 lemmas, 2 leaves (0 by weights); depth 1",
                "uses      no row: the bounds of variables alone",
            ],
        ),
    ],
)
def test_what_holds(model: str, names: str, words: str, line: str, told: List[str]) -> None:
    assert explanation(model, words, line, names.split()).lines() == told


@pytest.mark.parametrize(
    "model, names, words, line, told",
    [
        (
            "knap",
            "a b z",
            KNAP.replace("optimal 0 / point 2 / 0 1 / 1 1", "bound 0 16"),
            "leaf 0 gap 17",
            [
                "fails     leaf 0 (line 4): its duals show that no point of this part is better "
                "than 17, and the claim needs 16: 1 (6.25 %) too high",
                "path      1. z at most 0 (line 3)",
            ],
        ),
        (
            "wide",
            "",
            "bound 0 44 / duals 0",
            "leaf 0 gap 45",
            [
                "fails     leaf 0 (line 3): its duals show that no point of this part is better "
                "than 45, and the claim needs 44: 1 (2.27 %) too high",
                "path      it is the whole tree",
            ],
        ),
        (
            "parity",
            "a b c",
            PARITY.replace("1 -1 ", "1 -2 "),
            "leaf 0 bound 0 has no side",
            [
                "fails     leaf 0 (line 7): the numbers leave variable 0 (a) the cost 4, which "
                "asks for its lower bound, and there is none",
                "path      1. 4 a + 7 b + 11 c at most 166 (plane) (line 3)",
            ],
        ),
        (
            "parity",
            "a b c",
            PARITY.replace("1 -1 ", "1 2 "),
            "leaf 0 row 1 has no side",
            [
                "fails     leaf 0 (line 7): the number 2 of the plane of line 3 asks for its lower "
                "side, and there is none",
                "path      1. 4 a + 7 b + 11 c at most 166 (plane) (line 3)",
            ],
        ),
        (
            "parity",
            "a b c",
            PARITY.replace("166", "167"),
            "leaf 0 gap -1/3",
            [
                "fails     leaf 0 (line 7): its weights show -1/3, and contradict each other only "
                "above 0: about 0.3333333333 too little",
                "path      1. 4 a + 7 b + 11 c at most 167 (plane) (line 3)",
            ],
        ),
        (
            "flow",
            "y x",
            FLOW.replace("lemma 2 0", "lemma 2 -1"),
            "leaf 0 gap 0",
            [
                "fails     leaf 0 (line 7): its duals show that no point of this part is better "
                "than 0, and the lemma of line 3 needs -1: 1 (100.00 %) too high",
                "path      1. in the proof of the lemma: y - 7 x at most -1 (line 3)",
                "path      2. x at most 0 (line 6)",
            ],
        ),
        (
            "flow",
            "y x",
            FLOW,
            "leaf 2 too wide",
            [
                f"fails     leaf 2 (line 10): a sum passes 128 bits: {NEEDED}",
                "path      1. by the lemma: y - 7 x at most 0 (line 3)",
            ],
        ),
    ],
)
def test_leaves_that_do_not_close(
    model: str, names: str, words: str, line: str, told: List[str]
) -> None:
    lines = explanation(model, words, line, names.split()).lines()
    assert lines[0] == f"folder/m.certificate does not hold of folder/m.nl: {line}"
    assert lines[1].startswith("claim     it claims: ")
    assert [text for text in lines if text.startswith(("fails", "path"))] == told


@pytest.mark.parametrize(
    "model, words, line, told",
    [
        (
            "small",
            "feasible 0 / point 0",
            "too wide at row 0",
            f"a sum of constraint 0 at the point, or a side of it, passes 128 bits: {NEEDED}",
        ),
        (
            "small",
            "unbounded 0 / point 0 / ray 0",
            "too wide at ray objective",
            f"a sum of the objective along the ray, or a side of it, passes 128 bits: {NEEDED}",
        ),
        (
            "endless",
            "unbounded 0 / point 0 / ray 1 / 0 1",
            "ray row 0 broken",
            "constraint 0 changes by 1 along the ray, past a side that it has",
        ),
        (
            "endless",
            "unbounded 0 / point 0 / ray 1 / 0 -1",
            "ray bound 0 broken",
            "variable 0 changes by -1 along the ray, past a side that it has",
        ),
        (
            "endless",
            "feasible 0 / point 1 / 0 3",
            "row 0 broken",
            "constraint 0 is 3 at the point, and at most 2: 1 too much",
        ),
        (
            "endless",
            "feasible 0 / point 1 / 0 -.5",
            "bound 0 broken",
            "variable 0 is -1/2 at the point, and at least 0: 0.5 too little",
        ),
        (
            "parity",
            "feasible 0 / point 0",
            "row 0 broken",
            "constraint 0 is 0 at the point, and at least 500: 500 too little",
        ),
        (
            "endless",
            "feasible 0 / point 1 / 1 .25",
            "variable 1 not whole",
            "variable 1 is 1/4 at the point, 0.25 from a whole number",
        ),
        (
            "endless",
            "unbounded 0 / point 0 / ray 0",
            "ray does not improve",
            "along the ray the objective changes by 0, which is no better",
        ),
    ],
)
def test_points_and_rays_that_are_none(model: str, words: str, line: str, told: str) -> None:
    explained = explanation(model, words, line)
    assert f"fails     {told}" in explained.lines()
    details = explained.details()
    assert (details["failure"], details["leaf"], details["path"]) == (told, None, [])


@pytest.mark.parametrize(
    "words, line, told",
    [
        (
            "bound 0 16 / duals 1 / 0 1",
            "leaf 0 gap 17",
            "its duals show that no point is better than 17, which is not what is claimed",
        ),
        (
            "bound 0 16 / duals 1 / 0 -1",
            "leaf 0 row 0 has no side",
            "a number asks for a side that constraint 0 has not",
        ),
        ("feasible 0 / point 1 / 0 3", "row 0 broken", "row 0 broken"),
        ("unbounded 0 / point 0 / ray 0", "ray does not improve", "ray does not improve"),
    ],
)
def test_without_exact_numbers(words: str, line: str, told: str) -> None:
    """The verdict stands, and a line says why no more is told."""
    explained = explanation("knap", words, line, is_exact=False)
    lines = explained.lines()
    assert any(text.startswith("fails") and text.endswith(told) for text in lines)
    assert lines[-1] == "without bounds: a reason"
    assert explained.details()["holds"] is False


def wording(model: str, words: str, columns: str = "") -> Wording:
    return explanation(model, words, "row 0 broken", columns.split()).wording


@pytest.mark.parametrize(
    "factor, low, high",
    [
        (1, "objective at most 16", "objective at least 17"),
        (-1, "objective at least -16", "objective at most -17"),
    ],
)
def test_the_objective_by_its_name(factor: int, low: str, high: str) -> None:
    """A form that is the objective, whatever it is multiplied by, and turned."""
    entries = " / ".join(f"{column} {factor * cost}" for column, cost in enumerate((10, 7, 12)))
    found = wording("knap", f"bound 0 17 / plane 3 16 / {entries} / duals 0 / duals 0")
    node = found.certificate.nodes[0]
    branches = [found.branch_words(node, branch) for branch in (0, 1)]
    assert branches == [f"{low} (plane)", f"{high} (plane)"]


def test_rows_that_nodes_add() -> None:
    """They have the numbers behind those of the constraints, above each leaf its own."""
    found = wording("flow", FLOW)
    in_proof, behind = (found.certificate.place_of_leaf(number) for number in (0, 2))
    assert found.row(0, behind) == "constraint 0"
    assert found.row(1, behind) == "the lemma of line 3"
    assert found.row(1, in_proof) == found.row(1) == "row 1"


def test_a_long_form() -> None:
    found = wording("wide", "bound 0 45 / duals 0")
    entries = [(0, "-1"), (1, "1/2"), *((column, "-1") for column in range(2, 9))]
    assert found.form(entries) == "-x0 + 1/2 x1 - x2 - x3 - x4 - x5 + .. (9 terms)"


def test_a_long_point() -> None:
    found = wording("wide", "bound 0 45 / duals 0")
    text = found.values({column: F(1) for column in range(20)})
    assert text == ", ".join(f"x{j} 1" for j in range(12)) + " and 8 more; the others 0"


@pytest.mark.parametrize(
    "value, short, both",
    [
        (F(17), "17", "17"),
        (F(173, 4), "43.25", "173/4 = 43.25"),
        (F(1, 3), "\u2248 0.333333", "1/3 \u2248 0.333333"),
        (F(10**13 + 1), "\u2248 1e+13", str(10**13 + 1)),
        (F(10**400, 3), "\u2248 3.33333e+399", f"{F(10**400, 3)} \u2248 3.33333e+399"),
    ],
)
def test_numbers(value: F, short: str, both: str) -> None:
    assert (short_number(value), exact_and_decimal(value)) == (short, both)


@pytest.mark.parametrize(
    "words, statement",
    [
        (KNAP, Statement(Claim.OPTIMAL, F(17), F(17))),
        ("feasible 0 / point 1 / 2 1", Statement(Claim.FEASIBLE, F(12))),
        ("within 0 20 / point 1 / 2 1 / duals 0", Statement(Claim.WITHIN, F(12), F(20))),
        ("bound 0 20 / duals 0", Statement(Claim.BOUND, bound=F(20))),
        ("infeasible / weights 0", Statement(Claim.INFEASIBLE)),
        ("unbounded 0 / point 0 / ray 0", Statement(Claim.UNBOUNDED)),
    ],
)
def test_what_is_claimed(words: str, statement: Optional[Statement]) -> None:
    sums = explanation("knap", words, "row 0 broken").wording.sums
    assert sums is not None and sums.program is PROGRAMS["knap"]
    assert claimed(certificate(words), sums) == statement
    if statement is not None and statement.value is not None:
        assert claimed(certificate(words), None) is None


def test_the_object_for_programs() -> None:
    details = explanation("knap", KNAP, "optimal 17", ["a", "b", "z"]).details()
    assert details == {
        "holds": True,
        "claim": "a point has the objective 17, and none is better",
        "point": {"a": "1", "b": "1"},
        "ray": None,
        "tree": {
            "nodes": 7,
            "splits": 3,
            "planes": 0,
            "lemmas": 0,
            "leaves": 4,
            "weights": 2,
            "depth": 3,
            "added": 0,
        },
        "uses": {"constraint 0": 2},
        "failure": None,
        "leaf": None,
        "line": None,
        "path": [],
    }
    failed = KNAP.replace("optimal 0 / point 2 / 0 1 / 1 1", "bound 0 16")
    details = explanation("knap", failed, "leaf 0 gap 17").details()
    assert (details["holds"], details["leaf"], details["line"]) == (False, 0, 4)
    assert details["path"] == ["x2 at most 0 (line 3)"]
