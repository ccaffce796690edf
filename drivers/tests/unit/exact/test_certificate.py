"""The text of a certificate, written and read back."""

from __future__ import annotations

from fractions import Fraction
from typing import List, Tuple

import pytest
from hypothesis import given
from hypothesis import strategies as st

from bridge_drivers.exact.certificate import (
    Node,
    NodeKind,
    ObjectiveRow,
    RowNumbering,
    claim_lines,
    leaf_lines,
    lines_of_answer,
    number_text,
    read_certificate,
    tree_lines,
)
from bridge_drivers.exact.dual_bound import MultiplierKind, Multipliers
from bridge_drivers.exact.tree import EmptyDomain, Leaf, Split, Tree, leaf_of, node_count
from bridge_drivers.model.integer_form import IntegerProgram
from bridge_drivers.model.integer_form import Row as AddedRow
from programs import Column, Row, program

DUAL, FARKAS = MultiplierKind.DUAL, MultiplierKind.FARKAS
FORM = 2  # the place of the form among the rows of `with_form`


def with_form() -> IntegerProgram:
    """Three integer columns, two rows, and the form x1 + 2 x2 behind them."""
    columns = [Column(0, 9, is_integer=True) for _ in range(3)]
    rows = [Row(None, 7, {0: "1.5", 1: 2}), Row(1, None, {1: 1, 2: 1})]
    return program(columns, rows, "max").with_rows([AddedRow({1: 1, 2: 2})])


@pytest.mark.parametrize(
    "value, text",
    [
        (Fraction(0), "0"),
        (Fraction(7000), "7000"),
        (Fraction(70000), "7e4"),
        (Fraction(-1, 2), "-.5"),
        (Fraction(1, 3), "1/3"),
        (Fraction(13, 4), "3.25"),
        (Fraction(1, 1024), "1/1024"),
        (Fraction(-12, 10), "-1.2"),
        (3, "3"),
    ],
)
def test_texts_of_numbers(value: Fraction, text: str) -> None:
    assert number_text(value) == text


@given(st.fractions())
def test_a_number_is_read_back_from_its_text(value: Fraction) -> None:
    assert Fraction(number_text(value)) == value


def test_the_lines_of_a_tree() -> None:
    """Splits, an empty domain, and a form that is split twice, whose branches are rows 3 and 4."""
    refuting = leaf_of(Multipliers({FORM: -1}, 1, FARKAS), (FORM,))
    bounding = leaf_of(Multipliers({0: -2, FORM: 4}, 3, DUAL), (FORM,))
    empty = leaf_of(Multipliers({}, 1, DUAL), ())
    form = 3 + FORM  # as a column
    tree: Tree = [Split(1, 0), Split(form, 4), refuting, Split(form, 6), refuting, bounding]
    tree += [Split(2, -1), EmptyDomain(2, 0), empty]
    lines = list(tree_lines(with_form(), tree, RowNumbering({}, 3, -1)))
    assert lines == [
        *("split 1 0", "plane 2 4", "1 1", "2 2", "weights 1", "3 -1"),
        *("plane 2 6", "1 1", "2 2", "weights 1", "4 -1", "duals 2", "0 2/3", "4 -4/3"),
        *("split 2 -1", "plane 1 0", "2 1", "weights 1", "3 -1", "weights 1", "3 1", "duals 0"),
    ]


def test_duals_under_a_disjunction_on_the_objective_are_weights() -> None:
    numbering = RowNumbering({3: 5}, 6, -1, ObjectiveRow(4, Fraction(1, 2)))
    lines = list(leaf_lines(Multipliers({0: -2, 3: 4}, 3, DUAL), numbering))
    assert lines == ["weights 3", "0 -2/3", "4 -.5", "5 4/3"]


def test_the_lines_of_claims() -> None:
    assert list(claim_lines("within", 1, Fraction(7, 3), [Fraction(0), Fraction(1, 4)])) == [
        *("certificate 1", "within 1 7/3", "point 1", "1 .25")
    ]
    assert list(claim_lines("infeasible", None)) == ["certificate 1", "infeasible"]


def test_an_answer_is_a_certificate() -> None:
    assert list(lines_of_answer(["0", "1.5"], ["-2"], 0)) == [
        *("certificate 1", "optimal 0", "point 1", "1 1.5", "duals 1", "0 -2")
    ]
    assert list(lines_of_answer(["0", "1.5"], [], 0)) == [
        *("certificate 1", "feasible 0", "point 1", "1 1.5")
    ]


READ = """certificate 1
optimal 0
point 1
1 1
lemma 2 0
0 1
1 -7
split 1 0
duals 1
0 1

duals 0
plane 1 2
1 3
weights 1
0 .5
duals 1
1 1
"""


def test_a_certificate_is_read() -> None:
    found = read_certificate(READ.splitlines())
    assert (found.claim, found.objective, found.numbers) == ("optimal", 0, [])
    assert found.point == {1: Fraction(1)} and found.ray is None
    assert [_row(node) for node in found.nodes] == [
        (NodeKind.CUT, 5, -1, 0, 0, -1, 7, 4),
        (NodeKind.SPLIT, 8, 0, 0, 1, -1, 3, 2),
        (NodeKind.DUALS, 9, 1, 0, 2, 0, 1, 1),
        (NodeKind.DUALS, 12, 1, 1, 2, 1, 1, 1),
        (NodeKind.DISJUNCTION, 13, 0, 1, 1, -1, 3, 2),
        (NodeKind.WEIGHTS, 15, 4, 0, 2, 2, 1, 1),
        (NodeKind.DUALS, 17, 4, 1, 2, 3, 1, 1),
    ]
    assert found.nodes[0].entries == [(0, "1"), (1, "-7")]
    assert (found.nodes[1].column, found.nodes[1].at) == (1, "0")
    assert (found.nodes[4].at, found.nodes[5].at) == ("2", "")


def _row(node: Node) -> Tuple[object, ...]:
    return (
        *(node.kind, node.line, node.parent, node.branch, node.depth),
        *(node.leaf_number, node.size, node.leaves),
    )


def test_the_way_through_a_tree() -> None:
    found = read_certificate(READ.splitlines())
    assert [found.children(place) for place in (0, 4, 6)] == [[1, 4], [5, 6], []]
    assert found.path(6) == [0, 4, 6]
    assert found.branches(6) == [(found.nodes[0], 1), (found.nodes[4], 1)]
    assert found.place_of_leaf(3) == 6


@pytest.mark.parametrize(
    "text",
    [
        "",
        "certificate 1",
        "certificate 1\nbound 0 1\nsplit 0 0\nduals 0",
        "certificate 1\nbound 0 1\nduals 2\n0 1",
        "certificate 1\nbound 0 1\nleaf 0",
        "certificate 1\noptimal zero",
    ],
)
def test_texts_that_are_no_certificates(text: str) -> None:
    with pytest.raises(ValueError):
        read_certificate(text.splitlines())


NUMERATORS = st.integers(-9, 9).filter(bool)
LEAVES = st.builds(
    lambda numerators, kind: [leaf_of(Multipliers(numerators, 7, kind), ())],
    st.dictionaries(st.integers(0, 1), NUMERATORS),
    st.sampled_from((DUAL, FARKAS)),
)
TREES = st.recursive(
    LEAVES | st.builds(lambda at: [EmptyDomain(0, at)], st.integers(-9, 9)),
    lambda trees: st.builds(
        lambda column, at, low, high: [Split(column, at), *low, *high],
        st.sampled_from((0, 1, 2, 3 + FORM)),
        st.integers(-9, 9),
        trees,
        trees,
    ),
    max_leaves=12,
)


@given(TREES)
def test_a_tree_is_read_back(tree: Tree) -> None:
    """With its splits, with each leaf's multipliers, and as many nodes."""
    lines = [*claim_lines("bound", 0, Fraction(1)), *tree_lines(with_form(), tree, NUMBERING)]
    nodes = read_certificate(lines).nodes
    assert len(nodes) == node_count(tree) == nodes[0].size
    at = 0
    for written in tree:
        node = nodes[at]
        if isinstance(written, Split):
            assert Fraction(node.at) == written.at
            is_column = written.column < 3
            assert node.kind is (NodeKind.SPLIT if is_column else NodeKind.DISJUNCTION)
            assert node.column == (written.column if is_column else -1)
        elif isinstance(written, EmptyDomain):
            assert (node.kind, node.entries) == (NodeKind.DISJUNCTION, [(0, "1")])
        else:
            assert isinstance(written, Leaf)
            wanted = written.multipliers()
            values = {i: Fraction(v, wanted.denominator) for i, v in wanted.numerators.items()}
            assert {i: Fraction(text) for i, text in node.entries} == values
        at += written.nodes


NUMBERING = RowNumbering({}, 2, 1)


@given(st.lists(st.tuples(st.booleans(), st.integers(-9, 9)), min_size=1, max_size=8))
def test_a_leaf_names_the_innermost_branches_of_a_form(steps: List[Tuple[bool, int]]) -> None:
    """Down a path of splits of one form: a multiplier below 0 rests on the last `at most`."""
    leaf = leaf_of(Multipliers({FORM: -1}, 1, FARKAS), ())
    tree: Tree = []
    closing = 0
    for is_upper, at in steps:
        tree.append(Split(3 + FORM, at))
        tree += [leaf] if is_upper else []
        closing += not is_upper
    tree += [leaf] * (1 + closing)
    numbers = list(range(2, 2 + len(steps)))
    lines = [*claim_lines("infeasible", None), *tree_lines(with_form(), tree, NUMBERING)]
    found = read_certificate(lines)
    deepest = max(range(len(found.nodes)), key=lambda place: found.nodes[place].depth)
    lower = [n for n, (node, branch) in zip(numbers, found.branches(deepest)) if branch == 0]
    assert found.nodes[deepest].entries == [(lower[-1] if lower else -1, "-1")]
