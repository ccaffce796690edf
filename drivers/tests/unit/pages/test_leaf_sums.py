"""The sums of leaves: they bound the objective at each point of the leaf's part, and add up as they are shown."""

from __future__ import annotations

import itertools
from fractions import Fraction as F
from typing import Dict, Iterator

import pytest

from bridge_drivers.exact.certificate import NodeKind
from bridge_drivers.model.integer_form import IntegerProgram
from bridge_drivers.exact.leaf_sums import LeafSums, NodeContext, Part, value_at
from bridge_drivers.pages.page import MOST_TERMS, Product, leaf_sum, lines_of_sum
from explained import KNAP, PROGRAMS, certificate, explanation, full_tree

CASES = [
    ("knap", KNAP, "optimal 17"),
    ("knap", full_tree(3, "bound 0 29"), "bound 29"),
    ("knap", "bound 0 22 / duals 1 / 0 1.5", "bound 22"),
    (
        "knap",
        "bound 0 17 / lemma 3 17 / 0 10 / 1 7 / 2 12 / split 2 0 / duals 0 / split 0 0 / split 1 0 "
        "/ duals 0 / weights 1 / 0 -1 / weights 1 / 0 -1 / duals 1 / 1 1",
        "bound 17",
    ),
    (
        "knap",
        "bound 0 19 / plane 3 1 / 0 1 / 1 1 / 2 1 / duals 2 / 0 1 / 1 5 / duals 1 / 0 1.75",
        "bound 19",
    ),
    ("flow", "bound 0 7 / split 1 0 / duals 1 / 0 1 / duals 1 / 0 .5", "bound 7"),
    (
        "flow",
        "bound 0 7 / lemma 2 0 / 0 1 / 1 -7 / split 1 0 / duals 1 / 0 1 / duals 0 / duals 1 / 1 1",
        "bound 7",
    ),
    ("wide", full_tree(5, "bound 0 45"), "bound 45"),
]


def points(program: IntegerProgram) -> Iterator[Dict[int, F]]:
    """Points of a program whose columns are bounded: at some values of each of them."""
    ranges = []
    for column in range(program.n):
        lower, upper = program.lower[column], program.upper[column]
        assert lower is not None and upper is not None
        low, high = F(lower, program.bound_scale), F(upper, program.bound_scale)
        is_integer = program.is_integer[column]
        ranges.append([low, high] if is_integer else [low, (low + high) / 3, high])
    for values in itertools.product(*ranges):
        if program.is_feasible(list(values)):
            yield dict(enumerate(values))


def is_in(context: NodeContext, point: Dict[int, F]) -> bool:
    """Whether a point is in the part of a node."""
    for column, (lower, upper) in context.bounds.items():
        if (
            lower is not None
            and point[column] < lower
            or upper is not None
            and point[column] > upper
        ):
            return False
    for row in context.added_rows:
        value, (lower, upper) = value_at(row.terms, point), row.bounds
        if lower is not None and value < lower or upper is not None and value > upper:
            return False
    return True


@pytest.mark.parametrize("model, words, line", CASES)
def test_a_sum_bounds_the_form_at_each_point_of_its_part(model: str, words: str, line: str) -> None:
    """By enumeration: of `weights` above 0 there is no point."""
    program = PROGRAMS[model]
    sums = LeafSums(program, certificate(words))
    all_points = list(points(program))
    for place, node in enumerate(sums.certificate.nodes):
        if not node.is_leaf:
            continue
        context = sums.context(place)
        bound = sums.proved_bound(place, context)
        assert bound is not None
        for point in filter(lambda it: is_in(context, it), all_points):
            if node.kind is NodeKind.WEIGHTS:
                assert bound <= 0
                continue
            value = context.target.constant + value_at(context.target.costs.items(), point)
            assert value <= bound if context.target.maximise else value >= bound


@pytest.mark.parametrize("model, words, line", CASES)
def test_sums_add_up_as_they_are_shown(model: str, words: str, line: str) -> None:
    explained = explanation(model, words, line)
    sums, wording = explained.wording.sums, explained.wording
    assert sums is not None
    page = explained.html_page()
    for place, node in enumerate(explained.certificate.nodes):
        if not node.is_leaf:
            continue
        shown = leaf_sum(sums, wording, place)
        assert shown is not None
        products = [line.split(")")[-1].split("=")[0] for line in shown.lines if "\u00d7" in line]
        total = sums.proved_bound(place, sums.context(place))
        assert sum(map(F, products)) == F(shown.lines[-1].split("=")[0]) == total
        assert len({len(line) for line in shown.lines}) == 1
        assert shown.lines[-1].strip() in page


def test_a_bound_that_is_missing() -> None:
    sums = LeafSums(PROGRAMS["endless"], certificate("bound 0 3 / duals 0"))
    context = sums.context(0)
    assert sums.proved_bound(0, context) is None
    missing = [
        (term.part, term.number, term.is_lower, term.bound) for term in sums.terms(0, context)
    ]
    assert missing == [(Part.COLUMN, 0, False, None), (Part.COLUMN, 1, False, None)]


def test_the_objective_at_a_point_and_along_a_ray() -> None:
    sums = LeafSums(PROGRAMS["endless"], certificate("unbounded 0 / point 1 / 1 5 / ray 1 / 0 2"))
    assert sums.point_value == 5
    assert sums.objective_change(sums.certificate.ray or {}) == 2


def test_many_products_are_summed_up() -> None:
    explained = explanation("wide", "bound 0 45 / duals 0", "bound 45")
    assert explained.wording.sums is not None
    shown = leaf_sum(explained.wording.sums, explained.wording, 0)
    assert shown is not None and len(shown.lines) == 9 + 2 <= MOST_TERMS
    lines = lines_of_sum([Product(F(1), "x \u2264 1/3", F(1, 3))], F(1, 3))
    assert lines == [
        "1 \u00d7 (x \u2264 1/3)  1/3 \u2248 0.333333",
        "\u2500" * len(lines[0]),
        "1/3 \u2248 0.333333".rjust(len(lines[0])),
    ]
