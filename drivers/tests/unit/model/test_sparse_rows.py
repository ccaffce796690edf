"""Sparse rows, in lists and in arrays, against sums that are written out."""

from __future__ import annotations

from typing import Iterator, List, Tuple, TypeVar
from unittest import mock

import numpy as np
import pytest
from hypothesis import given, settings
from hypothesis import strategies as st

from bridge_drivers.model import sparse_rows
from bridge_drivers.model.sparse_rows import Entries, SparseRows, sparse_rows_of, split_digits

WIDE = 10**40
WHOLE = st.one_of(st.integers(-3, 3), st.integers(-(10**6), 10**6), st.integers(-WIDE, WIDE))
DOUBLES = st.floats(-1e9, 1e9)
Number = TypeVar("Number", int, float)
Case = Tuple[SparseRows, List[List[Number]]]  # a matrix, and the same as full rows


@pytest.fixture(params=["lists", "arrays"], autouse=True)
def kept_as(request: pytest.FixtureRequest) -> Iterator[None]:
    """Each test once by lists and once by arrays."""
    most = 10**9 if request.param == "lists" else -1
    with mock.patch.object(sparse_rows, "LARGE", most):
        yield


@st.composite
def matrices(draw: st.DrawFn, numbers: st.SearchStrategy[Number]) -> Case[Number]:
    """Of up to three rows and four columns, of entries or of lists, with numbers that may be 0."""
    m, n = draw(st.integers(0, 3)), draw(st.integers(1, 4))
    full = [[draw(st.one_of(st.just(0), numbers)) for _ in range(n)] for _ in range(m)]
    entries = [(i, j, full[i][j]) for j in range(n) for i in range(m) if full[i][j]]
    table = sorted({a for _, _, a in entries})
    places = [
        np.array(part, dtype=np.int32)
        for part in (
            [i for i, _, _ in entries],
            [j for _, j, _ in entries],
            [table.index(a) for _, _, a in entries],
        )
    ]
    made = SparseRows(m, n, Entries(*places), table)
    if draw(st.booleans()):
        made = SparseRows.of_lists(n, [row[:] for row in made.rows])
    return made, full


def of_column(full: List[List[int]], j: int) -> List[Tuple[int, int]]:
    """The rows and the coefficients of a column."""
    return [(i, row[j]) for i, row in enumerate(full) if row[j]]


@settings(max_examples=50)
@given(matrices(WHOLE))
def test_rows_and_columns(case: Case[int]) -> None:
    matrix, full = case
    assert matrix.rows == [[(j, a) for j, a in enumerate(row) if a] for row in full]
    assert matrix.columns == [of_column(full, j) for j in range(matrix.n)]
    assert [matrix.column(j) for j in range(matrix.n)] == matrix.columns
    assert matrix.lengths == [len(row) for row in matrix.rows]
    assert matrix.count == sum(matrix.lengths)


@settings(max_examples=50)
@given(matrices(WHOLE), st.data())
def test_activities_are_exact(case: Case[int], data: st.DataObject) -> None:
    matrix, full = case
    x = data.draw(st.lists(WHOLE, min_size=matrix.n, max_size=matrix.n))
    assert matrix.activities(x) == [sum(a * v for a, v in zip(row, x)) for row in full]


@settings(max_examples=50)
@given(matrices(WHOLE), st.data())
def test_minus_combination(case: Case[int], data: st.DataObject) -> None:
    """From values by column, a factor times a combination of rows is taken."""
    matrix, full = case
    rows = st.integers(0, max(len(full) - 1, 0))
    multipliers = data.draw(st.dictionaries(rows, WHOLE)) if full else {}
    factor = data.draw(st.integers(-5, 5))
    values = data.draw(st.lists(WHOLE, min_size=matrix.n, max_size=matrix.n))
    expected = [
        v - factor * sum(y * full[i][j] for i, y in multipliers.items())
        for j, v in enumerate(values)
    ]
    assert matrix.minus_combination(values[:], multipliers, factor) == expected


@settings(max_examples=50)
@given(matrices(WHOLE), st.data())
def test_weighted_norms(case: Case[int], data: st.DataObject) -> None:
    """By row, the sum of the sizes of its coefficients, each times the weight of its column."""
    matrix, full = case
    weights = data.draw(st.lists(st.integers(0, WIDE), min_size=matrix.n, max_size=matrix.n))
    expected = [sum(abs(a) * w for a, w in zip(row, weights)) for row in full]
    assert matrix.weighted_norms(weights) == expected


@settings(max_examples=50)
@given(matrices(DOUBLES), st.data())
def test_doubles(case: Case[float], data: st.DataObject) -> None:
    """Sums are made in the order of columns, to the last digit."""
    matrix, full = case
    x = data.draw(st.lists(DOUBLES, min_size=matrix.n, max_size=matrix.n))
    expected = []
    for row in full:
        total = 0.0
        for a, v in zip(row, x):
            total += a * v if a else 0.0
        expected.append(total)
    assert matrix.activities_in_doubles(x) == expected
    sizes = [abs(v) for v in x]
    greatest = [max([abs(a) * s for a, s in zip(row, sizes)], default=0.0) for row in full]
    assert matrix.largest_terms(sizes) == greatest


@settings(max_examples=50)
@given(matrices(WHOLE), st.data())
def test_submatrix(case: Case[int], data: st.DataObject) -> None:
    """Of some rows and columns, whose places are counted anew."""
    matrix, full = case
    rows = [i for i in range(matrix.m) if data.draw(st.booleans())]
    columns = [j for j in range(matrix.n) if data.draw(st.booleans())]
    expected = [[(k, full[i][j]) for k, j in enumerate(columns) if full[i][j]] for i in rows]
    assert matrix.submatrix(rows, columns) == expected


@given(st.lists(WHOLE), st.integers(1, 60))
def test_digits(values: List[int], bits: int) -> None:
    """Digits of so many bits and a sign, shifted by their places, are the values together."""
    total = [0] * len(values)
    for shift, digits in split_digits(values, bits):
        assert all(-1 << bits <= digit < 1 << bits for digit in digits)
        total = [v + (digit << shift) for v, digit in zip(total, digits)]
    assert total == values


def test_rows_without_a_place_are_left_out() -> None:
    places = [np.array(part, np.int32) for part in ([0, 1, -1, 1], [0, 0, 1, 1], [0, 1, 0, 2])]
    found = sparse_rows_of(3, 2, Entries(*places), [5, 7, 0], [-1, 2, -1, -1])
    assert found.rows == [[], [], [(0, 7)]]
