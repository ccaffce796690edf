"""Programs in arrays: the model that is made of them has each number."""

from __future__ import annotations

import math
from typing import List, Mapping, Sequence, Union

import numpy
import pytest
from hypothesis import given
from hypothesis import strategies as st

from bridge_drivers import model_of_arrays
from bridge_drivers.model.linear_program import LinearProgram

ROWS = [[6.0, 5.0, 8.0], [0.0, 1.0, -0.1]]


Numbers = Union[float, Sequence[float]]  # one for all, or one for each


def program(
    constant: float = 0.0,
    /,
    *,
    row_lower: Numbers = -math.inf,
    row_upper: Numbers = (14, 3),
    lower: Numbers = 0.0,
    upper: Numbers = 1,
) -> LinearProgram:
    """Three binary columns and two rows, of which the sides, the bounds and the constant differ."""
    text = model_of_arrays(
        [10, 7, 12],
        ROWS,
        row_lower,
        row_upper,
        lower=lower,
        upper=upper,
        integer=True,
        maximise=True,
        constant=constant,
    )
    return LinearProgram.of_named(text)


def test_numbers() -> None:
    found = program(2.5, row_lower=[-math.inf, 1.1])
    assert (found.maximise, found.objective_rhs, found.integer_count) == (True, "-2.5", 3)
    assert found.costs.values == [10.0, 7.0, 12.0]
    assert found.row_lower == [-math.inf, 1.1]
    assert found.row_upper == [14.0, 3.0]
    assert (found.lower, found.upper) == ([0.0] * 3, [1.0] * 3)
    assert list(found.matrix.activities_in_doubles([1.0, 1.0, 1.0])) == [19.0, 0.9]


def test_a_sparse_matrix_is_the_same() -> None:
    sparse = pytest.importorskip("scipy.sparse")
    whole = model_of_arrays([10, 7, 12], ROWS, row_upper=14)
    assert model_of_arrays([10, 7, 12], sparse.csr_matrix(ROWS), row_upper=14) == whole
    assert model_of_arrays(numpy.array([10, 7, 12]), numpy.array(ROWS), row_upper=14) == whole


def test_kinds_of_rows_and_bounds() -> None:
    found = program(row_lower=[14, -math.inf], lower=[-math.inf, 0, 2], upper=[math.inf, 1, 2])
    assert found.row_lower == [14.0, -math.inf]
    assert found.row_upper == [14.0, 3.0]
    assert found.lower == [-math.inf, 0.0, 2.0]
    assert found.upper == [math.inf, 1.0, 2.0]


def test_no_rows() -> None:
    found = LinearProgram.of_named(model_of_arrays([1.0, 2.0], lower=1))
    assert (found.n, found.m) == (2, 0)


@pytest.mark.parametrize(
    "changes",
    [
        {"row_upper": [1, 2, 3]},
        {"row_upper": math.nan},
        {"upper": [1, 2]},
        {"row_lower": [15, 0]},
        {"row_lower": [-1e300, 0]},  # a decimal of its distance to 14 has 300 digits
    ],
)
def test_what_does_not_fit(changes: Mapping[str, Numbers]) -> None:
    with pytest.raises(ValueError):
        program(**changes)


FINITE = st.floats(allow_nan=False, allow_infinity=False, min_value=-1e30, max_value=1e30)


@given(st.lists(FINITE, min_size=1, max_size=4))
def test_costs_are_the_same_doubles(costs: List[float]) -> None:
    found = LinearProgram.of_named(model_of_arrays(costs))
    known = {column: float(text) for column, text in found.cost_texts.items()}
    assert [known.get(column, 0.0) for column in range(len(costs))] == costs
