"""Figures of a program, and residuals against a slow definition."""

from __future__ import annotations

from fractions import Fraction
from pathlib import Path
from random import Random
from typing import Dict, List, Tuple

import pytest
from hypothesis import given
from hypothesis import strategies as st

from bridge_drivers.formats.names import NameLists
from bridge_drivers.model.analysis import (
    NO_RESIDUAL,
    TOLERANCE,
    TOLERANCE_OF_INTEGERS,
    Statistics,
    is_double_or_shortest,
    range_in_doubles,
    residual_of,
    residuals,
    worst_residual,
)
from bridge_drivers.model.linear_program import LinearProgram
from bridge_drivers.pipeline.statistics import range_line, statistics_lines
from builders.plain_mps import Plain, random_text

DATA = Path(__file__).parents[2] / "data" / "mps"
ZERO_TO_ONE = (Fraction(0), Fraction(1))
MIXED = (
    b"NAME nl\nOBJSENSE\n MAX\nROWS\n N obj\n L c0\n G c2\nCOLUMNS\n x0 obj 1\n x0 c0 3\n"
    b" M0 'MARKER' 'INTORG'\n x1 obj 2\n x1 c0 4\n x1 c2 2\n x2 c0 -2\n x2 c2 4\n"
    b" M1 'MARKER' 'INTEND'\nRHS\n RHS obj -0.5\n RHS c0 6\n RHS c2 1\nRANGES\n RNG c2 4\n"
    b"BOUNDS\n FR BND x0\n UP BND x1 2.5\n UP BND x2 3\nENDATA\n"
)


def read(name: str) -> LinearProgram:
    return LinearProgram.of((DATA / name).read_bytes())


def test_lines() -> None:
    lines = statistics_lines(
        Statistics(read("exported.mps")), {"c0": "3", "c2": "1"}, NameLists("")
    )
    assert lines == [
        "sense         maximise, constant 7",
        "columns       4: 2 continuous, 1 binary, 1 integer; 1 free, 1 fixed",
        "rows          3: 1 <=, 1 >=, 1 =; 1 with two sides",
        "entries       4 in rows, 1 in the objective",
        "coefficients  0.3 to 1e+31 in rows, 2 to 2 in the objective",
        "sides         5 to 1e+30",
        "infinite      1 sides and bounds from 1e20 on: none to highs, to cbc and clp from 1e25, "
        "to lp_solve from 1e30",
        "not doubles   1 numbers: 0.30000000000000004441 (c2 x2)",
        "scaled rows   1: c0 by 3",
    ]


def test_a_tied_objective() -> None:
    lines = statistics_lines(Statistics(read("tied.mps")), {}, NameLists(""))
    assert lines[0] == "sense         minimise; tied to column z by row zdef, times 3"
    assert lines[1].startswith("columns       1: 1 continuous")
    assert lines[2].startswith("rows          0:")


@pytest.mark.parametrize("seed", range(100))
def test_random_texts(seed: int) -> None:
    """Counts against those of a text that is read line by line."""
    program = LinearProgram.of_named(random_text(seed))
    plain, found = Plain(program.text), Statistics(program)
    in_rows = [abs(a) for (i, _), a in plain.entries.items() if i != "obj" and a]
    costs = [abs(a) for (i, _), a in plain.entries.items() if i == "obj" and a]
    assert (found.entries, found.costs) == (len(in_rows), len(costs))
    assert (set(found.sizes), set(found.cost_sizes)) == (set(in_rows), set(costs))
    assert len(found.row_kinds) == len(plain.constraints())
    bounds = list(plain.bounds().values())
    pairs = list(zip(plain.whole.values(), bounds))
    assert found.columns == {
        "continuous": sum(not whole for whole, _ in pairs),
        "binary": pairs.count((True, ZERO_TO_ONE)),
        "integer": sum(whole and pair != ZERO_TO_ONE for whole, pair in pairs),
        "free": bounds.count((None, None)),
        "fixed": sum(low is not None and low == high for low, high in bounds),
    }
    lost = [a for a in plain.entries.values() if not is_double_or_shortest(a)]
    assert sum(" " in number.place for number in found.lost) == len(lost)


def test_bounds_that_doubles_do_not_hold() -> None:
    text = (
        b"NAME nl\nROWS\n N obj\nCOLUMNS\n x0 obj 1\n x1 obj 1\nRHS\nBOUNDS\n"
        b" LO BND x0 -0.30000000000000004441\n UP BND x0 1e21\n"
        b" FX BND x1 0.30000000000000004441\nENDATA\n"
    )
    found = Statistics(LinearProgram.of(text))
    assert [number.place for number in found.lost] == ["x0", "x1"]
    assert found.infinite == 1


@pytest.mark.parametrize("text", ["1e400", str(2**100 + 1), "1e-400"])
def test_numbers_that_doubles_do_not_hold(text: str) -> None:
    assert not is_double_or_shortest(Fraction(text))


@pytest.mark.parametrize("text", ["0.1", "0.5", str(2**100), "0", "-3"])
def test_numbers_that_doubles_hold(text: str) -> None:
    assert is_double_or_shortest(Fraction(text))


def test_ranges() -> None:
    assert range_in_doubles([]) == []
    assert range_in_doubles([3, Fraction(1, 2), 10**400]) == [0.5, None]
    assert range_line([3, 10**400]) == "3 to beyond doubles"
    assert range_line([]) == "none"


@pytest.mark.parametrize(
    "x, relative, name",
    [
        (["0", "1", "0"], 0.0, ""),
        (["4", "1", "0"], 10 / 12, "c0"),
        (["0", "0", "0"], 1 / 4, "c2"),
        (["-9", "0", "4"], 11 / 16, "c2"),
    ],
)
def test_the_worst_residual(x: List[str], relative: float, name: str) -> None:
    found = worst_residual(LinearProgram.of(MIXED), x)
    assert found.relative == pytest.approx(relative)
    assert found.name == name


@pytest.mark.parametrize(
    "numbers, x, relative, is_significant",
    [
        (("3e-11", "2e-11", "5e-11", "20"), ["20", "20"], 95 / 60, True),
        (("3e-11", "2e-11", "5e-11", "20"), ["1", "1"], 0, False),
        (("1", "-1e6", "0", "20"), ["1e-9", "0"], 1e-15, False),
        (("1", "1", "1", "20"), ["1", "1e-9"], 1e-9, False),
        (("1", "1", "1", "1e-9"), ["2e-9", "0"], 0.5, True),
    ],
)
def test_a_residual_is_measured_by_its_own_row(
    numbers: Tuple[str, str, str, str], x: List[str], relative: float, is_significant: bool
) -> None:
    """Without a floor; what is near 0 beside a coefficient is measured by that."""
    text = (
        "NAME nl\nROWS\n N obj\n L c0\nCOLUMNS\n x0 c0 {}\n x1 c0 {}\nRHS\n RHS c0 {}\n"
        "BOUNDS\n UP BND x0 {}\nENDATA\n"
    ).format(*numbers)
    found = worst_residual(LinearProgram.of(text.encode()), x)
    assert found.relative == pytest.approx(relative)
    assert found.is_significant() is is_significant


@pytest.mark.parametrize(
    "side, is_significant",
    [
        ("3.000001", True),
        ("3.00000000001", True),
        ("2.9999999999999", False),
        ("3.0000000000000004", False),
    ],
)
def test_rows_of_integer_columns(side: str, is_significant: bool) -> None:
    """They are to be met but for rounding; a continuous column takes that away."""
    head = "NAME nl\nROWS\n N obj\n G c0\nCOLUMNS\n M0 'MARKER' 'INTORG'\n x0 c0 1\n"
    end = f"RHS\n RHS c0 {side}\nENDATA\n"
    both = LinearProgram.of(f"{head} x1 c0 1\n M1 'MARKER' 'INTEND'\n{end}".encode())
    one = LinearProgram.of(f"{head} M1 'MARKER' 'INTEND'\n x1 c0 1\n{end}".encode())
    x = ["1", "2"]
    assert worst_residual(both, x, wants_integers=True).is_significant() is is_significant
    assert not worst_residual(one, x, wants_integers=True).is_significant()
    assert not worst_residual(both, x).is_significant() or side == "3.000001"


def test_a_residual_that_is_known() -> None:
    assert residual_of(1e-7, "x") == (1e-7 / TOLERANCE, 1e-7, "x")
    assert residual_of(1e-7, "x", has_integers=True).times_tolerance == 1e-7 / TOLERANCE_OF_INTEGERS
    assert not NO_RESIDUAL.is_significant()


def slow_residuals(program: LinearProgram, x: List[float]) -> Dict[str, float]:
    """By name of what is missed, as a share of its largest term."""
    found = {}
    coefficients = dict(zip(program.names.rows, program.matrix.rows))
    sides = zip(program.names.rows, program.row_lower, program.row_upper)
    for name, lower, upper in sides:
        row = coefficients[name]
        activity = 0.0
        for j, a in row:
            activity += a * x[j]
        by = max(lower - activity, activity - upper)
        if by > 0:
            missed = lower if activity < lower else upper
            sizes = [abs(a) * max(1.0, abs(x[j])) for j, a in row]
            found[name] = by / max([0.0, *sizes, abs(missed)])
    bounds = zip(program.names.columns, x, program.lower, program.upper)
    for name, v, lower, upper in bounds:
        by = max(lower - v, v - upper)
        if by > 0:
            missed = abs(lower if v < lower else upper)
            found[name] = by / (max(missed, abs(v)) if missed else max(1.0, abs(v)))
    return found


@given(st.integers(0, 200), st.randoms(use_true_random=False))
def test_residuals_against_a_slow_definition(seed: int, chance: Random) -> None:
    program = LinearProgram.of_named(random_text(seed))
    values = [repr(chance.uniform(-9, 9)) for _ in range(program.n)]
    found = list(residuals(program, values))
    assert {one.name: one.relative for one in found} == slow_residuals(
        program, list(map(float, values))
    )
    most = max([one.times_tolerance for one in found], default=0.0)
    assert worst_residual(program, values).times_tolerance == most
