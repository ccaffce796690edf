"""Small integer programs, for tests of the search, with their optimum by enumeration."""

from __future__ import annotations

import itertools
from fractions import Fraction
from typing import Iterator, List, Optional, Sequence, Tuple

from hypothesis import strategies as st

from bridge_drivers.model.integer_form import IntegerProgram, Point
from programs import Column, Number, Row, program


Bounds = Tuple[Optional[Number], Optional[Number]]
NUMBERS: Sequence[Number] = [1, 2, -1, 3, -2, "0.5", 7]
COVER_COSTS: Sequence[Number] = ("0.75", 1, "0.75", 1, "0.75", 1)


@st.composite
def boxed_programs(draw: st.DrawFn) -> IntegerProgram:
    """Two to four integer columns in small boxes, under rows of all kinds."""
    columns = [
        Column(
            draw(st.integers(-2, 0)),
            draw(st.integers(1, 3)),
            is_integer=True,
            cost=draw(st.integers(-9, 9)),
        )
        for _ in range(draw(st.integers(2, 4)))
    ]
    rows = []
    for _ in range(draw(st.integers(1, 3))):
        coefficients = {j: draw(st.integers(-6, 6)) for j in range(len(columns))}
        at = draw(st.integers(-6, 9))
        sides = draw(st.sampled_from([(None, at), (at, None), (at, at + 2), (at, at)]))
        rows.append(Row(*sides, {j: a for j, a in coefficients.items() if a}))
    return program(columns, rows, draw(st.sampled_from(["min", "max"])))


@st.composite
def mixed_programs(draw: st.DrawFn) -> IntegerProgram:
    """Continuous columns with and without bounds beside integer ones."""
    count = draw(st.integers(2, 4))
    free: Sequence[Bounds] = [(0, None), (None, None), ("-1.5", 3), (0, "2.5")]
    boxed: Sequence[Bounds] = [(-2, 3), ("-1.5", "2.5"), (0, None)]
    costs: Sequence[Number] = [1, -2, 3, "0.25"]
    columns = []
    for j in range(count):
        lower, upper = draw(st.sampled_from(free if j < count // 2 else boxed))
        columns.append(Column(lower, upper, j >= count // 2, draw(st.sampled_from(costs))))
    rows = []
    for _ in range(draw(st.integers(0, 3))):
        at, size = draw(st.integers(-4, 8)), draw(st.sampled_from([0, 2]))
        sides = draw(st.sampled_from([(None, at), (at, None), (at, at + size)]))
        rows.append(Row(*sides, {j: draw(st.sampled_from(NUMBERS)) for j in range(count)}))
    return program(columns, rows, draw(st.sampled_from(["min", "max"])))


def points_of(p: IntegerProgram) -> Iterator[Point]:
    """All points of a program whose columns are all integer and have bounds that are."""
    ranges: List[range] = []
    for low, high in zip(p.lower, p.upper):
        assert low is not None and high is not None
        ranges.append(range(-(-low // p.bound_scale), high // p.bound_scale + 1))
    for x in itertools.product(*ranges):
        point = [Fraction(v) for v in x]
        if p.is_feasible(point):
            yield point


def optimum_of(p: IntegerProgram) -> Optional[Fraction]:
    """In the program's own sense; None where there is no point."""
    value = min((p.value(point) for point in points_of(p)), default=None)
    return None if value is None else p.sign * value


KNAPSACK = program(
    [Column(0, 1, is_integer=True, cost=cost) for cost in (10, 7, 12)],
    [Row(None, 10, {0: 5, 1: 4, 2: "6.5"})],
    "max",
)  # 17
EQUATION = program(
    [Column(0, 99, is_integer=True, cost=1) for _ in range(3)],
    [Row(1000, 1000, {0: 37, 1: 53, 2: 111})],
)  # 14
SHORT_EQUATION = program(
    [Column(0, 9, is_integer=True, cost=1) for _ in range(3)],
    [Row(150, 150, {0: 13, 1: 19, 2: 37})],
)  # 6
COVER = program(
    [Column(0, 1, is_integer=True, cost=cost) for cost in COVER_COSTS],
    [
        *(Row(1, None, {k: 1, (k + 1) % 6: 1}) for k in range(6)),
        Row(2, None, {0: 1, 2: 1, 4: 1, 5: 1}),
    ],
)
KNAPSACKS = program(
    [Column(0, 1, is_integer=True, cost=11 + 3 * (j * j % 7) + j % 3) for j in range(14)],
    [Row(None, 90, {j: 10 + (7 * j * j + k) % 17 for j in range(14)}) for k in (0, 5)],
    "max",
)  # a tree of some dozen nodes
PIGEONS = program(
    [Column(0, 1, is_integer=True) for _ in range(20)],
    [
        *(Row(1, None, {5 * 0 + 4 * i + h: 1 for h in range(4)}) for i in range(5)),
        *(
            Row(None, 1, {4 * i + h: 1, 4 * k + h: 1})
            for h in range(4)
            for i in range(5)
            for k in range(i)
        ),
    ],
)  # five of them in four holes: there is no point
LOTS = program(
    [
        *(Column() for _ in range(4)),
        *(Column(cost="0.3") for _ in range(4)),
        *(Column(0, 1, is_integer=True, cost=cost) for cost in (5, 6, 7, 8)),
    ],
    [
        Row(4, 4, {0: 1, 4: -1}),
        Row(7, 7, {1: 1, 4: 1, 5: -1}),
        Row(3, 3, {2: 1, 5: 1, 6: -1}),
        Row(6, 6, {3: 1, 6: 1, 7: -1}),
        *(Row(None, 0, {t: 1, 8 + t: -20}) for t in range(4)),
    ],
)  # 143/10: one lot for each period, its costs, and demands
COINS = program(
    [Column(0, 10**5, is_integer=True, cost=1) for _ in range(4)],
    [Row(89643481, 89643481, {0: 12223, 1: 12224, 2: 36674, 3: 61119})],
)  # no sum of these coins is that
