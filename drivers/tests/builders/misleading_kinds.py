"""Kinds of models that mislead solvers in doubles, by size and seed."""

from __future__ import annotations

import itertools
import math
import random
from fractions import Fraction as F
from typing import (
    Callable,
    Dict,
    Iterator,
    List,
    Mapping,
    NamedTuple,
    Optional,
    Sequence,
    Tuple,
    Union,
)

from builders.misleading import TO_BE_FOUND, Column, Misleading, Number, Row, crossing

EACH = 28  # models of each kind


Sides = Tuple[Optional[str], Optional[str]]


class Parts(NamedTuple):
    """The parts of a model, as `Misleading` has them."""

    columns: Sequence[Column]
    rows: Sequence[Row]
    sense: str
    costs: Mapping[int, Number]
    known: Union[F, str, None] = TO_BE_FOUND
    is_unbounded: bool = False


def decimal(value: F) -> str:
    """A decimal text of a fraction that has one."""
    places = 0
    while (value * 10**places).denominator != 1:
        places += 1
    return f"{int(value * 10 ** places)}e-{places}" if places else str(int(value))


def sized(rng: random.Random, least: int, most: int) -> F:
    return F(1, 10 ** rng.randint(least, most))


def off(rng: random.Random) -> F:
    return F(rng.choice([-1, 1]) * rng.randint(1, 9), 10 ** rng.randint(6, 9))


def sense(rng: random.Random) -> str:
    return rng.choice(["min", "max"])


def whole(rng: random.Random, count: int, most: int = 9) -> list[Column]:
    return [("I", 0, rng.randint(3, most)) for _ in range(count)]


def terms(rng: random.Random, count: int, low: int = 1, high: int = 9) -> dict[int, int]:
    return {j: rng.randint(low, high) for j in range(count)}


def decimals(values: Sequence[F]) -> dict[int, Number]:
    return {j: decimal(a) for j, a in enumerate(values) if a}


def upper_bound(columns: Sequence[Column], j: int) -> int:
    """Of a column that has one, which is whole."""
    upper = columns[j][2]
    assert isinstance(upper, int)
    return upper


def most_of(columns: Sequence[Column], row: Mapping[int, int]) -> int:
    """The most that a row of positive coefficients can be."""
    return sum(a * upper_bound(columns, j) for j, a in row.items())


def some_of(rng: random.Random, columns: Sequence[Column], row: Mapping[int, Number]) -> F:
    """What a row is at a random point."""
    return sum((F(a) * rng.randint(0, upper_bound(columns, j)) for j, a in row.items()), F(0))


def equal_decimals(rng: random.Random) -> Parts:
    """An equation of decimals over whole variables, and its side off by little."""
    n = rng.randint(2, 4)
    columns = whole(rng, n)
    row = {j: decimal(F(rng.randint(1, 29), 10)) for j in range(n)}
    side = decimal(some_of(rng, columns, row) + rng.choice([off(rng), F(0)]))
    return Parts(columns, [(side, side, row)], sense(rng), terms(rng, n))


def near_sides(rng: random.Random) -> Parts:
    """Sides beyond whole sums by little."""
    n = rng.randint(1, 4)
    columns, rows = whole(rng, n), []
    for _ in range(rng.randint(1, 3)):
        row = terms(rng, n, 1, 5)
        rows.append((decimal(rng.randint(1, most_of(columns, row)) + abs(off(rng))), None, row))
    return Parts(columns, rows, "min", terms(rng, n))


def tiny_rows(rng: random.Random) -> Parts:
    """All numbers of a row are small."""
    n, scale = rng.randint(2, 3), sized(rng, 8, 12)
    columns, units = whole(rng, n, 20), terms(rng, n, 1, 5)
    side = decimal(rng.randint(1, most_of(columns, units) // 2) * scale)
    row = {j: decimal(a * scale) for j, a in units.items()}
    if rng.random() < 0.7:
        return Parts(columns, [(None, side, row)], "max", terms(rng, n))
    return Parts(columns, [(side, None, row)], "min", terms(rng, n))


def large_numbers(rng: random.Random) -> Parts:
    """Beside large coefficients that cancel a unit is little."""
    n, size = rng.randint(2, 3), 10 ** rng.randint(7, 10)
    columns = whole(rng, n)
    large = {j: rng.choice([-1, 1]) * (size + rng.randint(0, 3)) for j in range(n)}
    at, way = some_of(rng, columns, large), sense(rng)
    ends = rng.choice([(at + 1, None), (None, at - 1), (at, at + rng.randint(0, 1))])
    return Parts(columns, [(*ends, large)], way, terms(rng, n))


def switches(rng: random.Random) -> Parts:
    """A continuous column that a binary one switches, by a large factor."""
    factor = 10 ** rng.randint(5, 8)
    need = F(rng.randint(1, 50), 10 ** rng.randint(0, 2))
    rows = [
        (None, 0, {0: 1, 2: -factor}),
        (None, 0, {1: 1, 3: -factor}),
        (decimal(need), None, {0: 1, 1: rng.choice([1, "0.5"])}),
    ]
    costs = [decimal(F(rng.randint(1, 9), 1000)) for _ in range(2)] + [
        rng.randint(5, 20) for _ in range(2)
    ]
    return Parts([("C", 0, 1000)] * 2 + [("I", 0, 1)] * 2, rows, "min", dict(enumerate(costs)))


def contradictions(rng: random.Random) -> Parts:
    """Two rows with the same terms, the sides of which miss each other by little."""
    kind = rng.choice("CI")
    columns: List[Column] = [(kind, 0, rng.randint(3, 9)) for _ in range(2)]
    row = {j: decimal(F(rng.randint(1, 40), 10)) for j in range(2)}
    at = sum((F(a) * rng.randint(1, 3) for a in row.values()), F(0))
    low, high = decimal(at + off(rng)), decimal(at)
    ends: List[Sides] = (
        [(low, low), (high, high)] if rng.random() < 0.5 else [(low, None), (None, high)]
    )
    return Parts(columns, [(*end, row) for end in ends], sense(rng), terms(rng, 2))


def small_costs(rng: random.Random) -> Parts:
    """What is gained is less than what solvers tell apart, or beside a large cost."""
    n = rng.randint(2, 4)
    columns, scale = whole(rng, n), sized(rng, 6, 10)
    row = terms(rng, n, 1, 6)
    side = rng.randint(2, most_of(columns, row))
    costs: Dict[int, Number] = {j: decimal(rng.randint(1, 9) * scale) for j in range(n)}
    if rng.random() < 0.5:
        costs[0] = rng.randint(1, 9)
    return Parts(columns, [(None, side, row)], "max", costs)


def mixed_scales(rng: random.Random) -> Parts:
    """Continuous columns in small units, beside whole ones."""
    small = sized(rng, 6, 9)
    columns: List[Column] = [
        ("C", 0, decimal(rng.randint(2, 9) * small)),
        ("C", 0, rng.randint(2, 9)),
        ("I", 0, rng.randint(2, 9)),
    ]
    rows: List[Row] = [
        (None, 0, {0: 1, 2: decimal(-small)}),
        (None, rng.randint(2, 12), {1: rng.randint(1, 3), 2: rng.randint(1, 3)}),
        (decimal(abs(off(rng))), None, {1: 1}),
    ]
    return Parts(
        columns,
        rows,
        "max",
        {0: decimal(rng.randint(1, 9) / small), 1: rng.randint(1, 9), 2: -rng.randint(1, 9)},
    )


def matrix(rng: random.Random, n: int) -> list[list[F]]:
    """Rows of small whole numbers, the last of which is that of others but for little in one coefficient."""
    while True:
        rows = [[F(rng.randint(-9, 9)) for _ in range(n)] for _ in range(n - 1)]
        weights = [rng.randint(-3, 3) for _ in rows]
        last = [sum((w * row[j] for w, row in zip(weights, rows)), F(0)) for j in range(n)]
        last[rng.randrange(n)] += rng.choice([-1, 1]) * sized(rng, 5, 12)
        if crossing([(row, F(0)) for row in (*rows, last)]) is not None:
            return [*rows, last]


def dot(one: Sequence[F], other: Sequence[F]) -> F:
    return sum((a * b for a, b in zip(one, other)), F(0))


def nearly_singular(rng: random.Random, kind: str = "C", most_columns: int = 7) -> Parts:
    """Equations of one point: it is the optimum, whatever the costs."""
    n = rng.randint(2, most_columns)
    rows = matrix(rng, n)
    x = [F(rng.randint(0, 9)) for _ in range(n)]
    costs = [F(rng.randint(-9, 9)) for _ in range(n)]
    columns = [(kind, 0, rng.choice([None, 10**4]))] * n
    made = [(decimal(dot(row, x)), decimal(dot(row, x)), decimals(row)) for row in rows]
    return Parts(columns, made, sense(rng), decimals(costs), dot(costs, x))


def whole_singular(rng: random.Random) -> Parts:
    return nearly_singular(rng, "I", 4)


def nearly_parallel(rng: random.Random) -> Parts:
    """Inequalities whose weights at one point add up to the costs: it is the optimum."""
    n = rng.randint(2, 6)
    rows = matrix(rng, n)
    x = [F(rng.randint(-9, 9)) for _ in range(n)]
    y = [F(rng.randint(0, 5)) for _ in range(n - 1)] + [F(rng.randint(1, 5))]
    costs = [dot(y, column) for column in zip(*rows)]
    made = [(None, decimal(dot(row, x)), decimals(row)) for row in rows]
    return Parts([("C", None, None)] * n, made, "max", decimals(costs), dot(costs, x))


def tiny_rays(rng: random.Random) -> Parts:
    """A column without an end whose gain is little; or with one that is far."""
    n = rng.randint(1, 4)
    gain, end = sized(rng, 6, 15), rng.choice([None, None, 10 ** rng.randint(6, 12)])
    columns = [("C", 0, rng.randint(1, 9) if j else end) for j in range(n)]
    costs = [F(rng.randint(1, 9)) if j else gain for j in range(n)]
    rows = [(None, 100, {j: rng.randint(1, 3) for j in range(1, n)})] if n > 1 else []
    best = dot(costs, [F(hi or 0) for _, _, hi in columns])
    return Parts(columns, rows, "max", decimals(costs), best, end is None)


def whole_rays(rng: random.Random) -> Parts:
    """Two whole columns that go on together, with a gain that is little beside their costs, without an end or to one
    that is far."""
    a, b = rng.randint(1, 5), rng.randint(1, 5)
    gain = sized(rng, 5, 14)
    cost, end = F(rng.randint(0, 9)), rng.choice([None, None, 10 ** rng.randint(3, 7)])
    columns = [("I", 0, None if end is None else end * b), ("I", 0, None)]
    rows = [(rng.choice([None, 0]), 0, {0: a, 1: -b})]  # at b and a times t
    costs = [cost + gain, -cost * b / a] if a in (1, 2, 4, 5) else [gain]
    return Parts(columns, rows, "max", decimals(costs), gain * (end or 0) * b, end is None)


def two_rows(rng: random.Random) -> Parts:
    """Rows with the same terms up to a factor over free whole columns, whose sides leave room for few whole values of
    them, or for none."""
    form = rng.choice([{0: 7, 1: -5}, {0: 3, 1: 4}, {0: 1, 1: -6, 2: 9}, {0: -2, 1: 5, 2: 10}])
    lo = F(rng.randint(-40, 40)) / 8 + rng.choice([-1, 0, 1]) * sized(rng, 3, 9)
    hi = lo + F(rng.randint(0, 12), 8)
    rows = []
    for side, is_upper in ((lo, False), (hi, True)):
        by = rng.choice([-4, -2, -1, 1, 2, 5])
        ends = (None, decimal(side * by)) if is_upper == (by > 0) else (decimal(side * by), None)
        rows.append((*ends, {j: a * by for j, a in form.items()}))
    first, last = -(-lo // 1), hi // 1
    way, best = rng.choice([("min", first), ("max", last)])
    return Parts(
        [("I", None, None)] * len(form), rows, way, form, F(best) if first <= last else None
    )


def far_ends(rng: random.Random) -> Parts:
    """Ends and sides that are large, some of them none to a solver."""
    columns = [
        ("C", 0, f"{rng.randint(1, 9)}e{rng.choice([9, 15, 20, 26, 30, 31])}") for _ in range(2)
    ]
    rows = [
        (
            None,
            f"{rng.randint(1, 9)}e{rng.randint(5, 30)}",
            {0: rng.randint(1, 3), 1: rng.randint(0, 3)},
        )
        for _ in range(rng.randint(1, 2))
    ]
    return Parts(columns, rows, "max", {0: rng.randint(1, 3), 1: rng.choice([-1, 0, 1])})


def crossing_bounds(rng: random.Random) -> Parts:
    """Whole columns and rows of them with little or no room for a whole number."""

    def ends(most: int) -> tuple[str, str]:
        at, by = rng.randint(0, most), sized(rng, 3, 8)
        if rng.random() < 0.5:
            return decimal(at + by), decimal(at + 1 - by)
        return decimal(at + by), decimal(at + 1 + rng.choice([F(0), by]))

    n = rng.randint(1, 3)
    columns: List[Column] = [("I", 0, 6)] * n
    rows = []
    if rng.random() < 0.5:
        columns[rng.randrange(n)] = ("I", *ends(3))
    else:
        g = rng.randint(1, 4)
        low, high = (decimal(F(end) * g) for end in ends(4))
        rows = [(low, high, {j: g * rng.choice([-3, -2, 1, 2]) for j in range(n)})]
    return Parts(columns, rows, sense(rng), terms(rng, n, -5))


def cut_offs(rng: random.Random) -> Parts:
    """Points whose objectives are apart by less than solvers tell apart, beside large costs."""
    n = rng.randint(2, 4)
    columns = [("I", 0, rng.randint(1, 3)) for _ in range(n)]
    size = 10 ** rng.randint(3, 7)
    costs = {j: decimal(size + rng.randint(0, 9) * sized(rng, 2, 6)) for j in range(n)}
    side, row = rng.randint(1, 4), dict.fromkeys(range(n), 1)
    if rng.random() < 0.5:
        return Parts(columns, [(side, None, row)], "min", costs)
    return Parts(columns, [(None, side, row)], "max", costs)


def drops(rng: random.Random) -> Parts:
    """Coefficients that solvers leave out, of columns that are large."""
    small = sized(rng, 9, 14)
    large = F(rng.randint(1, 9)) / small
    columns: List[Column] = [("C", 0, decimal(large)), rng.choice([("C", 0, 100), ("I", 0, 9)])]
    rows: List[Row] = [
        (rng.randint(1, 9), None, {0: decimal(small), 1: 1}),
        (None, rng.randint(5, 99), {1: 1, 0: decimal(small * rng.randint(0, 3))}),
    ]
    return Parts(
        columns, rows, "min", {0: decimal(small * rng.randint(1, 9) / 10), 1: rng.randint(1, 9)}
    )


def beyond_doubles(rng: random.Random) -> Parts:
    """Whole columns whose best value is no double."""
    a, side = rng.randint(1, 9), 2 ** rng.randint(53, 62) + 2 * rng.randint(0, 999) + 1
    column = ("I", 0, 2**64)
    if rng.random() < 0.5:
        return Parts(
            [column] * 2,
            [(None, side, {0: a}), (1, 1, {1: 1, 0: -1})],
            "max",
            {1: 1},
            F(side // a + 1),
        )
    return Parts([column], [(None, side, {0: a})], "max", {0: 1}, F(side // a))


def big_sequences(rng: random.Random) -> Parts:
    """Jobs on one machine: the order of each pair is a binary column with a large M."""
    n, large = rng.randint(2, 3), 10 ** rng.randint(4, 9)
    lasts = [rng.randint(1, 9) for _ in range(n)]
    weights = [rng.randint(1, 9) for _ in range(n)]
    pairs = [(i, k) for i in range(n) for k in range(i)]
    columns: List[Column] = [("C", 0, sum(lasts)) for _ in range(n)]
    columns += [("I", 0, 1) for _ in pairs]
    rows: List[Row] = []
    for order, (i, k) in enumerate(pairs, n):
        rows.append((lasts[k], None, {i: 1, k: -1, order: large}))  # at 0 the job k is first
        rows.append((lasts[i] - large, None, {k: 1, i: -1, order: -large}))
    best = min(
        sum(weights[j] * sum(lasts[i] for i in jobs[:place]) for place, j in enumerate(jobs))
        for jobs in itertools.permutations(range(n))
    )
    return Parts(columns, rows, "min", dict(enumerate(weights)), F(best))


def huge_numbers(rng: random.Random) -> Parts:
    """Numbers about 1e20, which some solvers take for none, as coefficients, sides and bounds."""
    size = rng.choice([5 * 10**19, 10**20, 10**20 + 1, 3 * 10**21])
    most = rng.randint(2, 9)
    if rng.random() < 0.5:
        columns = [("I", 0, 12), ("I", 0, 12)]
        row = {0: size, 1: rng.randint(1, 9)}
        side = most * size + rng.randint(0, 30)
        return Parts(columns, [(None, side, row)], "max", {0: rng.randint(2, 9), 1: 1})
    free: List[Column] = [("C", 0, size), ("C", 0, 9)]
    rows: List[Row] = [(None, size + most, {0: 1, 1: rng.randint(1, 3)})]
    return Parts(free, rows, "max", {0: 1, 1: rng.randint(-1, 1)})


def remainders(rng: random.Random) -> Parts:
    """The least whole number with given remainders, or none in its box."""
    sizes = rng.choice([(7, 9, 10, 11), (97, 101, 103), (10007, 10009), (1000003, 999983)])
    period = 1
    for modulus in sizes:
        period *= modulus
    x = rng.randrange(period // 2, period)
    is_there = rng.random() < 0.6
    most = x + rng.randint(0, period) if is_there else x - 1
    columns = [("I", 0, most)] + [("I", 0, most // modulus + 1) for modulus in sizes]
    rows = [(x % m, x % m, {0: 1, k: -m}) for k, m in enumerate(sizes, 1)]
    return Parts(columns, rows, "min", {0: 1}, F(x) if is_there else None)


def chains(rng: random.Random) -> Parts:
    """x' = a x - b again and again, so that a rounding grows from step to step."""
    n, up = rng.randint(8, 40), decimal(F(rng.randint(12, 45), 10))
    factor, at = F(up), F(rng.randint(1, 9), 10)
    step = decimal((factor - 1) * at)  # `at` stays where it is
    width = F(1, 10 ** rng.randint(1, 3))
    columns: List[Column] = [("C", decimal(at - width), decimal(at + width))]
    columns += [("C", None, None) for _ in range(n - 2)]
    low, high = at - rng.choice([F(1), F(0)]), at + rng.randint(0, 2)
    columns.append(("C", decimal(low), decimal(high)))
    rows: List[Row] = [(f"-{step}", f"-{step}", {k + 1: 1, k: f"-{up}"}) for k in range(n - 1)]
    reach = width * factor ** (n - 1)  # of the last column from `at`
    least, most = max(low, at - reach), min(high, at + reach)
    way = sense(rng)
    return Parts(columns, rows, way, {n - 1: 1}, least if way == "min" else most)


def either_or(rng: random.Random) -> Parts:
    """A sum that is at most one side or at least another one, by a binary column with an M."""
    large, n = 10 ** rng.randint(3, 12), rng.randint(1, 2)
    free: List[Column] = [("C", 0, rng.randint(20, 99)) for _ in range(n)]
    parts = terms(rng, n, 1, 5)
    low = rng.randint(1, 9)
    high = low + rng.randint(1, 60)
    rows: List[Row] = [
        (None, low, {**parts, n: -large}),  # at 0 the sum is at most `low`
        (high - large, None, {**parts, n: -large}),  # at 1 it is at least `high`
        (low + rng.choice([F(-1), F(1, 10**3), F(1, 10**6)]), None, dict(parts)),
    ]
    costs = {**{j: rng.randint(1, 9) for j in range(n)}, n: rng.randint(0, 5)}
    return Parts([*free, ("I", 0, 1)], _with_decimals(rows), rng.choice(["min", "max"]), costs)


def _with_decimals(rows: Sequence[Row]) -> List[Row]:
    def text(side: Optional[Number]) -> Optional[Number]:
        return decimal(side) if isinstance(side, F) else side

    return [(text(low), text(high), row) for low, high, row in rows]


def wide_sequences(rng: random.Random) -> Parts:
    """Jobs on one machine, each with a number of its own that is large, up to 1e12."""
    n = rng.randint(2, 4)
    lasts = [rng.randint(1, 9) for _ in range(n)]
    weights = [rng.randint(1, 9) for _ in range(n)]
    pairs = [(i, k) for i in range(n) for k in range(i)]
    columns: List[Column] = [("C", 0, rng.choice([None, sum(lasts)])) for _ in range(n)]
    columns += [("I", 0, 1) for _ in pairs]
    rows: List[Row] = []
    for order, (i, k) in enumerate(pairs, n):
        one, other = (10 ** rng.randint(3, 12) for _ in range(2))
        rows.append((lasts[k], None, {i: 1, k: -1, order: one}))  # at 0 the job k is first
        rows.append((lasts[i] - other, None, {k: 1, i: -1, order: -other}))
    best = min(
        sum(weights[j] * sum(lasts[i] for i in jobs[:place]) for place, j in enumerate(jobs))
        for jobs in itertools.permutations(range(n))
    )
    return Parts(columns, rows, "min", dict(enumerate(weights)), F(best))


def diophantine(rng: random.Random) -> Parts:
    """a x - b y = c with numbers of 3 to 10 digits: the least x, by the inverse of a modulo b, or none."""
    digits = rng.randint(3, 10)
    common = rng.choice([1, 1, 1, rng.randint(2, 9)])
    a, b = (common * rng.randint(10 ** (digits - 1), 10**digits) for _ in range(2))
    divisor = math.gcd(a, b)
    side = rng.choice([1, -1, rng.randint(1, b), divisor * rng.randint(1, 99)])
    columns: List[Column] = [("I", 0, rng.choice([None, 10 * b])), ("I", 0, None)]
    rows: List[Row] = [(side, side, {0: a, 1: -b})]
    if side % divisor:
        return Parts(columns, rows, "min", {0: 1}, None)
    period = b // divisor
    least = side // divisor * pow(a // divisor, -1, period) % period if period > 1 else 0
    while a * least < side:  # y is not below 0
        least += period
    return Parts(columns, rows, "min", {0: 1}, F(least))


def whole_systems(rng: random.Random) -> Parts:
    """As many equations of large whole numbers as columns; their one point is whole, or it is not."""
    n, size = rng.randint(2, 4), 10 ** rng.randint(2, 6)
    while True:
        rows = [[F(rng.randint(-size, size)) for _ in range(n)] for _ in range(n)]
        at = [F(rng.randint(0, 9)) for _ in range(n)]
        sides = [dot(row, at) for row in rows]
        sides[0] += rng.choice([0, 0, 1])
        point = crossing(list(zip(rows, sides)))
        if point is not None:
            break
    costs = [F(rng.randint(-9, 9)) for _ in range(n)]
    made = [(decimal(side), decimal(side), decimals(row)) for row, side in zip(rows, sides)]
    is_there = all(v.denominator == 1 and 0 <= v <= 10**4 for v in point)
    best = dot(costs, point) if is_there else None
    return Parts([("I", 0, 10**4)] * n, made, sense(rng), decimals(costs), best)


def huge_equations(rng: random.Random) -> Parts:
    """Beside a coefficient of some 1e20 the rest of an equation is nothing to a double."""
    size = rng.choice([5 * 10**19, 10**20 - 1, 10**20, 2 * 10**20 + 3, 10**24])
    at, rest = rng.randint(1, 9), rng.randint(0, 30)
    step = rng.randint(1, 5)
    most, room = rng.randint(1, 9), rng.choice([0, step - 1])
    columns: List[Column] = [("I", 0, 12), ("I", 0, most)]
    low, y = at * size + rest, -(-rest // step)  # the first column is `at`, the other one y
    is_there = y <= most and (room == step - 1 or rest % step == 0)
    rows: List[Row] = [(low, low + room, {0: size, 1: step})]
    return Parts(columns, rows, sense(rng), {0: 1, 1: 1}, F(at + y) if is_there else None)


def whole_chains(rng: random.Random) -> Parts:
    """x' = 3.7 x - 0.27 from a tenth of a whole column on: 0.1 stays where it is, all else goes far."""
    n, most = rng.randint(6, 38), rng.randint(1, 5)
    up, step = rng.choice([("3.7", "0.27"), ("2.9", "0.19"), ("6.1", "0.51")])
    sides = [F(-(10**6)), F(0), F(1, 10), F(1, 10) + off(rng), F(1), F(10**9)]
    ends = [rng.choice(sides) for _ in range(2)]
    columns: List[Column] = [("C", None, None) for _ in range(n - 1)]
    columns += [("C", decimal(min(ends)), decimal(max(ends))), ("I", 0, most)]
    rows: List[Row] = [(0, 0, {0: 10, n: -1})]
    rows += [(f"-{step}", f"-{step}", {k + 1: 1, k: f"-{up}"}) for k in range(n - 1)]
    found = []
    for first in range(most + 1):
        at = F(first, 10)
        for _ in range(n - 1):
            at = F(up) * at - F(step)
        if min(ends) <= at <= max(ends):
            found.append(first)
    way = sense(rng)
    best = min(found, default=None) if way == "min" else max(found, default=None)
    return Parts(columns, rows, way, {n: 1}, None if best is None else F(best))


KINDS: Sequence[Callable[[random.Random], Parts]] = (
    equal_decimals,
    near_sides,
    tiny_rows,
    large_numbers,
    switches,
    contradictions,
    small_costs,
    mixed_scales,
    nearly_singular,
    nearly_parallel,
    tiny_rays,
    beyond_doubles,
    far_ends,
    crossing_bounds,
    cut_offs,
    drops,
    whole_singular,
    whole_rays,
    two_rows,
    big_sequences,
    huge_numbers,
    remainders,
    chains,
    either_or,
    wide_sequences,
    diophantine,
    whole_systems,
    huge_equations,
    whole_chains,
)


def models(each: int = EACH) -> Iterator[Misleading]:
    """The first models of each kind, always the same; their names are those of kinds, numbered."""
    for kind in KINDS:
        rng = random.Random(kind.__name__)
        for k in range(each):
            yield Misleading(f"{kind.__name__}{k}", *kind(rng))
