"""Families of models, to measure how far certificates reach: the same words make the same texts.

`family_model` makes them by size: about the nonzeros of a linear program (of `parallel`: its pairs
of rows), or the columns, periods or things of an integer one. `seeded_models` makes them by a
seed, for models that nobody has seen. tools/certificate_table.py writes both as files.
"""

from __future__ import annotations

import functools
import heapq
import math
import random
from typing import Callable, Dict, Iterable, List, Mapping, Optional, Sequence, Tuple

from builders.nl_text import BINARY, Bound, Column, Number, Objective, Row, nl_text, real, whole

RowParts = Tuple[Bound, Bound, Mapping[int, Number]]  # as those of Row


def program(
    columns: Sequence[Column],
    rows: Sequence[RowParts],
    costs: Mapping[int, Number],
    sense: str = "min",
) -> bytes:
    """Columns in any order: a text has continuous ones first, then binary, then whole ones."""
    kinds = {"B": 1, "I": 2}
    order = sorted(range(len(columns)), key=lambda j: kinds.get(columns[j][0], 0))
    at = {j: k for k, j in enumerate(order)}
    return nl_text(
        [columns[j] for j in order],
        [Row(lo, hi, {at[j]: a for j, a in terms.items()}) for lo, hi, terms in rows],
        [Objective(sense, 0, {at[j]: a for j, a in costs.items()})],
    )


def cents(rnd: random.Random, low: float, high: float) -> str:
    return f"{rnd.uniform(low, high):.2f}"


def drawn(rnd: random.Random, count: int, low: int, high: int) -> List[int]:
    return [rnd.randint(low, high) for _ in range(count)]


def root(size: float, least: int = 3) -> int:
    return max(least, round(math.sqrt(size)))


def listed(values: Iterable[Number]) -> Dict[int, Number]:
    """Coefficients of the first columns."""
    return dict(enumerate(values))


def ones(places: Iterable[int]) -> Dict[int, Number]:
    return dict.fromkeys(places, 1)


def grid(high: int, wide: int, start: int = 0) -> List[range]:
    """The places of columns that stand row by row."""
    return [range(start + i * wide, start + (i + 1) * wide) for i in range(high)]


def shipped(supply: Sequence[int], demand: Sequence[int]) -> List[RowParts]:
    """From places that have so much, to others that need it."""
    at = grid(len(supply), len(demand))
    return [(None, side, ones(one)) for side, one in zip(supply, at)] + [
        (side, None, ones(one)) for side, one in zip(demand, zip(*at))
    ]


def distances(rnd: random.Random, places: int, clients: int) -> List[List[float]]:
    ends = [(rnd.random(), rnd.random()) for _ in range(places + clients)]
    return [
        [((x - u) ** 2 + (y - v) ** 2) ** 0.5 for u, v in ends[places:]] for x, y in ends[:places]
    ]


def transport(size: int, rnd: random.Random) -> bytes:
    """From as many places to as many others, at least cost."""
    k = root(size / 2, 2)
    supply = drawn(rnd, k, 20, 80)
    rows = shipped(supply, [s - rnd.randint(0, 9) for s in supply])
    return program([real()] * (k * k), rows, listed(drawn(rnd, k * k, 1, 99)))


def assignment(size: int, rnd: random.Random) -> bytes:
    k = root(size / 2, 2)
    rows = [(1, 1, terms) for _, _, terms in shipped([1] * k, [1] * k)]
    return program([real()] * (k * k), rows, listed(drawn(rnd, k * k, 1, 999)))


def network(size: int, rnd: random.Random, number: Callable[[float, float], Number]) -> bytes:
    """Flow at least cost: a ring that carries all, and arcs at random."""
    arcs, nodes = max(4, size // 2), max(3, size // 16)
    need = [0] * nodes
    for _ in range(nodes // 3 + 1):
        a, b = rnd.randrange(nodes), rnd.randrange(nodes)
        v = rnd.randint(1, 2000)
        need[a] += v
        need[b] -= v
    rows: List[Dict[int, Number]] = [{} for _ in range(nodes)]
    columns: List[Column] = []
    costs: Dict[int, Number] = {}
    for j in range(arcs):
        a = j % nodes if j < nodes else rnd.randrange(nodes)
        b = (a + 1) % nodes if j < nodes else rnd.randrange(nodes)
        b = b if b != a else (a + 1) % nodes
        rows[a][j], rows[b][j] = 1, -1
        columns.append(real(0, None if j < nodes else number(3, 40)))
        costs[j] = number(200, 300) if j < nodes else number(1, 60)
    is_whole = isinstance(columns[-1].upper, int)
    sides: List[Number] = [v if is_whole else f"{v / 100:.2f}" for v in need]
    return program(columns, [(side, side, row) for side, row in zip(sides, rows)], costs)


def covering(size: int, rnd: random.Random) -> bytes:
    n = 3 * root(size)
    rows = [
        (1, None, ones([j for j in range(n) if rnd.random() < 1 / 3] or [0])) for _ in range(n // 3)
    ]
    return program([real(0, 1)] * n, rows, listed(drawn(rnd, n, 1, 20)))


def staircase(size: int, rnd: random.Random) -> bytes:
    """Production over periods: stocks with losses, capacities, shortages at a price."""
    things = max(4, min(60, round((size / 12) ** 0.5)))
    columns: List[Column] = []
    rows: List[RowParts] = []
    costs: Dict[int, Number] = {}

    def column(upper: Optional[str], least: float, most: float) -> int:
        columns.append(real(0, upper))
        costs[len(costs)] = cents(rnd, least, most)
        return len(costs) - 1

    use = [[cents(rnd, 0.5, 3) for _ in range(2)] for _ in range(things)]
    stock = [-1] * things
    for t in range(max(3, size // (things * 9))):
        machines: List[Dict[int, Number]] = [{} for _ in range(4)]
        for k in range(things):
            make, more = column(None, 1, 9), column(cents(rnd, 4, 20), 9, 15)
            short, keep = column(None, 40, 90), column(cents(rnd, 10, 90), 0.05, 0.4)
            terms: Dict[int, Number] = {make: 1, more: cents(rnd, 0.9, 0.99), short: 1, keep: -1}
            if stock[k] >= 0:
                terms[stock[k]] = cents(rnd, 0.95, 0.99)
            side = cents(rnd, 3, 30)
            rows.append((side, side, terms))
            for i, a in zip((k % 4, (k + 1) % 4), use[k]):
                machines[i][make] = a
            stock[k] = keep
        rows += [(None, cents(rnd, 5.0 * things, 9.0 * things), machine) for machine in machines]
    return program(columns, rows, costs)


def blend(m: int, n: int, rnd: random.Random) -> bytes:
    """At least so much of m things, by n others at least cost."""
    rows = [(cents(rnd, 50, 150), None, {j: cents(rnd, 0, 9) for j in range(n)}) for _ in range(m)]
    return program([real()] * n, rows, {j: cents(rnd, 2, 20) for j in range(n)})


def uneven(size: int, rnd: random.Random) -> bytes:
    """Flows between stages whose rows and columns are in units of their own, from millionths to
    millions, with prices of many digits: what one solver's tolerance hides, another row shows."""
    m = root(size / 3)
    n = 2 * m
    up, by = drawn(rnd, m, -3, 3), drawn(rnd, n, -3, 3)

    def scaled(value: float, power: int) -> str:
        return f"{value * 10.0 ** power:.{max(0, 4 - power)}f}"

    rows = []
    for i in range(m):
        inside = sorted({i, i + m, *rnd.sample(range(n), min(n, 2 + i % 3))})
        terms = {j: scaled(rnd.uniform(1, 9) * (1 if j % 3 else -1), up[i] + by[j]) for j in inside}
        side = scaled(rnd.uniform(5, 90), up[i])
        rows.append((None if i % 4 else side, side, terms))
    columns = [real(0, scaled(rnd.uniform(3, 80), -by[j])) for j in range(n)]
    return program(columns, rows, {j: scaled(rnd.uniform(0.5, 9), by[j]) for j in range(n)}, "max")


def parallel(size: int, rnd: random.Random) -> bytes:
    """Pairs of rows that differ by a hundred millionth, and meet within a tolerance."""
    rows: List[RowParts] = []
    costs: Dict[int, Number] = {}
    for k in range(size):
        a = rnd.randint(1, 9)
        side, near = f"{7 * a}.00000000{rnd.randint(1, 9)}", f"{a}.0000000{rnd.randint(1, 9)}"
        rows += [(None, 7 * a, {2 * k: a, 2 * k + 1: a}), (None, side, {2 * k: near, 2 * k + 1: a})]
        costs[2 * k], costs[2 * k + 1] = f"1.0000000{rnd.randint(1, 9)}", 1
    rows.append((None, 5 * size, ones(range(0, 2 * size, 2))))
    return program([real(0, 9)] * (2 * size), rows, costs, "max")


def lots(size: int, rnd: random.Random) -> bytes:
    """One thing over periods: a cost to set up, a cost to keep, a capacity."""
    need = drawn(rnd, size, 5, 30)
    rows: List[RowParts] = []
    costs: Dict[int, Number] = {}
    for t in range(size):
        terms = {t: 1, size + t: -1, **({size + t - 1: 1} if t else {})}
        rows += [(need[t], need[t], terms), (None, 0, {t: 1, 2 * size + t: -rnd.randint(60, 90)})]
        costs.update(
            {t: rnd.randint(1, 3), size + t: cents(rnd, 0.3, 2), 2 * size + t: rnd.randint(80, 160)}
        )
    return program([real()] * (2 * size) + [BINARY] * size, rows, costs)


def pigeons(size: int, rnd: random.Random) -> bytes:
    """SIZE pigeons in one hole less, no two of them in one."""
    at = grid(size, size - 1)
    rows: List[RowParts] = [(1, None, ones(one)) for one in at]
    rows += [
        (None, 1, {hole[i]: 1, hole[k]: 1})
        for hole in zip(*at)
        for i in range(size)
        for k in range(i)
    ]
    return program([BINARY] * (size * (size - 1)), rows, {0: 1})


def frobenius(size: int, rnd: random.Random) -> bytes:
    """The greatest number that coins of SIZE kinds do not make."""
    coins = [0]
    while math.gcd(*coins) != 1:
        coins = sorted(rnd.sample(range(12000, 13000), size))
    most = greatest(coins)
    return program([whole(0, None)] * size, [(most, most, listed(coins))], ones(range(size)))


def greatest(coins: List[int]) -> int:
    """By the least numbers of each rest modulo the first coin."""
    least: Dict[int, int] = {}
    sums = [0]
    while sums:
        value = heapq.heappop(sums)
        if value % coins[0] not in least:
            least[value % coins[0]] = value
            for coin in coins[1:]:
                heapq.heappush(sums, value + coin)
    return max(least.values()) - coins[0]


def split(size: int, rnd: random.Random) -> bytes:
    """Market split: SIZE equations over 10 (SIZE - 1) binary columns, without a point."""
    n = 10 * (size - 1)
    rows = [drawn(rnd, n, 0, 99) for _ in range(size)]
    return program(
        [BINARY] * n, [(sum(row) // 2, sum(row) // 2, listed(row)) for row in rows], {0: 1}
    )


def near_values(n: int, apart: int, rnd: random.Random) -> bytes:
    """A knapsack with values near weights; all by 100 above them where `apart` is 0."""
    weights = drawn(rnd, n, 10, 1000)
    values = [max(1, w + (rnd.randint(-apart, apart) if apart else 100)) for w in weights]
    return program(
        [BINARY] * n,
        [(None, sum(weights) // 2 + (not apart), listed(weights))],
        listed(values),
        "max",
    )


def knapsacks(
    n: int, rnd: random.Random, least: int = 1, most: int = 1000, above: int = 500
) -> bytes:
    """Five at once; values follow weights."""
    weights = [drawn(rnd, n, least, most) for _ in range(5)]
    values = [sum(column) // 5 + rnd.randint(0, above) for column in zip(*weights)]
    return program(
        [BINARY] * n, [(None, sum(row) // 2, listed(row)) for row in weights], listed(values), "max"
    )


def location(places: int, clients: int, rnd: random.Random, has_room: bool = False) -> bytes:
    """Each client at one place, which a row opens; or places with capacities, which alone are whole, and a row for each
    client of each."""
    room = drawn(rnd, places, 40, 80) if has_room else [clients] * places
    need = drawn(rnd, clients, 3, 12) if has_room else [1] * clients
    away = distances(rnd, places, clients)
    at = grid(places, clients, places)
    rows: List[RowParts] = [(1, 1, ones(one)) for one in zip(*at)]
    rows += [(None, 0, {**dict(zip(at[i], need)), i: -room[i]}) for i in range(places)]
    rows += [(None, 0, {j: 1, i: -1}) for i in range(places) for j in at[i] if has_room]
    costs = [
        *drawn(rnd, places, 60, 160),
        *(
            round(1 + a * 20 * far if has_room else 100 * far)
            for one in away
            for a, far in zip(need, one)
        ),
    ]
    return program(
        [BINARY] * places + [real() if has_room else BINARY] * (places * clients),
        rows,
        listed(costs),
    )


def assigned(machines: int, jobs: int, rnd: random.Random) -> bytes:
    """Each job to one machine, each machine with a capacity."""
    take = [drawn(rnd, jobs, 5, 25) for _ in range(machines)]
    at = grid(machines, jobs)
    rows: List[RowParts] = [(1, 1, ones(one)) for one in zip(*at)]
    rows += [
        (None, int(0.8 * sum(one) / machines), dict(zip(places, one)))
        for places, one in zip(at, take)
    ]
    costs = listed(111 - a + rnd.randint(-10, 10) for one in take for a in one)
    return program([BINARY] * (machines * jobs), rows, costs)


def covers(rows: int, columns: int, rnd: random.Random) -> bytes:
    sides: List[RowParts] = [
        (1, None, ones(rnd.sample(range(columns), max(2, columns // 12)))) for _ in range(rows)
    ]
    return program([BINARY] * columns, sides, listed(drawn(rnd, columns, 10, 60)))


def colouring(nodes: int, colours: int, rnd: random.Random) -> bytes:
    edges = [(i, k) for i in range(nodes) for k in range(i) if rnd.random() < 0.5]
    at = grid(nodes, colours, colours)
    rows: List[RowParts] = [(1, 1, ones(one)) for one in at]
    rows += [(None, 0, {at[i][c]: 1, at[k][c]: 1, c: -1}) for i, k in edges for c in range(colours)]
    rows += [(None, 0, {c + 1: 1, c: -1}) for c in range(colours - 1)]
    return program([BINARY] * (colours + nodes * colours), rows, ones(range(colours)))


def cutting(
    sizes: int,
    rnd: random.Random,
    least: int = 15,
    needs: Tuple[int, int] = (2, 5),
    most: int = 6,
    rolls: int = 0,
) -> bytes:
    """Pieces of some lengths from the fewest rolls of 100."""
    lengths, need = rnd.sample(range(least, 70), sizes), drawn(rnd, sizes, *needs)
    rolls = rolls or -(-sum(a * b for a, b in zip(lengths, need)) // 75) + 1
    at = grid(sizes, rolls, rolls)
    rows: List[RowParts] = [(side, None, ones(one)) for side, one in zip(need, at)]
    rows += [(None, 0, {b: -100, **dict(zip(one, lengths))}) for b, one in enumerate(zip(*at))]
    return program([BINARY] * rolls + [whole(0, most)] * (rolls * sizes), rows, ones(range(rolls)))


def packed(things: int, rnd: random.Random, bins: int = 0) -> bytes:
    """Things into the fewest bins of 100."""
    weights = drawn(rnd, things, 20, 60)
    bins = bins or -(-sum(weights) // 100) + 1
    at = grid(things, bins, bins)
    rows: List[RowParts] = [(1, 1, ones(one)) for one in at]
    rows += [(None, 0, {b: -100, **dict(zip(one, weights))}) for b, one in enumerate(zip(*at))]
    return program([BINARY] * (bins * (things + 1)), rows, ones(range(bins)))


def shared_lots(things: int, periods: int, rnd: random.Random) -> bytes:
    """Lots of several things that share a capacity."""
    size = things * periods
    costs = [*drawn(rnd, size, 1, 3), *drawn(rnd, size, 1, 2), *drawn(rnd, size, 60, 140)]
    rows: List[RowParts] = []
    total = [0] * periods
    for k in range(size):
        need, t = rnd.randint(5, 30), k % periods
        total[t] += need
        rows += [
            (need, need, {k: 1, size + k: -1, **({size + k - 1: 1} if t else {})}),
            (None, 0, {k: 1, 2 * size + k: -100}),
        ]
    most = int(max(sum(total[: t + 1]) / (t + 1) for t in range(periods)) * 1.3)
    rows += [
        (
            None,
            most,
            {
                **ones(range(t, size, periods)),
                **dict.fromkeys(range(2 * size + t, 3 * size, periods), 8),
            },
        )
        for t in range(periods)
    ]
    return program([real()] * (2 * size) + [BINARY] * size, rows, listed(costs))


def charges(sources: int, sinks: int, rnd: random.Random) -> bytes:
    """Transport with a charge for each arc that is used."""
    supply = drawn(rnd, sources, 20, 60)
    demand = [int(sum(supply) * 0.9 / sinks) + rnd.randint(-5, 0) for _ in range(sinks)]
    size = sources * sinks
    rows = shipped(supply, demand)
    rows += [
        (None, 0, {k: 1, size + k: -min(supply[k // sinks], demand[k % sinks])})
        for k in range(size)
    ]
    costs = listed([*drawn(rnd, size, 1, 9), *drawn(rnd, size, 20, 80)])
    return program([real()] * size + [BINARY] * size, rows, costs)


def one_machine(n: int, rnd: random.Random) -> bytes:
    """Completion times by weight, with release dates and a big M."""
    time = drawn(rnd, n, 2, 9)
    release = drawn(rnd, n, 0, 2 * n)
    weight = drawn(rnd, n, 1, 9)
    end = max(release) + sum(time)
    columns, rows = [real(at, end) for at in release], list[RowParts]()
    for i in range(n):
        for k in range(i):
            one_first(columns, rows, i, k, (time[k], time[i]), end)
    return program(columns, rows, listed(weight))


def one_first(
    columns: List[Column], rows: List[RowParts], a: int, b: int, times: Tuple[int, int], most: int
) -> None:
    """One starts after the other, where a new binary column is 0, or before it."""
    columns.append(BINARY)
    first = len(columns) - 1
    rows += [
        (times[0], None, {a: 1, b: -1, first: most}),
        (times[1] - most, None, {b: 1, a: -1, first: -most}),
    ]


def job_shop(jobs: int, machines: int, rnd: random.Random) -> bytes:
    order = [rnd.sample(range(machines), machines) for _ in range(jobs)]
    time = [drawn(rnd, machines, 1, 9) for _ in range(jobs)]
    most, end = sum(sum(one) for one in time), jobs * machines
    columns, rows = [real(0, most) for _ in range(end + 1)], list[RowParts]()
    for j, one in enumerate(order):
        at = [j * machines + k for k in one] + [end]
        rows += [(time[j][k], None, {b: 1, a: -1}) for k, a, b in zip(one, at, at[1:])]
    for k in range(machines):
        for j in range(jobs):
            for i in range(j):
                one_first(
                    columns,
                    rows,
                    j * machines + k,
                    i * machines + k,
                    (time[i][k], time[j][k]),
                    most,
                )
    return program(columns, rows, {end: 1})


def tour(cities: int, rnd: random.Random) -> bytes:
    """A shortest tour, by the order of cities (Miller, Tucker and Zemlin 1960)."""
    at = [(rnd.randint(0, 100), rnd.randint(0, 100)) for _ in range(cities)]
    arcs = [(i, k) for i in range(cities) for k in range(cities) if i != k]
    columns = [real(1, cities - 1)] * (cities - 1) + [BINARY] * len(arcs)
    first = cities - 1
    rows: List[RowParts] = []
    for end in (0, 1):
        for city in range(cities):
            rows.append((1, 1, ones(first + a for a, arc in enumerate(arcs) if arc[end] == city)))
    for a, (i, k) in enumerate(arcs):
        if i and k:
            rows.append((None, cities - 2, {i - 1: 1, k - 1: -1, first + a: cities - 1}))
    costs = {first + a: round(math.dist(at[i], at[k])) for a, (i, k) in enumerate(arcs)}
    return program(columns, rows, costs)


FAMILIES: Dict[str, Callable[[int, random.Random], bytes]] = {
    "transport": transport,
    "assignment": assignment,
    "flow": lambda size, rnd: network(
        size, rnd, lambda low, high: rnd.randint(int(low), int(high))
    ),
    "decimal_flow": lambda size, rnd: network(size, rnd, functools.partial(cents, rnd)),
    "covering": covering,
    "staircase": staircase,
    "diet": lambda size, rnd: blend(root(size / 6.25), max(3, size // root(size / 6.25)), rnd),
    "dense": lambda size, rnd: blend(root(size), root(size), rnd),
    "uneven": uneven,
    "parallel": parallel,
    "knapsack": lambda size, rnd: knapsacks(size, rnd, 10, 90, 20),
    "lots": lots,
    "packing": lambda size, rnd: packed(size, rnd, (size + 1) // 2 + 1),
    "stock": lambda size, rnd: cutting(size, rnd, 20, (1, 3), 3, size + 1),
    "pigeons": pigeons,
    "frobenius": frobenius,
    "split": split,
    "gap": lambda size, rnd: assigned(5, 4 * size, rnd),
    "color": lambda size, rnd: colouring(size, 6, rnd),
    "lotsize": lambda size, rnd: shared_lots(3, size, rnd),
    "tspmtz": tour,
    "cfl": lambda size, rnd: location(size // 3, size, rnd, has_room=True),
}
DEPOTS = functools.partial(location, has_room=True)
Seeded = Tuple[Callable[..., bytes], Tuple[int, ...]]  # of sizes and a seed
SEEDED: Mapping[str, Seeded] = {
    "gap-4-20": (assigned, (4, 20)),
    "gap-5-30": (assigned, (5, 30)),
    "knaps-50": (near_values, (50, 0)),
    "knaps-100": (near_values, (100, 0)),
    "knap-50": (near_values, (50, 100)),
    "knap-100": (near_values, (100, 100)),
    "knap-200": (near_values, (200, 100)),
    "mknap-30": (knapsacks, (30,)),
    "mknap-50": (knapsacks, (50,)),
    "sched-6": (one_machine, (6,)),
    "sched-8": (one_machine, (8,)),
    "col-12-6": (colouring, (12, 6)),
    "col-18-7": (colouring, (18, 7)),
    "ufl-8-20": (location, (8, 20)),
    "ufl-12-30": (location, (12, 30)),
    "cut-5": (cutting, (5,)),
    "cut-8": (cutting, (8,)),
    "cov-60-120": (covers, (60, 120)),
    "cov-100-200": (covers, (100, 200)),
    "binp-12": (packed, (12,)),
    "cfl-8-20": (DEPOTS, (8, 20)),
    "cfl-15-30": (DEPOTS, (15, 30)),
    "lot-3-10": (shared_lots, (3, 10)),
    "lot-5-12": (shared_lots, (5, 12)),
    "fix-5-8": (charges, (5, 8)),
    "fix-8-12": (charges, (8, 12)),
    "job-4-3": (job_shop, (4, 3)),
    "job-5-4": (job_shop, (5, 4)),
    "job-6-4": (job_shop, (6, 4)),
}


def family_model(name: str, size: int) -> bytes:
    """The .nl file of a model of a family."""
    return FAMILIES[name](size, random.Random(f"{name} {size}"))


def seeded_models(seed: str) -> Dict[str, bytes]:
    """By name, the .nl files of the models of a seed."""
    return {
        name + seed: make(*sizes, random.Random(name + seed))
        for name, (make, sizes) in SEEDED.items()
    }
