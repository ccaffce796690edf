"""MPS texts read line by line, in fractions: what the reader of the package is held against; and
random ones in the written form."""

from __future__ import annotations

import random
from fractions import Fraction as F
from typing import Optional, Tuple

Ends = Tuple[Optional[F], Optional[F]]
INFINITE = F(10) ** 1000
WITH_VALUE = ("LO", "UP", "FX", "LI", "UI")
TYPES = ("", "", "UP", "LO", "LO UP", "FX", "MI", "MI UP", "PL", "FR", "BV", "UI", "LI", "LI UI")


class Plain:
    """By name: kinds of rows, right sides, ranges, entries, ends of columns (None: not set), and
    which columns are whole."""

    def __init__(self, text: bytes) -> None:
        self.maximise = False
        self.kinds: dict[str, str] = {}
        self.rhs: dict[str, F] = {}
        self.ranges: dict[str, F] = {}
        self.entries: dict[tuple[str, str], F] = {}
        self.ends: dict[str, list[F | None]] = {}
        self.whole: dict[str, bool] = {}
        part, in_whole = "", False
        for line in text.decode().split("\n"):
            words = line.split(" ")[1:]
            if not line.startswith(" "):
                part = line.split(" ")[0]
            elif part == "OBJSENSE":
                self.maximise = words == ["MAX"]
            elif part == "ROWS":
                self.kinds[words[1]] = words[0]
            elif part == "COLUMNS" and words[2] in ("'INTORG'", "'INTEND'"):
                in_whole = words[2] == "'INTORG'"
            elif part == "COLUMNS":
                self.entries[words[1], words[0]] = F(words[2])
                self.ends.setdefault(words[0], [None, None])
                self.whole.setdefault(words[0], in_whole)
            elif part in ("RHS", "RANGES"):
                (self.rhs if part == "RHS" else self.ranges)[words[1]] = F(words[2])
            elif part == "BOUNDS":
                self.bound(words[0], words[2], *words[3:])

    def bound(self, kind: str, column: str, value: str = "0") -> None:
        ends = self.ends[column]
        self.whole[column] |= kind in ("BV", "LI", "UI")
        for at, kinds, end in (
            (0, ("LO", "LI", "FX"), F(value)),
            (1, ("UP", "UI", "FX"), F(value)),
            (0, ("MI", "FR"), -INFINITE),
            (1, ("PL", "FR"), INFINITE),
            (0, ("BV",), F(0)),
            (1, ("BV",), F(1)),
        ):
            if kind in kinds:
                ends[at] = end

    def bounds(self) -> dict[str, Ends]:
        """None where there are none."""
        found: dict[str, Ends] = {}
        for column, (low, high) in self.ends.items():
            if low is None and (high is None or high >= 0):
                low = F(0)
            low, high = (
                None if end is None or abs(end) >= INFINITE else end for end in (low, high)
            )
            found[column] = low, high
        return found

    def objective(self) -> str:
        return next((row for row, kind in self.kinds.items() if kind == "N"), "")

    def constraints(self) -> list[str]:
        return [row for row, kind in self.kinds.items() if kind != "N"]

    def sides(self) -> dict[str, Ends]:
        found: dict[str, Ends] = {}
        for row in self.constraints():
            kind, at = self.kinds[row], self.rhs.get(row, F(0))
            width = self.ranges.get(row)
            ends = [None if kind == "L" else at, None if kind == "G" else at]
            if width is not None:
                up = kind == "G" or kind == "E" and width >= 0
                ends[int(up)] = at + abs(width) if up else at - abs(width)
            found[row] = ends[0], ends[1]
        return found


def number(chance: random.Random) -> str:
    return chance.choice(
        [
            "0",
            "1",
            "-1",
            str(chance.randint(-99, 99)),
            "0.000001",
            "1e30",
            f"{chance.uniform(-9, 9):.2f}",
            "-12345678901234567890.5",
            str(10 ** chance.randint(0, 25)),
            repr(chance.random()),
        ]
    )


def random_text(seed: int, most: int = 8) -> bytes:
    """A text in the written form, with all that it may have."""
    chance = random.Random(seed)
    rows = [(chance.choice("LGEN"), f"r{i}") for i in range(chance.randint(0, most))]
    rows.insert(chance.randint(0, len(rows)), ("N", "cost"))
    columns = [f"col{j}" for j in range(chance.randint(0, most))]
    lines, marks = ["NAME p", *(["OBJSENSE", " MAX"] if chance.random() < 0.3 else [])], 0
    lines += ["ROWS", *(f" {kind} {row}" for kind, row in rows), "COLUMNS"]
    for column in columns:
        if chance.random() < 0.3:
            lines.append(f" M{marks} 'MARKER' '{('INTORG', 'INTEND')[marks % 2]}'")
            marks += 1
        lines += [
            f" {column} {row} {number(chance)}"
            for _, row in chance.sample(rows, chance.randint(1, len(rows)))
        ]
    lines += [f" M{marks} 'MARKER' 'INTEND'"] if marks % 2 else []
    lines += ["RHS", *(f" RHS {row} {number(chance)}" for _, row in rows if chance.random() < 0.6)]
    ranges = [
        f" RNG {row} {number(chance)}"
        for kind, row in rows
        if kind != "N" and chance.random() < 0.3
    ]
    lines += ["RANGES", *ranges] if ranges else []
    bounds = [
        f" {kind} BND {column}" + (f" {number(chance)}" if kind in WITH_VALUE else "")
        for column in columns
        for kind in chance.choice(TYPES).split()
    ]
    chance.shuffle(bounds)
    lines += ["BOUNDS", *bounds] if bounds else []
    return "\n".join([*lines, "ENDATA", ""]).encode()
