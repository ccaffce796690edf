"""A .sol file as AMPL's library reads it."""

from __future__ import annotations

import itertools
import re
from fractions import Fraction
from pathlib import Path
from typing import Dict, Iterator, List, Mapping, Set, Tuple

from running.places import DRIVERS

VERDICT_LINE = re.compile(
    r"(not proved: .|infeasible$|(unbounded|(optimal|feasible|bound) \S+"
    r"|within \S+ \S+)( of objective [1-9]\d*)?$)"
)


def codes_by_verdict() -> Mapping[str, Set[int]]:
    """By the first word of a verdict, the codes that CODES.md lets stand above it."""
    text = (DRIVERS / "CODES.md").read_text(encoding="utf-8")
    rows = (re.fullmatch(r"\| `(\w+).* \| (.*) \|", line) for line in text.split("\n"))
    return {
        found[1]: set(map(int, re.findall(r"\b(?:0|[1-4]\d0)\b", found[2])))
        for found in rows
        if found
    }


class SolFile:
    """What stands in a .sol file.

    Attributes:
        message: the lines above the first empty one, which is where AMPL's library stops.
        values, duals: exactly as they are written.
        objective: the number of the objective, from 0 on.
        code: AMPL's solve_result_num.
        suffixes: by kind (0: columns, 1: rows) and name, the values by place.
    """

    def __init__(self, path: Path) -> None:
        lines = path.read_text(encoding="utf-8", errors="surrogateescape").split("\n")
        self.message = lines[: lines.index("")]
        rest = iter(lines[len(self.message) + 1 :])
        assert next(rest) == "Options", lines
        _take(rest, int(next(rest)))
        rows, dual_count, columns, value_count = map(int, _take(rest, 4))
        assert dual_count in (0, rows) and value_count in (0, columns)
        self.duals = [Fraction(word) for word in _take(rest, dual_count)]
        self.values = [Fraction(word) for word in _take(rest, value_count)]
        word, *numbers = next(rest).split()
        assert word == "objno"
        self.objective, self.code = map(int, numbers)
        self.suffixes = _suffixes(rest)

    @property
    def text(self) -> str:
        """The message."""
        return "\n".join(self.message)

    @property
    def last_line(self) -> str:
        """The last line of the message, which is its verdict."""
        return self.message[-1]

    def has_allowed_code(self) -> bool:
        """Whether its code may stand above its last line, where that is a verdict.

        With strict=1 a .sol without values may have 100 above each verdict, and says why.
        """
        if any(line.startswith("the .sol has no values: ") for line in self.message):
            return self.code == 100 and not self.values
        if not VERDICT_LINE.match(self.last_line):
            return True
        return self.code in codes_by_verdict()[self.last_line.split()[0]]


Suffixes = Dict[Tuple[int, str], Dict[int, Fraction]]


def _suffixes(rest: Iterator[str]) -> Suffixes:
    found: Suffixes = {}
    for line in itertools.takewhile(bool, rest):
        word, kind, count, _, _, table = line.split()
        assert word == "suffix"
        name = next(rest)
        _take(rest, int(table))
        pairs = [pair.split() for pair in _take(rest, int(count))]
        found[int(kind) & 3, name] = {int(place): Fraction(value) for place, value in pairs}
    return found


def _take(lines: Iterator[str], count: int) -> List[str]:
    return list(itertools.islice(lines, count))
