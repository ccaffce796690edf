"""Cases as rows of tables, texts by rule, and the built program, run on them in a folder of its own.

A table (`tables/NAME.txt`) has, a line each, remarks (`# ..`), texts by name, makers of rows, and rows:

    KNAPSACK = g3 1 1 0 / 3 1 1 0 0 / ..
    refuses(name, nodes, told, program=WHOLE) = prove | <$program | proof 1 / $nodes | refused file 2 $told
    refuses | no tree | value 0 2 | line 3: short file
    refuses | a split of a real variable | value 0 2 / split 0 1 | line 3: not whole | REAL

Behind four blanks the line before goes on. A row is what made it, then its cells; cells of the last
parameters may be left out, or said as `program=REAL`. What a maker stands for are the words of a call, its files, and what
comes of it: `writes TEXT`, `begins TEXT` (and goes on), `says VERDICT` (status 0 where the verdict holds, else 1), `denied` (status 1, and nothing is
written), `refused FAULT`, `bad words`, `input fault`, behind `N s: ` where it has so many seconds of the processor; `call` is the maker that takes the same as they are. Words of a command alone are followed by its files, A to D.

A text has its lines between ` / `, or behind each `/` where it begins with one. In lines `{..}` stands for a value, `<..` is
a line for each of a text or of several (`<KNAPSACK[:23]`, `<head('1 1 0 0 0 0 0 0')`), `[COUNT k` .. `]` are lines once for
each k below the count, and `\\` at the end says that the last line has no end.
"""
from __future__ import annotations

import os
import re
import resource
import subprocess
import sys
import tempfile
import time
from collections.abc import Iterator, Mapping, Sequence
from dataclasses import dataclass
from functools import partial
from string import Template
from typing import Any, Union

HERE = os.path.dirname(os.path.abspath(__file__))
sys.path.append(os.path.join(HERE, "..", "dev"))  # of `shared`
HOLDS = re.compile(
    r"(yes \S+|proved|infeasible|unbounded|(optimal|feasible|bound|within \S+) \S+)( of objective \d+)?"
)
MAKER = re.compile(r"(\w+)\((.*?)\) = (.*)")
NAMED = re.compile(r"([A-Z_]+) = (.*)")
STATUSES = {"denied": 1, "refused": 2, "bad words": 3, "input fault": 4}
Names = dict[str, Any]


def head(counts: str) -> list[str]:
    """The ten header lines of a file with these counts: variables, constraints, objectives, binary and integer variables, nonzeros of
    rows and of objectives, defined variables."""
    v, c, o, nbv, niv, nzc, nzo, d = counts.split()
    return [
        "g3 1 1 0",
        f"{v} {c} {o} 0 0",
        "0 0",
        "0 0",
        "0 0 0",
        "0 0 0 1",
        f"{nbv} {niv} 0 0 0",
        f"{nzc} {nzo}",
        "0 0",
        f"{d} 0 0 0 0",
    ]


def data(path: str) -> list[str]:
    """The lines of a file beside the examples."""
    with open(os.path.join(HERE, path), encoding="utf-8", newline="") as stream:
        return stream.read().split("\n")[:-1]


def solved(
    primals: str, duals: str, rows: int = 1, columns: int = 2, end: str = "objno 0 0"
) -> list[str]:
    """A .sol text with these values."""
    y, x = duals.split(), primals.split()
    return [
        "",
        "Options",
        "0",
        *map(str, (rows, len(y), columns, len(x))),
        *y,
        *x,
        *filter(None, [end]),
    ]


def halved(low: int, high: int) -> Iterator[str]:
    """A proof for one whole variable that splits its values in halves; from 2 on the bound is the value."""
    if low == high:
        yield from ("weights 1", "0 1") if low < 2 else ("duals 0",)
        return
    middle = (low + high) // 2
    yield f"split 0 {middle}"
    yield from halved(low, middle)
    yield from halved(middle + 1, high)


def expanded(words: Sequence[str], names: Names) -> Iterator[str]:
    """The lines that words stand for, by a function that is made of them."""
    made, depth = ["def lines():", " yield from ()"], 1
    for word in words:
        if word.startswith("["):
            count, index = word[1:].rsplit(" ", 1)
            made.append(" " * depth + f"for {index} in range({count}):")
        elif word != "]":
            made.append(
                " " * depth
                + (
                    f"yield from {word[1:]}"
                    if word.startswith("<")
                    else f"yield {'f' if '{' in word else ''}{word!r}"
                )
            )
        depth += word.startswith("[") - (word == "]")
    scope = dict(names)
    exec("\n".join(made), scope)
    lines: Iterator[str] = scope["lines"]()
    return lines


@dataclass(frozen=True)
class Text:
    """One that is made as it is looked at."""

    words: str
    names: Names

    def lines(self) -> Iterator[str]:
        """With their ends."""
        words = self.words[1:].split("/") if self.words.startswith("/") else self.words.split(" / ")
        end = "" if words[-1] == "\\" else "\n"
        before = None
        for line in expanded(words if end else words[:-1], self.names):
            if before is not None:
                yield before + "\n"
            before = line
        if before is not None:
            yield before + end

    def content(self) -> bytes:
        return "".join(self.lines()).encode()


@dataclass(frozen=True)
class Case:
    """What the program does with these words in a folder with these files, in so many seconds of the processor. Where it is
    begun, what it writes goes on."""

    name: str
    words: Sequence[str]
    texts: Sequence[Text]
    status: int
    out: Text
    told: str
    seconds: int = 600
    is_begun: bool = False

    @property
    def files(self) -> dict[str, Text]:
        """By the names A, B, C .., of which those that are named `missing` are not there."""
        return {
            name: text
            for name, text in zip("ABCD", self.texts)
            if len(self.words) == 1 or name in self.words
        }

    def spelled(self) -> list[str]:
        """The words with the files."""
        return [*self.words, *(self.files if len(self.words) == 1 else ())]


class Table:
    """The cases of a table, over the names of `texts.txt`."""

    def __init__(self, name: str) -> None:
        self.names: Names = {
            "head": head,
            "data": data,
            "solved": solved,
            "halved": halved,
            "BIG": 2**127 - 1,
            "TAB": "\t",
            "CR": "\r",
        }
        self.makers: dict[str, tuple[list[str], str]] = {}
        self.cases: list[Case] = []
        for row in [*rows("texts"), *rows(name)]:
            self.take(row)

    def take(self, row: str) -> None:
        """A row of the table: a name for lines, a maker of cases, or a case."""
        if (found := NAMED.fullmatch(row)) is not None:
            self.names[found[1]] = [line.rstrip("\n") for line in self.text(found[2]).lines()]
        elif (found := MAKER.fullmatch(row)) is not None:
            self.makers[found[1]] = (found[2].split(", "), found[3])
        else:
            made, name, *cells = row.split(" | ")
            self.cases.append(
                self.case(name, cells if made == "call" else self.made(made, [name, *cells]))
            )

    def made(self, maker: str, cells: Sequence[str]) -> list[str]:
        """What a maker stands for with these cells."""
        parameters, body = self.makers[maker]
        given = dict(word.split("=", 1) for word in parameters if "=" in word)
        places = [word.split("=")[0] for word in parameters]
        for place, cell in zip(places, cells):
            key, said, value = cell.partition("=")
            given.update({key: value} if said and key in given else {place: cell})
        return [Template(cell).substitute(given) for cell in body.split(" | ")]

    def text(self, words: str) -> Text:
        return Text(words, self.names)

    def case(self, name: str, cells: Sequence[str]) -> Case:
        """The case that cells say: words of the program, texts of its files, and what comes of it."""
        words, *texts, outcome = cells
        limited = re.match(r"(\d+) s: ", outcome)
        seconds, outcome = (
            (int(limited[1]), outcome[limited.end() :]) if limited else (600, outcome)
        )
        kind, _, rest = outcome.partition(" ")
        status = STATUSES.get(outcome, STATUSES.get(kind, 0))
        if kind == "says":
            status = int(not HOLDS.fullmatch(rest))
        out = self.text("<[]" if outcome in STATUSES or kind in STATUSES else rest)
        return Case(
            name,
            words.split(),
            [self.text(text) for text in texts],
            status,
            out,
            f"{outcome}\n" if status > 1 else "",
            seconds,
            kind == "begins",
        )


def rows(name: str) -> list[str]:
    """The lines of a table, each with those that go on with it."""
    text = "\n".join(
        line for line in data(f"tables/{name}.txt") if line.strip() and not line.startswith("# ")
    )
    return text.replace("\n    ", "").split("\n")


def cases(name: str) -> list[Case]:
    """Those of a table, in their order."""
    return Table(name).cases


@dataclass(frozen=True)
class Done:
    """How a run ended, the first bytes that it wrote and told, and the seconds and bytes of memory that it took."""

    status: int
    out: bytes
    told: bytes
    seconds: float = 0.0
    peak: int = 0

    def is_of(self, case: Case) -> bool:
        """Whether this is what the case says."""
        out = case.out.content()
        is_written = (
            self.out != b"" and self.out.startswith(out.rstrip(b"\n"))
            if case.is_begun
            else self.out == out
        )
        return is_written and (self.status, self.told) == (case.status, case.told.encode())


class Program:
    """The program that is tried, with a folder of its own for the files of a case."""

    def __init__(self, path: str) -> None:
        self.path = os.path.abspath(path)
        self.folder = tempfile.TemporaryDirectory()

    def place(self, name: str) -> str:
        return os.path.join(self.folder.name, name)

    def read(self, name: str, most: int) -> bytes:
        with open(self.place(name), "rb") as stream:
            return stream.read(most)

    def run(
        self,
        words: Sequence[str],
        files: Mapping[str, Union[Text, bytes]],
        seconds: int = 600,
        most: int = -1,
        **more: Any,
    ) -> Done:
        """The run with these words where these files lie; it is killed after so many seconds of the processor."""
        for name, text in files.items():
            with open(self.place(name), "wb", buffering=1 << 20) as stream:
                stream.writelines(
                    (text,) if isinstance(text, bytes) else (line.encode() for line in text.lines())
                )
        more = {
            "preexec_fn": partial(resource.setrlimit, resource.RLIMIT_CPU, (seconds, seconds)),
            **more,
        }
        begun = time.monotonic()
        with open(self.place("out"), "wb") as out, open(self.place("told"), "wb") as told:
            process = subprocess.Popen(
                [self.path, *words],
                cwd=self.folder.name,
                stdin=subprocess.DEVNULL,
                stdout=out,
                stderr=told,
                **more,
            )
            _, ended, used = os.wait4(process.pid, 0)
        process.returncode = os.waitstatus_to_exitcode(ended)
        for name in files:
            os.remove(self.place(name))
        return Done(
            process.returncode,
            self.read("out", most),
            self.read("told", most),
            time.monotonic() - begun,
            used.ru_maxrss * 1024,
        )

    def tried(self, case: Case, most: int = -1) -> Done:
        return self.run(case.spelled(), case.files, case.seconds, most)
