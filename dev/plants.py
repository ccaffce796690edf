#!/usr/bin/env python3
"""Lists wrong bodies that a crate's contracts let through, as `rt plant --all` does, private functions too.

    dev/plants.py CRATE [--only REGEX] [--first] [--minutes N] [--batch N]

It works over the proved libraries of GATE (see check.py), so that nothing is built or checked before the plants. All plants
of a batch are tried in one check: a crate of a hundred functions takes some ten minutes. --only takes the functions whose
file, line and path match. --first tries the bodies that give up alone; without it, public functions also get bodies that
call the real one. A private function gets one body that fails and one that gives a value.
It loads the kit's `rt plant` and changes some of its parts, so a new kit may want changes here.
"""
from __future__ import annotations

import argparse
import json
import os
import re
import subprocess
import sys
import time
import types
from collections.abc import Iterable, Iterator
from typing import Any

import check
from shared import TOP

PLANT = f"{check.KIT}/bin/rt-plant"
# Whether the unchanged call is planted beside the wrong ones.
CONTROLS = "controls *= len(first) < most"
JUDGED = re.compile(r"(?m)^(only=|rattle: no verdict)")  # what a check says that came to its end


def loaded(is_first: bool) -> Any:
    """The kit's `rt plant`, as a module."""
    with open(PLANT) as it:
        text = it.read()
    if text.count(CONTROLS) != 1:
        sys.exit("this kit's rt plant is another one: mend dev/plants.py")
    kept = "[]" if is_first else "[it for it in controls if it.f.is_pub]"
    module = types.ModuleType("rt_plant")
    module.__file__ = PLANT
    text = text.replace(CONTROLS, f"controls = {kept}")
    exec(compile(text, PLANT, "exec"), module.__dict__)
    return module


def take_libraries(module: Any, crate: str) -> None:
    """Puts GATE's libraries in the place of those that rt would build, and their list of functions in that of a check."""
    made = module.rt.Crate.__init__

    def with_library(self: Any, *words: Any, **named: Any) -> None:
        made(self, *words, **named)
        if self.name != crate:
            self.rlib = check.library(self.name)

    def checked(*_: Any) -> int:
        with open(f"{check.library(crate)}/toolchain/mir.json") as it:
            functions = json.load(it)
        print("\n" + "\n".join(f"fn {it[0]}: proved" for it in functions))
        print(f"crate {crate}: proved")
        return 0

    module.rt.Crate.__init__ = with_library
    module.rt.main = checked


def choose(module: Any, only: str) -> None:
    """Takes private functions too, with two bodies each."""
    gives_up = module.bodies.Bodies.giving_up
    chosen = module.chosen

    def few(self: Any) -> list[Any]:
        found: list[Any] = gives_up(self)
        kinds: dict[bool, Any] = {}
        for it in found:
            kinds.setdefault(it.kind == "failure", it)
        return found if self.f.is_pub else list(kinds.values())

    def matching(crate: Any, source: Any, symbols: Any, _: Any) -> list[list[Any]]:
        found: list[list[Any]] = chosen(crate, source, symbols, "src/")
        found = [[f for f in fs if re.search(only, f.shown)] for fs in found]
        for f in {f for fs in found for f in fs if not f.is_pub}:
            f.shown += " (private)"
        return found

    module.bodies.Bodies.giving_up = few
    module.chosen = matching


def check_of(module: Any, copy: Any, names: Iterable[str], seconds: float) -> str | None:
    """What one check of these functions of a copy of the crate says; None where it has no end in time.

    Args:
        module: The kit's `rt plant`.
        copy: The copy, in which plants stand.
        names: The functions that are checked.
        seconds: How long it may take; no longer than the copy has.
    """
    words = [it for name in names for it in ("--only", name)]
    words = [*copy.crate.words([*copy.flags, *words]), *module.rt.KEPT, "--progress"]
    left = max(min(seconds, copy.end - time.monotonic()), 0)
    try:
        ran = subprocess.run(
            [*module.rt.guarded(), module.rt.RATTLE, "check", *words],
            timeout=left,
            cwd=copy.folder,
            stdin=subprocess.DEVNULL,
            stdout=subprocess.PIPE,
            stderr=subprocess.STDOUT,
            text=True,
            errors="replace",
        )
    except subprocess.TimeoutExpired:
        return None
    return ran.stdout if ran.returncode >= 0 else None


def not_compiled(module: Any, copy: Any, said: str | None) -> set[Any]:
    """The plants at whose lines a check finds errors."""
    places = module.ERROR.findall(said or "")
    return {copy.lines.get((file, int(line))) for file, line in places} - {None}


def functions_of(plants: list[Any]) -> Iterator[str]:
    """The functions that are checked to judge these plants, by the names that rattle takes."""
    for it in plants:
        yield from it.f.symbols or [it.name]


def judge_batch(module: Any, copy: Any, plants: list[Any]) -> list[list[Any]]:
    """Judges a batch of plants, or gives the two halves that it is to be tried in.

    Plants that do not compile are left out, and the rest is checked again. A check that neither names such plants nor
    judges had no end in time.
    """
    while plants and not copy.is_late():
        copy.write(plants)
        said = copy.check(functions_of(plants))
        if said and JUDGED.search(said):
            module.read(plants, said)
            return []
        wrong = not_compiled(module, copy, said)
        if not wrong:
            return halves(module, copy, plants)
        for it in wrong:
            it.kind = "not-source"
        plants = [it for it in plants if it not in wrong]
    return []


def halves(module: Any, copy: Any, plants: list[Any]) -> list[list[Any]]:
    """The two halves of a batch whose check had no end; where it was one plant, and there was time, that plant has none."""
    if len(plants) > 1:
        half = len(plants) // 2
        return [plants[:half], plants[half:]]
    if not copy.is_late():
        plants[0].kind = "not-judged"
        plants[0].why = module.NO_END
    return []


def judge_in_batches(module: Any, size: int, seconds: float) -> None:
    """Lets one check both compile and judge the plants of a batch.

    Args:
        module: The kit's `rt plant`, of which three functions are replaced.
        size: How many plants a batch has.
        seconds: How long one check may take.
    """

    def compiled(_: Any, plants: list[Any]) -> list[Any]:
        return [it for it in plants if it.kind == "not-run"]

    def checked(copy: Any, names: Iterable[str]) -> str | None:
        return check_of(module, copy, names, seconds)

    def judge(copy: Any, plants: list[Any]) -> None:
        batches = [plants[at : at + size] for at in range(0, len(plants), size)]
        while batches and not copy.is_late():
            batches[:1] = judge_batch(module, copy, batches[0])
            print(f"{sum(map(len, batches))} plants left in this pass", file=sys.stderr, flush=True)

    module.Copy.compiled = compiled
    module.Copy.check = checked
    module.Copy.judge = judge


def main(words: list[str]) -> int:
    parser = argparse.ArgumentParser(usage=__doc__, add_help=False)
    parser.add_argument("crate")
    parser.add_argument("--only", default="")
    parser.add_argument("--minutes", default="240")
    parser.add_argument("--batch", type=int, default=120)
    parser.add_argument("--first", action="store_true")
    said = parser.parse_args(words)
    module = loaded(said.first)
    take_libraries(module, said.crate)
    choose(module, said.only)
    judge_in_batches(module, said.batch, 3600)
    os.chdir(f"{TOP}/crates/{said.crate}")
    status: int = module.main(
        said.crate, "--all", "--minutes", said.minutes, "--max", "100000", "--jobs", "1"
    )
    return status


if __name__ == "__main__":
    sys.dont_write_bytecode = True
    sys.exit(main(sys.argv[1:]))
