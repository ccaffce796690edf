#!/usr/bin/env python3
"""The sum of the sources that the program is built and proved from, and the gate's note of it.

    packaging/sources.py                prints the sum of the sources as they stand
    packaging/sources.py --note SUM     notes beside the built program its sum, that of its sources,
                                        and the toolchain; SUM is that of the sources before the
                                        gate, and status 1 says that they have changed since
    packaging/sources.py --unproved PROGRAM     notes beside a program that it is not proved
"""

from __future__ import annotations

import hashlib
import json
import os
import subprocess
import sys
from typing import Iterator, Mapping, Sequence

TOP = os.path.dirname(os.path.dirname(os.path.realpath(__file__)))
BUILT = os.path.join(TOP, "crates", "bridge", "out", "bridge")
TRIED = os.path.join(TOP, "out", "try", "bridge")  # by dev/try, without proofs


def said_by(*words: str) -> str:
    """What a command says, or nothing where it is not there or fails."""
    try:
        ran = subprocess.run(words, cwd=TOP, capture_output=True, text=True, check=False)
    except OSError:
        return ""
    return ran.stdout.strip() if ran.returncode == 0 else ""


def paths() -> Iterator[str]:
    """All that `rt ci` reads, in a fixed order."""
    yield from ("HANDLES", "crates.txt")
    for folder, inner, names in os.walk(os.path.join(TOP, "crates")):
        inner[:] = sorted(name for name in inner if name != "out")
        yield from (os.path.relpath(os.path.join(folder, name), TOP) for name in sorted(names))


def sum_of(path: str) -> str:
    with open(path, "rb") as f:
        return hashlib.sha256(f.read()).hexdigest()


def sources() -> str:
    """The sum of the sources' paths and sums."""
    lines = (f"{sum_of(os.path.join(TOP, path))}  {path}\n" for path in paths())
    return hashlib.sha256("".join(lines).encode()).hexdigest()


def note(program: str, of: str, proved: str) -> None:
    """Beside a program, where `nl-bridge version` and the packages find it."""
    facts = {
        "program": sum_of(program),
        "sources": of,
        "toolchain": said_by("rt", "--version"),
        "proved": proved,
    }
    with open(program + ".built", "w", encoding="ascii") as f:
        f.write(json.dumps(facts, indent=1) + "\n")


def fault_of(program: str) -> tuple[Mapping[str, str], str]:
    """The note beside a program, and why it does not say that it is of these sources; nothing where it does."""
    try:
        with open(program + ".built", encoding="ascii") as f:
            facts: dict[str, str] = json.load(f)
        is_own = facts.get("program") == sum_of(program)
    except (OSError, ValueError):
        return {}, "it is not built, or has no note of its sources"
    if not is_own:
        return facts, "it is not the program that was noted"
    return facts, "" if facts.get("sources") == sources() else "it is of other sources than these"


def main(words: Sequence[str]) -> None:
    if {"-h", "--help"} & set(words):
        print(__doc__)
    elif not words:
        print(sources())
    elif len(words) != 2 or words[0] not in ("--note", "--unproved"):
        sys.exit(__doc__)
    elif words[0] == "--unproved":
        note(os.path.abspath(words[1]), sources(), "no")
    elif sources() != words[1]:
        sys.exit("packaging/sources.py: the sources have changed while the gate ran")
    else:
        note(BUILT, words[1], "yes")


if __name__ == "__main__":
    main(sys.argv[1:])
