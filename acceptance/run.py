#!/usr/bin/env python3
"""Runs the built program on worked examples, and compares bytes and status.

    run.py PROGRAM [COMMAND ..]

With commands, only their examples are run. The last line is `N examples, M failed`; the status is 0 where none failed.
Each text was worked out by hand from the rules of the format; `texts.py` says how they stand in `tables`.
"""
from __future__ import annotations

import sys
from fractions import Fraction
from pathlib import Path

import texts
from texts import Case, Program

from shared import asked

sys.path.append(str(Path(__file__).resolve().parents[1] / "drivers" / "tests"))
from builders.plain_mps import Ends, Plain  # noqa: E402

Column = tuple[
    bool, Ends, dict[int, Fraction]
]  # whether it is whole, its sides, coefficients by row (-1: the objective)
TABLES = (
    "certified",
    "check",
    "export",
    "fixed",
    "import",
    "make",
    "mps",
    "names",
    "nl",
    "prove",
    "refusals",
    "returned",
    "sol",
    "verify",
    "verify_mps",
)


def group(column: Column) -> int:
    """0 continuous, 1 binary, 2 integer."""
    is_whole, (lower, upper), _ = column
    if not is_whole:
        return 0
    is_binary = lower is not None and upper is not None and lower >= 0 and upper <= 1
    return 1 if is_binary else 2


def said(text: str) -> tuple[bool, Fraction, list[Ends], list[Column]]:
    """What an MPS text says without names: sense, right side of the objective, sides of the rows that are no N rows, columns in order."""
    plain = Plain(text.encode())
    places = {name: place for place, name in enumerate(plain.constraints())} | {
        plain.objective(): -1
    }
    terms: dict[str, dict[int, Fraction]] = {name: {} for name in plain.ends}
    for (row, column), value in plain.entries.items():
        if value and row in places:
            terms[column][places[row]] = value
    bounds = plain.bounds()
    columns = [(plain.whole[name], bounds[name], terms[name]) for name in plain.ends]
    return (
        plain.maximise,
        plain.rhs.get(plain.objective(), Fraction(0)),
        list(plain.sides().values()),
        columns,
    )


def is_same_in_groups(text: str, other: str) -> bool:
    """Whether the other text says the program of the text, its columns in groups: continuous, binary, integer."""
    *program, columns = said(text)
    *also, grouped = said(other)
    return program == also and sorted(columns, key=group) == grouped


def output(program: Program, content: bytes | None, command: str, *words: str) -> bytes | None:
    """What a command writes on this file, or None where it refuses, or there is none."""
    done = None if content is None else program.run((command, "AGAIN", *words), {"AGAIN": content})
    return done.out if done and done.status == 0 else None


def is_imported(program: Program, text: bytes, file: bytes | None) -> bool:
    """The file that was imported from an MPS text is exported as the same program, its columns in groups."""
    exported, written = output(program, file, "export"), output(program, text, "mps")
    return (
        exported is not None
        and written is not None
        and is_same_in_groups(written.decode(), exported.decode())
    )


def is_kept(program: Program, case: Case, out: bytes) -> bool:
    """Whether what was written says the same after another way through the program: what was exported is written again unchanged
    by `mps`, the .sol text of a certificate by `sol`, and the .nl text that `nl` writes by `nl`, which is exported as the same.
    """
    command, *words = case.spelled()
    if command == "certified":
        return case.status != 0 or output(program, out, "sol") == out
    if case.status or command not in ("export", "import"):
        return True
    content = case.files["A"].content()
    if command == "import":
        return is_imported(program, content, out)
    file = output(program, content, "nl")
    return output(program, out, "mps") == out and (
        len(words) == 4
        or (
            file is not None
            and output(program, file, "nl") == file
            and output(program, file, "export", *words[1:]) == out
            and is_imported(program, out, output(program, out, "import"))
        )
    )


def check(program: Program, case: Case) -> bool:
    """Whether the program does what the example says; tells where not."""
    done = program.tried(case)
    if done.is_of(case):
        if is_kept(program, case, done.out):
            return True
        print(f"{case.name}: is not the same after another way through the program")
        return False
    print(f"{case.name}: wanted {case.status} {case.told!r}, got {done.status} {done.told[:200]!r}")
    if done.out != case.out.content():
        print(f"  wanted {case.out.content()[:400]!r}\n  got    {done.out[:400]!r}")
    return False


def main(path: str, *commands: str) -> None:
    program = Program(path)
    cases = [
        case
        for name in TABLES
        for case in texts.cases(name)
        if not commands or case.words[0] in commands
    ]
    results = [check(program, case) for case in cases]
    failed = sum(not holds for holds in results)
    print(f"{len(results)} examples, {failed} failed")
    sys.exit(1 if failed else 0)


main(*asked(__doc__, 1))
