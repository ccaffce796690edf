#!/usr/bin/env python3
"""Hostile use of the built program: texts cut short, memory that is refused, and texts at their limits.

    hostile.py PROGRAM [truncation] [memory] [limits] [largest [NAME ..]]

`truncation` cuts the files of an example of each command after each byte: the status is 0, 1 or 2, a 2 tells one line that
begins with `refused ` and writes nothing, and a 0 or 1 tells nothing; what is written is nothing only where `certified` denies.
`memory` refuses one allocation a run, the next in each run, until a run meets no refusal: each run that met one ends with
6, tells `no memory` and writes nothing, or does without it (a list that was to be cut to its length) and answers as
usual. It needs `cc`.
`limits` gives each command texts of the greatest count that is accepted and of one more, which is refused at its line.
`largest` does so where it takes long: up to gigabytes of text, one at a time, with seconds and peak memory of each, which
is below 4 GB; words after it choose those whose names hold one. Without words all parts but `largest` run.
The last line of each part counts its runs; the status is 0 where none failed.
"""
from __future__ import annotations

import os
import subprocess
import sys
from collections.abc import Callable, Iterator, Sequence

import texts
from texts import Case, Done, Program

from shared import asked

HERE = os.path.dirname(os.path.abspath(__file__))
Judged = tuple[bool, str, Done]  # whether a run is as it should be, what it is, how it ended


def is_judged(done: Done, command: str) -> bool:
    """Whether an answer of this command on a text that may be cut is one of the three that may come."""
    if done.status == 2:
        return (
            done.out == b""
            and done.told.startswith(b"refused ")
            and done.told.find(b"\n") == len(done.told) - 1
        )
    is_empty = command == "certified" and done.status == 1
    return done.status in (0, 1) and done.told == b"" and (done.out == b"") == is_empty


def truncation(program: Program) -> Iterator[Judged]:
    """Each case with each of its files cut after each of its bytes."""
    for case in texts.cases("hostile"):
        files = {name: text.content() for name, text in case.files.items()}
        for name, whole in files.items():
            for length in range(len(whole)):
                done = program.run(case.spelled(), {**files, name: whole[:length]})
                yield is_judged(
                    done, case.words[0]
                ), f"{case.name}, file {name} cut after {length} bytes", done


def without(program: Program, case: Case, library: str, number: int) -> tuple[bool, Done]:
    """Whether this allocation was met, which was refused, and how the run ended."""
    reading, writing = os.pipe()
    done = program.run(
        case.spelled(),
        case.files,
        env=os.environ | {"LD_PRELOAD": library, "REFUSE": str(number)},
        preexec_fn=lambda: os.dup2(writing, 9),
        pass_fds=(9,),
    )
    os.close(writing)
    is_met = os.read(reading, 1) != b""
    os.close(reading)
    return is_met, done


def memory(program: Program) -> Iterator[Judged]:
    """Each case with each of its allocations refused: status 6, or the usual answer where it was not needed."""
    library = program.place("refuse.so")
    subprocess.run(
        ["cc", "-O2", "-shared", "-fPIC", "-o", library, os.path.join(HERE, "refuse.c"), "-ldl"],
        check=True,
    )
    for case in texts.cases("hostile"):
        usual = program.tried(case)
        yield usual.is_of(case), case.name, usual
        not_needed = 0
        for number in range(100000):
            is_met, done = without(program, case, library, number)
            if not is_met:
                break
            is_refused = done.status == 6 and done.out == b"" and done.told in (b"no memory\n", b"")
            is_same = (done.status, done.out, done.told) == (usual.status, usual.out, usual.told)
            not_needed += is_same
            yield is_refused or is_same, f"{case.name}, allocation {number}", done
        print(f"{case.name}: {number} allocations, {not_needed} of them not needed")


def limits(program: Program, table: str, chosen: Sequence[str] = ()) -> Iterator[Judged]:
    """The cases of a table (those with one of the chosen words), with at most 4 GB and 1,000 seconds each."""
    for case in texts.cases(table):
        if not chosen or any(word in case.name for word in chosen):
            done = program.tried(case, 1000)
            yield done.is_of(case) and done.peak < 4 * 10**9, case.name, done
            print(
                f"{case.words[0]}: {case.name}: {done.status} {done.told.decode().strip()} {done.seconds:.2f} s, {done.peak / 10**6:.0f} MB",
                flush=True,
            )


def is_held(part: str, runs: Iterator[Judged]) -> bool:
    """Whether all runs are as they should be; tells those that are not, and how many there are."""
    count = failed = 0
    for holds, what, done in runs:
        count += 1
        if not holds:
            failed += 1
            print(
                f"FAILED {what}: {done.status} {done.out[:100]!r} {done.told[:100]!r}", flush=True
            )
    print(f"{part}: {count} runs, {failed} failed")
    return failed == 0


def main(path: str, *wanted: str) -> None:
    at = wanted.index("largest") + 1 if "largest" in wanted else len(wanted)
    parts: dict[str, Callable[[Program], Iterator[Judged]]] = {
        "truncation": truncation,
        "memory": memory,
        "limits": lambda program: limits(program, "limits"),
        "largest": lambda program: limits(program, "largest", wanted[at:]),
    }
    results = [
        is_held(name, parts[name](Program(path)))
        for name in wanted[:at] or ("truncation", "memory", "limits")
    ]
    sys.exit(0 if all(results) else 1)


main(*asked(__doc__, 1))
