"""Texts of .sol files, and tables of values by name, for drivers to write and print.

The proved program writes the .sol files that have values. Two are made here: one without values,
after a refusal, and one under another message, whose last lines are known only when the file has
been checked.
"""

from __future__ import annotations

import json
from typing import Iterable, Iterator, List, NamedTuple, Sequence, Tuple

from ..system.text import one_line
from .nl import read_header

OPTIONS_HEADING = b"\nOptions\n"  # behind the empty line that ends the message
MOST_SHORT = 20  # lines of values in a short table
NamedTexts = List[Tuple[str, str]]  # names with their values


class SolValues(NamedTuple):
    """The numbers of a .sol, as they are written there: duals by constraint, values by variable.

    Where the file has no duals, or no values, the list is empty.
    """

    duals: List[str]
    values: List[str]


def failure_sol(nl: str, code: int, objective: int, message: Sequence[str]) -> bytes:
    """A .sol that has a code and no values.

    Args:
        nl: The path of the .nl file that it is for.
        code: AMPL's code of the outcome (`system.codes.Code`).
        objective: The number of the objective, from 0.
        message: Its lines; their controls are escaped.

    Raises:
        OSError: The .nl file cannot be read.
        Damaged: It is no .nl file.
    """
    head = read_header(nl)
    counts = [str(head.constraints), "0", str(head.variables), "0"]
    options = ["", "Options", str(len(head.options)), *head.options]
    end = f"objno {objective} {code}"
    return _encoded([*map(one_line, message), *options, *counts, end])


def with_message(sol: bytes, message: Sequence[str]) -> bytes:
    """The same .sol under another message, given by lines, whose controls are escaped.

    Raises:
        ValueError: It is no .sol: its section Options is missing.
    """
    return _encoded(list(map(one_line, message))) + sol[sol.index(OPTIONS_HEADING) :]


def read_sol(sol: bytes) -> SolValues:
    """The numbers of a .sol that the proved program wrote, in the order of the file.

    Raises:
        ValueError, IndexError: It is no .sol.
    """
    start = sol.index(OPTIONS_HEADING) + len(OPTIONS_HEADING)
    lines = sol[start:].decode("utf-8", "surrogateescape").split("\n")
    counts = 1 + int(lines[0])  # how many options there are, then the options, then four counts
    first = counts + 4
    middle = first + int(lines[counts + 1])
    return SolValues(lines[first:middle], lines[middle : middle + int(lines[counts + 3])])


def value_lines(pairs: Iterable[Tuple[str, str]]) -> Iterator[str]:
    """Lines `NAME VALUE`, without their ends."""
    return (f"{name} {text}" for name, text in pairs)


def short_table(pairs: NamedTexts) -> Iterator[str]:
    """Lines `NAME VALUE` to be printed: all where they are at most MOST_SHORT.

    Of more pairs the first MOST_SHORT whose text is not `0`, and a line that says how many are not
    shown.
    """
    shown = pairs
    if len(pairs) > MOST_SHORT:
        shown = [(name, text) for name, text in pairs if text != "0"][:MOST_SHORT]
    yield from value_lines(shown)
    left = len(pairs) - len(shown)
    if left:
        yield f"({left} values more: wantsol=2 prints all, solution=FILE writes them)"


def solution_file(path: str, values: NamedTexts, duals: NamedTexts) -> bytes:
    """What the option `solution=FILE` writes: values by name, and duals under a heading.

    Args:
        path: Of the file; where it ends with .json, the text is one object with `values` and
            `duals`, where of two columns of one name the last is told.
        values: Of columns, by the names that the user knows.
        duals: Of rows; empty where there are none.
    """
    if path.endswith(".json"):
        return _encoded([json.dumps({"values": dict(values), "duals": dict(duals)}, indent=1)])
    lines = list(value_lines(values))
    if duals:
        lines += ["", "duals", *value_lines(duals)]
    return _encoded(lines)


def _encoded(lines: Sequence[str]) -> bytes:
    """Lines with their ends in UTF-8; bytes of names that are not UTF-8 stay as they were."""
    return ("\n".join(lines) + "\n").encode("utf-8", "surrogateescape")
