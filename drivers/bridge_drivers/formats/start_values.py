"""Values to begin with: files of them, and the guess that an .nl file has itself (its segment x).

`pipeline.start_point` reads them. Texts may be anybody's: each is read by lines, and a number is
read by `read_fraction`, which takes none that is too long.
"""

from __future__ import annotations

import json
from fractions import Fraction
from typing import Dict, Iterator, List, Mapping, NamedTuple, Tuple

from ..system.errors import NotDecimal
from .numbers import read_fraction
from .sol import OPTIONS_HEADING, read_sol

GUESS = b"\nx"  # what the segment of the guess begins with, behind the line before
DUALS = "duals"  # the heading behind the values in a table of a solution


class StartValues(NamedTuple):
    """Values of variables, by name or by the number of the variable in the file, from 0.

    Attributes:
        by_name: Of a table or a JSON text.
        by_number: Of a .sol, or of a model's own guess.
        variables: How many the text is of, where it says so; None where it does not.
    """

    by_name: Mapping[str, Fraction] = {}
    by_number: Mapping[int, Fraction] = {}
    variables: int | None = None


def read_start_values(data: bytes) -> StartValues:
    """The values of a file: a .sol, an object of JSON, or lines `NAME VALUE`.

    An object has numbers or decimals by name, or such an object as `values`, as `solution=FILE.json`
    and reports have them. Lines are as `solution=FILE` writes them: they end at an empty line or at
    the heading of the duals.

    Raises:
        ValueError: It is none of these, or a value is no decimal.
    """
    try:
        if OPTIONS_HEADING in data:
            values = read_sol(data).values
            numbers = {number: _number(text) for number, text in enumerate(values)}
            return StartValues(by_number=numbers, variables=len(values))
        if data.lstrip()[:1] == b"{":
            return StartValues(dict(_of_json(data)))
        return StartValues(dict(_of_lines(data)))
    except (IndexError, RecursionError):
        raise ValueError("it is cut or damaged") from None


def _of_json(data: bytes) -> Iterator[Tuple[str, Fraction]]:
    """Names with their values, of an object of JSON; ValueError where it is none."""
    found = json.loads(data, parse_float=str, parse_int=str)
    values = found.get("values", found)
    if not isinstance(values, dict):
        raise ValueError("`values` is no object")
    for name, value in values.items():
        if not isinstance(value, str):
            raise ValueError(f"the value of {name} is no number")
        yield name, _number(value)


def _of_lines(data: bytes) -> Iterator[Tuple[str, Fraction]]:
    """Names with their values, of lines; ValueError where one has not two words."""
    for line in data.decode("utf-8", "surrogateescape").split("\n"):
        words = line.split()
        if not words or words == [DUALS]:
            return
        if len(words) != 2:
            raise ValueError(f"`{line[:40].strip()}` is no line NAME VALUE")
        yield words[0], _number(words[1])


def _number(text: str) -> Fraction:
    """The value of a decimal; ValueError of any other text."""
    try:
        return read_fraction(text.encode("ascii"))
    except (NotDecimal, UnicodeError):
        raise ValueError(f"`{text[:40]}` is no decimal") from None


def primal_guess(nl: bytes) -> Dict[int, Fraction]:
    """The values of the segment x of an .nl text, by the number of the variable.

    The segment has a line `xN`, and N lines with a number and a value. Empty where there is none,
    or where it has another form, of which the proved program tells what there is to tell.
    """
    place = nl.find(GUESS)
    while place >= 0:
        end = nl.find(b"\n", place + 1)
        head = nl[place + len(GUESS) : max(end, place)].partition(b"#")[0].strip()
        if head.isdigit() and len(head) < 10:
            return _guess_behind(nl, end + 1, int(head))
        place = nl.find(GUESS, place + 1)
    return {}


def _guess_behind(nl: bytes, start: int, count: int) -> Dict[int, Fraction]:
    """The values of the lines of a segment.

    Args:
        nl: The text.
        start: The place of the first line.
        count: How many lines there should be.
    """
    found: Dict[int, Fraction] = {}
    for _ in range(count):
        end = nl.find(b"\n", start)
        words: List[bytes] = nl[start : end if end >= 0 else len(nl)].partition(b"#")[0].split()
        if len(words) != 2 or not words[0].isdigit() or len(words[0]) > 9:
            return {}
        try:
            found[int(words[0])] = read_fraction(words[1])
        except NotDecimal:
            return {}
        if end < 0:
            break
        start = end + 1
    return found if len(found) == count else {}
