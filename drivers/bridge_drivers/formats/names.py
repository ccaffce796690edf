"""Names of constraints and variables, as AMPL writes them beside a model: stub.row and stub.col.

Messages, refusals, pages and tables of values call rows and columns by `NameLists`: with controls
escaped, and different where the file gives two of them the same name. A line of a list is the name
of its place, also where it is empty.
"""

from __future__ import annotations

import contextlib
import os
import re
from collections import Counter
from typing import Dict, List, Optional, Sequence

from ..system.text import one_line

COMMENT = re.compile(rb"(?:^|[ \t])#[ \t]*(\S.*)")  # of one line
ROWS, COLUMNS = ".row", ".col"
OWN_LETTERS = {ROWS: "c", COLUMNS: "x"}  # of what has no name: c0, x0
MOST_BYTES = 1 << 28  # of a list: 2^20 names of 255 bytes, which is all that the program takes


def comment_of(line: bytes) -> str:
    """What stands behind the mark # of an .nl line, controls escaped; "" where there is no comment.

    The mark counts at the line's begin or behind a blank alone.
    """
    found = COMMENT.search(line.rstrip(b"\r\n"))
    if found is None:
        return ""
    return one_line(found.group(1).decode("utf-8", "surrogateescape").strip())


def numbered_name(thing: str, name: str) -> str:
    """`constraint 0 (Cap)`, or without a name `constraint 0`.

    Args:
        thing: A word with a number.
        name: "" where it has none.
    """
    return f"{thing} ({name})" if name else thing


def different_names(names: Sequence[str], own_names: Sequence[str]) -> List[str]:
    """The names in their order, each of which stands once.

    Where two are the same, each of them gets its own name behind it: `a(x0)` and `a(x1)`. What is
    empty has its own name alone.

    Args:
        names: As a file has them.
        own_names: What each is called for want of a name, all different.
    """
    told = [name or own for name, own in zip(names, own_names)]
    counts = Counter(told)
    if len(counts) == len(told):
        return told
    taken = set(counts)
    for place, own in enumerate(own_names):
        if counts[told[place]] > 1:
            name = f"{told[place]}({own})"
            while name in taken:
                name += f"({own})"
            taken.add(name)
            told[place] = name
    return told


class NameLists:
    """The names beside a model; each list is read when it is first asked for.

    A file has one name a line. AMPL's list of rows has the constraints first and the objectives
    behind them. What is no plain file, or longer than MOST_BYTES, has no names.
    """

    def __init__(
        self, stub: str, variables: Optional[int] = None, constraints: Optional[int] = None
    ) -> None:
        """Of the files beside a stub.

        Args:
            stub: The model's path without its ending; empty: there are no names.
            variables: How many the model has, where that is known: numbers from there on in
                expressions are defined variables.
            constraints: How many the model has, where that is known: objectives follow them.
        """
        self.stub = stub
        self.variables = variables
        self.constraints = constraints
        self._lists: Dict[str, List[str]] = {}

    @staticmethod
    def of(rows: Sequence[str], columns: Sequence[str], constraints: int) -> NameLists:
        """Names that are known already, so that no file is read for them.

        Args:
            rows: The names of the constraints, and behind them that of the objective.
            columns: The names of all variables.
            constraints: How many of `rows` are constraints.
        """
        names = NameLists("", len(columns), constraints)
        names._lists = {ROWS: _told(rows, ROWS), COLUMNS: _told(columns, COLUMNS)}
        return names

    def row(self, number: int) -> str:
        """The name at a place of the list of rows, then objectives; "" where it has none."""
        return self._name(ROWS, number)

    def column(self, number: int) -> str:
        """The name of a variable by its number from 0; "" where it has none."""
        return self._name(COLUMNS, number)

    def constraint(self, number: int, comment: str = "") -> str:
        """`constraint 0 (Cap)`, for messages.

        Args:
            number: From 0.
            comment: That of the model's line, which is its name for want of a list.
        """
        return numbered_name(f"constraint {number}", self.row(number) or comment)

    def objective(self, number: int, comment: str = "") -> str:
        """`objective 0 (Cost)`, for messages.

        Args:
            number: From 0; its name stands so far behind the constraints in the list of rows.
            comment: That of the model's line: its name for want of a list, or of `constraints`.
        """
        name = "" if self.constraints is None else self.row(self.constraints + number)
        return numbered_name(f"objective {number}", name or comment)

    def variable(self, number: int) -> str:
        """`variable 2 (Buy)`, for messages; numbers are from 0."""
        return numbered_name(f"variable {number}", self.column(number))

    def operand(self, number: int, comment: str) -> str:
        """How an expression's variable or defined variable is called: its name, else `x2` or `v7`.

        Args:
            number: As it stands behind the v of the .nl line; from `variables` on it is a defined
                one.
            comment: That of the line, which stands in for a name that no list has.
        """
        if self.variables is not None and number >= self.variables:
            return comment or f"v{number}"
        return self.column(number) or comment or f"x{number}"

    def note(self) -> str:
        """Which lists beside the model are too long to be read, in a line for a message; else ""."""
        long = [self.stub + ending for ending in (ROWS, COLUMNS) if _is_too_long(self.stub, ending)]
        which = " and ".join(map(os.path.basename, long))
        return (
            f"{which}: longer than {MOST_BYTES} bytes, so that no names are taken" if long else ""
        )

    def _name(self, ending: str, number: int) -> str:
        """The name at a place of the list with this ending; "" beyond its end. The list is read
        once.
        """
        if ending not in self._lists:
            self._lists[ending] = self._read(ending)
        names = self._lists[ending]
        return names[number] if 0 <= number < len(names) else ""

    def _read(self, ending: str) -> List[str]:
        """The names of a file beside the model; none where it cannot be read as a list of names."""
        text = _bytes_of_list(self.stub + ending) if self.stub else b""
        lines = text.decode("utf-8", "surrogateescape").split("\n")
        while lines and not lines[-1].strip():
            lines.pop()
        return _told(lines, ending)


def _is_too_long(stub: str, ending: str) -> bool:
    """Whether the list of names with this ending is a plain file of more than MOST_BYTES.

    Args:
        stub: The model's path without its ending; "" has no lists.
    """
    path = stub + ending
    with contextlib.suppress(OSError, ValueError):
        return bool(stub) and os.path.isfile(path) and os.path.getsize(path) > MOST_BYTES
    return False


def _bytes_of_list(path: str) -> bytes:
    """What stands in a list of names: nothing where it is no plain file, or too long."""
    with contextlib.suppress(OSError, ValueError):
        if os.path.isfile(path):  # a pipe may give nothing, and never end
            with open(path, "rb") as file:
                text = file.read(MOST_BYTES + 1)
            return text if len(text) <= MOST_BYTES else b""
    return b""


def _told(lines: Sequence[str], ending: str) -> List[str]:
    """Names as messages tell them: escaped and different; "" where there is none."""
    names = [one_line(line.strip()) for line in lines]
    own_names = [f"{OWN_LETTERS[ending]}{place}" for place in range(len(names))]
    told = different_names(names, own_names)
    return [
        "" if not name and shown == own else shown
        for name, shown, own in zip(names, told, own_names)
    ]
