"""The values that a run begins with: for the solver, and for the search where they are feasible.

`solve.SolveRun` makes one `StartPoint` of what the settings name, or of the guess that an .nl file
has itself. Solvers that take a start get it (`Solver.takes_start`), and `certification` has it
judged: it is believed in nothing.
"""

from __future__ import annotations

import os
from fractions import Fraction
from typing import List, Mapping, NamedTuple, Optional, Sequence, Union

from ..formats.numbers import read_fraction
from ..formats.start_values import StartValues, primal_guess, read_start_values
from ..model.linear_program import EPIGRAPH_COLUMN, LinearProgram
from ..system.errors import FileAction, FileFault, WrongOption

Start = Union[str, Mapping[str, Fraction]]  # a path ("" for none), or values by name


class StartPoint(NamedTuple):
    """Values to begin with.

    Attributes:
        values: One for each column of the program, None where nothing is said.
        is_named: The user named them; else they are the model's own guess.
    """

    values: Sequence[Optional[Fraction]]
    is_named: bool

    def given(self) -> int:
        """How many columns have a value."""
        return sum(value is not None for value in self.values)

    def doubles(self) -> List[Optional[float]]:
        """The values as solvers get them."""
        return [None if value is None else float(value) for value in self.values]

    def completed(self, program: LinearProgram) -> List[Fraction]:
        """A value for each column of the file: 0, or the bound that is nearest to it, where nothing
        is said. A column for the value of a nonlinear objective is left out.
        """
        names = program.names.columns
        count = len(names) - (names[-1:] == [EPIGRAPH_COLUMN])
        low, high = program.written.bounds()
        return [
            _nearest_to_zero(low[column], high[column]) if value is None else value
            for column, value in enumerate(self.values[:count])
        ]


def start_point(program: LinearProgram, nl: Optional[str], start: Start) -> Optional[StartPoint]:
    """The values that a run begins with; None where there are none.

    Args:
        program: What is solved.
        nl: The path of the .nl text that it was exported of; None of an MPS file.
        start: What the settings name; "" takes the model's own guess, if one of it is not 0.

    Raises:
        FileFault: The file cannot be read.
        WrongOption: It holds no values, those of another model, or of no variable.
    """
    if isinstance(start, str) and not start:
        guess = _guess(nl)
        if not any(guess.values()):
            return None
        return StartPoint(_by_column(program, StartValues(by_number=guess)), is_named=False)
    known = _read(start) if isinstance(start, str) else StartValues(start)
    variables = sum(name != EPIGRAPH_COLUMN for name in program.names.columns)
    if known.variables not in (None, variables):
        told = f"start: it has {known.variables} values, and the model {variables} variables"
        raise WrongOption(told)
    point = StartPoint(_by_column(program, known), is_named=True)
    if not point.given():
        raise WrongOption("start: it has a value of no variable of the model")
    return point


def _guess(nl: Optional[str]) -> Mapping[int, Fraction]:
    """The guess of an .nl text, by variable; empty of an MPS file."""
    if nl is None:
        return {}
    with open(nl, "rb") as file:
        return primal_guess(file.read())


def _read(path: str) -> StartValues:
    """The values of a file.

    Raises:
        FileFault: It cannot be read.
        WrongOption: It holds none.
    """
    try:
        with open(os.fspath(path), "rb") as file:
            return read_start_values(file.read())
    except OSError as fault:
        raise FileFault.of(fault, path, FileAction.READ) from None
    except ValueError as fault:
        raise WrongOption(f"start: {fault}") from None


def _by_column(program: LinearProgram, known: StartValues) -> List[Optional[Fraction]]:
    """A value, or None, for each column of the program; names are those that the user knows."""
    name_of = program.own_names.column
    found: List[Optional[Fraction]] = []
    for name in program.names.columns:
        number = int(name[1:]) if name[1:].isdigit() else None
        own = (name_of(number) if number is not None else "") or name
        by_number = known.by_number.get(number) if number is not None else None
        found.append(known.by_name.get(own, by_number))
    return found


def _nearest_to_zero(low: bytes, high: bytes) -> Fraction:
    """0, or the bound of a column that is nearest to it.

    Args:
        low: The lower bound as it is written; empty for none.
        high: The upper bound.
    """
    if low and read_fraction(low) > 0:
        return read_fraction(low)
    if high and read_fraction(high) < 0:
        return read_fraction(high)
    return Fraction(0)
