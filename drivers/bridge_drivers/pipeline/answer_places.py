"""A solver's answer by the numbers of the file's variables and constraints, as the search takes it.

`certification` calls `answer_by_place` before each search. The program that was exported may have
one column and one row more than the file, and may lack rows of it.
"""

from __future__ import annotations

from fractions import Fraction
from typing import Dict, List, Mapping, Union

from ..exact import clp
from ..exact.evidence import AnswerByPlace
from ..formats.numbers import Number
from ..model.linear_program import EPIGRAPH_COLUMN, EPIGRAPH_ROW
from ..solvers.base import BasisStatus, SolverAnswer
from .answer import Answer


def answer_by_place(answer: Answer) -> AnswerByPlace:
    """The solver's own numbers as the search takes them, by the file's numbers from 0.

    The column and the row that stand for the value of a nonlinear objective are left out.

    Returns:
        Values by variable: those of integer columns exactly as they are written, the others as the
            solver told them. Duals by constraint, in the objective's own sense, of the rows as they
            are exported. The basis. Each is None where the solver did not tell it.
    """
    names = answer.program.names
    columns = len(names.columns) - (names.columns[-1:] == [EPIGRAPH_COLUMN])
    numbers = {row: int(name[1:]) for row, name in enumerate(names.rows) if name != EPIGRAPH_ROW}
    duals: Union[Dict[int, Number], None] = None
    if answer.found.duals is not None:
        duals = {number: answer.found.duals[row] for row, number in numbers.items()}
    return AnswerByPlace(_values(answer, columns), duals, _basis(answer.found, columns, numbers))


def _values(answer: Answer, columns: int) -> List[Union[float, Fraction]] | None:
    """The values of the first `columns` columns; None without a point.

    They are doubles or fractions as the solver told them, of integer columns the fraction that is
    written.
    """
    found, program = answer.found, answer.program
    if found.values is None or answer.values is None:
        return None
    values = [
        value if type(value) in (float, Fraction) else float(value)
        for value in found.values[:columns]
    ]
    if answer.is_continuous:
        return values
    marked = zip(answer.values, program.written.is_integer, values)
    return [Fraction(text) if is_integer else value for text, is_integer, value in marked]


def _basis(found: SolverAnswer, columns: int, numbers: Mapping[int, int]) -> clp.Basis | None:
    """The basic columns, and the rows that are not basic: their slack is at a bound.

    None where the solver told no basis.

    Args:
        found: What the solver answered, by column and row of the exported program.
        columns: How many columns the file has; those behind them are left out.
        numbers: The number of the file's constraint by row of the exported program.
    """
    if found.column_basis is None or found.row_basis is None:
        return None
    statuses = enumerate(found.column_basis[:columns])
    return clp.Basis(
        [column for column, status in statuses if status == BasisStatus.BASIC],
        [n for row, n in numbers.items() if found.row_basis[row] != BasisStatus.BASIC],
    )
