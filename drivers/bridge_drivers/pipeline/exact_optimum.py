"""The exact optimum of a linear program by QSopt_ex, as a process of its own.

`certification` gives an `ExactOptimum` to the search, which asks it where no basis that doubles
find has the optimum. QSopt_ex is never loaded into this process: its licence is GPL, and a process
can be ended. Where it is not installed, or says anything else than `optimal` in time, there is none.
"""

from __future__ import annotations

import os
import tempfile
from fractions import Fraction
from typing import Dict, Mapping, Optional

from ..exact.search_deadline import SearchDeadline
from ..exact.task import ExactAnswer
from ..model.linear_program import EPIGRAPH_COLUMN, EPIGRAPH_ROW, LinearProgram
from ..solvers.base import SolverAnswer, SolverStatus
from ..solvers.esolver import Esolver
from ..solvers.run import SolverRun
from ..solvers.settings import SolverSettings
from ..system.deadline import Deadline
from ..system.errors import UnclearAnswer

LEAST_SECONDS = 0.5  # below which it is not asked
# what reading an answer raises where it is in no known form, or cannot be had
FAULTS = (UnclearAnswer, ValueError, LookupError, ArithmeticError, OSError)


class ExactOptimum:
    """Asks QSopt_ex for the optimum of one program.

    Args:
        program: As solvers read it, without integer columns.
        factors: What `bridge export` multiplied rows by, by the file's constraint, where not by 1.
        search: Is told of an interrupt that came while QSopt_ex ran.
    """

    def __init__(
        self, program: LinearProgram, factors: Mapping[int, int], search: SearchDeadline
    ) -> None:
        self.program = program
        self.factors = factors
        self.search = search
        self.solver = Esolver()

    @classmethod
    def of(
        cls, program: LinearProgram, factors: Mapping[int, int], search: SearchDeadline
    ) -> Optional[ExactOptimum]:
        """What the search is given: None of a program with integer columns."""
        return None if program.integer_count else cls(program, factors, search)

    def __call__(self, deadline: Deadline) -> Optional[ExactAnswer]:
        """The optimum by the file's numbers; None where there is none in time.

        Raises:
            Interrupted: A signal other than the first interrupt came.
        """
        executable = self.solver.find()
        if executable is None or deadline.left() < LEAST_SECONDS:
            return None
        settings = SolverSettings(time_limit=deadline.left())
        with tempfile.TemporaryDirectory(prefix="nl-bridge-") as folder:
            run = SolverRun(self.program, settings, folder, os.path.abspath(executable))
            try:
                found = self.solver.solve(run)
            except FAULTS:
                found = None
            if run.is_interrupted:
                self.search.interrupt()
        if found is None or found.status is not SolverStatus.OPTIMAL:
            return None
        return self._by_number(found)

    def _by_number(self, found: SolverAnswer) -> Optional[ExactAnswer]:
        """The answer by the numbers of the file's variables and constraints."""
        if found.values is None or found.duals is None:
            return None
        names = self.program.names
        count = len(names.columns) - (names.columns[-1:] == [EPIGRAPH_COLUMN])
        duals: Dict[int, Fraction] = {}
        for name, dual in zip(names.rows, found.duals):
            if name != EPIGRAPH_ROW:
                row = int(name[1:])
                duals[row] = Fraction(dual) * self.factors.get(row, 1)
        return ExactAnswer([Fraction(v) for v in found.values[:count]], duals)
