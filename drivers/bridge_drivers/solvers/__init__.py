"""The solvers, by the names of their drivers; each has a module of its own.

`base` says what a solver is and answers, `run` what it works with. The pipeline alone asks them.
"""

from __future__ import annotations

from typing import Mapping

from .base import Solver
from .coin import Cbc, Clp
from .esolver import Esolver
from .glpsol import Glpsol
from .highs import Highs
from .lp_solve import LpSolve

SOLVERS: Mapping[str, Solver] = {
    solver.name: solver for solver in (Cbc(), Clp(), Glpsol(), Highs(), Esolver(), LpSolve())
}
