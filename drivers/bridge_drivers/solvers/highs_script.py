"""HiGHS on an exported program, by a Python that has SciPy and need not be that of the drivers.

    highs_script.py MPS [ANSWER WORDS]

WORDS is a JSON text of what USUAL_WORDS has. The file ANSWER, else standard output, gets one:
`status` as SciPy tells it, `message`, of a mixed integer program `gap`, and where there are any,
`values` and `costs` by column and `duals` by row, as rates of change of the objective in its own
sense.
"""

from __future__ import annotations

import json
import os
import signal
import sys
from typing import Any, Dict, Mapping

import numpy
import scipy
from scipy.optimize import Bounds, LinearConstraint, linprog, milp
from scipy.sparse import csr_matrix, vstack

sys.dont_write_bytecode = True
sys.path[0] = os.path.join(os.path.dirname(os.path.abspath(__file__)), "..", "..")
from bridge_drivers.model.linear_program import LinearProgram  # noqa: E402
from bridge_drivers.system.files import write_new  # noqa: E402

INFINITE = float("inf")
USUAL_WORDS = {"mipgap": 0.0, "seconds": 0.0, "relax": False, "presolve": True, "disp": False}
LARGEST_GAP = 1.0  # that is told

Words = Mapping[str, Any]


class DoubleArrays:
    """A program in arrays of doubles, minimised.

    Attributes:
        sign: -1 where the program is maximised, else 1.
        costs: One for each column, times the sign.
        lower: Of the columns; minus infinity for none.
        upper: Of the columns; infinity for none.
        is_integer: 1 for each integer column, else 0.
        row_lower: Of the rows; minus infinity for none.
        row_upper: Of the rows; infinity for none.
        matrix: The rows, a CSR matrix.
    """

    def __init__(self, program: LinearProgram) -> None:
        """Of a program as solvers read it; costs are turned so that they are minimised."""
        rows = program.matrix
        self.sign = -1.0 if program.maximise else 1.0
        self.row_lower = numpy.array(program.row_lower, dtype=float)
        self.row_upper = numpy.array(program.row_upper, dtype=float)
        self.lower = numpy.array(program.lower, dtype=float)
        self.upper = numpy.array(program.upper, dtype=float)
        self.is_integer = numpy.array(program.is_integer, dtype=int)
        self.costs = numpy.zeros(rows.n)
        self.costs[program.costs.columns] = self.sign * numpy.array(program.costs.values)
        order = numpy.argsort(rows.entries.rows, kind="stable")
        values = numpy.array(rows.table, dtype=float)[rows.entries.numbers[order]]
        starts = numpy.cumsum([0, *rows.lengths])
        places = rows.entries.columns[order]
        self.matrix = csr_matrix((values, places, starts), shape=(rows.m, rows.n))


def options_of(words: Words) -> Dict[str, Any]:
    """The options that `milp` and `linprog` have in common: log, presolve, and the limit in
    seconds.
    """
    limit = {"time_limit": words["seconds"]} if words["seconds"] else {}
    return {"disp": words["disp"], "presolve": words["presolve"], **limit}


def solve_mip(arrays: DoubleArrays, words: Words) -> Dict[str, Any]:
    """Solves a mixed integer program by `milp`; the object that is written, without duals.

    Its gap is the relative one, at most LARGEST_GAP; None where SciPy tells none.
    """
    constraints = None
    if len(arrays.row_lower):
        constraints = LinearConstraint(arrays.matrix, arrays.row_lower, arrays.row_upper)
    found = milp(
        arrays.costs,
        integrality=arrays.is_integer,
        bounds=Bounds(arrays.lower, arrays.upper),
        constraints=constraints,
        options={"mip_rel_gap": words["mipgap"], **options_of(words)},
    )
    gap = found.get("mip_gap")
    return {
        "status": int(found.status),
        "message": found.message,
        "gap": None if gap is None else min(float(gap), LARGEST_GAP),
        "values": None if found.x is None else found.x.tolist(),
    }


def solve_lp(arrays: DoubleArrays, words: Words) -> Dict[str, Any]:
    """Solves a linear program by `linprog`, which takes equations and rows with an upper side.

    Returns:
        The object that is written. Duals and reduced costs, of an optimal answer alone, are sums of
            the marginals of both sides, times the sign: rates of the objective in its own sense.
    """
    lower, upper = arrays.row_lower, arrays.row_upper
    equal = numpy.flatnonzero(lower == upper)
    below = numpy.flatnonzero((lower != upper) & (upper < INFINITE))
    above = numpy.flatnonzero((lower != upper) & (lower > -INFINITE))
    inequalities = sides = None
    if len(below) + len(above):
        inequalities = vstack([arrays.matrix[below], -arrays.matrix[above]])
        sides = numpy.concatenate([upper[below], -lower[above]])
    found = linprog(
        arrays.costs,
        inequalities,
        sides,
        arrays.matrix[equal] if len(equal) else None,
        lower[equal] if len(equal) else None,
        numpy.column_stack([arrays.lower, arrays.upper]),
        method="highs",
        options=options_of(words),
    )
    answer = {"status": int(found.status), "message": found.message, "values": None}
    if found.status != 0:
        return answer
    duals = numpy.zeros(len(lower))
    if inequalities is not None:
        numpy.add.at(duals, below, found.ineqlin.marginals[: len(below)])
        numpy.add.at(duals, above, -found.ineqlin.marginals[len(below) :])
    if len(equal):
        duals[equal] += found.eqlin.marginals
    costs = found.lower.marginals + found.upper.marginals
    answer["values"] = found.x.tolist()
    answer["duals"] = (arrays.sign * duals).tolist()
    answer["costs"] = (arrays.sign * costs).tolist()
    return answer


def main() -> None:
    """Reads the program and the words, solves, and writes the answer's JSON text.

    The version of SciPy and the log go to standard output before it.
    """
    signal.signal(signal.SIGINT, signal.SIG_DFL)  # HiGHS keeps no point where it is ended
    with open(sys.argv[1], "rb") as source:
        arrays = DoubleArrays(LinearProgram.of(source.read()))
    words = json.loads(sys.argv[3]) if len(sys.argv) > 3 else USUAL_WORDS
    print("HiGHS of SciPy", scipy.__version__, flush=True)
    is_mixed = arrays.is_integer.any() and not words["relax"]
    answer = json.dumps(solve_mip(arrays, words) if is_mixed else solve_lp(arrays, words))
    if len(sys.argv) > 2:
        write_new(sys.argv[2], answer.encode("ascii"))
    else:
        print(answer)


if __name__ == "__main__":
    main()
