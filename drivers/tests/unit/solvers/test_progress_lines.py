"""What solvers tell in a line of their logs, in the objective's own sense."""

from __future__ import annotations

from typing import Mapping

import pytest

from bridge_drivers.model.linear_program import LinearProgram
from bridge_drivers.solvers import SOLVERS

LINES = [
    (
        "cbc",
        "min",
        "Cbc0010I After 100 nodes, 12 on tree, 45.5 best solution, best "
        "possible 40 (1.23 seconds)",
        {"nodes": 100, "open": 12, "incumbent": 45.5, "bound": 40},
    ),
    (
        "cbc",
        "max",
        "Cbc0010I After 0 nodes, 1 on tree, 1e+50 best solution, best "
        "possible -1397571.6 (0.2 seconds)",
        {"nodes": 0, "open": 1, "bound": 1397571.6},
    ),
    (
        "cbc",
        "max",
        "Cbc0012I Integer solution of -17 found by rounding after 0 "
        "iterations and 0 nodes (0.01 seconds)",
        {"incumbent": 17},
    ),
    ("clp", "max", "Clp0006I 52  Obj 8.5 Primal inf 0 (0)", {"iterations": 52, "objective": 8.5}),
    (
        "glpsol",
        "max",
        "+  1234: mip =   1.200000000e+01 <=   1.500000000e+01  25.0% (12; 34)",
        {"iterations": 1234, "incumbent": 12, "bound": 15, "open": 12},
    ),
    (
        "glpsol",
        "max",
        "+    84: mip =     not found yet <=              +inf        (1; 0)",
        {"iterations": 84, "open": 1},
    ),
    (
        "glpsol",
        "min",
        "*    10: obj =   2.000000000e+00 inf =   0.000e+00 (2)",
        {"iterations": 10, "objective": 2},
    ),
    ("cbc", "max", "Cbc0038I Solution found of -1874", {"incumbent": 1874}),
    (
        "cbc",
        "max",
        "Cbc0038I Rounding solution of -1918 is better than previous of -1874",
        {"incumbent": 1918},
    ),
    (
        "cbc",
        "max",
        "Cbc0013I At root node, 3 cuts changed objective from -20 to -19.5 in 10 passes",
        {"bound": 19.5},
    ),
    ("cbc", "max", "Continuous objective value is 1953.38 - 0.00 seconds", {"bound": 1953.38}),
    ("glpsol", "max", "Solution found by heuristic: 1866", {"incumbent": 1866}),
    (
        "highs",
        "max",
        " L       0       3         0   0.00%   -1951.62        -1941              0.55%      354"
        "     14      4        57     0.8s",
        {"nodes": 0, "open": 3, "bound": 1951.62, "incumbent": 1941},
    ),
    (
        "highs",
        "min",
        "         0       0         0   0.00%   3562           inf                  inf        0"
        "      0      0         0     0.0s",
        {"nodes": 0, "open": 0, "bound": 3562},
    ),
    (
        "highs",
        "min",
        "          7     4.4000000000e+00 Pr: 0(0) 0s",
        {"iterations": 7, "objective": 4.4},
    ),
    (
        "lp_solve",
        "max",
        "Improved solution               1868 after        255 iter,        95 nodes (gap 4.4%)",
        {"incumbent": 1868, "iterations": 255, "nodes": 95},
    ),
    (
        "lp_solve",
        "max",
        "Relaxed solution       1953.38116824 after         99 iter is B&B base.",
        {"bound": 1953.38116824},
    ),
    ("lp_solve", "min", "Set parameter", {}),
]


@pytest.mark.parametrize(("name", "sense", "line", "known"), LINES)
def test_progress_of_a_line(name: str, sense: str, line: str, known: Mapping[str, float]) -> None:
    """CBC minimises, and tells of what it minimises; the others tell the objective itself."""
    text = f"NAME nl\nOBJSENSE\n {sense.upper()}\nROWS\n N obj\nCOLUMNS\nRHS\nENDATA\n"
    program = LinearProgram.of(text.encode())
    assert SOLVERS[name].progress_of_line(line, program) == known
