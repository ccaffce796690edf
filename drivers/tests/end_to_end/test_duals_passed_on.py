"""Duals and points that are passed on under a proved optimum have all their digits.

lp_solve prints six digits of duals, and QSopt_ex an exact optimum that no certificate may hold.
"""

from __future__ import annotations

import random
import re
from fractions import Fraction
from typing import Iterator

import pytest

from builders import nl_text
from builders.misleading import Misleading, crossing
from builders.misleading_kinds import models
from running.sol_file import SolFile
from running.workspace import Workspace

ROUNDING = Fraction(1, 10**15)  # of a value: what its nearest double may miss


def vertex_model(seed: int) -> tuple[bytes, list[Fraction]]:
    """Rows A x <= b that are tight at a whole point, with costs that they add up to; their duals.

    All costs are positive, and so are the duals, whose denominator is the determinant: it has five
    digits or more.
    """
    rng = random.Random(f"duals {seed}")
    n = rng.randint(2, 3)
    while True:
        rows = [[Fraction(rng.randint(1, 99)) for _ in range(n)] for _ in range(n)]
        costs = [Fraction(rng.randint(1, 99)) for _ in range(n)]
        by_column = [([row[j] for row in rows], costs[j]) for j in range(n)]
        duals = crossing(by_column)
        if duals is not None and min(duals) > 0 and min(d.denominator for d in duals) > 1000:
            break
    point = [rng.randint(1, 9) for _ in range(n)]
    sides = [sum(a * x for a, x in zip(row, point)) for row in rows]
    made = [
        nl_text.Row(None, int(side), {j: int(a) for j, a in enumerate(row)})
        for row, side in zip(rows, sides)
    ]
    columns = [nl_text.Column("C", 0, None) for _ in range(n)]
    objective = nl_text.Objective("max", 0, {j: int(c) for j, c in enumerate(costs)})
    return nl_text.nl_text(columns, made, [objective]), duals


@pytest.mark.needs("program", "clp_library")
@pytest.mark.parametrize("seed", range(6))
@pytest.mark.parametrize(
    "driver", [pytest.param(name, marks=pytest.mark.needs(name)) for name in ("lp_solve", "glpsol")]
)
def test_duals_have_all_their_digits(workspace: Workspace, driver: str, seed: int) -> None:
    """They are those of the certificate, where the solver prints but six digits."""
    text, duals = vertex_model(seed)
    workspace.write("m.nl", text)
    assert workspace.run("bridge-" + driver, "m", "-AMPL", without=["hurry"]).status == 0
    sol = SolFile(workspace.path("m.sol"))
    assert sol.code == 0 and sol.last_line.startswith("optimal "), sol.text
    assert len(sol.duals) == len(duals)
    for passed_on, dual in zip(sol.duals, duals):
        assert abs(passed_on - dual) <= ROUNDING * dual, (float(passed_on), dual)


def wide_chains() -> Iterator[object]:
    """Chains whose exact optimum is known, and too wide for a certificate."""
    for model in models():
        if model.name in ("chains4", "chains13", "chains18"):
            yield pytest.param(model, id=model.name)


@pytest.mark.needs("program", "clp_library", "esolver")
@pytest.mark.parametrize("model", wide_chains())
def test_an_exact_answer_stays(workspace: Workspace, model: Misleading) -> None:
    """A worse point that a certificate holds does not take its place, also in the first line."""
    workspace.write("m.nl", model.text())
    assert workspace.run("bridge-esolver", "m", "-AMPL", without=["hurry"]).status == 0
    sol = SolFile(workspace.path("m.sol"))
    told = re.search(r"objective ([-\d./]+)", sol.message[0])
    assert told is not None and Fraction(told[1]) == model.best, sol.text
    assert sol.last_line.startswith("within "), sol.text
    ((column, cost),) = model.costs.items()
    assert Fraction(cost) * sol.values[column] == model.best
