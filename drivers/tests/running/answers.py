"""The .sol of a small model against the answer that is right."""

from __future__ import annotations

import re
from fractions import Fraction
from typing import Sequence

from builders.nl_text import Number
from builders.small_models import MODELS, SmallModel
from running.places import MIXED_INTEGER_SOLVERS, why_missing
from running.sol_file import VERDICT_LINE, SolFile

CHECK_LINE = "bridge check of the .sol: "
TOLERANCE = Fraction(1, 10**6)
PRINTS_SIX_DIGITS = ("lp_solve",)  # which says little of reduced costs
REFUSED_INTEGERS = 505
FIRST_FAILURE = 500
INFEASIBLE, UNBOUNDED = 200, 300


def judge_answer(driver: str, name: str, sol: SolFile) -> None:
    """Compares what a driver answered to the model of this name with what is right.

    Raises:
        AssertionError: something is different.
    """
    model = MODELS[name]
    if not model.is_linear and driver not in MIXED_INTEGER_SOLVERS:
        assert sol.code == REFUSED_INTEGERS, sol.text
        assert "takes no integer variables" in sol.text
        return
    assert sol.code == model.code, sol.text
    assert model.message in sol.text
    if model.code < FIRST_FAILURE:
        assert VERDICT_LINE.match(sol.last_line), sol.text
        assert not [line for line in sol.message[:-1] if VERDICT_LINE.match(line)], sol.text
    if model.code == 0:
        _judge_numbers(driver, model, sol)
        _judge_verdict(model, sol)
    elif model.code < UNBOUNDED:
        assert (sol.values, sol.duals) == ([], [])
        if name == "whole_infeasible" or (model.reaches_a_solver() and _has_clp_library()):
            assert sol.last_line == "infeasible"
    elif model.code == UNBOUNDED and _has_clp_library():
        assert sol.last_line == "unbounded", sol.text


def _has_clp_library() -> bool:
    return not why_missing("clp_library")


def _judge_numbers(driver: str, model: SmallModel, sol: SolFile) -> None:
    """The objective that the message tells, the duals and the reduced costs, nearly."""
    if model.objective is not None:
        found = re.search(r"; objective (\S+)", sol.text)
        assert found is not None, sol.text
        size = max(Fraction(1), abs(model.objective))
        assert abs(Fraction(found[1]) - model.objective) <= TOLERANCE * size, sol.text
    if model.duals is not None:
        _judge_near(sol.duals, model.duals, sol)
    if model.reduced_costs is not None and driver not in PRINTS_SIX_DIGITS:
        costs = sol.suffixes.get((0, "rc"), {})
        places = range(len(sol.values))
        found_costs = [costs.get(j, Fraction(0)) for j in places]
        _judge_near(found_costs, [model.reduced_costs.get(j, 0) for j in places], sol)


def _judge_near(found: Sequence[Fraction], wanted: Sequence[Number], sol: SolFile) -> None:
    assert len(found) == len(wanted)
    for one, other in zip(found, wanted):
        assert abs(one - Fraction(other)) <= TOLERANCE, sol.text


def _judge_verdict(model: SmallModel, sol: SolFile) -> None:
    """The last line has the exact value, and the objective where it is not the first.

    `bridge check` agrees on the .sol.
    """
    number = next((int(o[6:]) - 1 for o in model.options if o.startswith("objno=")), 0)
    end = f" of objective {number}" if number > 0 else ""
    assert sol.last_line.endswith(end), sol.text
    word, value = sol.last_line[: len(sol.last_line) - len(end)].split()
    claims = ("optimal",) if model.is_linear else ("optimal", "feasible")
    assert word in claims, sol.text
    assert Fraction(value) == (model.objective or 0)
    if "no decimal" not in sol.text:
        told = next(line for line in sol.message if line.startswith(CHECK_LINE))
        wanted = "yes" if model.is_linear else "feasible"
        assert told[len(CHECK_LINE) :].startswith(wanted), sol.text
