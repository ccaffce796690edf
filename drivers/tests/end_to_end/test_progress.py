"""What a search tells while it goes on, against its verdict."""

from __future__ import annotations

import math
from fractions import Fraction
from typing import Dict, List

import pytest

import bridge_drivers
from bridge_drivers.pipeline.monitor import ProgressEvent
from builders.families import family_model
from running.stored_runs import StoredRun
from running.workspace import Workspace

SECONDS = 3.0  # of the search
DIGITS = Fraction(1, 10**9)  # relative: ten digits are told
FAMILIES = [
    ("knapsack", 30),
    ("knapsack", 45),
    ("lots", 14),
    ("lots", 20),
    ("packing", 8),
    ("packing", 11),
    ("stock", 4),
    ("split", 3),
    ("pigeons", 8),
]
# A run of CBC that stopped at its limit without a point.
NO_POINT = StoredRun(
    logs={"solver.log": ["Version: 2.10.8"]},
    files={
        "answer.txt": [
            "Stopped on time (no integer solution - continuous used) - objective value 0",
            "",
        ]
    },
)


class Told:
    """The last incumbent and bound of each kind that is told of a search."""

    def __init__(self) -> None:
        self.last: Dict[str, Fraction] = {}
        self.events: List[ProgressEvent] = []

    def note(self, event: ProgressEvent) -> None:
        """Notes what is a claim: a bound by cuts that are still being made is none."""
        if event.stage != "certificate":
            return
        self.events.append(event)
        for name in ("incumbent", "bound"):
            number = event.numbers.get(name, math.nan)
            if math.isfinite(number) and not (name == "bound" and "cuts" in event.numbers):
                self.last[name] = Fraction(number)


def searched(
    workspace: Workspace, name: str, size: int, *, prove: bool
) -> "tuple[Told, bridge_drivers.Report]":
    """What is told of a search from no point, and its report."""
    told = Told()
    program = NO_POINT.write_false_solver(workspace.solver_folder, "cbc")
    report = bridge_drivers.solve(
        family_model(name, size),
        "cbc",
        program=program,
        prove=prove,
        timelim=SECONDS,
        on_progress=told.note,
    )
    return told, report


@pytest.mark.needs("program", "clp_library")
@pytest.mark.parametrize(("name", "size"), FAMILIES)
def test_the_verdict_has_what_was_told(in_folder: Workspace, name: str, size: int) -> None:
    """The last line is at least as good as each incumbent and bound before it."""
    told, report = searched(in_folder, name, size, prove=True)
    if report.claim == "infeasible":
        return
    maximise = name == "knapsack"
    if "incumbent" in told.last:
        assert report.value is not None, report.text
        _is_at_least(report.value, told.last["incumbent"], maximise)
    if "bound" in told.last:
        bound = report.value if report.claim == "optimal" else report.bound
        assert bound is not None, report.text
        _is_at_least(bound, told.last["bound"], not maximise)


def _is_at_least(verdict: Fraction, told: Fraction, greater_is_better: bool) -> None:
    by = verdict - told if greater_is_better else told - verdict
    size = max(Fraction(1), abs(told))
    assert by >= -DIGITS * size, f"{float(told)}, and the verdict has {verdict}"


@pytest.mark.needs("program", "clp_library")
@pytest.mark.parametrize(("name", "size"), FAMILIES[:6:2])
def test_without_prove(in_folder: Workspace, name: str, size: int) -> None:
    """No bound is told that the time of a short run might not be enough for."""
    told, _ = searched(in_folder, name, size, prove=False)
    assert "bound" not in told.last
