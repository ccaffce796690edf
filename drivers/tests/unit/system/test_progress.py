"""What a run is at, in words."""

from __future__ import annotations

import time
from typing import Dict
from unittest import mock

import pytest
from bridge_drivers.system.progress import Progress, gap_percentage, progress_words


@pytest.mark.parametrize(
    "known, words",
    [
        (
            {"incumbent": 45.0, "bound": 50.0, "nodes": 100.0, "open": 12.0},
            "incumbent 45, bound 50, gap 10 %, 100 nodes, 12 open",
        ),
        ({"incumbent": 4.0, "bound": float("-inf")}, "incumbent 4"),
        ({"objective": 1 / 3, "iterations": 7.0}, "objective 0.33333333, 7 iterations"),
        ({"nodes": 3, "bound": 7.0}, "bound 7, 3 nodes"),
        ({"cuts": 3, "bound": 7.0}, "bound 7, 3 cuts"),
        (
            {"nodes": 40.0, "closed": 0.1234, "left": 39.6, "incumbent": 4.0, "bound": 5.0},
            "incumbent 4, bound 5, gap 20 %, 12.3 % closed, 40 s left, 40 nodes",
        ),
        ({"closed": 0.5, "left": 600.0}, "50 % closed, 10 min left"),
        ({"closed": 0.001, "left": 7200.0}, "0.1 % closed, 2 h left"),
        ({"closed": 1e-9, "left": 1e9}, "1e-07 % closed"),  # that is no forecast
        ({"closed": 0.0, "nodes": 1.0}, "1 nodes"),
        ({}, ""),
    ],
)
def test_what_is_known(known: Dict[str, float], words: str) -> None:
    assert progress_words(known) == words


@pytest.mark.parametrize("incumbent, bound, gap", [(0, 0, 0), (0, 3, 100), (-4, -5, 20)])
def test_the_gap(incumbent: float, bound: float, gap: float) -> None:
    assert gap_percentage(incumbent, bound) == gap


def test_a_stage() -> None:
    with mock.patch.object(time, "monotonic", return_value=100.0) as clock:
        progress = Progress()
        progress.begin("cbc", 60)
        progress.tell_numbers({"incumbent": 17})
        clock.return_value = 103.4
        assert progress.words() == "cbc, 3 of 60 s, incumbent 17"
        progress.begin("certificate")
        assert progress.words() == "certificate, 0 s"
        progress.tell_step("exact duals", {"bound": 3.0})
        assert progress.words() == "certificate, 0 s, bound 3, exact duals"
        progress.tell("exact duals")
        assert progress.words() == "certificate, 0 s, exact duals"


@pytest.mark.parametrize("seconds", [0.0, 0.4, 0.9, 1.6, 2.0, 3.4, 59.4, 60.2, 60.9, 61.0, 4e3])
@pytest.mark.parametrize("limit", [0.0, 0.45, 1.0, 2.0, 60.0])
def test_no_more_seconds_are_told_than_the_limit_has(limit: float, seconds: float) -> None:
    with mock.patch.object(time, "monotonic", return_value=100.0) as clock:
        progress = Progress()
        progress.begin("certificate", limit)
        clock.return_value += seconds
        _, _, told = progress.words().partition(", ")
    spent, *of_limit = told.removesuffix(" s").split(" of ")
    assert abs(float(spent) - seconds) <= 0.5
    assert of_limit == ([f"{limit:.3g}"] if limit and float(spent) <= limit else [])
