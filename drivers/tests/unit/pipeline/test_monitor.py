"""What a run tells of itself while it goes on: numbers of a solver's log, and of the search."""

from __future__ import annotations

from typing import Dict, List

import pytest

from bridge_drivers.exact.search_deadline import SearchProgress
from bridge_drivers.pipeline.monitor import Monitor, ProgressEvent


def monitor_of_numbers(told: List[ProgressEvent], *, maximise: bool) -> Monitor:
    """One to which a line of a log is `name number`."""
    monitor = Monitor("test", told.append)
    monitor.maximise = maximise

    def numbers_of(line: str) -> Dict[str, float]:
        words = line.split()
        return {words[0]: float(words[1])} if len(words) == 2 else {}

    monitor.read_line = numbers_of
    return monitor


@pytest.mark.parametrize("maximise, incumbent", [(True, 19.0), (False, 17.0)])
def test_an_incumbent_is_not_lost_by_a_worse_one(maximise: bool, incumbent: float) -> None:
    """Heuristics of a solver tell points that are worse than one before."""
    told: List[ProgressEvent] = []
    monitor = monitor_of_numbers(told, maximise=maximise)
    monitor.stage_begins("cbc", 60.0)
    for line in (
        "incumbent 18",
        "a line of words",
        "incumbent 17",
        "bound 30",
        "incumbent 19",
        "bound 25",
    ):
        monitor.log_line(line)
    assert [event.stage for event in told] == ["cbc"] * 5
    assert (told[-1].incumbent, told[-1].bound) == (incumbent, 25.0)


def test_a_stage_begins_with_nothing_known() -> None:
    told: List[ProgressEvent] = []
    monitor = monitor_of_numbers(told, maximise=True)
    monitor.stage_begins("cbc", 60.0)
    monitor.log_line("incumbent 18")
    monitor.stage_begins("cbc", 60.0)
    monitor.log_line("bound 20")
    assert told[-1].numbers == {"bound": 20.0}


def test_progress_of_a_search_stays_on_the_line() -> None:
    """A step is told beside what is known; a bound of cuts that are still made is no claim."""
    monitor = Monitor("test")
    progress = monitor.progress
    monitor.tell_search(SearchProgress("", {"cuts": 3.0, "bound": 25.0}))
    assert progress.detail == "3 cuts"
    monitor.tell_search(SearchProgress("", {"incumbent": 17.0, "bound": 20.0, "nodes": 5.0}))
    assert progress.detail == "incumbent 17, bound 20, gap 15 %, 5 nodes"
    monitor.tell_search(SearchProgress("", {"cuts": 4.0, "bound": 18.0}))
    assert progress.detail == "incumbent 17, bound 20, gap 15 %, 5 nodes, 4 cuts"
    monitor.tell_search(SearchProgress("bridge verify"))
    assert progress.detail == "incumbent 17, bound 20, gap 15 %, 5 nodes, 4 cuts, bridge verify"
