#!/usr/bin/env python3
"""Runs models that mislead solvers in doubles through drivers: builders/misleading_kinds.py.

    misleading_table.py [DRIVER ..] [KIND ..] [option=value ..]     all drivers that are there; all kinds

BRIDGE names the proved program. Each model goes through each driver as it comes, and with `prove=1`;
`prove=0` or `prove=1` says which alone, `each=2` takes two models of each kind (28), `time=60` gives
a run sixty seconds (10), `workers=2` runs two at a time (4). `log=FILE` gets a line for each run, and
what stands there is not run again. A line for each wrong or lost answer, and two for each driver: how
many end with which code. The status is 1 where one is wrong, 2 where nothing can be run.
"""

from __future__ import annotations

import collections
import dataclasses
import json
import os
import sys
import tempfile
import time
from concurrent.futures import ProcessPoolExecutor, as_completed
from pathlib import Path
from typing import Dict, List, Mapping, Sequence, TextIO, Tuple

TESTS = Path(__file__).resolve().parent.parent
sys.path.insert(0, str(TESTS))

from builders.misleading import Misleading  # noqa: E402
from builders.misleading_kinds import EACH, models  # noqa: E402
from running.forked_runs import forked_workspace  # noqa: E402
from running.misleading_runs import JudgedRun, judge_runs, takes  # noqa: E402
from running.places import SOLVERS, why_missing  # noqa: E402

NOTHING_RUN = 2  # the status
DEFAULTS = {"each": str(EACH), "time": "10", "workers": "4", "log": os.devnull}


def main() -> int:
    """Runs what is asked for; the status of this process."""
    if sys.argv[1:2] in (["-h"], ["--help"]):
        print(__doc__)
        return 0
    words = [word for word in sys.argv[1:] if "=" not in word]
    options = dict(word.split("=", 1) for word in sys.argv[1:] if "=" in word)
    own = {name: options.pop(name, value) for name, value in DEFAULTS.items()}
    ways = [options.pop("prove")] if "prove" in options else ["0", "1"]
    more = [f"{name}={value}" for name, value in options.items()]
    kinds = [word for word in words if word not in SOLVERS]
    chosen = [
        model
        for model in models(int(own["each"]))
        if not kinds or model.name.rstrip("0123456789") in kinds
    ]
    if why_missing("program") or not chosen:
        print(why_missing("program") or "no such model")
        return NOTHING_RUN
    print(_sizes(chosen), flush=True)
    asked = Asked(ways, int(own["time"]), more, int(own["workers"]))
    wrong = 0
    with open(own["log"], "a+", encoding="utf-8") as log:
        known = _known(log)
        for driver in [word for word in words if word in SOLVERS] or SOLVERS:
            if not why_missing(driver):
                taken = [model for model in chosen if takes(driver, model)]
                wrong += _run_all(driver, taken, asked, known, log)
    print(f"{wrong} wrong")
    return int(wrong > 0)


@dataclasses.dataclass(frozen=True)
class Asked:
    """What is asked for of all runs.

    Attributes:
        ways: values of `prove`.
        seconds: of a run.
        options: of all runs, beside these.
        workers: runs at a time.
    """

    ways: Sequence[str]
    seconds: int
    options: Sequence[str]
    workers: int

    def own_options(self) -> List[str]:
        """Of the run that tells the solver's own answer."""
        return [f"timelim={self.seconds}", *self.options]

    def key(self, driver: str, way: str, model: Misleading) -> str:
        """Of a run in the log."""
        return f"{driver} prove={way} {model.name}"


def _sizes(chosen: Sequence[Misleading]) -> str:
    without_point = sum(model.best is None for model in chosen)
    unbounded = sum(model.is_unbounded for model in chosen)
    return f"{len(chosen)} models, {without_point} infeasible, {unbounded} unbounded"


def _known(log: TextIO) -> Dict[str, JudgedRun]:
    """The runs of an older log."""
    log.seek(0)
    lines = [json.loads(line) for line in log]
    return {key: JudgedRun(*found) for key, *found in lines}


def _run_all(
    driver: str,
    chosen: Sequence[Misleading],
    asked: Asked,
    known: Dict[str, JudgedRun],
    log: TextIO,
) -> int:
    """Runs what is not known; how many are wrong."""
    began = time.monotonic()
    left = {
        model.name: [way for way in asked.ways if asked.key(driver, way, model) not in known]
        for model in chosen
    }
    with tempfile.TemporaryDirectory(prefix="misleading-") as folder, ProcessPoolExecutor(
        asked.workers
    ) as pool:
        jobs = [
            pool.submit(_run, folder, driver, model, left[model.name], asked)
            for model in chosen
            if left[model.name]
        ]
        for job in as_completed(jobs):
            for key, judged in job.result():
                known[key] = judged
                print(json.dumps([key, *dataclasses.astuple(judged)]), file=log, flush=True)
    wrong = 0
    for way in asked.ways:
        found = {key: known[key] for key in [asked.key(driver, way, model) for model in chosen]}
        wrong += _told(f"{driver} prove={way} all", found, time.monotonic() - began)
    return wrong


def _run(
    folder: str, driver: str, model: Misleading, ways: Sequence[str], asked: Asked
) -> List[Tuple[str, JudgedRun]]:
    """The runs of one model, by their keys. Called in a process of the pool."""
    workspace = forked_workspace(folder, model.name)
    own = asked.own_options()
    found = judge_runs(workspace, driver, model, [[f"prove={way}", *own] for way in ways], own)
    return [(asked.key(driver, way, model), run) for way, run in zip(ways, found)]


def _told(heading: str, runs: Mapping[str, JudgedRun], seconds: float) -> int:
    """Tells what is wrong or lost, and how many have which code; how many are wrong."""
    for key, run in runs.items():
        for word, text in (("wrong", run.wrong), ("lost", run.lost)):
            if text:
                print(f"{key}: code {run.code}, {word}: {text}", flush=True)
    codes = collections.Counter(run.code for run in runs.values())
    shares = ", ".join(f"code {code}: {count}" for code, count in sorted(codes.items()))
    wrong: List[str] = [run.wrong for run in runs.values() if run.wrong]
    lost = [run.lost for run in runs.values() if run.lost]
    print(f"{heading}: {shares}; {len(wrong)} wrong, {len(lost)} lost; {seconds:.0f} s", flush=True)
    return len(wrong)


if __name__ == "__main__":
    sys.exit(main())
