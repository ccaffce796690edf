#!/usr/bin/env python3
"""Stores a run of each installed solver over each small model: tests/data/stored/NAME.json.

    store_runs.py [NAME ..]     drivers, all where none is named; `statuses`: the runs that stop at a
                                limit, a gap or an interrupt, all or those whose names follow

BRIDGE names the proved program. The tests answer with these runs where a solver would be called.
"""

from __future__ import annotations

import base64
import signal
import subprocess
import sys
import tempfile
import time
from pathlib import Path
from typing import Sequence

TESTS = Path(__file__).resolve().parent.parent
sys.path.insert(0, str(TESTS))

from builders.small_models import MODELS  # noqa: E402
from builders.stopped_runs import STOPPED_RUNS  # noqa: E402
from running.places import BIN, MIXED_INTEGER_SOLVERS, SOLVERS, why_missing  # noqa: E402
from running.stored_runs import Content, StoredRun, save_runs, stored_runs  # noqa: E402

ANSWERS = "answer."  # what the files that solvers write begin with
INTERRUPTED = 130  # the status of a driver whose solver has no answer then


def stored_content(data: bytes) -> Content:
    """Lines where the file is a text, else base64."""
    is_text = data.isascii() and b"\0" not in data
    return data.decode("ascii").split("\n") if is_text else base64.b64encode(data).decode()


def made_run(
    driver: str, text: bytes, options: Sequence[str], interrupt_after: float = 0.0
) -> StoredRun:
    """Runs a driver over a model and takes what its solver wrote.

    Args:
        driver: its name, without bridge-.
        text: of the .nl file.
        options: of the driver.
        interrupt_after: seconds after which it is interrupted; 0: it is not.

    Raises:
        SystemExit: the driver failed.
    """
    with tempfile.TemporaryDirectory() as folder:
        model, kept = Path(folder, "m.nl"), Path(folder, "kept")
        model.write_bytes(text)
        words = [str(model), "-AMPL", "-e", f"keep={kept}", *options]
        child = subprocess.Popen(
            [sys.executable, str(BIN / f"bridge-{driver}"), *words], stdout=subprocess.DEVNULL
        )
        if interrupt_after:
            time.sleep(interrupt_after)
            child.send_signal(signal.SIGINT)
        if child.wait() not in ((0, INTERRUPTED) if interrupt_after else (0,)):
            sys.exit(f"{driver}: status {child.returncode}")
        data = {path.name: path.read_bytes() for path in sorted(kept.iterdir())}
    return StoredRun(
        options=list(options),
        logs={
            name: log.decode("utf-8", "replace").split("\n")
            for name, log in data.items()
            if name.endswith(".log")
        },
        files={
            name: stored_content(answer)
            for name, answer in data.items()
            if name.startswith(ANSWERS) and not name.endswith((".mps", ".log"))
        },
        interrupted=bool(interrupt_after),
    )


def store_stopped_runs(names: Sequence[str]) -> None:
    """Stores those of these names beside the others, or all."""
    runs = dict(stored_runs("statuses")) if names else {}
    for name in names or STOPPED_RUNS:
        run = STOPPED_RUNS[name]
        runs[name] = made_run(run.driver, run.text(), run.options, run.interrupt_after)
    save_runs("statuses", runs)
    print(f"statuses: {len(runs)} runs stored")


def store_runs(driver: str) -> None:
    """Stores the runs of one driver over the models that its solver takes."""
    if why_missing(driver):
        print(f"{driver}: not installed, its stored runs stay")
        return
    runs = {
        name: made_run(driver, model.text, model.options)
        for name, model in MODELS.items()
        if model.reaches_a_solver() and (model.is_linear or driver in MIXED_INTEGER_SOLVERS)
    }
    save_runs(driver, runs)
    print(f"{driver}: {len(runs)} runs stored")


def main() -> None:
    """Stores what is named."""
    if sys.argv[1:2] in (["-h"], ["--help"]):
        print(__doc__)
        return
    wanted = sys.argv[1:] or [*SOLVERS, "statuses"]
    if "statuses" in wanted:
        store_stopped_runs([name for name in STOPPED_RUNS if name in wanted])
    for driver in SOLVERS:
        if driver in wanted:
            store_runs(driver)


if __name__ == "__main__":
    main()
