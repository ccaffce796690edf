"""Runs the steps of a script one after another, and tells each with a forecast and with the seconds that it took.

A forecast is made of processor seconds, since what a step needs of them hardly depends on what else the machine does:
what the step still needs, over the share of a processor that it has been given so far. What a step needed is kept in a
file, so that the next forecast is one of this machine. `dev/try` uses it.
"""

from __future__ import annotations

import json
import os
import subprocess
import sys
import time
from collections.abc import Mapping, Sequence
from dataclasses import dataclass
from pathlib import Path

LOOKS_EVERY = 1.0  # seconds between two looks at a step that runs
TELLS_EVERY = 30.0  # seconds between two lines about it where no terminal shows them in place
KNOWN_AFTER = 3.0  # seconds after which the share of a processor that a step is given can be judged


@dataclass(frozen=True)
class Step:
    """One step of a script.

    Attributes:
        name: What it does, as it is told.
        words: The command that does it.
        needs: The processor seconds that it needs on a usual machine, as long as none have been kept on this one.
    """

    name: str
    words: Sequence[str | Path]
    needs: float


def processor_seconds(session: int) -> float:
    """The processor seconds that all processes of a session have had, with those of their children that have ended."""
    ticks = 0
    for path in Path("/proc").glob("[0-9]*/stat"):
        try:
            fields = path.read_text().rpartition(")")[2].split()
        except OSError:  # it has ended since
            continue
        if int(fields[3]) == session:
            ticks += sum(map(int, fields[11:15]))
    return ticks / os.sysconf("SC_CLK_TCK")


def share_to_expect() -> float:
    """The share of one processor that a new process can expect, by the load of the last minute."""
    processors = len(os.sched_getaffinity(0))
    return min(1.0, processors / (os.getloadavg()[0] + 1))


def in_words(seconds: float) -> str:
    """A time as people say it: "8 s", "2 minutes"."""
    if seconds < 100:
        return f"{max(1, round(seconds))} s"
    return f"{round(seconds / 60)} minutes"


class StepRunner:
    """Runs steps, numbers them, and keeps what each needed.

    Args:
        steps: All steps of the script, in their order.
        kept: The file that keeps, as JSON, the processor seconds of each step by its name.
    """

    def __init__(self, steps: Sequence[Step], kept: Path) -> None:
        self.steps = list(steps)
        self.kept = kept
        self.known = self._read_kept()
        self.is_terminal = sys.stderr.isatty()

    def _read_kept(self) -> dict[str, float]:
        try:
            found = json.loads(self.kept.read_text())
        except (OSError, ValueError):
            return {}
        if not isinstance(found, Mapping):
            return {}
        return {str(name): float(value) for name, value in found.items() if value}

    def needs(self, step: Step) -> float:
        """The processor seconds that a step is expected to need here."""
        return self.known.get(step.name, step.needs)

    def tell_forecast(self) -> None:
        """Tells how many steps there are and how long they will take at the present load."""
        seconds = sum(map(self.needs, self.steps)) / share_to_expect()
        self._tell(
            f"{len(self.steps)} steps, about {in_words(seconds)} on this machine as it is now"
        )

    def _tell(self, line: str, stays: bool = True) -> None:
        """Writes a line to standard error; one that does not stay is written over by the next, on a terminal."""
        start = "\r\x1b[K" if self.is_terminal else ""
        print(f"{start}{line}", end="\n" if stays else "", file=sys.stderr, flush=True)

    def run(self, step: Step) -> subprocess.CompletedProcess[str]:
        """Runs a step to its end, and tells how it goes on and how long it took.

        Returns:
            The ended process with its output, standard error behind standard output; the caller judges its status.
        """
        place = f"{self.steps.index(step) + 1} of {len(self.steps)}: {step.name}"
        forecast = self.needs(step) / share_to_expect()
        self._tell(f"{place} (about {in_words(forecast)})", stays=not self.is_terminal)
        began = time.monotonic()
        with subprocess.Popen(
            [str(word) for word in step.words],
            stdout=subprocess.PIPE,
            stderr=subprocess.STDOUT,
            text=True,
            start_new_session=True,
        ) as process:
            output, had = self._watch(process, step, place, began)
        took = time.monotonic() - began
        if process.returncode == 0:
            self._keep(step, had)
            self._tell(f"{place}: done in {in_words(took)}")
        else:
            self._tell(f"{place}: failed after {in_words(took)}")
        return subprocess.CompletedProcess(process.args, process.returncode, output, "")

    def _watch(
        self, process: subprocess.Popen[str], step: Step, place: str, began: float
    ) -> tuple[str, float]:
        """Waits for a step; its output, and the processor seconds that were seen last."""
        had, told = 0.0, began
        while True:
            try:
                return process.communicate(timeout=LOOKS_EVERY)[0], had
            except subprocess.TimeoutExpired:
                had = processor_seconds(process.pid)
            now = time.monotonic()
            if self.is_terminal or now - told >= TELLS_EVERY:
                told = now
                self._tell(
                    f"{place}: {self.progress(step, had, now - began)}", not self.is_terminal
                )

    def progress(self, step: Step, had: float, seconds: float) -> str:
        """How long a step has run, and how long it will still take at the share of a processor that it has had.

        Args:
            step: The step that runs.
            had: The processor seconds that it has had.
            seconds: The seconds since it began.
        """
        if seconds < KNOWN_AFTER or had <= 0:
            return f"{in_words(seconds)}"
        left = (self.needs(step) - had) * seconds / had
        if left <= 0:
            return f"{in_words(seconds)}, longer than expected"
        return f"{in_words(seconds)}, about {in_words(left)} more"

    def _keep(self, step: Step, had: float) -> None:
        """Keeps what a step needed; a step too short to be seen is left as it was."""
        if had <= 0:
            return
        self.known[step.name] = round(had, 1)
        self.kept.parent.mkdir(parents=True, exist_ok=True)
        self.kept.write_text(json.dumps(self.known, indent=1) + "\n")
