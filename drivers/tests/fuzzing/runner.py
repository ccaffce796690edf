"""Runs cases in a process of its own, which is watched: one that hangs or takes memory is a finding."""

from __future__ import annotations

import os
import resource
import select
import shutil
import signal
import subprocess
import sys
import tempfile
import time
from pathlib import Path
from typing import IO, Iterator, List, NamedTuple

from fuzzing.cases import Finding, run_case
from running.places import DRIVERS, TESTS

HANG_SECONDS = 240.0  # of one case, on a machine that has much else to do
MEMORY = 3 << 30  # bytes that a process may take
CASES_OF_A_PROCESS = 200
SCRIPT = "import sys; from fuzzing.runner import work; work(int(sys.argv[1]), int(sys.argv[2]))"


class Outcome(NamedTuple):
    """What came of some cases."""

    cases: int
    findings: List[Finding]


def work(first: int, count: int) -> None:
    """Runs cases, in a process that `fuzz` watches: a line before each, and one of each finding."""
    resource.setrlimit(resource.RLIMIT_AS, (MEMORY, MEMORY))
    for seed in range(first, first + count):
        print(f"case {seed}", flush=True)
        folder = Path(tempfile.mkdtemp(prefix="fuzz-"))
        try:
            finding = run_case(seed, folder)
        finally:
            os.chdir("/")
            shutil.rmtree(folder, ignore_errors=True)
        if finding is not None:
            print(f"finding {finding!r}", flush=True)
    print("end", flush=True)


def fuzz(seconds: float, seed: int, told: IO[str]) -> Outcome:
    """Runs cases from a seed on until the time is over.

    Args:
        seconds: Of the wall, after which no further case begins.
        seed: Of the first case; those of the others follow.
        told: Gets a line of each finding.
    """
    until = time.monotonic() + seconds
    findings: List[Finding] = []
    first = seed
    while time.monotonic() < until:
        watched = _Watched(first, until)
        for line in watched.lines():
            finding = _finding_of(line)
            if finding is not None:
                findings.append(finding)
                print(f"fuzz: seed {finding.seed}: {finding.what}", file=told, flush=True)
        first = watched.seed + 1
        if watched.fault:
            findings.append(Finding(watched.seed, watched.fault))
            print(f"fuzz: seed {watched.seed}: {watched.fault}", file=told, flush=True)
    return Outcome(first - seed, findings)


def _finding_of(line: str) -> Finding | None:
    """The finding that a line of the process tells; None of other lines."""
    if not line.startswith("finding "):
        return None
    found = eval(line.removeprefix("finding "), {"Finding": Finding, "__builtins__": {}})
    assert isinstance(found, Finding)
    return found


class _Watched:
    """A process that runs cases.

    Attributes:
        seed: Of the case that was begun last.
        fault: What is wrong with the process itself in that case; "" where nothing is.
    """

    def __init__(self, first: int, until: float) -> None:
        """Starts it, from a seed on, to be ended behind the case of a moment."""
        self.seed = first
        self.fault = ""
        self.until = until
        paths = os.pathsep.join([str(DRIVERS), str(TESTS), os.environ.get("PYTHONPATH", "")])
        self.child = subprocess.Popen(
            [sys.executable, "-c", SCRIPT, str(first), str(CASES_OF_A_PROCESS)],
            stdout=subprocess.PIPE,
            stderr=subprocess.PIPE,
            stdin=subprocess.DEVNULL,
            env={**os.environ, "PYTHONPATH": paths, "PYTHONDONTWRITEBYTECODE": "1"},
            start_new_session=True,
        )

    def lines(self) -> Iterator[str]:
        """What it tells, to its end or the end of the time."""
        assert self.child.stdout is not None
        buffered = b""
        has_ended = False
        try:
            while not has_ended:
                if not select.select([self.child.stdout], [], [], HANG_SECONDS)[0]:
                    self.fault = f"it hangs: nothing in {HANG_SECONDS:g} seconds"
                    return
                piece = os.read(self.child.stdout.fileno(), 1 << 16)
                *lines, buffered = (buffered + piece).split(b"\n")
                for line in map(bytes.decode, lines):
                    has_ended = has_ended or line == "end" or self._is_over(line)
                    yield line
                if not piece and not has_ended:
                    self.fault = self._why_it_ended()
                    return
        finally:
            self._end()

    def _is_over(self, line: str) -> bool:
        """Whether the time is over at the beginning of a case, which is noted."""
        if not line.startswith("case "):
            return False
        self.seed = int(line.removeprefix("case "))
        if time.monotonic() < self.until:
            return False
        self.seed -= 1
        return True

    def _why_it_ended(self) -> str:
        """What a process said that ended by itself."""
        assert self.child.stderr is not None
        told = self.child.stderr.read().decode("utf-8", "replace").strip()
        return f"the process ended with {self.child.wait()}: {told[-1000:]}"

    def _end(self) -> None:
        """Ends the process and all that it started."""
        try:
            os.killpg(self.child.pid, signal.SIGKILL)
        except ProcessLookupError:
            pass
        self.child.wait()
        for stream in (self.child.stdout, self.child.stderr):
            if stream is not None:
                stream.close()
