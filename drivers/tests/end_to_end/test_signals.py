"""Signals to commands whose solver is at work."""

from __future__ import annotations

import signal
import subprocess
from typing import Sequence

import pytest

from running.waiting import wait_for_end, wait_for_file
from running.workspace import SECONDS, Workspace

# CBC's answer files for `knap` with the point (1, 1, 0), which it was interrupted at: one row,
# three columns, the objective, the row's activity and dual, columns, reduced costs.
INTERRUPTED_CBC = """#!/usr/bin/env python3
import signal, struct, sys

def stop(*_):
    def word_after(word):
        return sys.argv[sys.argv.index(word) + 1]

    with open(word_after("-solution"), "w") as f:
        f.write("Stopped on iterations - objective value 17.0\\n")
    with open(word_after("-saveSolution"), "wb") as f:
        f.write(struct.pack("=ii9d", 1, 3, 17, 9, 0, 1, 1, 0, 0, 0, 0))
    sys.exit(0)

signal.signal(signal.SIGINT, stop)
print("the solver waits", flush=True)
while True:
    signal.pause()
"""


@pytest.mark.needs("program")
@pytest.mark.parametrize(
    ("command", "number", "status", "words"),
    [
        ("bridge-cbc", signal.SIGTERM, 143, ["-AMPL", "-e"]),
        ("bridge-cbc", signal.SIGINT, 130, ["-AMPL", "-e"]),
        ("bridge-cbc", signal.SIGHUP, 129, ["-AMPL", "-e"]),
        ("bridge-certify", signal.SIGINT, 130, []),
    ],
)
def test_signal(
    workspace: Workspace, command: str, number: signal.Signals, status: int, words: Sequence[str]
) -> None:
    """The solver ends too, no .sol is left, and an older certificate stays."""
    workspace.write_model("knap")
    workspace.write("m.certificate", "older")
    started = workspace.path("started")
    solver = workspace.script("cbc", f"echo $$ >'{started}'; exec sleep 1000")
    child = workspace.start(command, "m", f"solver={solver}", *words)
    wait_for_file(started)
    child.send_signal(number)
    _, err = child.communicate(timeout=SECONDS)
    assert child.returncode == status, err
    assert f"{command}: interrupted\n" in err
    assert not workspace.path("m.sol").exists()
    assert workspace.read("m.certificate") == b"older"
    wait_for_end(int(started.read_text()))


@pytest.mark.needs("program")
@pytest.mark.parametrize("words", [[], ["prove=1", "timelim=600"]], ids=["", "prove"])
def test_an_interrupt_is_the_solvers_first(workspace: Workspace, words: Sequence[str]) -> None:
    """It ends with its best point, which is passed on."""
    workspace.write_model("knap")
    solver = workspace.write("cbc", INTERRUPTED_CBC)
    child = workspace.start("bridge-cbc", "m", f"solver={solver}", "-AMPL", "outlev=1", *words)
    interrupt_at_line(child, "the solver waits")
    sol = workspace.sol()
    assert child.returncode == 0
    assert sol.values == [1, 1, 0]
    assert "interrupted with a feasible solution" in sol.text
    assert sol.code == (0 if sol.last_line == "optimal 17" else 400)


def interrupt_at_line(child: "subprocess.Popen[str]", wanted: str) -> None:
    """Sends an interrupt when the process has printed a line, and waits for its end."""
    assert child.stdout is not None
    for line in child.stdout:
        if line.strip() == wanted:
            child.send_signal(signal.SIGINT)
    child.communicate(timeout=SECONDS)
