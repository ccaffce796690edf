"""What a person sees on a terminal: the verdict in colour, and one line of progress that leaves nothing behind."""

from __future__ import annotations

import os
import subprocess
import sys

import pytest

from running.places import BIN, EXAMPLES
from running.terminal import open_terminal
from running.workspace import SECONDS, Workspace

GREEN = b"\x1b[32m%s\x1b[0m\n"


def shown(workspace: Workspace, command: str, *words: str, no_color: str = "") -> bytes:
    """What a command writes to a terminal that is its standard output."""
    with open_terminal(80) as terminal:
        done = subprocess.run(
            [sys.executable, str(BIN / command), *words],
            cwd=EXAMPLES,
            stdin=subprocess.DEVNULL,
            stdout=terminal.theirs,
            stderr=subprocess.PIPE,
            env=workspace.environment(NO_COLOR=no_color, TERM="xterm"),
            timeout=SECONDS,
        )
        terminal.read_rest()
    assert done.returncode == 0
    return terminal.raw.replace(b"\r\n", b"\n")


@pytest.mark.needs("program")
def test_a_verdict_is_in_colour(workspace: Workspace) -> None:
    words = ("verify", "knap.nl", "knap.certificate")
    assert shown(workspace, "nl-bridge", *words) == GREEN % b"optimal 17"
    assert shown(workspace, "nl-bridge", *words, no_color="1") == b"optimal 17\n"
    told = shown(workspace, "nl-bridge", "explain", "knap.nl", "knap.certificate")
    assert told.startswith(GREEN % b"knap.certificate holds of knap.nl: optimal 17")


@pytest.mark.needs("program")
@pytest.mark.parametrize("columns", [80, 40])
def test_progress_is_one_line(workspace: Workspace, columns: int) -> None:
    """The solver tells its incumbent, and goes on until that was seen."""
    workspace.write_model("knap")
    seen = workspace.path("seen")
    wait = f"until [ -e '{seen}' ]; do sleep 0.05; done"
    found = "Cbc0004I Integer solution of -17 found after 5 iterations and 2 nodes (0.01 seconds)"
    solver = workspace.script("cbc", f"echo '{found}'; {wait}; exit 3")
    with open_terminal(columns) as terminal:
        child = subprocess.Popen(
            [sys.executable, str(BIN / "bridge-cbc"), "m", f"solver={solver}"],
            cwd=workspace.folder,
            stdin=subprocess.DEVNULL,
            stdout=subprocess.PIPE,
            stderr=terminal.theirs,
            env=workspace.environment(TERM="xterm"),
        )
        terminal.read_until(lambda: "incumbent" in "".join(terminal.lines()))
        (line,) = terminal.lines()
        assert line.startswith("bridge-cbc: cbc, ")
        assert len(line) < columns
        seen.touch()
        child.communicate(timeout=SECONDS)
        terminal.read_rest()
    assert terminal.most_lines >= 1
    assert b"\\x0d" not in terminal.raw
    assert "incumbent" not in "".join(terminal.lines())


@pytest.mark.needs("program")
def test_a_solver_that_holds_its_output_back(workspace: Workspace) -> None:
    """An incumbent is shown while the solver goes on, and not at its end."""
    workspace.write_model("knap")
    fifo = workspace.path("fifo")
    os.mkfifo(fifo)
    asked = workspace.path("asked")
    solver = workspace.script(  # grep does as C programs do at a pipe; it is not asked twice
        "cbc", f"[ -e '{asked}' ] && exit 3; touch '{asked}'; exec grep Cbc '{fifo}'"
    )
    found = "Cbc0012I Integer solution of -17 found by rounding after 0 iterations and 0 nodes\n"
    with open_terminal(80) as terminal:
        child = subprocess.Popen(
            [sys.executable, str(BIN / "bridge-cbc"), "m", f"solver={solver}"],
            cwd=workspace.folder,
            stdin=subprocess.DEVNULL,
            stdout=subprocess.PIPE,
            stderr=terminal.theirs,
            env=workspace.environment(TERM="xterm"),
        )
        with open(fifo, "w", encoding="ascii") as log:
            log.write(found)
            log.flush()
            terminal.read_until(lambda: "incumbent 17" in "".join(terminal.lines()))
        child.communicate(timeout=SECONDS)
