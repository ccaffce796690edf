"""Numbers at the ends of what is read, at each place where a file or a call has one."""

from __future__ import annotations

import pytest

from builders.small_models import MODELS
from running.workspace import Workspace

MPS = """NAME x
ROWS
 N obj
 G c
COLUMNS
 x obj {cost} c {coefficient}
RHS
 RHS c {side}
BOUNDS
 {kind} BND x {bound}
ENDATA
"""
PLACES = {"cost": "1", "coefficient": "1", "side": "1", "bound": "9"}
NUMBERS = ["1e400", "-1e400", "1e308", "1e-320", "1e-400", "1e5000", "1e99999999", "9" * 40]
LONG = "7" * 5000
FAULTS = ("a fault of the driver", "Traceback", "Error(")


@pytest.mark.needs("program", "cbc", "mps")
@pytest.mark.parametrize("number", [*NUMBERS, LONG], ids=[*NUMBERS, "5000 digits"])
@pytest.mark.parametrize("place", [*PLACES, "lower bound"])
def test_numbers_of_a_model(workspace: Workspace, place: str, number: str) -> None:
    """The model is refused in a line, or a run ends with a verdict, or says why it has none."""
    kind = "LO" if place == "lower bound" else "UP"
    numbers = {**PLACES, "kind": kind, "bound" if kind == "LO" else place: number}
    workspace.write("m.mps", MPS.format(**numbers))
    ended = workspace.run("bridge-cbc", "m.mps", "timelim=20")
    assert ended.status in (0, 1, 2), ended.text
    assert not any(fault in ended.text for fault in FAULTS), ended.text
    assert len(ended.text) < 2000 or number == LONG


HEADS = [(line, word) for line in range(10) for word in (0, 1, 2)]


@pytest.mark.needs("program", "cbc")
@pytest.mark.parametrize("line, word", HEADS)
def test_counts_of_a_head(workspace: Workspace, line: int, word: int) -> None:
    """Of 5,000 digits: the place is told, by each command."""
    lines = MODELS["knap"].text.decode().split("\n")
    words = lines[line].split()
    if word < len(words):
        words[word] = ("g" if (line, word) == (0, 0) else "") + LONG
    lines[line] = (" " if line else "") + " ".join(words)
    workspace.write("m.nl", "\n".join(lines))
    for call in (
        ["bridge-cbc", "m", "-AMPL"],
        ["nl-bridge", "stats", "m"],
        ["nl-bridge", "explain", "m"],
    ):
        ended = workspace.run(*call)
        assert not any(fault in ended.text for fault in FAULTS), ended.text


@pytest.mark.needs("program", "cbc")
@pytest.mark.parametrize("front", ["C", "O", "J", "G", "k", "V", "o", "n", "v", "f"])
def test_numbers_of_segments_and_nodes(workspace: Workspace, front: str) -> None:
    text = MODELS["knap"].text.decode()
    lines = text.split("\n")
    lines[10:10] = [front + LONG]
    workspace.write("m.nl", "\n".join(lines))
    for call in (["bridge-cbc", "m"], ["nl-bridge", "explain", "m"]):
        ended = workspace.run(*call)
        assert ended.status == 2 and not any(fault in ended.text for fault in FAULTS), ended.text


@pytest.mark.needs("program", "cbc")
@pytest.mark.parametrize(
    "option, number",
    [("timelim", "1e10"), ("timelim", "1e300"), ("objno", "9" * 23), ("objno", "4294967296")],
)
def test_numbers_of_options(workspace: Workspace, option: str, number: str) -> None:
    """A long limit is one; an objective that is not there is told as that."""
    workspace.write("m.nl", MODELS["knap"].text)
    ended = workspace.run("bridge-cbc", "m", f"{option}={number}", "certificate=m.certificate")
    if option == "timelim":
        assert ended.status == 0 and workspace.path("m.certificate").exists(), ended.text
    else:
        assert ended.status in (2, 3) and f"objno={number}" in ended.err
