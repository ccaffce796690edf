"""The exit status of each way in which a command ends, and what it says."""

from __future__ import annotations


import pytest

from builders.small_models import MODELS
from running.workspace import Call, Workspace

STATUSES = [
    Call("nl-bridge export m"),
    Call("nl-bridge verify m m.certificate", 1),
    Call("nl-bridge export m.txt", 2),
    Call("nl-bridge stats m.txt", 2),
    Call("nl-bridge explain m.txt", 2),
    Call("bridge-cbc m.txt solver=/bin/true", 2),
    Call("nl-bridge export", 3),
    Call("nl-bridge exprt m", 3),
    Call("bridge-cbc m prove=2", 3),
    Call("bridge-certify", 3, prints=["usage"]),
    Call("bridge-certify -h"),
    Call("bridge-certify -="),
    Call("bridge-certify m x=1", 3, prints=["unknown option x;"]),
    Call("bridge-certify m driver=x", 3, prints=["driver=x: cbc, clp, "]),
    Call("bridge-certify /no/m", 4, prints=["/no/m.nl: no such file"]),
    Call("bridge-cbc", 3),
    Call("nl-bridge", 3),
    Call("nl-bridge verify m /nonexistent", 4),
    Call("bridge-cbc /no/m", 4),
    Call("nl-bridge stats /no/m", 4),
    Call("bridge-certify /no/m.mps", 4),
    Call("nl-bridge explain m m.certificate --svg /no/x", 5),
    Call("nl-bridge explain m m.certificate --html m.certificate overwrite=1", 5),
    Call("bridge-cbc m solver=/no/cbc", 127),
    Call("bridge-cbc m solver=/bin/true", 1),
    Call("bridge-certify m bridge=/no/bridge", 127),
]


@pytest.mark.needs("program")
@pytest.mark.parametrize("call", STATUSES, ids=str)
def test_statuses(workspace: Workspace, call: Call) -> None:
    """Each status, by calls that end so."""
    workspace.write("m.nl", MODELS["knap"].text)
    workspace.write("m.txt", MODELS["nonlinear"].text)
    workspace.write("m.certificate", "certificate 1\nbound 0 16\nduals 0\n")
    workspace.check(call)


UNWRITTEN = [
    Call("bridge-certify m certificate=/no/x", 5),
]


@pytest.mark.needs("program", "cbc")
@pytest.mark.parametrize("call", UNWRITTEN, ids=str)
def test_unwritten(workspace: Workspace, call: Call) -> None:
    """A certificate that cannot be written."""
    workspace.write("m.nl", MODELS["knap"].text)
    workspace.check(call)


REFUSAL = [
    Call(
        "nl-bridge export m.nl",
        2,
        output="refused line 12: nonlinear\nnl-bridge: `nl-bridge explain m.nl` " "says more\n",
    ),
]


@pytest.mark.needs("program")
@pytest.mark.parametrize("call", REFUSAL, ids=str)
def test_refusal(workspace: Workspace, call: Call) -> None:
    """A refusal points to `explain`."""
    workspace.write("m.nl", MODELS["nonlinear"].text)
    workspace.check(call)


MEANT = [
    Call(
        "nl-bridge help gap",
        3,
        output="nl-bridge: no help on gap; did you mean `mipgap`? -h lists the commands\n",
    ),
    Call(
        "nl-bridge knap --foo", 3, output="nl-bridge: unknown option --foo; -h lists the commands\n"
    ),
    Call("nl-bridge foo x", 3, output="nl-bridge: unknown command foo; -h lists the commands\n"),
    Call("nl-bridge stats", 3, output="nl-bridge: stats takes MODEL [K]; -h lists the commands\n"),
    Call(
        "nl-bridge help refusal",
        3,
        output="nl-bridge: no help on refusal; did you mean `refusals`? -h lists " "the commands\n",
    ),
]


@pytest.mark.needs("program")
@pytest.mark.parametrize("call", MEANT, ids=str)
def test_meant(workspace: Workspace, call: Call) -> None:
    """What is meant, and what a word takes."""
    workspace.check(call)
