"""What a model may be: a name without its end, a packed file, standard input."""

from __future__ import annotations

import gzip

import pytest

from builders.small_models import MODELS
from running.places import EXAMPLES
from running.workspace import Call, Workspace

FORMS = [
    Call("nl-bridge verify m m.certificate", prints=["optimal 17\n"]),
    Call("nl-bridge verify m.nl m.certificate", prints=["optimal 17\n"]),
    Call("nl-bridge verify m.nl.gz m.certificate", prints=["optimal 17\n"]),
    Call("nl-bridge verify - m.certificate", stdin="m.nl", prints=["optimal 17\n"]),
    Call("nl-bridge verify /dev/stdin m.certificate", stdin="m.nl.gz", prints=["optimal 17\n"]),
    Call("nl-bridge stats m", prints=["sense         maximise"]),
    Call("nl-bridge stats m.nl", prints=["sense         maximise"]),
    Call("nl-bridge stats m.nl.gz", prints=["sense         maximise"]),
    Call("nl-bridge stats -", stdin="m.nl", prints=["sense         maximise"]),
    Call("nl-bridge stats /dev/stdin", stdin="m.nl.gz", prints=["sense         maximise"]),
    Call("nl-bridge export m", prints=["NAME nl"]),
    Call("nl-bridge export m.nl", prints=["NAME nl"]),
    Call("nl-bridge export m.nl.gz", prints=["NAME nl"]),
    Call("nl-bridge export -", stdin="m.nl", prints=["NAME nl"]),
    Call("nl-bridge export /dev/stdin", stdin="m.nl.gz", prints=["NAME nl"]),
    Call("nl-bridge explain m", prints=[": is not refused"]),
    Call("nl-bridge explain m.nl", prints=[": is not refused"]),
    Call("nl-bridge explain m.nl.gz", prints=[": is not refused"]),
    Call("nl-bridge explain -", stdin="m.nl", prints=[": is not refused"]),
    Call("nl-bridge explain /dev/stdin", stdin="m.nl.gz", prints=[": is not refused"]),
    Call("nl-bridge nl m", prints=["g3 1 1 0"]),
    Call("nl-bridge nl m.nl", prints=["g3 1 1 0"]),
    Call("nl-bridge nl m.nl.gz", prints=["g3 1 1 0"]),
    Call("nl-bridge nl -", stdin="m.nl", prints=["g3 1 1 0"]),
    Call("nl-bridge nl /dev/stdin", stdin="m.nl.gz", prints=["g3 1 1 0"]),
]


@pytest.mark.needs("program")
@pytest.mark.parametrize("call", FORMS, ids=str)
def test_forms(workspace: Workspace, call: Call) -> None:
    """What a model may be."""
    workspace.write("m.certificate", (EXAMPLES / "knap.certificate").read_bytes())
    workspace.write("m.nl", (EXAMPLES / "knap.nl").read_bytes())
    workspace.write("m.nl.gz", gzip.compress((EXAMPLES / "knap.nl").read_bytes()))
    workspace.check(call)


DAMAGED = [
    Call(
        "nl-bridge export m.nl.gz",
        2,
        prints=[".nl.gz: the packed file ends too soon or is damaged"],
    ),
    Call(
        "nl-bridge stats m.nl.gz", 2, prints=[".nl.gz: the packed file ends too soon or is damaged"]
    ),
    Call(
        "nl-bridge explain m.nl.gz",
        2,
        prints=[".nl.gz: the packed file ends too soon or is damaged"],
    ),
    Call(
        "nl-bridge explain export m.nl.gz",
        2,
        prints=[".nl.gz: the packed file ends too soon or is damaged"],
    ),
]


@pytest.mark.needs("program")
@pytest.mark.parametrize("call", DAMAGED, ids=str)
def test_damaged(workspace: Workspace, call: Call) -> None:
    """A packed file that ends too soon."""
    workspace.write("m.nl.gz", gzip.compress(MODELS["knap"].text)[:60])
    workspace.check(call)


@pytest.mark.needs("program", "cbc", "clp_library")
def test_standard_input(workspace: Workspace) -> None:
    """A packed model on standard input, before drivers."""
    workspace.write("m.nl.gz", gzip.compress(MODELS["knap"].text))
    workspace.check(
        Call(
            "bridge-certify -",
            stdin="m.nl.gz",
            prints=["what is judged is the text that - unpacks to\n"],
            files={"stdin.certificate": True},
        )
    )
    workspace.check(
        Call(
            "bridge-cbc - -s",
            stdin="m.nl.gz",
            prints=["what is judged is the text that - unpacks to\n"],
            files={"stdin.sol": True},
        )
    )
