"""Reports, as commands print them with `json=1`."""

from __future__ import annotations

import hashlib
import json
from pathlib import Path

import pytest

from bridge_drivers import Report
from builders.small_models import MODELS
from running.places import EXAMPLES, program
from running.report_schema import report_faults
from running.workspace import Call, Workspace

EACH_DRIVER = [
    pytest.param(name, marks=pytest.mark.needs(name)) for name in ("cbc", "glpsol", "lp_solve")
]
FAILURES = [
    Call("bridge-cbc m json=1", 2, prints=['"code": 501', '"claim": null']),
    Call("bridge-cbc m json=1 speed=9", 3, prints=['"code": 502', '"claim": null']),
    Call("bridge-certify m json=1", 2, prints=['"code": 501', '"claim": null']),
    Call("bridge-certify m json=1 speed=9", 3, prints=['"code": 502', '"claim": null']),
    Call("bridge-certify m json=1 certificate=-", 3),
]


@pytest.mark.needs("program", "cbc")
@pytest.mark.parametrize("call", FAILURES, ids=str)
def test_failures(workspace: Workspace, call: Call) -> None:
    """What fails, in JSON."""
    workspace.write("m.nl", MODELS["nonlinear"].text)
    workspace.check(call)


@pytest.mark.needs("program")
def test_nl_bridge(workspace: Workspace) -> None:
    """What nl-bridge says."""
    workspace.write("m.nl", MODELS["nonlinear"].text)
    workspace.check(
        Call("nl-bridge stats m json=1", 2, prints=['"reason": "nonlinear"', '"number": 12'])
    )
    workspace.write("m.nl", (EXAMPLES / "knap.nl").read_bytes())
    workspace.write("m.certificate", (EXAMPLES / "knap.certificate").read_bytes())
    workspace.check(
        Call(
            "nl-bridge verify m m.certificate json=1",
            prints=['"exact": "17",\n  "double": 17.0', '"text": "optimal 17"'],
        )
    )
    workspace.check(Call("nl-bridge verify m /nonexistent json=1", 4))
    workspace.check(
        Call(
            "nl-bridge stats m json=1",
            prints=[
                '"sense": "maximise"',
                '"columns": 3',
                '"binary": 3',
                '"rows": 1',
                '"sides": [\n   10.0,\n   10.0\n  ]',
            ],
        )
    )


@pytest.mark.needs("program")
def test_sums_of_files(workspace: Workspace) -> None:
    """Of the program and of the certificate that was judged."""
    workspace.copy_files(EXAMPLES)
    ended = workspace.run("nl-bridge", "verify", "knap.nl", "knap.certificate", "json=1")
    told = workspace.report(ended, "nl-bridge")
    assert told["sums"]["program"] == sha256_of(Path(program()[0]))
    assert told["sums"]["certificate"] == sha256_of(workspace.path("knap.certificate"))


@pytest.mark.needs("program")
def test_version(workspace: Workspace) -> None:
    """The program, and whether it is proved: only one that a gate has built is."""
    told = workspace.report(workspace.run("nl-bridge", "version", "json=1"), "nl-bridge")
    assert told["program"] == list(program())
    facts = Path(program()[0] + ".built")
    if facts.exists():
        assert told["proved"] == (json.loads(facts.read_text())["proved"] == "yes")
    else:
        assert told["proved"] is None


@pytest.mark.needs("program", "clp_library")
@pytest.mark.parametrize("driver", EACH_DRIVER)
def test_driver(workspace: Workspace, driver: str) -> None:
    """The answer with its certificate, in the names of the model; nothing else is printed."""
    workspace.write_model("knap")
    workspace.write("m.col", "a\nb\nz\n")
    words = ["-AMPL", "prove=1", "wantsol=2", "outlev=1", "certificate=m.new", "overwrite=1"]
    ended = workspace.run("bridge-" + driver, "m", *words, "json=1")
    told = workspace.report(ended, "bridge-" + driver)
    assert told["values"] == {"a": "1", "b": "1", "z": "0"}
    assert (told["code"], told["claim"], told["certificate"]) == (0, "optimal", "m.new")
    assert workspace.sol().message == told["lines"]


def sha256_of(path: Path) -> str:
    """The sum of a file."""
    return hashlib.sha256(path.read_bytes()).hexdigest()


GOOD = Report("c").object()


def test_a_good_report() -> None:
    """The check of reports finds nothing."""
    assert report_faults(GOOD) == []
    without_bound = {key: value for key, value in GOOD.items() if key != "bound"}
    assert report_faults(without_bound) == ["$ lacks bound"]


@pytest.mark.parametrize(
    ("key", "value"),
    [
        ("status", "0"),
        ("claim", "proved"),
        ("value", {"exact": "1"}),
        ("value", {"exact": "1.5", "double": 1.5}),
        ("lines", "x"),
        ("code", 600),
        ("sums", {}),
        ("other", 1),
        ("seconds", True),
    ],
)
def test_a_wrong_report(key: str, value: object) -> None:
    """The check of reports finds what is wrong."""
    assert report_faults({**GOOD, key: value})
