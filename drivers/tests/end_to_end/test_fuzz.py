"""Ten seconds of fuzzing, and that it finds what is planted."""

from __future__ import annotations

from pathlib import Path
from typing import Callable, Union

import bridge_drivers
import pytest
from bridge_drivers.commands.console import Console
from bridge_drivers.pipeline.report import Report
from bridge_drivers.system.errors import DriverFault

from fuzzing import cases
from fuzzing.cases import Case, Finding
from running.workspace import Workspace

MODEL = b"g3 1 1 0\n 1 0 1 0 0\n"


@pytest.mark.needs("program", "cbc", "clp_library")
def test_ten_seconds(workspace: Workspace) -> None:
    ended = workspace.run("dev/fuzz", "10", "1")
    assert ended.status == 0, ended.text
    assert ended.out.startswith("fuzz: ") and " 0 findings" in ended.out


def raising(fault: Exception) -> Callable[..., Report]:
    def call(*words: object, **options: object) -> Report:
        raise fault

    return call


def answering(report: Report) -> Callable[..., Report]:
    return lambda *words, **options: report


def printing(*lines: str) -> Callable[..., int]:
    def call(words: object, console: Console) -> int:
        for line in lines:
            console.verdict(line)
        return 0

    return call


@pytest.mark.parametrize(
    "place, call, planted, told",
    [
        ("figures", "figures", raising(KeyError("x")), "KeyError"),
        ("figures", "figures", answering(Report("nl-bridge", code=599)), "599"),
        ("figures", "figures", raising(DriverFault("x")), "a fault of the driver"),
        (
            "verify",
            "verify",
            answering(Report("nl-bridge", claim="optimal", text="optimal 9")),
            "is told",
        ),
        ("run_front", "front", printing("optimal 1", "optimal 2"), "several verdicts"),
        ("run_front", "front", printing("a fault of the driver: x"), "a fault of the driver"),
    ],
)
@pytest.mark.needs("program")
def test_what_is_planted_is_found(
    in_folder: Workspace,
    monkeypatch: pytest.MonkeyPatch,
    place: str,
    call: str,
    planted: Union[Callable[..., Report], Callable[..., int]],
    told: str,
) -> None:
    """By one call of a case; a seed decides the files."""
    monkeypatch.setattr(cases if place == "run_front" else bridge_drivers, place, planted)
    monkeypatch.setattr(Case, "_calls", lambda case: (getattr(case, call),))
    monkeypatch.setattr(Case, "_false_program", lambda case: "bridge")
    in_folder.write("m.nl", MODEL)
    in_folder.write("m.certificate", "certificate 1\n")
    monkeypatch.setattr(Case, "_model", lambda case: "m.nl")
    finding = Case(1, Path(in_folder.folder)).run()
    assert isinstance(finding, Finding) and told in finding.what
