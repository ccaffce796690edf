"""The calls of Python are functions of values: nothing is taken apart, and what cannot be done is raised."""

from __future__ import annotations

import logging
import math
import os
import subprocess
import sys
from fractions import Fraction
from pathlib import Path
from typing import List

import pytest

from bridge_drivers import (
    FileFault,
    ModelRefused,
    ProgressEvent,
    WrongOption,
    certify,
    explain,
    figures,
    model_of_arrays,
    solve,
    verify,
)
from running.places import DRIVERS, EXAMPLES
from running.workspace import Workspace

KNAP = [10, 7, 12], [[6, 5, 8]]  # values and weights of `knap`
NEEDS = pytest.mark.needs("program", "mps", "cbc", "clp")
INTERRUPTED = """
import os, signal, sys, threading
from bridge_drivers import SolveInterrupted, solve
threading.Timer(2.0, os.kill, (os.getpid(), signal.SIGINT)).start()
try:
    solve("knap", "cbc", program=sys.argv[1], check=False)
except KeyboardInterrupt as fault:
    assert isinstance(fault, SolveInterrupted)
    print(fault.report.text)
try:
    signal.raise_signal(signal.SIGINT)
except KeyboardInterrupt:
    print("the handler is Python's again")
"""


@NEEDS
def test_no_argument_is_a_word(in_folder: Workspace) -> None:
    """An empty path is none, and what stands behind it is what it is."""
    in_folder.copy_files(EXAMPLES)
    before = in_folder.names()
    report = solve("knap", "cbc", certificate="", timelim=5)
    assert (report.text, report.certificate) == ("optimal 17", None)
    assert in_folder.names() == before


@NEEDS
def test_a_path_with_all_that_words_have(in_folder: Workspace) -> None:
    in_folder.copy_files(EXAMPLES)
    name = "a = 'b' timelim=1 $c"
    report = solve("knap", "cbc", certificate=Path(name))
    assert report.certificate == name and in_folder.path(name).exists()
    assert verify("knap", name).claim == "optimal"


@NEEDS
def test_the_environment_is_no_argument(
    in_folder: Workspace, monkeypatch: pytest.MonkeyPatch
) -> None:
    """Options of a variable are those of the command."""
    in_folder.copy_files(EXAMPLES)
    monkeypatch.setenv("bridge_cbc_options", "check=0 solution=other")
    assert solve("knap", "cbc").text == "optimal 17"
    assert not in_folder.path("other").exists()


@NEEDS
def test_numbers_are_fractions(in_folder: Workspace) -> None:
    in_folder.copy_files(EXAMPLES)
    report = solve("diet", "clp")
    assert report.value == Fraction(22, 5)
    assert report.values is not None and report.values["b"] == Fraction(4, 5)
    assert report.duals is not None and set(map(type, report.duals.values())) == {Fraction}
    assert dict(report.values.texts)["b"] == "0.8"


@NEEDS
def test_a_certificate_that_cannot_be_kept(in_folder: Workspace) -> None:
    in_folder.copy_files(EXAMPLES)
    with pytest.raises(FileFault) as caught:
        solve("knap", "cbc", certificate="no/such/folder")
    assert (caught.value.status, caught.value.report.claim) == (5, None)
    with pytest.raises(FileFault):
        solve("knap", "cbc", certificate="knap.nl", overwrite=True)


@NEEDS
def test_progress(in_folder: Workspace, caplog: pytest.LogCaptureFixture) -> None:
    """What is known is told to a function and to the log; a fault of the function ends nothing."""
    in_folder.copy_files(EXAMPLES)
    script = in_folder.script(
        "told",
        'echo "Cbc0010I After 3 nodes, 2 on tree, -16 best solution, best possible -18.5 (0.1 seconds)"\n'
        'exec cbc "$@"',
    )
    events: List[ProgressEvent] = []

    def note(event: ProgressEvent) -> None:
        events.append(event)
        raise ZeroDivisionError

    with caplog.at_level(logging.DEBUG, "bridge_drivers"):
        report = solve("knap", "cbc", program=script, on_progress=note)
    assert report.text == "optimal 17"
    first = events[0]
    assert (first.stage, first.incumbent, first.bound) == ("cbc", 16.0, 18.5)
    assert first.numbers["nodes"] == 3
    names = {record.name for record in caplog.records}
    assert {"bridge_drivers", "bridge_drivers.solver", "bridge_drivers.progress"} <= names


@NEEDS
def test_models_in_memory(in_folder: Workspace) -> None:
    in_folder.copy_files(EXAMPLES)
    for name in ("knap.nl", "mill.mps"):
        data = in_folder.read(name)
        given, known = solve(data, "cbc"), solve(name, "cbc")
        assert given.value == known.value and given.sums["model"] == known.sums["model"]
        assert given.model == "the given model"
    knap = in_folder.read("knap.nl")
    assert verify(knap, "knap.certificate").claim == "optimal"
    assert figures(knap).stats == figures("knap").stats
    told = explain(knap, "knap.certificate").explained
    assert told is not None and told["holds"]
    with pytest.raises(ModelRefused):
        solve(in_folder.read("product.nl"), "cbc")
    with pytest.raises(WrongOption, match="beside a model in memory"):
        solve(knap, "cbc", wantsol=1)


@NEEDS
def test_arrays(in_folder: Workspace) -> None:
    costs, weights = KNAP
    model = model_of_arrays(costs, weights, row_upper=12, upper=1, integer=True, maximise=True)
    report = solve(model, "cbc", prove=True)
    assert report.text == "optimal 17" and report.values is not None
    assert list(report.values.values()) == [1, 1, 0]
    relaxed = certify(
        model_of_arrays(costs, weights, -math.inf, 12, upper=1, maximise=True), solver="clp"
    )
    assert relaxed.claim == "optimal" and relaxed.value == 19
    assert in_folder.names() == set()


@NEEDS
def test_ctrl_c(in_folder: Workspace) -> None:
    """It is a KeyboardInterrupt, with the answer that the solver gave to it."""
    in_folder.copy_files(EXAMPLES)
    solver = in_folder.script("slow", 'trap : INT\nsleep 60 &\nwait\nkill $!\nexec cbc "$@"')
    done = subprocess.run(
        [sys.executable, "-c", INTERRUPTED, str(solver)],
        capture_output=True,
        text=True,
        check=False,
        env={**os.environ, "PYTHONPATH": str(DRIVERS)},
        timeout=300,
    )
    assert done.returncode == 0, done.stderr
    assert done.stdout.split("\n")[0] == "not proved: check=0"
    assert "the handler is Python's again" in done.stdout


def test_no_function_hides_a_package() -> None:
    code = "import bridge_drivers.exact.search, bridge_drivers.api; print(bridge_drivers.solve)"
    done = subprocess.run(
        [sys.executable, "-c", code],
        capture_output=True,
        text=True,
        check=False,
        env={**os.environ, "PYTHONPATH": str(DRIVERS)},
    )
    assert done.returncode == 0 and done.stdout.startswith("<function solve")


@NEEDS
def test_a_page_that_cannot_be_written(in_folder: Workspace) -> None:
    in_folder.copy_files(EXAMPLES)
    with pytest.raises(FileFault, match="is not written") as caught:
        explain("knap", "knap.certificate", html="no/such/folder.html")
    report = caught.value.report
    assert (report.status, report.claim) == (5, "optimal")
