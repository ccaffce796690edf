"""The verdict of a run, the code above it, and what is told beside both."""

from __future__ import annotations

from typing import NamedTuple, Sequence

import pytest

from builders.nl_text import most, nl_text, real, row, whole
from builders.small_models import MODELS
from running.places import program
from running.stored_runs import StoredRun, stored_runs
from running.workspace import Workspace

NOT_SETTLED = 7  # the exit status


@pytest.mark.needs("program", "clp_library")
@pytest.mark.parametrize(
    ("without", "status", "code"),
    [([], 0, 0), (["clp", "fractions"], NOT_SETTLED, 100)],
    ids=["proved", "open"],
)
def test_strict(workspace: Workspace, without: Sequence[str], status: int, code: int) -> None:
    """A status of its own where the question is left open."""
    workspace.write_model("knap")
    run = stored_runs("cbc")["knap"]
    ended = workspace.replay("cbc", run, "m", "strict=1", "-s", without=without)
    assert (ended.status, workspace.sol().code) == (status, code)


# max 10 x + 7 y + 12 z in whole numbers, 10 x + 7 y at most 12 z + 18: there is no greatest value.
OPEN_END = nl_text([whole()] * 3, [row(None, 18, 10, 7, -12)], [most(10, 7, 12)])


@pytest.mark.needs("program", "clp_library")
@pytest.mark.parametrize(
    ("text", "without", "code", "verdict"),
    [
        (MODELS["knap"].text, ["rays"], 0, "optimal 17"),
        (OPEN_END, ["rays", "fractions"], 100, "feasible 17"),
        (OPEN_END, [], 300, "unbounded"),
    ],
    ids=["bounded", "no-time", "ray"],
)
def test_a_ray_that_there_was_no_time_for(
    workspace: Workspace, text: bytes, without: Sequence[str], code: int, verdict: str
) -> None:
    """A point alone earns no code 0 where the objective may have no end."""
    workspace.write("m.nl", text)
    workspace.replay("cbc", stored_runs("cbc")["knap"], "m", "-AMPL", without=without)
    sol = workspace.sol()
    assert (sol.code, sol.last_line) == (code, verdict)
    assert ("(code 100: no bound is proved)" in sol.message[0]) == (code == 100)


REFUSING_BRIDGE = """#!/bin/sh
for last; do :; done
if [ "$1" = return ] && grep -q '^row c0 1$' "$last" && grep -q '^col ' "$last"; then
    echo 'refused row 0: dual too wide' >&2
    exit 2
fi
exec {program} "$@"
"""


@pytest.mark.needs("program")
def test_duals_that_do_not_fit(workspace: Workspace) -> None:
    """They are left out, which a line tells; the values are checked without them."""
    workspace.write_model("product")
    bridge = workspace.write("bridge", REFUSING_BRIDGE.format(program=" ".join(program())))
    run = stored_runs("clp")["product"]
    workspace.replay("clp", run, "m", "-AMPL", environment={"BRIDGE": str(bridge)})
    sol = workspace.sol()
    assert sol.message[1].startswith("duals are left out: ")
    assert "dual too wide" in sol.message[1]
    assert sol.last_line == "optimal 19"
    assert (len(sol.values), sol.duals, sol.suffixes) == (2, [], {})


@pytest.mark.needs("program")
def test_values_that_are_printed(workspace: Workspace) -> None:
    """Those of the model: the column and the row that a divided objective needs are not its."""
    workspace.write_model("thirds")
    ended = workspace.replay("esolver", stored_runs("esolver")["thirds"], "m", "wantsol=14", "-e")
    names = [line.split()[0] for line in ended.out.splitlines()]
    assert names == ["values", "x0", "x1", "duals", "c0", "c1"]


@pytest.mark.needs("program", "glpsol")
def test_a_screen_of_values(workspace: Workspace) -> None:
    """Without asking, at most twenty are printed, of those that are not 0."""
    columns = [real(j % 2, j % 2) for j in range(100)]
    workspace.write("m.nl", nl_text(columns, [], [most(1)]))
    ended = workspace.run("bridge-glpsol", "m", "-e")
    lines = ended.out.splitlines()
    heading, *shown = lines[lines.index("optimal 0") + 1 :]
    assert heading == "values"
    assert shown[:20] == [f"  x{j} 1" for j in range(1, 40, 2)]
    assert shown[20].startswith("  (80 values more: wantsol=2 prints all")
    assert len(shown) == 21


class Failure(NamedTuple):
    """A run that has no answer: the model, and what comes of it over a stored run."""

    name: str
    text: bytes
    driver: str
    stored: str
    words: Sequence[str]
    code: int
    status: int
    told: str


FAILURES = [
    Failure(
        "nonlinear",
        MODELS["nonlinear"].text,
        "cbc",
        "",
        [],
        501,
        2,
        "m.nl line 12: constraint 0: (x0 * x1) is nonlinear",
    ),
    Failure(
        "binary-cut",
        b"b3 1 1 0\n 1 1 1 0 0\n",
        "cbc",
        "knap",
        [],
        501,
        2,
        "ends too soon or is damaged",
    ),
    Failure(
        "objective",
        MODELS["knap"].text,
        "cbc",
        "knap",
        ["objno=3"],
        501,
        2,
        "m.nl: objno=3: no such objective: the file has 1, and objno counts from 1",
    ),
    Failure(
        "integers",
        MODELS["knap"].text,
        "clp",
        "",
        [],
        505,
        2,
        "CLP takes no integer variables, and the model has 3; relax=1",
    ),
    Failure(
        "no-answer",
        MODELS["knap"].text,
        "cbc",
        "",
        [],
        506,
        1,
        "CBC gave no usable answer: it wrote no answer",
    ),
    Failure(
        "quote",
        MODELS["knap"].text,
        "cbc",
        "knap",
        ["extra='"],
        502,
        3,
        "extra: a quote does not end",
    ),
    Failure(
        "unknown-option",
        MODELS["knap"].text,
        "cbc",
        "knap",
        ["speed=9"],
        502,
        3,
        "unknown option speed; -= lists the options",
    ),
    Failure(
        "value-of-an-option",
        MODELS["knap"].text,
        "cbc",
        "knap",
        ["objno=0"],
        502,
        3,
        "objno=0: a whole number from 1 to 4294967296 is wanted",
    ),
]


@pytest.mark.needs("program")
@pytest.mark.parametrize("more", [["-AMPL"], [], ["-AMPL", "failexit=1"]], ids=" ".join)
@pytest.mark.parametrize("case", FAILURES, ids=lambda case: str(case.name))
def test_failure(workspace: Workspace, case: Failure, more: Sequence[str]) -> None:
    """With -AMPL a .sol and 0, without it none, with failexit none and the status."""
    workspace.write("m.nl", case.text)
    workspace.write("m.sol", "an older answer")
    run = stored_runs(case.driver).get(case.stored, StoredRun())
    ended = workspace.replay(case.driver, run, "m", *more, *case.words)
    assert ended.status == (0 if more == ["-AMPL"] else case.status), ended.text
    assert case.told in ended.err
    if more == ["-AMPL"]:
        sol = workspace.sol()
        assert (sol.code, sol.values, sol.duals) == (case.code, [], [])
        assert case.told in sol.text
        assert "proved" not in sol.text
    elif more:
        assert not workspace.path("m.sol").exists(), "an older answer stays"
