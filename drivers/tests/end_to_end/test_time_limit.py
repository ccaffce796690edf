"""`timelim` is the limit of a whole run, and what is told of its shares.

The solvers are false ones, which say what they were told, and wait to be ended; no test goes by
how fast the machine is.
"""

from __future__ import annotations

import re
import time

import pytest

from builders.families import family_model
from running.workspace import Call, SolContent, Workspace

LONG = 9000.0  # seconds: what a busy machine takes until the solver starts is little of it
LATE = 1000.0  # more than that
# how each solver is told its seconds
TOLD_SECONDS = {
    "cbc": r"-timeMode elapsed -sec (\S+)",
    "clp": r"-sec (\S+)",
    "glpsol": r"--tmlim (\S+)",
    "lp_solve": r"-timeout (\S+)",
    "esolver": r"-R (\S+)",
}


def told_seconds(workspace: Workspace, driver: str) -> float:
    """What the false solver was told, the last time it was called."""
    found = re.findall(TOLD_SECONDS[driver], workspace.solver_calls())
    assert found, workspace.solver_calls()
    return float(found[-1])


@pytest.mark.needs("program")
@pytest.mark.parametrize("driver", TOLD_SECONDS)
@pytest.mark.parametrize("prove, share", [(0, 0.9), (1, 0.45)])
def test_the_share_of_the_solver(
    workspace: Workspace, driver: str, prove: int, share: float
) -> None:
    """A tenth is kept for verdicts, and half of the rest for a certificate."""
    workspace.write_model("product")
    workspace.check(
        Call(f"bridge-{driver} m -AMPL timelim={LONG:g} prove={prove}", stored="product")
    )
    told = told_seconds(workspace, driver)
    assert share * (LONG - LATE) <= told <= share * LONG + 1  # some solvers take whole seconds


@pytest.mark.needs("program", "clp_library")
def test_both_shares_are_told_where_they_were_used(workspace: Workspace) -> None:
    """Of a solver that took its whole share, and a search that had no end."""
    workspace.write("m.nl", family_model("packing", 25))
    workspace.script(
        "cbc",
        'while [ "$1" != -sec ]; do shift; done; sleep "$2"; '
        'echo "Stopped on time (no integer solution - continuous used) - objective value 0" '
        ">answer.txt; echo",
    )
    began = time.monotonic()
    ended = workspace.check(
        Call("bridge-cbc m prove=1 jobs=1 timelim=8 solver=FOLDER/cbc", ends_with="\n")
    )
    taken = time.monotonic() - began
    found = re.search(r"timelim=8: CBC had (\S+) s, the certificate had (\S+) s", ended.text)
    assert found, ended.text
    solver, search = map(float, found.groups())
    assert 0 < solver <= 3.6 and 0 < search <= 7.2
    assert solver + search <= 8.0
    assert taken >= solver  # and no upper limit: the machine may be busy


@pytest.mark.needs("program")
@pytest.mark.parametrize("words", ["", "prove=1", "strict=1"])
def test_a_model_that_takes_too_long_to_read(workspace: Workspace, words: str) -> None:
    """The proved program is ended with the run; no solver is asked."""
    workspace.write_model("knap")
    workspace.script("bridge", "sleep 1000 & sleep 1000")
    workspace.script("cbc", "touch asked")
    code = 100 if words == "strict=1" else 450
    workspace.check(
        Call(
            f"bridge-cbc m -AMPL timelim=0.1 bridge=FOLDER/bridge solver=FOLDER/cbc {words}",
            sol=SolContent(code=code, matches=["^.*stopped at the time limit, before the model"]),
            files={"asked": False},
        )
    )


@pytest.mark.needs("program")
def test_a_solver_that_does_not_end(workspace: Workspace) -> None:
    """It is killed, and how the limit was divided is told."""
    workspace.write_model("knap")
    workspace.script("cbc", "sleep 1000 & sleep 1000")
    workspace.check(
        Call(
            "bridge-cbc m timelim=5 solver=FOLDER/cbc",
            matches=[
                "stopped at the time limit without a feasible solution",
                r"\ntimelim=5: CBC had [\d.]+ s\n",
            ],
        )
    )
