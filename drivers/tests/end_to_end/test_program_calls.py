"""How often the proved program is called: not more than is needed to read, to prove and to answer."""

from __future__ import annotations

import shlex
from typing import List

import pytest

from running.places import EXAMPLES, program
from running.workspace import Workspace

DIVIDED = b"""g3 1 1 0
 1 1 1 0 0
 0 1
 0 0
 0 0 0
 0 0 0 1
 0 0 0 0 0
 1 1
 0 0
 0 0 0 0 0
C0
o3
v0
n3
O0 1
n0
r
1 2
b
0 0 9
k0
J0 1
0 0
G0 1
0 1
"""  # the greatest x up to 9 with x/3 at most 2


def calls_of(workspace: Workspace, command: str, *words: str) -> List[str]:
    """The commands of the proved program that a command calls."""
    log = workspace.path("calls")
    spy = workspace.script(
        "spy", f'echo "$1" >>{shlex.quote(str(log))}\nexec {shlex.join(program())} "$@"'
    )
    workspace.run(command, *words, environment={"BRIDGE": shlex.quote(str(spy))})
    return log.read_text().split()


@pytest.mark.needs("program", "cbc", "clp")
@pytest.mark.parametrize("words", [(), ("prove=1",)])
def test_an_integer_program(workspace: Workspace, words: List[str]) -> None:
    """One call reads the model, one proves, one writes the .sol."""
    workspace.copy_files(EXAMPLES)
    calls = calls_of(workspace, "bridge-cbc", "knap", "-AMPL", *words)
    assert calls == ["export", "verify", "return"]


@pytest.mark.needs("program", "cbc", "clp")
def test_a_certified_sol(workspace: Workspace) -> None:
    """With strict=1 the proved program writes it from the certificate; nothing is returned."""
    workspace.copy_files(EXAMPLES)
    calls = calls_of(workspace, "bridge-cbc", "knap", "-AMPL", "strict=1")
    assert calls == ["export", "verify", "certified"]


@pytest.mark.needs("program", "cbc", "clp")
def test_without_a_sol(workspace: Workspace) -> None:
    workspace.copy_files(EXAMPLES)
    calls = calls_of(workspace, "bridge-certify", "knap", "certificate=new.certificate")
    assert calls == ["export", "verify"]


@pytest.mark.needs("program", "cbc", "clp")
def test_a_linear_program(workspace: Workspace) -> None:
    """The duals of a .sol are judged, too."""
    workspace.copy_files(EXAMPLES)
    calls = calls_of(workspace, "bridge-clp", "diet", "-AMPL")
    assert calls == ["export", "verify", "return", "check"]


@pytest.mark.needs("program", "cbc", "clp")
def test_a_program_that_divides(workspace: Workspace) -> None:
    """What rows are multiplied by is asked for by a `return` of ones."""
    workspace.write("m.nl", DIVIDED)
    calls = calls_of(workspace, "bridge-cbc", "m", "-AMPL")
    assert calls == ["export", "return", "verify", "return", "check"]
    assert workspace.sol().last_line == "optimal 6"


@pytest.mark.needs("program", "cbc", "clp")
def test_unchecked(workspace: Workspace) -> None:
    workspace.copy_files(EXAMPLES)
    calls = calls_of(workspace, "bridge-cbc", "knap", "-AMPL", "check=0")
    assert calls == ["export", "return"]


@pytest.mark.needs("program", "mps", "cbc", "clp")
def test_an_mps_file(workspace: Workspace) -> None:
    """Both forms are read, since a text may be two programs."""
    workspace.copy_files(EXAMPLES)
    calls = calls_of(workspace, "bridge-certify", "mill.mps", "certificate=new.certificate")
    assert calls == ["mps", "fixed", "verify_mps"]


@pytest.mark.needs("program")
def test_figures(workspace: Workspace) -> None:
    workspace.copy_files(EXAMPLES)
    assert calls_of(workspace, "nl-bridge", "stats", "knap.nl") == ["export"]
