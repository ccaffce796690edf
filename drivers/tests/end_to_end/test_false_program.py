"""A program `bridge` that is not the proved one: nothing that it says of a certificate is told as proved."""

from __future__ import annotations

import re
import shlex
from typing import Sequence

import pytest

from running.places import EXAMPLES, program
from running.workspace import Workspace

PROVED = re.compile(r"(?m)^(?:optimal|feasible|within|bound) \S+$|^(?:infeasible|unbounded)$")
ANSWERS = [
    "echo optimal 99; exit 1",
    "echo leaf 0 gap 3; exit 0",
    "echo optimal 99; echo optimal 17; exit 0",
    "exit 0",
    "exit 1",
    "echo optimal 1e999999999; exit 0",
    "printf 'optimal 99'; exit 0",
    "echo yes 99; exit 0",
    "yes optimal | head -c 100000; exit 0",
]


def lying(workspace: Workspace, answer: str) -> str:
    """The words that start a program which answers `verify` by a line of a shell, and else is the proved one."""
    script = workspace.script(
        "lying", f'case $1 in verify*) {answer};; esac\nexec {shlex.join(program())} "$@"'
    )
    return shlex.quote(str(script))


@pytest.mark.needs("program", "cbc", "clp")
@pytest.mark.parametrize("answer", ANSWERS)
def test_a_run_ends_with_an_error(workspace: Workspace, answer: str) -> None:
    workspace.copy_files(EXAMPLES)
    environment = {"BRIDGE": lying(workspace, answer)}
    ended = workspace.run("bridge-cbc", "knap", "-AMPL", "prove=1", environment=environment)
    assert "is not the proved one" in ended.text
    assert not PROVED.search(ended.text)
    sol = workspace.sol("knap.sol")
    assert (sol.code, sol.values) == (501, [])
    assert "is no verdict" in sol.last_line


OTHER_TEXTS = ["exit 0", "echo hello; exit 0", "echo NAME nl; exit 0", "echo ENDATA; exit 0"]


@pytest.mark.needs("program", "cbc")
@pytest.mark.parametrize("command", ["export", "return"])
@pytest.mark.parametrize("text", OTHER_TEXTS)
def test_another_text_is_the_programs_fault(workspace: Workspace, command: str, text: str) -> None:
    """Where a text is asked for and another one comes with status 0, no solver is blamed."""
    workspace.copy_files(EXAMPLES)
    false = f'case $1 in {command}) {text};; esac\nexec {shlex.join(program())} "$@"'
    environment = {"BRIDGE": shlex.quote(str(workspace.script("false", false)))}
    ended = workspace.run("bridge-cbc", "knap", "-AMPL", environment=environment)
    assert f"is not the proved one: `bridge {command}` wrote no " in ended.text
    assert "CBC" not in ended.text and "fault of the driver" not in ended.text


@pytest.mark.needs("cbc")
@pytest.mark.parametrize("words", [("bridge-cbc", "knap"), ("nl-bridge", "explain", "knap.nl")])
def test_a_program_that_says_nothing(workspace: Workspace, words: Sequence[str]) -> None:
    """As with BRIDGE=/bin/true."""
    workspace.copy_files(EXAMPLES)
    ended = workspace.run(*words, environment={"BRIDGE": "/bin/true"})
    assert ended.status != 0
    assert "is not the proved one" in ended.text and "CBC" not in ended.text


@pytest.mark.needs("program")
@pytest.mark.parametrize("answer", ANSWERS)
def test_no_certificate_is_said_to_hold(workspace: Workspace, answer: str) -> None:
    workspace.copy_files(EXAMPLES)
    environment = {"BRIDGE": lying(workspace, answer)}
    words = ("nl-bridge", "explain", "knap.nl", "knap.certificate", "--html=knap.html")
    ended = workspace.run(*words, environment=environment)
    assert ended.status == 1
    assert "is no verdict" in ended.err and "holds" not in ended.text
    assert not workspace.path("knap.html").exists()


@pytest.mark.needs("program")
@pytest.mark.parametrize("answer", ANSWERS)
@pytest.mark.parametrize(
    "words", ["verify knap.nl knap.certificate", "verify_mps mill.mps mill.certificate"]
)
def test_no_false_verdict_is_passed_on(workspace: Workspace, answer: str, words: str) -> None:
    workspace.copy_files(EXAMPLES)
    environment = {"BRIDGE": lying(workspace, answer)}
    ended = workspace.run("nl-bridge", *words.split(), environment=environment)
    assert (ended.status, ended.out) == (1, "")
    assert "is no verdict" in ended.err


NAMES = ["optimal", "infeasible\nunbounded", "not proved: x", "a\n\na", "\x1b[2K\u202e\u2066\ufffe"]


@pytest.mark.needs("program", "cbc")
@pytest.mark.parametrize("names", NAMES)
@pytest.mark.parametrize("words", ["", "wantsol=6", "outlev=1", "json=1 wantsol=2", "-s"])
def test_names_make_no_verdict(workspace: Workspace, names: str, words: str) -> None:
    """One line alone of all that is printed reads as a verdict, and each value has a name."""
    workspace.copy_files(EXAMPLES)
    workspace.write("knap.col", names + "\n")
    ended = workspace.run("bridge-cbc", "knap", *words.split())
    assert ended.status == 0, ended.text
    if "json=1" in words:
        values = workspace.report(ended, "bridge-cbc")["values"]
        assert sorted(values.values()) == ["0", "1", "1"]
    else:
        assert PROVED.findall(ended.out) == ["optimal 17"]
        assert not any(line.startswith("not proved") for line in ended.out.splitlines())
    assert not set("\x1b\u202e\u2066\ufffe") & set(ended.out)


@pytest.mark.needs("program")
@pytest.mark.parametrize(
    "text",
    [
        "",
        "certificate 1\n",
        "certificate 1\noptimal 0.5 1\n",
        "certificate 1\noptimal 0\npoint x\n",
    ],
)
def test_what_is_no_certificate_is_not_explained(workspace: Workspace, text: str) -> None:
    workspace.copy_files(EXAMPLES)
    workspace.write("m.certificate", text)
    environment = {"BRIDGE": lying(workspace, "echo optimal 99; exit 0")}
    ended = workspace.run(
        "nl-bridge", "explain", "knap.nl", "m.certificate", environment=environment
    )
    assert "is not the proved one" in ended.text
    assert "fault of the driver" not in ended.text
