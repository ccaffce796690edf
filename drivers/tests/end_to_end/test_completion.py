"""What shells complete, by the shells themselves where they are there."""

from __future__ import annotations

import os
import pty
import re
import select
import signal
import time
from typing import NamedTuple, Sequence

import pytest

from running.places import BIN
from running.waiting import SECONDS
from running.workspace import Workspace


class Completion(NamedTuple):
    """What is typed, and what a shell offers."""

    typed: str
    offered: Sequence[str]


# In a folder with these files.
FILES = ("a.nl", "a.certificate", "b.txt", "c.mps", "c.mps.gz", "c.gz", "d e.nl", "d *.nl")
BASH = [
    Completion("bridge-cbc knap pro", ["prove="]),
    Completion("bridge-cbc knap prove =", ["0", "1"]),
    Completion("bridge-cbc knap only = m", ["mps"]),
    Completion("bridge-glpsol k x", ["xcheck="]),
    Completion("/usr/bin/bridge-certify knap driver = c", ["cbc", "clp"]),
    Completion("bridge-cbc k x", []),
    Completion("bridge-cbc k -A", ["-AMPL"]),
    Completion("bridge-cbc a", ["a.nl"]),
    Completion("bridge-cbc c", ["c.mps", "c.mps.gz"]),
    Completion("bridge-cbc d", ["d *.nl", "d e.nl"]),
    Completion("nl-bridge verify d", ["d *.nl", "d e.nl"]),
    Completion("bridge-cbc a solution = d", ["d *.nl", "d e.nl"]),
    Completion("bridge-cbc c.mps format = f", ["fixed", "free"]),
    Completion("bridge-cbc a certificate = a.c", ["a.certificate"]),
    Completion("nl-bridge verify a.nl a", ["a.certificate", "a.nl"]),
    Completion("nl-bridge ex", ["explain", "export"]),
    Completion("nl-bridge explain --h", ["--html"]),
    Completion("nl-bridge stats m.nl js", ["json=1"]),
    Completion("nl-bridge completion z", ["zsh"]),
]
FISH = [
    Completion("bridge-cbc knap prov", ["prove=0", "prove=1"]),
    Completion("nl-bridge veri", ["verify", "verify_fixed", "verify_mps"]),
    Completion("bridge-certify knap driver=gl", ["driver=glpsol"]),
    Completion("nl-bridge completion f", ["fish"]),
    Completion("nl-bridge help bridge-cer", ["bridge-certify"]),
]
# What is added to what is typed.
ZSH = [
    Completion("bridge-cbc knap prov", ["e="]),
    Completion("nl-bridge veri", ["fy"]),
    Completion("bridge-certify knap driver=gl", ["psol"]),
]


def typed_words(case: Completion) -> str:
    """The name of a case."""
    return case.typed


ASK_BASH = """source {folder}/completion
COMP_WORDS=({words}) COMP_CWORD=$(({count} - 1))
_nl_bridge 2>/dev/null
printf '%s\\n' "${{COMPREPLY[@]}}"
"""


def completion(workspace: Workspace, shell: str) -> str:
    """The text that a shell reads."""
    ended = workspace.run("nl-bridge", "completion", shell)
    assert ended.status == 0, ended.text
    return ended.out


@pytest.mark.parametrize("shell", ["bash", "fish", "zsh"])
def test_all_commands(workspace: Workspace, shell: str) -> None:
    """The text has each command."""
    text = completion(workspace, shell)
    for name in os.listdir(BIN):
        assert f" {name}" in text


@pytest.mark.needs("bash")
@pytest.mark.parametrize("case", BASH, ids=typed_words)
def test_bash(workspace: Workspace, case: Completion) -> None:
    """Words of options, their values, and files of the kinds that a command takes."""
    workspace.write("completion", completion(workspace, "bash"))
    for name in FILES:
        workspace.write(name, "")
    words = case.typed.split()
    code = ASK_BASH.format(
        folder=workspace.folder, words=" ".join(f"'{word}'" for word in words), count=len(words)
    )
    ended = workspace.run_process(["bash", "-c", code])
    assert sorted(filter(None, ended.out.split("\n"))) == list(case.offered)
    assert ended.err == ""


@pytest.mark.needs("fish")
@pytest.mark.parametrize("case", FISH, ids=typed_words)
def test_fish(workspace: Workspace, case: Completion) -> None:
    """Words of options with their values, and commands."""
    path = workspace.write("completion", completion(workspace, "fish"))
    code = f"source {path}; complete -C '{case.typed}'"
    ended = workspace.run_process(
        ["fish", "--no-config", "-c", code], {"HOME": str(workspace.folder)}
    )
    assert re.findall(r"(?m)^[^\t\n]+", ended.out) == list(case.offered)
    assert ended.err == ""


@pytest.mark.needs("zsh")
def test_zsh(workspace: Workspace) -> None:
    """As it is typed, on a terminal of its own."""
    workspace.write("_nl-bridge", completion(workspace, "zsh"))
    child, terminal = pty.fork()
    if child == 0:
        os.execvpe("zsh", ["zsh", "-f", "-i"], {**os.environ, "TERM": "dumb"})
    folder = workspace.folder
    try:
        os.write(
            terminal,
            f"PS1='> '; fpath=({folder} $fpath); autoload -Uz compinit; "
            f"compinit -u -d {folder}/dump; print rea''dy\n".encode(),
        )
        shown_until(terminal, "ready")
        for typed, (added,) in ZSH:
            os.write(terminal, f"{typed}\t".encode())
            assert typed + added in shown_until(terminal, added).replace("\x07", "")
            os.write(terminal, b"\x15\n")
    finally:
        os.kill(child, signal.SIGKILL)
        os.waitpid(child, 0)
        os.close(terminal)


def shown_until(terminal: int, text: str) -> str:
    """What a terminal shows until a text is there, or nothing more is waited for."""
    shown = ""
    end = time.monotonic() + SECONDS
    while text not in shown and time.monotonic() < end:
        if select.select([terminal], [], [], 0.2)[0]:
            shown += os.read(terminal, 4096).decode("utf-8", "replace")
    return shown
