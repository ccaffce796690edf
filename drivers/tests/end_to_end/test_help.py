"""Help in each way in which one asks for it."""

from __future__ import annotations

import re
from typing import Sequence, Set

import pytest

from running.places import SOLVERS
from running.workspace import Ended, Workspace

WORDS = (
    "check",
    "completion",
    "explain",
    "export",
    "fixed",
    "import",
    "make",
    "mps",
    "nl",
    "prove",
    "return",
    "sol",
    "stats",
    "verify",
    "verify_fixed",
    "certified",
    "verify_mps",
    "version",
)
DRIVERS = (*SOLVERS, "certify")
WIDEST = 100  # columns of a line
NO_WORDS = 3  # the status


def printed(*ways: Ended) -> str:
    """What is printed in each way, on standard output, with status 0."""
    assert len(set(ways)) == 1, ways
    assert (ways[0].status, ways[0].err) == (0, "")
    return ways[0].out


def options_in(text: str) -> Set[str]:
    """The options that the help of a driver lists."""
    return set(re.findall(r"(?m)^  (\w+) ", text.partition("\noptions:\n")[2]))


@pytest.mark.parametrize("word", WORDS)
def test_help_of_a_word(workspace: Workspace, word: str) -> None:
    """In four ways the same, with examples that are calls of it."""
    text = printed(
        workspace.run("nl-bridge", "help", word),
        workspace.run("nl-bridge", word, "--help"),
        workspace.run("nl-bridge", word, "-h"),
        workspace.run("nl-bridge", word, "x", "json=1", "-h"),
    )
    assert text.startswith("usage: nl-bridge ")
    for line in re.findall(r"(?m)^example: nl-bridge (.*)$", text):
        assert line.split()[0] == word
    assert max(map(len, text.split("\n"))) <= WIDEST


def test_help_of_nl_bridge(workspace: Workspace) -> None:
    """In five ways the same, on standard output; without words on the other, with status 3."""
    ways = [workspace.run("nl-bridge", word) for word in ("help", "-h", "-?", "--help", "-=")]
    text = printed(*ways)
    assert set(re.findall(r"(?m)^  ([a-z_]+) ", text)) == {*WORDS, "help"}
    assert workspace.run("nl-bridge") == Ended(NO_WORDS, "", text)


@pytest.mark.parametrize("driver", DRIVERS)
def test_help_of_a_driver(workspace: Workspace, driver: str) -> None:
    """In five ways the same, with ranges and defaults, and an example whose options are known."""
    command = "bridge-" + driver
    calls: Sequence[Sequence[str]] = (["-h"], ["--help"], ["help"], ["knap", "timelim=9", "-?"])
    ways = [workspace.run(command, *words) for words in calls]
    text = printed(*ways, workspace.run("nl-bridge", "help", command))
    example = text.rstrip("\n").split("\n")[-1]
    assert example.startswith(f"example: {command} ")
    for word in example.split()[3:]:
        assert word.partition("=")[0] in options_in(text)
    flat = re.sub(r"\s+", " ", text)
    assert "(0, 1 or 2; 0)" in flat
    assert "a number from 0 on" in flat


@pytest.mark.parametrize("driver", DRIVERS)
def test_help_of_options(workspace: Workspace, driver: str) -> None:
    """`-=` has a line of each option, which `help OPTION` prints, too."""
    command = "bridge-" + driver
    lines = printed(workspace.run(command, "-=")).rstrip("\n").split("\n")
    text = printed(workspace.run(command, "-h"))
    assert {line.split()[0] for line in lines} == options_in(text)
    for line in lines[:: max(1, len(lines) // 4)]:  # some of them: each is a process
        assert printed(workspace.run(command, "help", line.split()[0])) == line + "\n"
