"""What is printed: escaped what is told, in colour the verdict, and progress in one line on a real terminal."""

from __future__ import annotations

import contextlib
import errno
import io
import os
import subprocess
import sys
import threading
import time
from typing import Callable, Dict, Iterator, List
from unittest import mock

import pytest
from bridge_drivers.commands import console as console_module
from bridge_drivers.commands.console import (
    Colour,
    Console,
    Destination,
    ProgressLine,
    colour_of,
)
from bridge_drivers.system.errors import BrokenOutput
from bridge_drivers.system.progress import Progress
from bridge_drivers.system.text import cut_to_width
from running.places import DRIVERS
from running.terminal import Terminal as RealTerminal, open_terminal

SECONDS = 120.0
# a program whose progress is what it reads, and that ends when nothing more is to be read
SHOWS = """
import sys
from bridge_drivers.commands import console
from bridge_drivers.system.progress import Progress
console.FIRST_SECONDS = console.EVERY_SECONDS = console.LINE_SECONDS = 0.05
progress = Progress()
told = console.Console(sys.stdout, sys.stderr)
with told.progress("bridge-cbc", progress, in_place=True):
    progress.begin("cbc")
    for line in sys.stdin:
        progress.tell(line.rstrip("\\n"))
told.error("done")
"""


class Terminal(io.StringIO):
    """A stream that says that it is a terminal."""

    def isatty(self) -> bool:
        return True


class Full(io.StringIO):
    """A stream that takes no more."""

    def write(self, text: str) -> int:
        raise OSError(errno.ENOSPC, "No space left on device")


@pytest.fixture
def xterm(monkeypatch: pytest.MonkeyPatch) -> pytest.MonkeyPatch:
    """The environment of a terminal with colours."""
    monkeypatch.setenv("TERM", "xterm")
    monkeypatch.delenv("NO_COLOR", raising=False)
    return monkeypatch


@pytest.mark.parametrize(
    "verdict, colour",
    [
        ("optimal 17", Colour.SETTLED),
        ("infeasible", Colour.SETTLED),
        ("unbounded", Colour.SETTLED),
        ("optimal 7 of objective 2", Colour.SETTLED),
        ("within 19 17", Colour.PARTLY_KNOWN),
        ("bound 3", Colour.PARTLY_KNOWN),
        ("feasible 22/5", Colour.PARTLY_KNOWN),
        ("yes 22/5", Colour.SETTLED),
        ("proved", Colour.SETTLED),
        ("not proved: time", Colour.NOT_PROVED),
        ("leaf 0 gap 17", Colour.NOT_PROVED),
    ],
)
def test_the_colour_of_a_verdict(verdict: str, colour: Colour) -> None:
    assert colour_of(verdict) is colour


@pytest.mark.parametrize(
    "stream, environment, verdict",
    [
        (Terminal, {}, "\x1b[33mfeasible 17\x1b[0m\n"),
        (Terminal, {"NO_COLOR": "1"}, "feasible 17\n"),
        (Terminal, {"TERM": "dumb"}, "feasible 17\n"),
        (io.StringIO, {}, "feasible 17\n"),
    ],
)
@pytest.mark.parametrize("destination", [Destination.OUTPUT, Destination.ERRORS])
def test_a_message(
    xterm: pytest.MonkeyPatch,
    stream: Callable[[], io.StringIO],
    environment: Dict[str, str],
    verdict: str,
    destination: Destination,
) -> None:
    """Its last line is in colour, on terminals alone; a solver's own controls stay visible beside it."""
    for name, value in environment.items():
        xterm.setenv(name, value)
    output, errors = stream(), stream()
    console = Console(output, errors)
    console.destination = destination
    console.message(["CBC: \x1b[5m\r", "feasible 17"])
    used, other = (output, errors) if destination is Destination.OUTPUT else (errors, output)
    assert (used.getvalue(), other.getvalue()) == ("CBC: \\x1b[5m\\x0d\n" + verdict, "")


def test_messages_that_go_nowhere() -> None:
    output, errors = Terminal(), Terminal()
    console = Console(output, errors)
    console.destination = Destination.NOWHERE
    console.message(["CBC: optimal", "feasible 17"])
    console.log("Coin0506I\n")
    console.output("{}\n")
    console.error("bridge-cbc: no")
    assert (output.getvalue(), errors.getvalue()) == ("{}\n", "bridge-cbc: no\n")


def test_what_is_told_is_escaped() -> None:
    output, errors = io.StringIO(), io.StringIO()
    console = Console(output, errors)
    console.line("a\x1b[1m")
    console.lines(["b\tc", "d\x07"])
    console.log("e\x9b")
    console.output("f\x1bg\n")
    console.error("h\x1b\ni")
    assert output.getvalue() == "a\\x1b[1m\nb\tc\nd\\x07\ne\\x9bf\\x1bg\n"
    assert errors.getvalue() == "h\\x1b\ni\n"


def test_an_output_that_breaks() -> None:
    with pytest.raises(BrokenOutput, match="No space left on device") as caught:
        Console(Full(), io.StringIO()).line("x")
    assert not caught.value.is_closed
    Console(io.StringIO(), Full()).error("x")


@pytest.mark.parametrize("stream", [Terminal, io.StringIO])
@pytest.mark.parametrize("in_place", [True, False])
def test_progress_in_place_or_by_lines(stream: Callable[[], io.StringIO], in_place: bool) -> None:
    """On a terminal nothing is left of it; elsewhere, and where other lines come between, it is a line each."""
    shown = stream()
    progress = Progress()
    progress.begin("cbc")
    with mock.patch.multiple(
        console_module, FIRST_SECONDS=0.001, EVERY_SECONDS=0.001, LINE_SECONDS=0.001
    ), mock.patch.object(time, "monotonic", return_value=progress.began):
        line = ProgressLine(shown, "bridge-cbc", progress, in_place=in_place)
        line.start()
        end = time.perf_counter() + SECONDS
        while shown.getvalue().count("cbc, ") < 3:
            assert time.perf_counter() < end
            time.sleep(0.001)
        line.stop()
    text = shown.getvalue()
    if in_place and stream is Terminal:
        pieces = text.split("\r\x1b[K")
        assert (pieces[0], pieces[-1], set(pieces[1:-1])) == ("", "", {"bridge-cbc: cbc, 0 s"})
    else:
        assert set(text.split("\n")) == {"bridge-cbc: cbc, 0 s", ""}


def test_nothing_is_shown_between_two_stages() -> None:
    shown = Terminal()
    with mock.patch.multiple(console_module, FIRST_SECONDS=0.001, EVERY_SECONDS=0.001):
        line = ProgressLine(shown, "bridge-cbc", Progress(), in_place=True)
        line.start()
        threading.Event().wait(0.05)
        line.stop()
    assert shown.getvalue() == ""


def test_a_stream_that_is_closed_ends_the_line() -> None:
    progress = Progress()
    progress.begin("cbc")
    with mock.patch.multiple(console_module, FIRST_SECONDS=0.001, LINE_SECONDS=0.001):
        line = ProgressLine(Full(), "bridge-cbc", progress, in_place=True)
        line.start()
        line._thread.join(SECONDS)
        assert not line._thread.is_alive()
        line.stop()


@pytest.mark.parametrize("columns", [80, 40])
def test_progress_on_a_real_terminal(columns: int) -> None:
    """One line, rewritten in place, however long it is and whatever stands in it; nothing of it stays."""
    details: List[str] = [
        "incumbent 17",
        "x" * 300,
        "bound 5",
        "größte Schranke " + "漢字" * 60,
        "\x1b[2J\r\n",
        "end",
    ]
    head = "bridge-cbc: cbc, "
    with open_terminal(columns) as terminal:
        child = subprocess.Popen(
            [sys.executable, "-c", SHOWS],
            stdin=subprocess.PIPE,
            stdout=subprocess.DEVNULL,
            stderr=terminal.theirs,
            env={**os.environ, "PYTHONPATH": str(DRIVERS), "PYTHONIOENCODING": "utf-8"},
        )
        assert child.stdin is not None
        for detail in details:
            child.stdin.write((detail.rstrip("\r\n") + "\n").encode())
            child.stdin.flush()
            mark = detail.replace("\x1b", "\\x1b").rstrip("\r\n")[:6]
            terminal.read_until(lambda: mark in "".join(terminal.lines()))
            (line,) = terminal.lines()
            is_wide = cut_to_width(head + "0 s, " + detail, columns - 1) != head + "0 s, " + detail
            assert line.startswith("cbc, " if is_wide else head)  # the command goes first
            assert "\\x0d" not in line
            assert "\\x1b[K" not in line
        child.stdin.close()
        child.wait(SECONDS)
        terminal.read_rest()
        assert terminal.lines() == ["done"]
        assert terminal.most_lines == 1


def test_progress_on_a_terminal_that_is_made_narrower() -> None:
    """Each state has the width that the terminal has then."""
    with open_terminal(80) as terminal, showing(terminal) as tell:
        for columns in (80, 30, 60, 12):
            terminal.resize(columns)
            detail = f"of {columns} " + "x" * 100
            tell(detail)
            # what a terminal shows of the words of that state
            shown = "cbc, 0 s, " + detail
            terminal.read_until(
                lambda: [line[9:] for line in terminal.lines()] == [shown[: columns - 1][9:]]
            )
        assert terminal.most_lines == 1


def test_progress_on_a_dumb_terminal() -> None:
    """It can rewrite nothing: there is a line now and then, without a control."""
    with open_terminal(80) as terminal, showing(terminal, TERM="dumb") as tell:
        tell("incumbent 17")
        terminal.read_until(lambda: terminal.raw.count(b"incumbent 17\r\n") > 1)
        assert b"\x1b" not in terminal.raw


@contextlib.contextmanager
def showing(terminal: RealTerminal, **environment: str) -> Iterator[Callable[[str], None]]:
    """A block in which a program shows progress on a terminal; what it is told, it shows."""
    child = subprocess.Popen(
        [sys.executable, "-c", SHOWS],
        stdin=subprocess.PIPE,
        stdout=subprocess.DEVNULL,
        stderr=terminal.theirs,
        env={**os.environ, "TERM": "xterm", "PYTHONPATH": str(DRIVERS), **environment},
    )
    assert child.stdin is not None

    def tell(detail: str) -> None:
        assert child.stdin is not None
        child.stdin.write((detail + "\n").encode())
        child.stdin.flush()

    try:
        yield tell
    finally:
        child.stdin.close()
        child.wait(SECONDS)
