"""Processes that do not want to end, that flood their output, that leave others behind; and this one's own end."""

from __future__ import annotations

import os
import signal
import subprocess
import sys
import threading
import time
from pathlib import Path
from typing import Callable, List, Sequence
from unittest import mock

import pytest
from bridge_drivers.system import processes
from bridge_drivers.system.deadline import Deadline
from bridge_drivers.system.processes import OutputLimits, Streams, run
from bridge_drivers.system.errors import Interrupted
from bridge_drivers.system.signals import SignalGate
from hypothesis import given
from hypothesis import strategies as st

PATIENCE = 120.0  # seconds that an event may take on a busy machine
LONG = "600"  # seconds of a process that is to be ended
# a program that runs another one as a driver runs a solver, and passes its first interrupt on or not
DRIVER = """
import sys
from bridge_drivers.system.deadline import Deadline
from bridge_drivers.system.processes import run
from bridge_drivers.system.signals import SIGNALS, Interrupted
SIGNALS.install()
told = (lambda: print("told", flush=True)) if sys.argv[1] == "passes" else None
try:
    print(run(sys.argv[2:], Deadline(), on_interrupt=told).status)
except Interrupted as signal:
    sys.exit(signal.status())
"""
STUBBORN = "trap '' INT TERM HUP QUIT; "


def shell(script: str) -> List[str]:
    return ["/bin/sh", "-c", script]


def wait_for(is_so: Callable[[], bool]) -> None:
    end = time.monotonic() + PATIENCE
    while not is_so():
        assert time.monotonic() < end, "it did not come"
        time.sleep(0.01)


def goes_on(number: int) -> bool:
    """Whether a process is there and is no zombie."""
    try:
        state = Path(f"/proc/{number}/stat").read_text(encoding="latin-1")
    except OSError:
        return False
    return state.rpartition(")")[2].split()[0] not in "ZX"


def wait_until_gone(numbers: Sequence[int]) -> None:
    """They were killed; those that are not this process's own are waited for by the system."""
    wait_for(lambda: not any(map(goes_on, numbers)))


def numbers_in(folder: Path, count: int) -> List[int]:
    """The processes that wrote their numbers into files of a folder, once there are so many."""

    def found() -> List[int]:
        return [int(path.read_text()) for path in folder.glob("*.pid") if path.read_text().strip()]

    wait_for(lambda: len(found()) == count)
    return found()


@pytest.mark.parametrize("status", [0, 3, 127])
def test_the_status_of_a_process(status: int) -> None:
    assert run(shell(f"exit {status}"), Deadline()).status == status


def test_the_signal_that_ended_a_process() -> None:
    assert run(shell("kill -KILL $$"), Deadline()).status == -signal.SIGKILL


def test_what_cannot_be_started(tmp_path: Path) -> None:
    plain = tmp_path / "plain"
    plain.write_text("letters")
    for path in (str(plain), "/nonexistent/cbc"):
        with pytest.raises(OSError) as caught:
            run([path], Deadline())
        assert caught.value.filename == path


def test_streams_apart() -> None:
    ended = run(shell("echo out; echo err >&2"), Deadline())
    assert (ended.output, ended.errors, ended.is_late, ended.dropped) == (
        b"out\n",
        b"err\n",
        False,
        0,
    )


def test_streams_merged() -> None:
    ended = run(shell("echo a; echo b >&2; echo c"), Deadline(), streams=Streams.MERGED)
    assert (ended.output, ended.errors) == (b"a\nb\nc\n", b"")


def test_streams_passed_on(capfd: pytest.CaptureFixture[str]) -> None:
    ended = run(shell("echo out; echo err >&2"), Deadline(), streams=Streams.PASSED_ON)
    assert ended == (0, b"", b"", False, 0)
    assert capfd.readouterr() == ("out\n", "err\n")


def test_nothing_is_read_from_standard_input() -> None:
    assert run(["cat"], Deadline()).output == b""


def test_it_runs_in_a_folder_and_in_a_group_of_its_own(tmp_path: Path) -> None:
    ended = run(shell("pwd; ps -o pgid= -p $$; echo $$"), Deadline(), folder=str(tmp_path))
    folder, group, own = ended.output.decode().split()
    assert (folder, group) == (os.path.realpath(tmp_path), own)


def test_lines_are_told_as_they_come(tmp_path: Path) -> None:
    """The second line is written when the first one was told."""
    mark = tmp_path / "mark"
    script = f"echo first; until [ -e {mark} ]; do sleep 0.01; done; printf 'second\\nrest'"
    lines = []

    def told(line: str) -> None:
        lines.append(line)
        mark.touch()

    run(shell(script), Deadline(), on_line=told)
    assert lines == ["first\n", "second\n", "rest"]


@given(
    pieces=st.lists(st.binary(max_size=40).map(lambda data: data.replace(b"a", b"\n"))),
    most=st.integers(1, 50),
)
def test_lines_are_those_of_the_stream(pieces: Sequence[bytes], most: int) -> None:
    """Whatever the pieces are that it comes in; a long line is told in pieces."""
    told: List[str] = []
    lines = processes._Lines(told.append, most)
    for piece in pieces:
        lines.add(piece)
    lines.end()
    ascii_only = b"".join(pieces).decode("latin-1").isascii()
    if ascii_only:
        assert "".join(told) == b"".join(pieces).decode("ascii")
    assert all("\n" not in line[:-1] for line in told)


@given(pieces=st.lists(st.binary(max_size=30)), most=st.integers(2, 100))
def test_the_first_and_the_last_bytes_are_held(pieces: Sequence[bytes], most: int) -> None:
    memory = processes._Memory(most)
    for piece in pieces:
        memory.add(piece)
    whole, half = b"".join(pieces), most // 2
    longest = max(map(len, pieces), default=0)
    if not memory.dropped:
        assert memory.data() == whole
        return
    first, rest = memory.data()[:half], memory.data()[half:]
    gap = b"\n[%d bytes are left out]\n" % memory.dropped
    assert rest.startswith(gap)
    last = rest[len(gap) :]
    assert (first, last) == (whole[:half], whole[half + memory.dropped :])
    assert half <= len(last) < half + longest


def test_a_flood_is_not_held() -> None:
    limits = OutputLimits(memory_bytes=1 << 16)
    size = 50_000_000
    ended = run(shell(f"yes | head -c {size}; echo the end"), Deadline(), limits)
    held = len(ended.output)
    assert held < (1 << 17)
    assert ended.output.endswith(b"the end\n")
    assert ended.dropped + held > size


def test_a_line_without_an_end_is_told_in_pieces() -> None:
    sizes = []
    limits = OutputLimits(line_bytes=1 << 12)
    script = "head -c 3000000 /dev/zero"
    run(shell(script), Deadline(), limits, on_line=lambda line: sizes.append(len(line)))
    assert sum(sizes) == 3_000_000
    assert max(sizes) < (1 << 12) + processes.PIECE


@pytest.mark.parametrize("most, size", [(1 << 20, 6), (4, 4)])
def test_a_log_has_a_limit(tmp_path: Path, most: int, size: int) -> None:
    log = tmp_path / "solver.log"
    limits = OutputLimits(log_bytes=most)
    run(shell("echo hello"), Deadline(), limits, log=str(log), streams=Streams.MERGED)
    assert log.read_bytes() == b"hello\n"[:size]


@pytest.mark.parametrize("script", ["", STUBBORN])
@pytest.mark.parametrize("streams", list(Streams))
def test_it_ends_with_its_time(tmp_path: Path, script: str, streams: Streams) -> None:
    """What it started too, and however it takes signals."""
    script += f"echo $$ >{tmp_path}/a.pid; sh -c 'echo $$ >{tmp_path}/b.pid; sleep {LONG}'; true"
    deadline = Deadline()

    def seconds_left(_: Deadline) -> float:
        return -1.0 if len(list(tmp_path.glob("*.pid"))) == 2 else 0.05

    with mock.patch.object(Deadline, "left", seconds_left):
        ended = run(shell(script), deadline, streams=streams)
    assert (ended.status, ended.is_late) == (-signal.SIGKILL, True)
    wait_until_gone(numbers_in(tmp_path, 2))


def test_what_was_written_before_the_end_of_its_time_is_held() -> None:
    seen: List[str] = []

    def seconds_left(_: Deadline) -> float:
        return -1.0 if seen else 0.05

    with mock.patch.object(Deadline, "left", seconds_left):
        ended = run(shell(f"echo incumbent 17; sleep {LONG}"), Deadline(), on_line=seen.append)
    assert (ended.output, ended.is_late) == (b"incumbent 17\n", True)


@pytest.mark.parametrize("has_notice", [True, False])
def test_a_grandchild_that_holds_the_pipe(tmp_path: Path, has_notice: bool) -> None:
    """The wait ends with the process, and the grandchild with it."""
    pid = tmp_path / "b.pid"
    holds = f"sh -c 'echo $$ >{pid}; sleep {LONG}' &"
    script = f"{holds} until [ -s {pid} ]; do sleep 0.01; done; echo done"
    pidfd_open = getattr(os, "pidfd_open", None)
    if has_notice and pidfd_open is None:
        pytest.skip("this system tells no end of a process")
    replaced = pidfd_open if has_notice else mock.Mock(side_effect=OSError("none here"))
    with mock.patch.object(os, "pidfd_open", replaced, create=True):
        ended = run(shell(script), Deadline(PATIENCE))
    assert (ended.status, ended.output, ended.is_late) == (0, b"done\n", False)
    wait_until_gone(numbers_in(tmp_path, 1))


def test_a_grandchild_that_floods_the_pipe(tmp_path: Path) -> None:
    pid = tmp_path / "b.pid"
    script = f"sh -c 'echo $$ >{pid}; exec yes' & until [ -s {pid} ]; do sleep 0.01; done; exit 5"
    limits = OutputLimits(memory_bytes=1 << 16)
    assert run(shell(script), Deadline(PATIENCE), limits).status == 5
    wait_until_gone(numbers_in(tmp_path, 1))


def test_a_process_that_closes_its_streams_first() -> None:
    assert run(shell("exec >&- 2>&-; sleep 0.1; exit 4"), Deadline()).status == 4


def test_where_a_line_cannot_be_told_the_process_ends(tmp_path: Path) -> None:
    def told(line: str) -> None:
        raise BrokenPipeError("standard output")

    with pytest.raises(BrokenPipeError):
        run(shell(f"echo $$ >{tmp_path}/a.pid; echo x; sleep {LONG}"), Deadline(), on_line=told)
    wait_until_gone(numbers_in(tmp_path, 1))


def test_without_a_shell_for_the_guard() -> None:
    start = subprocess.Popen

    def started(argv: Sequence[str], **words: object) -> object:
        if processes.GUARD in argv:
            raise FileNotFoundError("/bin/sh")
        return start(argv, **words)  # type: ignore[call-overload]  # whatever they are

    with mock.patch.object(subprocess, "Popen", started):
        assert run(["/bin/echo", "x"], Deadline()).output == b"x\n"


def test_a_process_that_is_being_started_has_ended(gate: SignalGate) -> None:
    """Nobody knew of it when the signal came."""
    started = []
    start = subprocess.Popen

    def interrupted(*words: object, **others: object) -> object:
        started.append(start(*words, **others))  # type: ignore[call-overload]  # whatever they are
        signal.raise_signal(signal.SIGTERM)
        return started[-1]

    with mock.patch.object(subprocess, "Popen", interrupted), pytest.raises(Interrupted):
        run(["sleep", LONG], Deadline())
    guard, child = started
    assert child.args == ["sleep", LONG] and child.returncode == -signal.SIGKILL
    assert guard.returncode is not None


def test_a_second_signal_does_not_break_off_the_end_of_a_process(
    gate: SignalGate, tmp_path: Path
) -> None:
    def told(line: str) -> None:
        signal.raise_signal(signal.SIGTERM)

    wait = subprocess.Popen.wait

    def waited(child: "subprocess.Popen[bytes]", timeout: "float | None" = None) -> int:
        signal.raise_signal(signal.SIGTERM)
        return wait(child, timeout)

    script = f"echo $$ >{tmp_path}/a.pid; echo x; sleep {LONG}"
    with mock.patch.object(subprocess.Popen, "wait", waited), pytest.raises(Interrupted):
        run(shell(script), Deadline(), on_line=told)
    wait_until_gone(numbers_in(tmp_path, 1))


def driver(folder: Path, *words: str) -> "subprocess.Popen[str]":
    return subprocess.Popen(
        [sys.executable, "-c", DRIVER, *words],
        stdin=subprocess.DEVNULL,
        stdout=subprocess.PIPE,
        text=True,
        cwd=folder,
        env={**os.environ, "PYTHONPATH": os.pathsep.join(sys.path)},
        preexec_fn=lambda: signal.signal(signal.SIGINT, signal.SIG_DFL),
    )


@pytest.mark.parametrize(
    "number, status",
    [
        (signal.SIGTERM, 143),
        (signal.SIGINT, 130),
        (signal.SIGHUP, 129),
        (signal.SIGQUIT, 131),
        (signal.SIGKILL, -signal.SIGKILL),
    ],
)
def test_it_ends_with_this_process(tmp_path: Path, number: signal.Signals, status: int) -> None:
    """What it started too, although none of them takes a signal that can be ignored."""
    script = (
        f"{STUBBORN} echo $$ >{tmp_path}/a.pid; "
        f"sh -c 'echo $$ >{tmp_path}/b.pid; sleep {LONG}'; true"
    )
    with driver(tmp_path, "no", *shell(script)) as child:
        found = numbers_in(tmp_path, 2)
        child.send_signal(number)
        assert child.wait(PATIENCE) == status
    wait_until_gone(found)


def is_stopped(number: int) -> bool:
    """Whether a process waits for SIGCONT, or for a child that it is just starting and that does."""
    state = Path(f"/proc/{number}/stat").read_text(encoding="latin-1")
    return state.rpartition(")")[2].split()[0] in "TD"


def test_a_stop_is_all_of_them(tmp_path: Path) -> None:
    """Ctrl-Z stops what this process started, and its children; they go on together."""
    script = f"echo $$ >{tmp_path}/a.pid; sh -c 'echo $$ >{tmp_path}/b.pid; sleep {LONG}'; true"
    with driver(tmp_path, "no", *shell(script)) as child:
        found = [child.pid, *numbers_in(tmp_path, 2)]
        child.send_signal(signal.SIGTSTP)
        wait_for(lambda: all(map(is_stopped, found)))
        child.send_signal(signal.SIGCONT)
        wait_for(lambda: not any(map(is_stopped, found)))
        child.send_signal(signal.SIGTERM)
        assert child.wait(PATIENCE) == 143
    wait_until_gone(found[1:])


@pytest.mark.parametrize("stream", ["", ">&2"])
def test_what_writes_without_end_is_ended(stream: str) -> None:
    """Where its caller wants no more than it holds, and no time ends it."""
    limits = OutputLimits(memory_bytes=1 << 16, ends_beyond=True)
    ended = run(shell(f"yes {stream}"), Deadline(), limits)
    assert ended.status == -signal.SIGKILL and ended.dropped > 0
    assert len(ended.output) + len(ended.errors) < 1 << 18


@pytest.mark.parametrize("word", ["a\0b", "\ud800"])
def test_a_word_that_is_none(word: str) -> None:
    with pytest.raises(OSError):
        run(["/bin/echo", word], Deadline())


def test_the_longest_deadline() -> None:
    assert run(shell("exit 3"), Deadline(1e300)).status == 3


def test_the_first_interrupt_is_the_programs(tmp_path: Path) -> None:
    """It may end in its own way; the second one ends the run."""
    script = f"trap 'exit 9' INT; echo $$ >{tmp_path}/a.pid; while true; do sleep 0.05; done"
    with driver(tmp_path, "passes", *shell(script)) as child:
        numbers_in(tmp_path, 1)
        child.send_signal(signal.SIGINT)
        assert child.communicate(timeout=PATIENCE)[0] == "told\n9\n"
        assert child.returncode == 0


def test_the_second_interrupt_ends_the_run(tmp_path: Path) -> None:
    script = f"{STUBBORN} echo $$ >{tmp_path}/a.pid; sleep {LONG}"
    with driver(tmp_path, "passes", *shell(script)) as child:
        found = numbers_in(tmp_path, 1)
        child.send_signal(signal.SIGINT)
        assert child.stdout is not None
        assert child.stdout.readline() == "told\n"
        child.send_signal(signal.SIGINT)
        assert child.wait(PATIENCE) == 130
    wait_until_gone(found)


def test_lines_come_as_they_are_written(tmp_path: Path) -> None:
    """A program of the C library holds its output back where that is a pipe, unless it is told."""
    fifo, told = tmp_path / "fifo", threading.Event()
    os.mkfifo(fifo)
    came = []

    def feed() -> None:
        """Gives grep a line, and ends its input once that line came back."""
        with open(fifo, "w", encoding="ascii") as file:
            file.write("here\n")
            file.flush()
            came.append(told.wait(PATIENCE))

    feeder = threading.Thread(target=feed)
    feeder.start()
    done = run(
        ["grep", "here", str(fifo)],
        Deadline(2 * PATIENCE),
        on_line=lambda line: told.set(),
        by_lines=True,
    )
    feeder.join()
    assert (done.output, came) == (b"here\n", [True])


def test_a_program_that_is_not_there_is_told_by_lines_too() -> None:
    with pytest.raises(FileNotFoundError):
        run(["/nonexistent/grep"], Deadline(PATIENCE), by_lines=True)


def test_without_the_library_of_buffers(monkeypatch: pytest.MonkeyPatch) -> None:
    monkeypatch.setattr(processes, "BUFFER_LIBRARIES", ("/nonexistent",))
    assert processes.line_buffering() == {}
    assert run(["echo", "x"], Deadline(PATIENCE), by_lines=True).output == b"x\n"
