"""Starts processes, follows what they write, and ends them.

No other module starts a process. Each one is started in a group of its own. When `run` returns or
raises, the process and all that it started in that group has ended: also where a signal ends this
process, its terminal is closed, or it is killed.
"""

from __future__ import annotations

import collections
import contextlib
import enum
import errno
import math
import os
import selectors
import signal
import subprocess
from typing import (
    IO,
    BinaryIO,
    Callable,
    Deque,
    Iterator,
    List,
    Mapping,
    NamedTuple,
    Optional,
    Sequence,
)

from .files import new_file
from .signals import SIGNALS
from .deadline import Deadline

PIECE = 1 << 16  # bytes that are read at once
LONGEST_WAIT = 3600.0  # seconds of one look at a process, of which there may be more
POLL = 0.02  # seconds between two looks at a process, where the system does not tell its end
DRAINED = 1 << 20  # bytes that are still read of a stream when its process has ended
# where coreutils has the library of `stdbuf`
BUFFER_LIBRARIES = (
    "/usr/libexec/coreutils/libstdbuf.so",
    "/usr/lib/coreutils/libstdbuf.so",
    "/usr/local/libexec/coreutils/libstdbuf.so",
)
# what stands beside each process, and kills its group where this process ends before it says so:
# it is told the number of the group, and later that all is well
GUARD = 'read group || exit; read end || kill -s KILL -- "-$group"'


class Guarded(NamedTuple):
    """A process, and what kills its group where this process ends wordlessly; None: no guard."""

    process: subprocess.Popen[bytes]
    guard: Optional[subprocess.Popen[bytes]]


Sink = Callable[[bytes], None]  # is given each piece of a stream as it comes, and b"" at its end


class OutputLimits(NamedTuple):
    """How much is held of what a process writes; the rest is read and dropped.

    Attributes:
        line_bytes: Of one line: a longer one is told in pieces.
        memory_bytes: Of one stream. The first and the last half of them are held of a longer one.
        log_bytes: Of the file that gets a log.
        ends_beyond: A process that writes more than is held in memory is killed.
    """

    line_bytes: int = 1 << 16
    memory_bytes: int = 1 << 26
    log_bytes: int = 1 << 28
    ends_beyond: bool = False


class Streams(enum.Enum):
    """Where a process writes to."""

    APART = enum.auto()  # its output and its errors are held apart
    MERGED = enum.auto()  # both are held as they come
    PASSED_ON = enum.auto()  # to the streams of this process


class Finished(NamedTuple):
    """How a process ended.

    Attributes:
        status: Its exit status; minus the number of the signal that ended it.
        output: What it wrote to standard output, and with merged streams to standard error.
        errors: What it wrote to standard error, where the streams are apart.
        is_late: It was killed since its time was over.
        dropped: How many bytes of both are not held.
    """

    status: int
    output: bytes = b""
    errors: bytes = b""
    is_late: bool = False
    dropped: int = 0


def run(
    argv: Sequence[str],
    deadline: Deadline,
    limits: OutputLimits = OutputLimits(),
    on_line: Optional[Callable[[str], None]] = None,
    *,
    folder: Optional[str] = None,
    streams: Streams = Streams.APART,
    log: Optional[str] = None,
    on_interrupt: Optional[Callable[[], None]] = None,
    by_lines: bool = False,
) -> Finished:
    """Runs a program to its end, or to that of its time. It reads nothing from standard input.

    When this returns or raises, the program and all that it started in its group has ended.

    Args:
        argv: The program and its words.
        deadline: When it is over, the program is killed at once.
        limits: Of what is held of its output; the rest is read and dropped.
        on_line: Is told each line of the output, with its end, as it comes; a long one in pieces.
        folder: Where it runs.
        streams: Where it writes to; of PASSED_ON nothing is held, and no line is told.
        log: The path of a file that gets the output as it comes.
        on_interrupt: Where it is given, the first interrupt of this process is sent to the program,
            which may end in its own way, and told here.
        by_lines: It writes each line at once, where it would hold some thousand bytes back.

    Raises:
        OSError: It cannot be started (a word with a byte 0 among others), or the log not be written.
        Interrupted: A signal came, and the program was killed.
    """
    memory = _Memory(limits.memory_bytes)
    errors = _Memory(limits.memory_bytes)
    lines = _Lines(on_line, limits.line_bytes)
    with _open_log(log, limits) as to_log, SIGNALS.deferred():
        started = _started(argv, streams, folder, by_lines=by_lines)
        child = started.process
        with _ended_at_last(started):
            readers = [
                *_readers_of(child.stdout, [memory.add, lines.add, *to_log]),
                *_readers_of(child.stderr, [errors.add]),
            ]
            with _interrupts_to(child, on_interrupt), SIGNALS.delivered():
                held = [memory, errors] if limits.ends_beyond else []
                is_late = _follow(child, readers, deadline, held)
                lines.end()
    dropped = memory.dropped + errors.dropped
    return Finished(child.returncode, memory.data(), errors.data(), is_late, dropped)


def signal_group(child: subprocess.Popen[bytes], number: int) -> None:
    """Sends a signal to a process that was not waited for, and to all that it started in its group.

    One that has ended already is left out.
    """
    with contextlib.suppress(ProcessLookupError, PermissionError):
        os.killpg(child.pid, number)


@contextlib.contextmanager
def _open_log(path: Optional[str], limits: OutputLimits) -> Iterator[List[Sink]]:
    """A block in which a log is written: its one sink in a list, empty where there is no path.

    Args:
        path: Of the file, which is written from its start; None for no log.
    """
    if path is None:
        yield []
        return
    with new_file(path) as file:
        yield [_Log(file, limits.log_bytes).add]


def _readers_of(stream: Optional[IO[bytes]], sinks: Sequence[Sink]) -> List[_Reader]:
    """A list of what reads a stream; empty where the process writes to a stream of this process.

    Args:
        stream: The end that this process reads; None where there is none.
        sinks: Are given each piece that is read.
    """
    return [] if stream is None else [_Reader(stream, sinks)]


def _started(
    argv: Sequence[str], streams: Streams, folder: Optional[str], *, by_lines: bool = False
) -> Guarded:
    """Starts a program in a session, and so a group, of its own, with nothing on standard input.

    Its guard is there before it is, so that it does not outlive this process however soon that
    ends.

    Args:
        folder: Where it runs; None: where this process does.
        by_lines: It writes each line at once.

    Raises:
        OSError: It cannot be started.
    """
    output = None if streams is Streams.PASSED_ON else subprocess.PIPE
    guard = _guard()
    try:
        child = subprocess.Popen(
            argv,
            stdin=subprocess.DEVNULL,
            stdout=output,
            stderr=subprocess.STDOUT if streams is Streams.MERGED else output,
            cwd=folder,
            env={**os.environ, **line_buffering()} if by_lines else None,
            start_new_session=True,
        )
    except ValueError as fault:  # a byte 0, or what no word of this system is
        _dismiss(guard)
        raise OSError(errno.EINVAL, str(fault)) from None
    except OSError:
        _dismiss(guard)
        raise
    _tell(guard, f"{child.pid}\n")
    return Guarded(child, guard)


def line_buffering() -> Mapping[str, str]:
    """The variables by which a program writes each line at once, though its output is a pipe.

    A program holds its output back where that is no terminal. These are what `stdbuf -oL` sets: a
    library of GNU's coreutils sets the buffer before the program begins. Without that command the
    program would have to be found twice, and a program that cannot be started is told as such.

    Returns:
        Nothing where the library is not there.
    """
    library = next(filter(os.path.exists, BUFFER_LIBRARIES), None)
    if library is None:
        return {}
    others = os.environ.get("LD_PRELOAD", "")
    return {"_STDBUF_O": "L", "LD_PRELOAD": f"{others}:{library}".lstrip(":")}


@contextlib.contextmanager
def _ended_at_last(started: Guarded) -> Iterator[None]:
    """A block in which a process goes on, with its guard beside it.

    At its end the process and what it started in its group are killed, the process is waited for,
    and its streams are closed.
    """
    child = started.process
    SIGNALS.groups.add(child.pid)
    try:
        yield
    finally:
        SIGNALS.groups.discard(child.pid)
        signal_group(child, signal.SIGKILL)  # before it is waited for: its number is still its own
        child.wait()
        _tell(started.guard, "end\n")
        _dismiss(started.guard)
        for stream in (child.stdout, child.stderr):
            if stream is not None:
                stream.close()


def _guard() -> Optional[subprocess.Popen[bytes]]:
    """Starts a small process that kills a group where this process ends wordlessly.

    It waits at a pipe that this process alone holds open. The first line there is the number of the
    group, the next one says that all is well; the end of the pipe says that this process has gone.
    None where there is no shell.
    """
    try:
        return subprocess.Popen(
            ["/bin/sh", "-c", GUARD],
            stdin=subprocess.PIPE,
            stdout=subprocess.DEVNULL,
            stderr=subprocess.DEVNULL,
            start_new_session=True,
        )
    except OSError:
        return None


def _tell(guard: Optional[subprocess.Popen[bytes]], line: str) -> None:
    """Writes a line for a guard; nothing where there is none, or it has gone."""
    if guard is None or guard.stdin is None:
        return
    with contextlib.suppress(OSError):
        guard.stdin.write(line.encode("ascii"))
        guard.stdin.flush()


def _dismiss(guard: Optional[subprocess.Popen[bytes]]) -> None:
    """Closes the pipe of a guard, whose process has ended or was never started, and waits for it."""
    if guard is not None:
        with contextlib.suppress(OSError):
            guard.communicate()


@contextlib.contextmanager
def _interrupts_to(
    child: subprocess.Popen[bytes], on_interrupt: Optional[Callable[[], None]]
) -> Iterator[None]:
    """A block whose first interrupt goes to the child's group, where somebody is told of it.

    Args:
        on_interrupt: Is told of the interrupt; None: interrupts are as outside of the block.
    """
    if on_interrupt is None:
        yield
        return
    told = on_interrupt

    def pass_on() -> None:
        """Tells of the interrupt, and sends it to the child's group."""
        told()
        signal_group(child, signal.SIGINT)

    with SIGNALS.first_interrupt_to(pass_on):
        yield


def _follow(
    child: subprocess.Popen[bytes],
    readers: Sequence[_Reader],
    deadline: Deadline,
    held: Sequence[_Memory],
) -> bool:
    """Reads what a process writes until it has ended; True if it was killed at the deadline.

    Something that it started may hold its streams open: what these have by then is read, and no
    more waited for.

    Args:
        held: Where one of these has dropped something, the process is killed.
    """
    is_late = False
    with selectors.DefaultSelector() as selector, _notice_of_end(child) as notice:
        for reader in readers:
            selector.register(reader.number, selectors.EVENT_READ, reader)
        if notice is not None:
            selector.register(notice, selectors.EVENT_READ)
        while not _has_ended(child):
            if not is_late and deadline.is_over():
                is_late = True
                signal_group(child, signal.SIGKILL)
            elif any(memory.dropped for memory in held):
                signal_group(child, signal.SIGKILL)
            pause = math.inf if is_late else max(deadline.left(), 0.0)
            _read_what_is_there(selector, pause if notice is not None else min(pause, POLL))
    for reader in readers:
        reader.drain()
    return is_late


def _read_what_is_there(selector: selectors.BaseSelector, pause: float) -> None:
    """Waits for a stream that has something, and reads a piece of each that has.

    One that has ended is not looked at any more.

    Args:
        pause: Seconds to wait at most, of which LONGEST_WAIT are waited at once.
    """
    for key, _ in selector.select(min(pause, LONGEST_WAIT)):
        if key.data is not None and key.data.read() == 0:
            selector.unregister(key.fileobj)


@contextlib.contextmanager
def _notice_of_end(child: subprocess.Popen[bytes]) -> Iterator[Optional[int]]:
    """A block with a file (a pidfd) that can be read once a process has ended.

    Yields:
        Its number; None where the system has no such, and the process is looked at every POLL
            seconds.
    """
    try:
        notice = os.pidfd_open(child.pid)
    except (AttributeError, OSError):
        yield None
        return
    try:
        yield notice
    finally:
        os.close(notice)


def _has_ended(child: subprocess.Popen[bytes]) -> bool:
    """Whether a process has ended. It is not waited for, so that its number stays its own."""
    if not hasattr(os, "waitid"):
        return child.poll() is not None
    options = os.WEXITED | os.WNOHANG | os.WNOWAIT
    return os.waitid(os.P_PID, child.pid, options) is not None


class _Reader:
    """Reads one stream of a process, without waiting, and gives each piece to its sinks.

    Attributes:
        number: Of the stream's file, by which a selector knows it.
        sinks: Functions that take each piece as it comes, and b"" at the end.
    """

    def __init__(self, stream: IO[bytes], sinks: Sequence[Sink]) -> None:
        """Of a stream of a process, which is made not to wait when it is read."""
        self.number = stream.fileno()
        self.sinks = sinks
        waits = False
        os.set_blocking(self.number, waits)

    def read(self) -> Optional[int]:
        """Reads a piece of at most PIECE bytes and gives it to the sinks.

        Returns:
            How many bytes came: 0 at the end, None where nothing is there now.
        """
        try:
            data = os.read(self.number, PIECE)
        except BlockingIOError:
            return None
        for sink in self.sinks:
            sink(data)
        return len(data)

    def drain(self) -> None:
        """Reads what is still there when the process has ended, at most DRAINED bytes."""
        for _ in range(DRAINED // PIECE):
            if not self.read():
                return


class _Memory:
    """What is held of a stream in memory: of a long one its first and its last half.

    Attributes:
        most_of_half: Bytes of each half; the last one may have a piece more.
        first: The first bytes, up to `most_of_half`.
        last: The pieces behind them that are held.
        size_of_last: Their bytes.
        dropped: How many bytes between both are gone.
    """

    def __init__(self, most: int) -> None:
        """Of how many bytes are held at most, in both halves together."""
        self.most_of_half = most // 2
        self.first = bytearray()
        self.last: Deque[bytes] = collections.deque()
        self.size_of_last = 0
        self.dropped = 0  # bytes between both

    def add(self, data: bytes) -> None:
        """Holds a piece of the stream; the oldest pieces of a last half that is too long go."""
        room = self.most_of_half - len(self.first)
        self.first += data[:room]
        rest = data[room:]
        if not rest:
            return
        self.last.append(rest)
        self.size_of_last += len(rest)
        while self.size_of_last - len(self.last[0]) >= self.most_of_half:
            gone = self.last.popleft()
            self.size_of_last -= len(gone)
            self.dropped += len(gone)

    def data(self) -> bytes:
        """What is held, with a line in brackets where bytes are left out."""
        gap = b"\n[%d bytes are left out]\n" % self.dropped if self.dropped else b""
        return b"".join([self.first, gap, *self.last])


class _Lines:
    """Tells whole lines of a stream, in UTF-8, and long ones in pieces.

    Attributes:
        on_line: Is told each of them with its end; None: nothing is told.
        most: Bytes of a line from which on it is told before its end has come.
        rest: The line that has no end yet.
    """

    def __init__(self, on_line: Optional[Callable[[str], None]], most: int) -> None:
        """Of who is told, and how many bytes of a line are told at once."""
        self.on_line = on_line
        self.most = most
        self.rest = b""

    def add(self, data: bytes) -> None:
        """Takes a piece of the stream, and tells the lines that end in it."""
        if self.on_line is None:
            return
        *lines, self.rest = (self.rest + data).split(b"\n")
        for line in lines:
            self._tell(line + b"\n")
        if len(self.rest) >= self.most:
            self.end()

    def end(self) -> None:
        """Tells the rest of the stream, or of a long line, which has no end yet."""
        rest = self.rest
        self.rest = b""
        if rest:
            self._tell(rest)

    def _tell(self, line: bytes) -> None:
        """Tells a line, or a piece of one, whose faulty bytes become the replacement character."""
        if self.on_line is not None:
            self.on_line(line.decode("utf-8", "replace"))


class _Log:
    """A file that gets a stream as it comes, up to a limit.

    Attributes:
        file: Open for writing.
        room: How many bytes more it takes.
    """

    def __init__(self, file: BinaryIO, most: int) -> None:
        """Of an open file, and how many bytes it takes at most."""
        self.file = file
        self.room = most

    def add(self, data: bytes) -> None:
        """Writes a piece of the stream, as far as there is room."""
        piece = data[: self.room]
        self.room -= len(piece)
        self.file.write(piece)
