"""A line for the user of MiniZinc, which drops what a solver tells where `-v` is not said.

MiniZinc's own standard error is open to its children on Linux, as /proc/PID/fd/2. Where that cannot
be had, nothing is done: the line stands on this process's standard error too.
`driver.DriverCommand` tells its verdict, or its error, by `tell_minizinc`.
"""

from __future__ import annotations

import contextlib
import os
import stat

from ..system.files import open_to_append
from ..system.text import one_line

PROGRAM = b"minizinc"
VERBOSE_WORDS = (b"-v", b"--verbose")
FLAGS_HEAD = b"flags:"  # of the line with the flags of an open file, in /proc/PID/fdinfo
ROOM = 200  # bytes of what MiniZinc writes after its solver has ended


def tell_minizinc(line: str, *, is_error: bool = False) -> None:
    """Puts a line on MiniZinc's standard error, as one of its comments, where it would be lost.

    Nothing is done where the parent of this process is not MiniZinc. Called with -v, that passes on
    what a solver tells.

    Args:
        line: Without its end.
        is_error: It is told with -v, too.
    """
    parent = os.getppid()
    if _told_of(parent, "comm").strip() != PROGRAM:
        return
    is_verbose = any(word in VERBOSE_WORDS for word in _told_of(parent, "cmdline").split(b"\0"))
    if is_verbose and not is_error:
        return
    with contextlib.suppress(OSError), open_to_append(f"/proc/{parent}/fd/2") as out:
        comment = f"% {one_line(line)}\n".encode("utf-8", "surrogateescape")
        out.write(_room_in(parent, out.fileno()) + comment)


def _told_of(process: int, name: str) -> bytes:
    """The bytes of a file that the system has on a process below /proc; none where it has not.

    Args:
        process: Its number.
        name: Of the file, as `comm`.
    """
    try:
        with open(f"/proc/{process}/{name}", "rb") as file:
            return file.read()
    except OSError:
        return b""


def _room_in(process: int, out: int) -> bytes:
    """A line of blanks that MiniZinc may write over; none where it needs none.

    It counts the places of a file by itself, and writes its next lines over what was appended,
    unless it appends too.

    Args:
        process: The number of MiniZinc's process.
        out: The number by which this process has opened its standard error.
    """
    flags = 0
    for line in _told_of(process, "fdinfo/2").splitlines():
        if line.startswith(FLAGS_HEAD):
            flags = int(line[len(FLAGS_HEAD) :], 8)
    if flags & os.O_APPEND or not stat.S_ISREG(os.fstat(out).st_mode):
        return b""
    return b" " * ROOM + b"\n"
