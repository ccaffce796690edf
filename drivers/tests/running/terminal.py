"""A pseudo-terminal, and what a person sees on it."""

from __future__ import annotations

import contextlib
import fcntl
import os
import pty
import re
import select
import struct
import termios
from typing import Callable, Iterator, List

import pyte

ROWS = 4
SECONDS = 300.0  # most that is waited for something to be shown


class Terminal:
    """A terminal of some width; programs get the file `theirs`.

    Attributes:
        theirs: The end that programs write to.
        raw: All that was written.
        most_lines: How many lines were ever filled at once.
    """

    def __init__(self, columns: int) -> None:
        self._ours, self.theirs = pty.openpty()
        size = struct.pack("HHHH", ROWS, columns, 0, 0)
        fcntl.ioctl(self.theirs, termios.TIOCSWINSZ, size)
        self._screen = pyte.Screen(columns, ROWS)
        self._stream = pyte.ByteStream(self._screen)
        self.raw = b""
        self.most_lines = 0

    def resize(self, columns: int) -> None:
        """Gives it another width, from now on; what it shows is cut."""
        size = struct.pack("HHHH", ROWS, columns, 0, 0)
        fcntl.ioctl(self._ours, termios.TIOCSWINSZ, size)
        self._screen.resize(ROWS, columns)

    def lines(self) -> List[str]:
        """The lines that are filled now."""
        return [line.rstrip() for line in self._screen.display if line.strip()]

    def read_until(self, is_so: Callable[[], bool]) -> None:
        """Shows what is written until something is so.

        Raises:
            AssertionError: It is not so in five minutes.
        """
        while not is_so():
            ready, _, _ = select.select([self._ours], [], [], SECONDS)
            assert ready, f"it was not shown: {self.raw!r}"
            self._show(os.read(self._ours, 4096))

    def read_rest(self) -> None:
        """Shows what is left when all programs have closed the terminal."""
        self.close_theirs()
        with contextlib.suppress(OSError):  # its end
            while True:
                piece = os.read(self._ours, 4096)
                if not piece:
                    return
                self._show(piece)

    def close_theirs(self) -> None:
        if self.theirs >= 0:
            os.close(self.theirs)
            self.theirs = -1

    def close(self) -> None:
        self.close_theirs()
        os.close(self._ours)

    def _show(self, written: bytes) -> None:
        self.raw += written
        for piece in re.split(rb"(?=\r)", written):  # as it is before a line is begun again
            self._stream.feed(piece)
            self.most_lines = max(self.most_lines, len(self.lines()))


@contextlib.contextmanager
def open_terminal(columns: int) -> Iterator[Terminal]:
    terminal = Terminal(columns)
    try:
        yield terminal
    finally:
        terminal.close()
