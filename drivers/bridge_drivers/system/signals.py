"""Signals end a run by an exception, and wait where a block may not be broken off.

`SIGNALS` is the one gate of this process. A command installs it (`commands.console`); calls of the
package leave the signals of their caller alone, but for SIGINT while they work.
"""

from __future__ import annotations

import contextlib
import os
import signal
import threading
from typing import Callable, Iterator, Sequence, Set

from .errors import Interrupted

# what ends a run in order; a system may lack some
HANDLED_SIGNALS: Sequence[signal.Signals] = [
    getattr(signal, name)
    for name in ("SIGTERM", "SIGINT", "SIGHUP", "SIGQUIT")
    if hasattr(signal, name)
]


class SignalGate:
    """Turns signals into `Interrupted`, and lets them wait where a block may not be broken off.

    The first signal ends the run; what comes later does not break off what the first one ends.

    Attributes:
        is_deferring: Signals that come now wait.
        is_ending: A signal has ended the run.
        pending: The first signal that waits; 0 where none does.
        receiver: Whose the next interrupt is instead; None where it ends the run.
        groups: The groups of processes that are at work for this one, and stop with it.
    """

    def __init__(self) -> None:
        """A gate that delivers, and handles no signal yet; see `install`."""
        self.is_deferring = False
        self.is_ending = False
        self.pending = 0
        self.receiver: Callable[[], None] | None = None
        self.groups: Set[int] = set()

    def install(self) -> None:
        """Makes this gate the handler of all handled signals, at the start of a command.

        A signal that is ignored from the start stays so.
        """
        for number in HANDLED_SIGNALS:
            if signal.getsignal(number) is not signal.SIG_IGN:
                signal.signal(number, self.receive)
        stop = getattr(signal, "SIGTSTP", None)
        if stop is not None and signal.getsignal(stop) is signal.SIG_DFL:
            signal.signal(stop, self.stop)

    def receive(self, number: int, frame: object = None) -> None:
        """What a signal does: the handler of each one, also called where one was held back.

        It waits in a deferred block; an interrupt goes to a receiver, once; else the first signal
        ends the run, and later ones do nothing.

        Args:
            number: Of the signal.
            frame: What Python gives a handler; not looked at.

        Raises:
            Interrupted: The run ends.
        """
        if self.is_deferring:
            self.pending = self.pending or number
        elif number == signal.SIGINT and self.receiver is not None:
            receiver = self.receiver
            self.receiver = None
            receiver()
        elif not self.is_ending:
            self.is_ending = True
            raise Interrupted(number)

    def stop(self, number: int, frame: object = None) -> None:
        """Stops this process and all that is at work for it, as Ctrl-Z asks; all go on together.

        Args:
            number: Of the signal; not looked at.
            frame: What Python gives a handler; not looked at.
        """
        self._signal_groups(signal.SIGSTOP)
        os.kill(os.getpid(), signal.SIGSTOP)  # it returns when this process goes on
        self._signal_groups(signal.SIGCONT)

    def _signal_groups(self, number: int) -> None:
        """Sends a signal to each of `groups` that is still there."""
        for group in self.groups:
            with contextlib.suppress(ProcessLookupError, PermissionError):
                os.killpg(group, number)

    def deferred(self) -> contextlib.AbstractContextManager[None]:
        """A block that no signal breaks off: the first one that comes waits for its end.

        Raises:
            Interrupted: At the end of the block, where a signal ends the run.
        """
        return self._deferring(is_deferring=True)

    def delivered(self) -> contextlib.AbstractContextManager[None]:
        """A block inside a deferred one in which signals are delivered again, also one that waits.

        Raises:
            Interrupted: At its start or within it, where a signal ends the run.
        """
        return self._deferring(is_deferring=False)

    @contextlib.contextmanager
    def _deferring(self, *, is_deferring: bool) -> Iterator[None]:
        """A block with another `is_deferring`, which is set back at its end.

        What waits is delivered at its start (where that raises, nothing is set back) and, unless
        the block raised, behind its end.
        """
        before = self.is_deferring
        self.is_deferring = is_deferring
        self.deliver_pending()
        try:
            yield
        finally:
            self.is_deferring = before
        self.deliver_pending()

    @contextlib.contextmanager
    def first_interrupt_to(self, receiver: Callable[[], None]) -> Iterator[None]:
        """A block whose first SIGINT goes to the receiver, once; the second one ends the run.

        Args:
            receiver: Called within the signal's handler.
        """
        self.receiver = receiver
        try:
            yield
        finally:
            self.receiver = None

    def deliver_pending(self) -> None:
        """Does what the signal that waits does, unless it still has to wait."""
        if self.pending and not self.is_deferring:
            number = self.pending
            self.pending = 0
            self.receive(number)


SIGNALS = SignalGate()  # of this process


@contextlib.contextmanager
def interrupts_to(receiver: Callable[[], None]) -> Iterator[None]:
    """A block in which each SIGINT calls the receiver, within the handler, and ends nothing.

    Interrupts that are ignored stay so. In another thread than the main one, which gets no signals,
    nothing changes. The old handler comes back at its end.
    """
    is_main = threading.current_thread() is threading.main_thread()
    if not is_main or signal.getsignal(signal.SIGINT) is signal.SIG_IGN:
        yield
        return
    before = signal.signal(signal.SIGINT, lambda number, frame: receiver())
    try:
        yield
    finally:
        signal.signal(signal.SIGINT, before)
