"""What tests of several modules of `system` need."""

from __future__ import annotations

import signal
from typing import Iterator
from unittest import mock

import pytest
from bridge_drivers.system.signals import HANDLED_SIGNALS, SIGNALS, SignalGate


@pytest.fixture
def gate() -> Iterator[SignalGate]:
    """The gate of this process as it is at the start of a command."""
    before = [(number, signal.getsignal(number)) for number in HANDLED_SIGNALS]
    with mock.patch.dict(vars(SIGNALS), vars(SignalGate())):
        for number in HANDLED_SIGNALS:
            signal.signal(number, SIGNALS.receive)
        yield SIGNALS
    for number, handler in before:
        signal.signal(number, handler)
