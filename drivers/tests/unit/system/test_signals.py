"""Signals end a run, and wait where they have to."""

from __future__ import annotations

import signal

import pytest
from bridge_drivers.system.errors import Interrupted
from bridge_drivers.system.signals import SignalGate


@pytest.mark.parametrize(
    "number, status",
    [(signal.SIGTERM, 143), (signal.SIGINT, 130), (signal.SIGHUP, 129), (signal.SIGQUIT, 131)],
)
def test_a_signal_ends_the_run(gate: SignalGate, number: signal.Signals, status: int) -> None:
    with pytest.raises(Interrupted) as caught:
        signal.raise_signal(number)
    assert caught.value.status() == status


def test_a_signal_waits_for_the_end_of_a_deferred_block(gate: SignalGate) -> None:
    seen = []
    with pytest.raises(Interrupted):
        with gate.deferred():
            signal.raise_signal(signal.SIGTERM)
            seen.append("behind it")
        seen.append("not reached")
    assert seen == ["behind it"]


def test_a_signal_is_delivered_inside_a_deferred_block(gate: SignalGate) -> None:
    with pytest.raises(Interrupted), gate.deferred(), gate.delivered():
        signal.raise_signal(signal.SIGTERM)


def test_only_the_first_signal_ends_the_run(gate: SignalGate) -> None:
    with pytest.raises(Interrupted):
        signal.raise_signal(signal.SIGTERM)
    signal.raise_signal(signal.SIGTERM)


def test_the_first_interrupt_of_a_block_is_the_receivers(gate: SignalGate) -> None:
    got = []
    with pytest.raises(Interrupted), gate.first_interrupt_to(lambda: got.append(1)):
        signal.raise_signal(signal.SIGINT)
        assert got == [1]
        signal.raise_signal(signal.SIGINT)
    assert got == [1]
    assert gate.receiver is None


def test_a_signal_that_is_ignored_from_the_start_stays_so(gate: SignalGate) -> None:
    signal.signal(signal.SIGHUP, signal.SIG_IGN)
    gate.install()
    assert signal.getsignal(signal.SIGHUP) is signal.SIG_IGN
