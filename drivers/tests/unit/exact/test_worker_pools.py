"""Pools of workers that cannot be had: schedulers and workers that do not answer, or answer something."""

from __future__ import annotations

import sys
import threading
from types import ModuleType, SimpleNamespace
from typing import Callable, Dict, Mapping, NoReturn, cast

import pytest
from bridge_drivers.exact.worker_pools import (
    DaskPool,
    PoolFailed,
    answered_within,
    open_pool,
    worker_version,
)
from bridge_drivers.system.deadline import Deadline
from bridge_drivers.system.version import VERSION

SECONDS = 0.05  # that something has which never answers
LONG = 60.0  # and something that answers at once
ADDRESS = "tcp://127.0.0.1:9"


def never(*words: object, **options: object) -> object:
    """What a stopped process answers."""
    return threading.Event().wait()


def raises(fault: Exception) -> Callable[..., NoReturn]:
    def ask(*words: object, **options: object) -> NoReturn:
        raise fault

    return ask


def false_cluster(monkeypatch: pytest.MonkeyPatch, **calls: Callable[..., object]) -> None:
    """Dask's package, whose client has these calls."""

    def client(address: str, timeout: float) -> SimpleNamespace:
        if "connect" in calls:
            calls["connect"](address)
        answers: Dict[str, Callable[..., object]] = {"close": lambda: None, **calls}
        return SimpleNamespace(**answers)

    package = cast(ModuleType, SimpleNamespace(Client=client))
    monkeypatch.setitem(sys.modules, "distributed", package)


@pytest.mark.parametrize(
    "calls, told",
    [
        ({"connect": never}, "did not answer"),
        ({"connect": raises(OSError("refused"))}, "no scheduler of Dask at"),
        ({"connect": raises(TypeError("TLS expects a ssl_context"))}, "TLS expects"),
        ({"connect": raises(RuntimeError("an event loop"))}, "an event loop"),
        ({"run": never}, "a worker of the scheduler of Dask .* did not answer"),
        ({"run": never, "close": never}, "did not answer"),
        ({"run": raises(TimeoutError("late"))}, "late"),
        ({"run": lambda *a, **o: {}}, "has no workers"),
        ({"run": lambda *a, **o: {"w": ""}}, "1 of 1 workers of the cluster lack"),
    ],
)
def test_a_cluster_that_cannot_be_had(
    monkeypatch: pytest.MonkeyPatch, calls: Mapping[str, Callable[..., object]], told: str
) -> None:
    """The pool has no workers, and says why; nothing waits for what does not answer."""
    false_cluster(monkeypatch, **calls)
    has_no_answer = never in calls.values()
    with pytest.raises(PoolFailed, match=told):
        DaskPool(ADDRESS, SECONDS if has_no_answer else LONG)
    pool = open_pool(0, ADDRESS, Deadline(4 * SECONDS if has_no_answer else 4 * LONG))
    assert pool is not None and pool.workers == 0 and pool.fault


def test_workers_that_are_fit(monkeypatch: pytest.MonkeyPatch) -> None:
    false_cluster(
        monkeypatch,
        run=lambda *a, **o: {"w": VERSION, "v": "0"},
        nthreads=lambda workers: dict.fromkeys(workers, 3),
        get_executor=lambda **options: options["workers"],
    )
    pool = DaskPool(ADDRESS, LONG)
    assert pool.workers == 3 and "1 of 2 workers" in pool.note
    pool.close()


def test_an_answer_in_time() -> None:
    assert answered_within(Deadline(LONG), lambda: 17, "a worker") == 17
    with pytest.raises(KeyError):
        answered_within(Deadline(LONG), raises(KeyError("x")), "a worker")
    assert worker_version() in ("", VERSION)
