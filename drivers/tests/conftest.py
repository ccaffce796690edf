"""Fixtures and marks of all tests.

`needs("program", "cbc", ..)` skips a test where something is not there: the proved `program` (that
BRIDGE names, or that of this clone), one that judges `mps` files, the driver of a solver, the
`clp_library`, any `solver`, `pulp`, `scipy`, `distributed`, what makes `packages`, or a program on
the PATH.
"""

from __future__ import annotations

import os
import signal
from pathlib import Path
from typing import Iterator

import pytest
from hypothesis import HealthCheck, settings

from running.places import installed_solvers, program, why_missing
from running.workspace import Workspace

SECONDS_OF_A_TEST = 900.0  # on a machine that has much else to do
TRIED_SIGNALS = (signal.SIGHUP, signal.SIGQUIT, signal.SIGTERM)

# no deadline for one example: machines are shared, and time is tested by itself
settings.register_profile("shared", deadline=None, suppress_health_check=[HealthCheck.too_slow])
settings.load_profile("shared")


@pytest.hookimpl(tryfirst=True)
def pytest_configure(config: pytest.Config) -> None:
    """Signals do what they do in a shell, and each test has a limit where pytest-timeout is there.

    Where this run was started in the background, or by nohup, some signals are ignored, and would
    be by all commands that tests start.
    """
    if signal.getsignal(signal.SIGINT) is signal.SIG_IGN:
        signal.signal(signal.SIGINT, signal.default_int_handler)
    for number in TRIED_SIGNALS:
        if signal.getsignal(number) is signal.SIG_IGN:
            signal.signal(number, signal.SIG_DFL)
    if config.pluginmanager.hasplugin("timeout") and config.option.timeout is None:
        config.option.timeout = SECONDS_OF_A_TEST
        config.option.timeout_method = "thread"


def pytest_runtest_setup(item: pytest.Item) -> None:
    """Skips what lacks something."""
    for mark in item.iter_markers("needs"):
        for name in mark.args:
            reason = why_missing(name)
            if reason:
                pytest.skip(reason)


@pytest.fixture(scope="session")
def compiled_modules(tmp_path_factory: pytest.TempPathFactory) -> Path:
    """Where commands keep compiled modules: nothing is written into the clone."""
    return tmp_path_factory.getbasetemp() / "compiled"


@pytest.fixture
def workspace(tmp_path: Path, compiled_modules: Path) -> Workspace:
    """A folder of this test's own, and the commands that run in it."""
    folder = tmp_path / "work"
    folder.mkdir()
    return Workspace(folder, compiled_modules)


@pytest.fixture
def in_folder(workspace: Workspace, monkeypatch: pytest.MonkeyPatch) -> Iterator[Workspace]:
    """The same, which is the current folder of this process, too."""
    monkeypatch.chdir(workspace.folder)
    monkeypatch.setenv("BRIDGE", os.environ.get("BRIDGE") or " ".join(program()))
    yield workspace


@pytest.fixture
def first_driver() -> str:
    """The name of the first driver whose solver is there."""
    return installed_solvers()[0]
