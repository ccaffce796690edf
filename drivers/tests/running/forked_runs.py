"""Runs of drivers in children of a process that has read their modules, for sweeps of thousands.

Most of a run over a small model is the start of Python with NumPy; here that is paid once. The
entry point, the words, the streams and the end of the process are those of the command.
"""

from __future__ import annotations

import os
import signal
import sys
import tempfile
import threading
import traceback
from pathlib import Path
from typing import IO, Mapping, NoReturn, Optional, Sequence

from running.places import DRIVERS
from running.workspace import SECONDS, Ended, Workspace

sys.path.insert(0, str(DRIVERS))

from bridge_drivers.commands import driver  # noqa: E402
from bridge_drivers.pipeline import certificate_search  # noqa: E402

UNHURRIED_SECONDS = 30.0  # of a certificate, as running/without.py has it for `hurry`
FAULT = 70  # the status of a child whose command raised what no command raises


class ForkedWorkspace(Workspace):
    """A folder whose drivers run in children of this process, which has one thread."""

    def run(
        self,
        command: str,
        *words: str,
        environment: Optional[Mapping[str, str]] = None,
        stdin: str = os.devnull,
        without: Sequence[str] = (),
    ) -> Ended:
        """Runs a driver; of what can be taken away it knows `hurry`."""
        assert set(without) <= {"hurry"} and command.startswith("bridge-")
        with tempfile.TemporaryFile() as out, tempfile.TemporaryFile() as err:
            child = os.fork()
            if not child:
                variables = self.environment(**(environment or {}))
                self._become(command, words, variables, stdin, bool(without), (out, err))
            timer = threading.Timer(SECONDS, os.kill, (child, signal.SIGKILL))
            timer.start()
            _, status = os.waitpid(child, 0)
            timer.cancel()
            timer.join()
            return Ended(os.waitstatus_to_exitcode(status), _text_of(out), _text_of(err))

    def _become(
        self,
        command: str,
        words: Sequence[str],
        variables: Mapping[str, str],
        stdin: str,
        is_unhurried: bool,
        streams: Sequence[IO[bytes]],
    ) -> NoReturn:
        """Makes this child the command, which ends it."""
        status = FAULT
        try:
            os.chdir(self.folder)
            os.environ.clear()
            os.environ.update(variables)
            with open(self.path(stdin), "rb") as stream:
                os.dup2(stream.fileno(), 0)
            for number, target in enumerate(streams, 1):
                os.dup2(target.fileno(), number)
            signal.signal(signal.SIGINT, signal.SIG_DFL)
            if is_unhurried:
                certificate_search.ONE_LEAF_SECONDS = UNHURRIED_SECONDS
            sys.argv = [command, *words]
            driver.main(command.partition("-")[2])
        except SystemExit as ended:
            status = ended.code if isinstance(ended.code, int) else int(ended.code is not None)
        except BaseException:
            traceback.print_exc()
        finally:
            sys.stdout.flush()
            sys.stderr.flush()
            os._exit(status)


def _text_of(stream: IO[bytes]) -> str:
    stream.seek(0)
    return stream.read().decode("utf-8", "surrogateescape")


def forked_workspace(folder: str, name: str) -> ForkedWorkspace:
    """A new folder of this name in another one."""
    place = Path(folder, name)
    place.mkdir()
    return ForkedWorkspace(place, Path(folder, "compiled"))
