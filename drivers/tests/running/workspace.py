"""A folder of one test, and the commands that run in it."""

from __future__ import annotations

import json
import os
import re
import shlex
import shutil
import signal
import subprocess
import sys
from dataclasses import dataclass, field
from pathlib import Path
from typing import IO, Any, Dict, Mapping, NamedTuple, Optional, Sequence, Set, Union

from builders.small_models import MODELS
from running.places import BIN, DRIVERS, TESTS, program
from running.report_schema import report_faults
from running.sol_file import SolFile
from running.stored_runs import WAITING_LINE, StoredRun, stored_runs

SECONDS = 300.0  # most that a command may take on a machine that has much else to do
WITHOUT = TESTS / "running" / "without.py"
VERSION = json.loads((DRIVERS / "minizinc" / "bridge-cbc.msc").read_text())["version"]
REFUSED = (2, 3, 4)  # statuses of which a report's text stands on standard error, too


class Ended(NamedTuple):
    """How a command ended, and what it printed on each stream."""

    status: int
    out: str
    err: str

    @property
    def text(self) -> str:
        """What it printed, standard output first."""
        return self.out + self.err


@dataclass(frozen=True)
class SolContent:
    """What is wanted of a .sol file; what is None is not looked at.

    Attributes:
        code: AMPL's solve_result_num.
        last_line: of the message: its verdict.
        lines: stand in the message.
        matches, lacks: patterns that its message has somewhere, and has nowhere.
        values, duals: as doubles.
        contains: texts that stand in the file.
    """

    code: Optional[int] = None
    last_line: Optional[str] = None
    lines: Sequence[str] = ()
    matches: Sequence[str] = ()
    lacks: Sequence[str] = ()
    values: Optional[Sequence[float]] = None
    duals: Optional[Sequence[float]] = None
    contains: Sequence[str] = ()


@dataclass(frozen=True)
class Call:
    """A call of a command in the folder of a test, and what comes of it.

    Attributes:
        words: as one types them, of which the first is a file in drivers/bin; `FOLDER` stands for
            the path of the folder.
        status: of the command.
        prints: texts that stand in what it prints, on either stream.
        output: all that it prints.
        ends_with: the end of that.
        matches: patterns of that.
        lacks: texts that it does not print.
        sol: what stands in m.sol.
        files: by name, what stands in a file; True: it is there; False: it is not.
        contains: by name of a file, texts that stand in it.
        stored: the model whose stored run the solver answers with.
        answer: what stands elsewise in that run, by pattern.
        solver_words: stand in what the solver is called with.
        without: parts that are taken away, as running/without.py knows them.
        bridge_says: by command of `bridge`, how it ends instead.
        environment: further variables.
        stdin: a file of the folder.
        is_shell: the words are a line of bash.
    """

    words: str
    status: int = 0
    prints: Sequence[str] = ()
    output: Optional[str] = None
    ends_with: str = ""
    matches: Sequence[str] = ()
    lacks: Sequence[str] = ()
    sol: SolContent = SolContent()
    files: Mapping[str, Union[bytes, str, bool]] = field(default_factory=dict)
    contains: Mapping[str, Sequence[str]] = field(default_factory=dict)
    stored: str = ""
    answer: Mapping[str, str] = field(default_factory=dict)
    solver_words: str = ""
    without: Sequence[str] = ()
    bridge_says: Mapping[str, "Reply"] = field(default_factory=dict)
    environment: Mapping[str, str] = field(default_factory=dict)
    stdin: str = ""
    is_shell: bool = False

    def __str__(self) -> str:
        """The name of the case in lists of tests."""
        parts = [*map(str, self.bridge_says), self.stored, self.words, *self.answer]
        return re.sub(r"[^\w.=+]+", "-", " ".join(filter(None, parts)))[:80]


class Reply(NamedTuple):
    """How a false `bridge` ends; a refusal is told on standard error, a verdict on the other."""

    status: int
    text: str


class Workspace:
    """The folder; a model in it is called m.nl."""

    def __init__(self, folder: Path, cache: Path) -> None:
        """
        Args:
            folder: is there, and empty.
            cache: where Python keeps compiled modules: nothing is written into the clone.
        """
        self.folder = folder
        self.cache = cache
        self.solver_folder = folder.parent / (folder.name + "-solver")

    def path(self, name: str) -> Path:
        """The path of a file of the folder."""
        return self.folder / name

    def write(self, name: str, content: Union[bytes, str]) -> Path:
        """Writes a file; one that begins with `#!` can be run."""
        data = content.encode() if isinstance(content, str) else content
        path = self.path(name)
        path.parent.mkdir(parents=True, exist_ok=True)
        path.write_bytes(data)
        path.chmod(0o755 if data.startswith(b"#!") else 0o644)
        return path

    def write_model(self, name: str) -> Path:
        """Writes the small model of this name as m.nl."""
        return self.write("m.nl", MODELS[name].text)

    def script(self, name: str, text: str) -> Path:
        """A program of these lines of a shell."""
        return self.write(name, f"#!/bin/sh\n{text}\n")

    def read(self, name: str) -> bytes:
        """What stands in a file."""
        return self.path(name).read_bytes()

    def names(self) -> Set[str]:
        """The paths of all files and folders in it."""
        return {str(path.relative_to(self.folder)) for path in self.folder.rglob("*")}

    def sol(self, name: str = "m.sol") -> SolFile:
        """A .sol file, whose code may stand above its last line."""
        found = SolFile(self.path(name))
        assert found.has_allowed_code(), found.text
        return found

    def environment(self, **changes: str) -> Dict[str, str]:
        """The variables of a command."""
        own = {
            "PYTHONPYCACHEPREFIX": str(self.cache),
            "PYTHONDONTWRITEBYTECODE": "",
            "BRIDGE": shlex.join(program()),
        }
        return {**os.environ, **own, **changes}

    def run(
        self,
        command: str,
        *words: str,
        environment: Optional[Mapping[str, str]] = None,
        stdin: str = os.devnull,
        without: Sequence[str] = (),
    ) -> Ended:
        """Runs a command of drivers/bin, or of another folder where it is a path.

        Args:
            command: `bridge-cbc`, or a path in this clone.
            words: those behind it.
            environment: further variables.
            stdin: a file that is its standard input.
            without: parts that are taken away, as running/without.py knows them.
        """
        script = DRIVERS.parent / command if "/" in command else BIN / command
        argv = [sys.executable, str(script), *words]
        if without:
            argv = [sys.executable, str(WITHOUT), ",".join(without), command, *words]
        with open(self.path(stdin), "rb") as stream:
            return self.run_process(argv, environment=environment, stdin=stream)

    def run_process(
        self,
        argv: Sequence[str],
        environment: Optional[Mapping[str, str]] = None,
        stdin: Union[int, IO[bytes]] = subprocess.DEVNULL,
    ) -> Ended:
        """Runs any program in the folder."""
        done = subprocess.run(
            argv,
            stdin=stdin,
            capture_output=True,
            encoding="utf-8",
            errors="surrogateescape",
            cwd=self.folder,
            env=self.environment(**(environment or {})),
            timeout=SECONDS,
        )
        return Ended(done.returncode, done.stdout, done.stderr)

    def shell(self, line: str, environment: Optional[Mapping[str, str]] = None) -> Ended:
        """Runs a line of bash, in which commands of drivers/bin are on the PATH."""
        own = {"PATH": self.path_with_commands(), **(environment or {})}
        return self.run_process(["bash", "-c", line], own)

    def path_with_commands(self) -> str:
        """A PATH with the commands first, and with the Python of these tests."""
        folders = [str(BIN), os.path.dirname(sys.executable), os.environ["PATH"]]
        return os.pathsep.join(folders)

    def replay(
        self,
        driver: str,
        run: StoredRun,
        *words: str,
        environment: Optional[Mapping[str, str]] = None,
        without: Sequence[str] = (),
    ) -> Ended:
        """Runs a driver whose solver answers as it did in a stored run."""
        own = {**self.false_solver(driver, run), **(environment or {})}
        more = [f"solver={self.solver_folder / 'highs'}"] if driver == "highs" else []
        return self.run("bridge-" + driver, *words, *more, environment=own, without=without)

    def replay_interrupted(self, driver: str, run: StoredRun, *words: str) -> Ended:
        """The same where the solver answers once it is interrupted, by way of its driver."""
        child = self.start_replay(driver, run, *words, "outlev=1")
        lines = []
        assert child.stdout is not None
        for line in child.stdout:
            lines.append(line)
            if line.strip() == WAITING_LINE:
                child.send_signal(signal.SIGINT)
        _, err = child.communicate(timeout=SECONDS)
        return Ended(child.returncode, "".join(lines), err)

    def start_replay(self, driver: str, run: StoredRun, *words: str) -> "subprocess.Popen[str]":
        """Starts a driver whose solver answers as it did in a stored run."""
        more = [f"solver={self.solver_folder / 'highs'}"] if driver == "highs" else []
        return self.start("bridge-" + driver, *words, *more, **self.false_solver(driver, run))

    def start(self, command: str, *words: str, **environment: str) -> "subprocess.Popen[str]":
        """Starts a command of drivers/bin, which does not ignore interrupts."""
        return subprocess.Popen(
            [sys.executable, str(BIN / command), *words],
            stdin=subprocess.DEVNULL,
            stdout=subprocess.PIPE,
            stderr=subprocess.PIPE,
            text=True,
            cwd=self.folder,
            env=self.environment(**environment),
            preexec_fn=lambda: signal.signal(signal.SIGINT, signal.SIG_DFL),
        )

    def false_solver(self, driver: str, run: StoredRun) -> Mapping[str, str]:
        """Makes the false solver; the variables by which a driver finds it."""
        run.write_false_solver(self.solver_folder, driver)
        return {"PATH": os.pathsep.join([str(self.solver_folder), os.environ["PATH"]])}

    def solver_calls(self) -> str:
        """The words of each call of the false solver, a line each."""
        path = self.solver_folder / "calls"
        return path.read_text(encoding="utf-8") if path.exists() else ""

    def false_bridge(self, replies: Mapping[str, Reply]) -> str:
        """The path of a `bridge` that ends so for these commands, and else is the proved one."""
        lines = []
        for number, (command, reply) in enumerate(replies.items()):
            text = self.solver_folder.parent / f"{self.folder.name}-reply-{number}"
            text.write_text(reply.text + "\n", encoding="utf-8")
            stream = ">&2" if reply.status >= 2 else ""
            lines.append(
                f"if [ $1 = {command} ]; then cat {text} {stream}; exit {reply.status}; fi"
            )
        lines.append(f'exec {shlex.join(program())} "$@"')
        path = self.folder.parent / f"{self.folder.name}-bridge"
        path.write_text("\n".join(["#!/bin/sh", *lines, ""]), encoding="utf-8")
        path.chmod(0o755)
        return str(path)

    def check(self, call: Call) -> Ended:
        """Makes a call, and looks at all that is wanted of it."""
        ended = self._made(call)
        told = f"{call.words}\n{ended.out}\n{ended.err}"
        assert ended.status == call.status, told
        text = ended.text.replace(str(self.folder), "FOLDER")
        assert call.output in (None, text), told
        assert text.endswith(call.ends_with), told
        for part in call.prints:
            assert part in text, told
        for part in call.lacks:
            assert part not in text, told
        for pattern in call.matches:
            assert re.search(pattern, text), told
        if "json=1" in call.words.split():
            self.report(ended, call.words.split()[0])
        self._check_files(call)
        self.check_sol(call.sol)
        assert call.solver_words in self.solver_calls(), self.solver_calls()
        return ended

    def _made(self, call: Call) -> Ended:
        line = call.words.replace("FOLDER", str(self.folder))
        variables = {
            name: value.replace("FOLDER", str(self.folder))
            for name, value in call.environment.items()
        }
        if call.is_shell:
            return self.shell(line, variables)
        command, *rest = shlex.split(line)
        if call.bridge_says:
            variables["BRIDGE"] = self.false_bridge(call.bridge_says)
        if call.stored:
            driver = command.partition("-")[2]
            runs = stored_runs(driver)
            run = runs.get(call.stored, StoredRun()).with_answer(call.answer)
            return self.replay(driver, run, *rest, environment=variables, without=call.without)
        return self.run(
            command,
            *rest,
            environment=variables,
            stdin=call.stdin or os.devnull,
            without=call.without,
        )

    def _check_files(self, call: Call) -> None:
        for name, content in call.files.items():
            path = self.path(name)
            if isinstance(content, bool):
                assert path.exists() == content, name
            else:
                wanted = content.encode() if isinstance(content, str) else content
                assert path.read_bytes() == wanted, name
        for name, parts in call.contains.items():
            text = self.path(name).read_text(encoding="utf-8")
            for part in parts:
                assert part.replace("FOLDER", str(self.folder)) in text, text

    def check_sol(self, wanted: SolContent) -> None:
        """Looks at m.sol, where anything is wanted of it."""
        if wanted == SolContent():
            return
        found = self.sol()
        assert wanted.code in (None, found.code), found.text
        assert wanted.last_line in (None, found.last_line), found.text
        for line in wanted.lines:
            assert line in found.message, found.text
        for pattern in wanted.matches:
            assert re.search(pattern, found.text), found.text
        for pattern in wanted.lacks:
            assert not re.search(pattern, found.text), found.text
        if wanted.values is not None:
            assert list(map(float, found.values)) == list(wanted.values)
        if wanted.duals is not None:
            assert list(map(float, found.duals)) == list(wanted.duals)
        text = self.path("m.sol").read_text(encoding="utf-8")
        for part in wanted.contains:
            assert part in text, text

    def report(self, ended: Ended, command: str) -> Dict[str, Any]:
        """The report that a command printed, which is as its schema wants it.

        A refusal stands on standard error, too.
        """
        found: Dict[str, Any] = json.loads(ended.out)
        assert not report_faults(found)
        assert found["status"] == ended.status
        assert found["command"] == command
        assert found["version"] == VERSION
        if ended.status in REFUSED:
            assert ended.err.rstrip().endswith(found["text"]), ended.err
        return found

    def copy_files(self, source: Path) -> None:
        """Copies a folder's files into this one."""
        shutil.copytree(source, self.folder, dirs_exist_ok=True)
