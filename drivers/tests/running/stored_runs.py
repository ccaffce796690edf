"""Stored runs of solvers, and false solvers that answer as one of them did."""

from __future__ import annotations

import base64
import copy
import functools
import json
import re
from dataclasses import dataclass, field
from pathlib import Path
from typing import Dict, List, Mapping, Union

from running.places import DATA

FOLDER = DATA / "stored"
LOG = "solver.log"
Content = Union[str, List[str]]  # base64, or lines of a text

# A false solver writes its words into the file `calls` beside it, its answer into the folder in
# which it is called, and its log on standard output. A python3 that is asked for SciPy by `-c`
# has it.
SCRIPT = """#!/bin/sh
case $1 in -c) exit 0;; esac
printf '%s\\n' "$*" >>'{folder}/calls'
cp '{folder}'/answer/* . 2>/dev/null
cat '{folder}/log'
"""
# The same, which answers once it is interrupted.
WAITING_SCRIPT = """#!/bin/sh
case $1 in -c) exit 0;; esac
trap 'cp "{folder}"/answer/* . 2>/dev/null; cat "{folder}/log"; exit 0' INT
echo the solver waits
while true; do sleep 0.1; done
"""
WAITING_LINE = "the solver waits"


@dataclass
class StoredRun:
    """A run of a solver.

    Attributes:
        options: those of the driver.
        logs: lines by the name of the log; the solver's own is `solver.log`.
        files: what the solver wrote, by name.
        interrupted: whether it was told to end.
    """

    options: List[str] = field(default_factory=list)
    logs: Dict[str, List[str]] = field(default_factory=dict)
    files: Dict[str, Content] = field(default_factory=dict)
    interrupted: bool = False

    def log(self) -> str:
        """What the solver printed."""
        return "\n".join(self.logs.get(LOG, []))

    def file_bytes(self, name: str) -> bytes:
        """What stands in a file of the answer."""
        content = self.files[name]
        if isinstance(content, str):
            return base64.b64decode(content)
        return "\n".join(content).encode("ascii")

    def with_answer(self, replacements: Mapping[str, str]) -> StoredRun:
        """The same run in whose answer another text stands.

        Args:
            replacements: by a pattern, the text that stands in its first place. A blank of the
                pattern stands for some.

        Raises:
            AssertionError: a pattern stands nowhere in the run.
        """
        changed = copy.deepcopy(self)
        for pattern, text in replacements.items():
            assert changed._replace(pattern.replace(" ", " +"), text), f"{pattern} is not there"
        return changed

    def _replace(self, pattern: str, text: str) -> bool:
        for name, content in self.files.items():
            is_text = isinstance(content, list)
            old = content if isinstance(content, str) else "\n".join(content)
            new, count = re.subn(pattern, lambda found: text, old, count=1)
            if count:
                self.files[name] = new.split("\n") if is_text else new
                return True
        for name, lines in self.logs.items():
            new, count = re.subn(pattern, lambda found: text, "\n".join(lines), count=1)
            if count:
                self.logs[name] = new.split("\n")
                return True
        return False

    def write_false_solver(self, folder: Path, name: str) -> Path:
        """A program that answers as this run did; an interrupted one waits for an interrupt.

        Args:
            folder: gets all that the program needs.
            name: of the program.
        """
        answer = folder / "answer"
        answer.mkdir(parents=True, exist_ok=True)
        for old in answer.iterdir():
            old.unlink()
        for file_name in self.files:
            (answer / file_name).write_bytes(self.file_bytes(file_name))
        (folder / "log").write_text(self.log(), encoding="utf-8")
        (folder / "calls").unlink(missing_ok=True)
        script = WAITING_SCRIPT if self.interrupted else SCRIPT
        program = folder / name
        program.write_text(script.format(folder=folder), encoding="utf-8")
        program.chmod(0o755)
        return program


@functools.lru_cache(maxsize=None)
def stored_runs(name: str) -> Mapping[str, StoredRun]:
    """By model, the runs of a solver; of `statuses`, those that stop at a limit, by their names."""
    path = FOLDER / f"{name}.json"
    if not path.exists():
        return {}
    found = json.loads(path.read_text(encoding="utf-8"))
    return {model: StoredRun(**run) for model, run in found.items()}


def save_runs(name: str, runs: Mapping[str, StoredRun]) -> None:
    """Writes the runs of a solver, as `stored_runs` reads them."""
    made = {}
    for model, run in runs.items():
        made[model] = {"files": run.files, "logs": run.logs, "options": run.options}
        if run.interrupted:
            made[model]["interrupted"] = True
    text = json.dumps(made, ensure_ascii=True, indent=1, sort_keys=True)
    FOLDER.mkdir(exist_ok=True)
    (FOLDER / f"{name}.json").write_text(text + "\n", encoding="utf-8")
