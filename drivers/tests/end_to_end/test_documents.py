"""Documents: their tables are those of the commands, and their commands are run.

A block that begins with `$ ` is a transcript: what each command prints is what stands below it. A
block of `sh` is run line by line, each with status 0 or that of a comment `# status N`, and prints
the verdict that its comment names. `<!-- not run: WHY -->` before a block leaves it out. Each
document has a folder of its own with the examples. The examples of PYTHON.md are run, too.
"""

from __future__ import annotations

import itertools
import json
import os
import re
import sys
from pathlib import Path
from typing import List, Mapping, NamedTuple, Set

import pytest

from running.places import BIN, DRIVERS, EXAMPLES, SOLVERS, TOP, why_missing
from running.workspace import VERSION, Ended, Workspace

DOCUMENTS = (
    "README.md",
    "drivers/README.md",
    "drivers/SYSTEMS.md",
    "drivers/REPORT.md",
    "drivers/SEARCH.md",
    "docs/user/commands.md",
    "docs/user/formats.md",
    "docs/user/refusals.md",
)
OF_DRIVERS = DOCUMENTS[1:4]
MARK = re.compile(r"<!-- not run: .+ -->")
VERDICT = re.compile(r"#\s+((?:optimal|within|feasible|bound) [\d/ -]+|infeasible|unbounded)$")
STATUS = re.compile(r"# status (\d+)$")
OUR_COMMANDS = ("bridge", "nl-bridge", "drivers/install")  # the words that ours begin with
MINIZINC = DRIVERS / "minizinc"
FOLDERS_OF_SCRIPTS = ("acceptance", "bench", "dev", "drivers", "packaging")
LONGEST_EXAMPLE = 10  # lines


class Block(NamedTuple):
    """A block of a document: whether it is run, its kind, and its lines."""

    is_run: bool
    kind: str
    text: str


def text_of(name: str) -> str:
    """A document."""
    return (TOP / name).read_text(encoding="utf-8")


def blocks_of(name: str) -> List[Block]:
    """The blocks of a document that three back ticks enclose."""
    found: List[Block] = []
    lines = iter(text_of(name).split("\n"))
    before = ""
    for line in lines:
        if line.startswith("```"):
            kind = line[3:].strip()
            inside = list(itertools.takewhile(lambda one: not one.startswith("```"), lines))
            found.append(Block(not MARK.fullmatch(before), kind, "\n".join([*inside, ""])))
        before = line
    return found


def options_of_drivers(workspace: Workspace) -> Set[str]:
    """The options that drivers list."""
    known: Set[str] = set()
    for name in (*SOLVERS, "certify"):
        ended = workspace.run("bridge-" + name, "-=")
        known |= {line.split()[0] for line in ended.out.splitlines()}
    return known


def test_options_that_are_named(workspace: Workspace) -> None:
    """Words `name=..` of documents are options, and the README has each option in its table."""
    known = options_of_drivers(workspace)
    for name in OF_DRIVERS:
        for word in re.findall(r"`([a-z]+)=[^`]*`", text_of(name)):
            assert word in known | {"name"}, name
    table = text_of("drivers/README.md").partition("| for | options |")[2].partition("\n\n")[0]
    assert sorted(re.findall(r"`([a-z]+)`", table)) == sorted(known)


def test_commands_of_the_program(workspace: Workspace) -> None:
    """docs/user/commands.md has each command of the proved program, and no other."""
    usage = workspace.run("nl-bridge", "-h").out
    proved = usage.partition("of the proved program:\n")[2].partition("\n\n")[0]
    cells = re.findall(r"(?m)^\| `[^|]*", text_of("docs/user/commands.md"))
    named = re.findall(r"`([a-z_]+) [A-Z]", "".join(cells))
    assert set(re.findall(r"(?m)^  ([a-z_]+) ", proved)) == set(named)


def test_statuses(workspace: Workspace) -> None:
    """Those of the proved program are told in the same words in the README and by `nl-bridge -h`."""
    usage = " ".join(workspace.run("nl-bridge", "-h").out.split())
    rows = re.findall(r"(?m)^\| (\d+) \| (.*) \|$", text_of("drivers/README.md"))
    told = [int(number) for number, text in rows if f"{number} {text}" in usage]
    assert told == [0, 1, 2, 3, 4, 5, 6, 127]


def test_names_of_commands() -> None:
    """Each command has its file in bin/; MiniZinc's configurations name some."""
    part = text_of("drivers/pyproject.toml").split("[project.scripts]\n")[1].split("\n\n")[0]
    scripts = dict(re.findall(r'(?m)^(\S+) = "(\S+)"$', part))
    assert sorted(scripts) == sorted(os.listdir(BIN))
    for path in MINIZINC.iterdir():
        told = json.loads(path.read_text(encoding="utf-8"))
        assert (told["version"], told["name"] + ".msc") == (VERSION, path.name)
        assert os.path.basename(told["executable"][0]) in scripts


def scripts_of_the_clone() -> List[Path]:
    """What can be called."""
    files = [
        path
        for folder in FOLDERS_OF_SCRIPTS
        for path in sorted((TOP / folder).iterdir())
        if path.is_file()
    ]
    assert {path for path in files if os.access(path, os.X_OK)} == {
        path for path in files if path.read_bytes().startswith(b"#!")
    }
    return [path for path in files if os.access(path, os.X_OK)]


@pytest.mark.parametrize("script", scripts_of_the_clone(), ids=os.path.basename)
@pytest.mark.parametrize("word", ["--help", "-h"])
def test_script_tells_what_it_is(workspace: Workspace, script: Path, word: str) -> None:
    """On standard output, with its name."""
    ended = workspace.run_process([str(script), word], {"PATH": workspace.path_with_commands()})
    assert (ended.status, ended.err) == (0, "")
    assert script.name in ended.out


class Documented:
    """The commands of a document, in a folder with the examples."""

    def __init__(self, workspace: Workspace) -> None:
        workspace.copy_files(EXAMPLES)
        for name in ("drivers", "dev"):
            os.symlink(TOP / name, workspace.path(name))
        self.workspace = workspace
        self.environment: Mapping[str, str] = {
            "HOME": str(workspace.folder),
            "PYTHONPATH": str(DRIVERS),
            "MZN_SOLVER_PATH": str(MINIZINC),
            "PATH": workspace.path_with_commands(),
        }

    def run(self, name: str) -> None:
        """Runs all blocks of a document that are not left out."""
        for block in blocks_of(name):
            if not block.is_run:
                continue
            if block.text.startswith("$ "):
                self._run_transcript(name, block.text)
            elif block.kind == "sh":
                self._run_lines(name, block.text)
            else:
                ours = [line for line in block.text.split("\n") if _is_our_command(line)]
                assert ours == [], f"{name}: neither run nor marked"

    def _call(self, command: str) -> Ended:
        return self.workspace.shell(command, self.environment)

    def _is_missing(self, command: str) -> bool:
        words = command.split()
        first = next((word for word in words if "=" not in word and word != "env"), "")
        if first == "minizinc":
            return bool(why_missing(first))
        return "menu.py" in words and self._call("python3 -c 'import pulp'").status != 0

    def _run_transcript(self, name: str, text: str) -> None:
        for part in re.split(r"(?m)^\$ ", text)[1:]:
            command, _, wanted = part.partition("\n")
            if not self._is_missing(command):
                ended = self._call(command)
                assert comparable(ended.text) == comparable(wanted), f"{name}: {command}"

    def _run_lines(self, name: str, text: str) -> None:
        for line in text.split("\n"):
            if not line or self._is_missing(line):
                continue
            ended = self._call(line)
            status, verdict = STATUS.search(line), VERDICT.search(line)
            told = f"{name}: {line}\n{ended.err}"
            assert ended.status == (int(status[1]) if status else 0), told
            if verdict:
                assert verdict[1] in ended.out.rstrip("\n").split("\n"), told


def _is_our_command(line: str) -> bool:
    return line.startswith(OUR_COMMANDS) and ":" not in line.split()[0]


def comparable(text: str) -> str:
    """A text without what may differ: versions, sizes, and progress on a slow machine."""
    kept = [
        line for line in text.split("\n") if not re.match(r"bridge-\w+: \w+, \d+ of \d+ s", line)
    ]
    text = re.sub(r"\b(CBC|GLPK) [\d.]+", r"\1 X", "\n".join(kept))
    return re.sub(r"(?m)\d+ bytes$", "X bytes", text).rstrip()


@pytest.mark.needs("mps", "clp_library", "cbc")
@pytest.mark.parametrize("name", DOCUMENTS)
def test_document(workspace: Workspace, name: str) -> None:
    """Its commands do what it says."""
    Documented(workspace).run(name)


def python_examples() -> List[str]:
    """The blocks of PYTHON.md."""
    return [block.text for block in blocks_of("drivers/PYTHON.md") if block.kind == "python"]


@pytest.mark.needs("mps", "clp_library", "cbc")
@pytest.mark.parametrize("number", range(len(python_examples())))
def test_python_example(workspace: Workspace, number: int) -> None:
    """What it prints is what stands behind `#`."""
    block = python_examples()[number]
    assert block.count("\n") <= LONGEST_EXAMPLE
    workspace.copy_files(EXAMPLES)
    workspace.write("example.py", block)
    ended = workspace.run_process([sys.executable, "example.py"], {"PYTHONPATH": str(DRIVERS)})
    assert ended.status == 0, ended.err
    wanted = re.findall(r"(?m)^ *print\(.*\) +# (.*)$", block)
    told = re.sub(r"CBC [\d.]+:", "CBC 2.10.8:", ended.out)
    assert told.split("\n")[:-1] == wanted
