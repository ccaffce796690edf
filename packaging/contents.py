"""What the packages hold: each file by its path, its bytes and its mode. Read from a clone."""

from __future__ import annotations

import glob
import hashlib
import json
import os
import re
import subprocess
import sys
from pathlib import Path
from typing import Iterator, Mapping, NamedTuple, Sequence

try:
    import tomllib
except ImportError:
    raise SystemExit("packaging/build: needs Python 3.11 or later") from None

from sbom import sbom
from sources import BUILT, TOP, TRIED, fault_of, said_by

sys.path.insert(0, os.path.join(TOP, "drivers"))
import manual  # noqa: E402
from bridge_drivers import VERSION  # noqa: E402
from bridge_drivers.commands.completion import completion_path, completion_text  # noqa: E402

PACKAGE = "bridge_drivers"
DOCUMENTS = (
    "README.md",
    "drivers/*.md",
    "drivers/report.schema.json",
    "docs/user/*.md",
    "docs/verify/*.md",
    "docs/dev/*.md",
    "docs/pictures/*",
    "crates/*/README.md",
)
MADE = {
    "docs/verify/definitions.txt": ("statement.py", "--all"),
    "docs/verify/calls.txt": ("calls.py",),
    "docs/verify/wrong-bodies.txt": ("wrong-bodies", "--list"),
    "docs/dev/crates.txt": ("map.py", "--table"),
}  # texts that scripts of dev/ print
LINK = re.compile(r"\]\(([^)#]+)(?:#[^)]*)?\)")
DRIVER = "bridge_drivers.commands.driver:main"  # commands of this kind share a man page
OWN_PAGES = set(os.listdir(os.path.join(TOP, "packaging", "man")))
X86_64 = b"\x3e\x00"  # the machine in an ELF file's head


class File(NamedTuple):
    """One file of a package.

    Attributes:
        path: From the folder into which it goes, at the end from the root of the package.
        data: Its bytes.
        mode: Who may read, write and run it.
    """

    path: str
    data: bytes
    mode: int = 0o644


class Unfit(Exception):
    """What cannot be packed; the text says why."""


def read(*parts: str) -> bytes:
    with open(os.path.join(TOP, *parts), "rb") as f:
        return f.read()


def filled(template: bytes, words: Mapping[str, str]) -> bytes:
    """A text in which words stand for marks `@WORD@`."""
    for word, text in words.items():
        template = template.replace(f"@{word}@".encode(), text.encode())
    return template


def epoch() -> int:
    """The time of every file: SOURCE_DATE_EPOCH, else that of the commit, else 1980."""
    given = os.environ.get("SOURCE_DATE_EPOCH") or said_by("git", "log", "-1", "--format=%ct")
    return max(int(given or 0), 315532800)


def dead_links(documents: Sequence[File]) -> list[str]:
    """Links between documents that lead to none of them, with the documents that have them."""
    paths = {file.path for file in documents}
    paths |= {os.path.dirname(path) for path in paths}
    links = (
        (file.path, link)
        for file in documents
        if file.path.endswith(".md")
        for link in LINK.findall(file.data.decode())
    )
    return [
        f"{link} ({path})"
        for path, link in links
        if "://" not in link
        and os.path.normpath(os.path.join(os.path.dirname(path), link)) not in paths
    ]


def program_of(other: str | None) -> tuple[str, bool, str]:
    """The program, whether the gate proved it, and its toolchain: the one that is named, that of
    the gate, else that which dev/try built of these sources."""
    if other:
        return other, False, said_by("rt", "--version")
    facts, why = fault_of(BUILT)
    if not why:
        return BUILT, True, facts["toolchain"]
    told, no_trial = fault_of(TRIED)
    if no_trial:
        raise Unfit(
            f"{os.path.relpath(BUILT, TOP)}: {why}: .ci/run builds and proves it; "
            f"{os.path.relpath(TRIED, TOP)}: {no_trial}: dev/try builds it without proofs"
        )
    return TRIED, False, told["toolchain"]


class Project:
    """A clone with a program: that which its gate built and proved from the sources that are
    there, or another one, which may not be proved."""

    def __init__(self, other: str | None) -> None:
        program, self.proved, self.toolchain = program_of(other)
        with open(program, "rb") as f:
            self.program = f.read()
        if self.program[:4] != b"\x7fELF" or self.program[18:20] != X86_64:
            raise Unfit(f"{program} is no program for x86-64")
        self.epoch = epoch()
        self.table = tomllib.loads(read("drivers", "pyproject.toml").decode())["project"]
        self.name: str = self.table["name"]
        self.scripts: dict[str, str] = dict(sorted(self.table["scripts"].items()))
        self.version = VERSION

    def description(self) -> str:
        """One line, which says so where the program is not proved."""
        text = str(self.table["description"])
        return text if self.proved else text.replace("proved", "UNPROVED", 1)

    def maintainer(self) -> str:
        """The project's, or that of whoever builds packages for others, as Debian's tools ask."""
        own = self.table["maintainers"][0]
        return f"{os.environ.get('DEBFULLNAME', own['name'])} <{os.environ.get('DEBEMAIL', own['email'])}>"

    def glibc(self) -> tuple[int, int]:
        """The version of the C library that the program needs."""
        return max((int(a), int(b)) for a, b in re.findall(rb"GLIBC_(\d+)\.(\d+)", self.program))

    def built(self) -> bytes:
        """What `nl-bridge version` tells of the program."""
        commit = said_by("git", "describe", "--always", "--dirty", "--abbrev=40", "--exclude=*")
        facts = {
            "sha256": hashlib.sha256(self.program).hexdigest(),
            "toolchain": self.toolchain,
            "commit": commit,
            "proved": "yes" if self.proved else "no",
        }
        return (json.dumps(facts, indent=1, sort_keys=True) + "\n").encode()

    def modules(self) -> Iterator[File]:
        """The Python package, by path from the folder that holds it."""
        top = Path(TOP, "drivers")
        for path in sorted((top / PACKAGE).rglob("*")):
            if path.is_file() and path.suffix != ".pyc":
                yield File(str(path.relative_to(top)), path.read_bytes())
        yield File(f"{PACKAGE}/built.json", self.built())

    def configurations(self) -> Iterator[File]:
        """MiniZinc's, which find the commands from PREFIX/share/minizinc/solvers."""
        for name in sorted(os.listdir(os.path.join(TOP, "drivers", "minizinc"))):
            configuration = json.loads(read("drivers", "minizinc", name))
            words = configuration["executable"]
            words[0] = "../../../bin/" + os.path.basename(words[0])
            configuration["version"] = self.version
            yield File(name, (json.dumps(configuration, indent=2) + "\n").encode())

    def pages(self) -> Iterator[File]:
        """The man pages of the commands, with their words filled in."""
        drivers = [name for name, entry in self.scripts.items() if entry == DRIVER]
        for name, data in manual.own_pages(drivers, self.version, self.epoch).items():
            if name.removesuffix(".1") in self.scripts:
                yield File(name, data)

    def linked_pages(self) -> Iterator[str]:
        """The commands whose page is that of the drivers."""
        for name, entry in self.scripts.items():
            if f"{name}.1" not in OWN_PAGES:
                if entry != DRIVER:
                    raise Unfit(f"packaging/man has no page of {name}")
                yield f"{name}.1"

    def documents(self) -> list[File]:
        """What users read. Unfit where a link leads to none of it."""
        paths = sorted(path for pattern in DOCUMENTS for path in glob.glob(pattern, root_dir=TOP))
        found = [File(path, read(path)) for path in paths]
        for path, (script, *words) in MADE.items():
            call = [sys.executable, os.path.join(TOP, "dev", script), *words]
            found.append(
                File(path, subprocess.run(call, stdout=subprocess.PIPE, check=True).stdout)
            )
        dead = dead_links(found)
        if dead:
            raise Unfit("links that lead nowhere: " + ", ".join(dead))
        return found

    def sbom(self) -> File:
        """What the packages are made of, for tools."""
        text = sbom(self.name, self.version, self.toolchain, self.program, self.epoch)
        return File(f"{self.name}.spdx.json", text)

    def completions(self, zsh: str) -> Iterator[File]:
        """Where shells look for them below PREFIX/share; `zsh` is zsh's folder. Those of bash and
        fish are one text under the name of each command."""
        yield File(completion_path("zsh", "", self.name, zsh), completion_text("zsh").encode())
        for shell in ("bash", "fish"):
            text = completion_text(shell).encode()
            for name in self.scripts:
                yield File(completion_path(shell, "", name), text)

    def installed(self, modules: str, program: str, share: str, zsh: str) -> list[File]:
        """What both packages have, beside man pages. The examples are not among the documents,
        which small systems leave out."""
        examples = [
            File(path.name, path.read_bytes())
            for path in Path(TOP, "packaging", "examples").iterdir()
        ]
        inside = {
            modules: self.modules(),
            os.path.dirname(program): [File("bridge", self.program, 0o755)],
            f"{share}/minizinc/solvers": self.configurations(),
            os.path.dirname(share): self.completions(zsh),
            f"{share}/doc/{self.name}": [*self.documents(), self.sbom()],
            f"{share}/{self.name}/examples": examples,
        }
        return [
            file._replace(path=os.path.join(folder, file.path))
            for folder, files in inside.items()
            for file in files
        ]
