"""What the scripts share: their call, and the crates as files: what crates.txt says, what specs/ and proofs/ import and define."""
from __future__ import annotations

import re
import signal
import sys
from collections.abc import Callable, Iterator
from dataclasses import dataclass, field
from pathlib import Path
from typing import Any, TypeVar

TOP = Path(__file__).resolve().parent.parent
CRATES = TOP / "crates"
IMPORT = re.compile(
    r"^\s*(?P<head>(?:pub |ghost |unfoldable )*)use (?:Rattle\.)?(?P<module>[\w.]+)(?:\.\{(?P<names>[^}]*)\})?;?\s*$"
)
DEFINED = re.compile(
    r"^\s*(?:(?:unfoldable|abbrev|pub|record|data) )*(?P<names>[^:({]+?) (?:[({].*)?: "
)
BEGINS = re.compile(
    r"^\s*(?:pub |abbrev |unfoldable |record |data )*(?P<name>[^\s:(){}]+)[^=]*? : "
)
MODULE = re.compile(r"^\s*(?:module |(?:abbrev )?mutual|(?:pub )?ruleset )")
CONSTRUCTOR = re.compile(r"^\s+([\w\-]+)\s*:")
WORD = re.compile(r"[^\s(){}\[\];,]+")
APART = re.compile(r"[\s(){}\[\],;.]+")
CITED = re.compile(r"`(\w+)/(?:specs/)?(\w+):([\w\-◌]+)`")
KEYWORDS = ("let", "in", "where", "|")

Key = tuple[str, str]  # a module, as `text_base.proofs.Judged`, and a name in it
T = TypeVar("T", bound=Any)


def asked(told: str | None, least: int = 0, most: int = 1000) -> list[str]:
    """The words of a call: so many; of `-h` and `--help` what the script is. Where nobody reads on, the script ends."""
    signal.signal(signal.SIGPIPE, signal.SIG_DFL)
    words = sys.argv[1:]
    if {"-h", "--help"} & set(words):
        print(told)
        sys.exit()
    if not least <= len(words) <= most:
        sys.exit(told)
    return words


@dataclass
class Room:
    """A heading of crates.txt with its crates."""

    name: str
    what: str
    crates: list[str] = field(default_factory=list)


def rooms() -> tuple[list[Room], dict[str, list[str]]]:
    """The rooms in order, and the libraries that each crate uses, crates of ours and others."""
    found: list[Room] = []
    uses: dict[str, list[str]] = {}
    for line in (TOP / "crates.txt").read_text().splitlines():
        name, colon, rest = line.partition(":")
        if line.startswith("# ") and colon and rest and " " not in name[2:]:
            found.append(Room(name[2:].replace("_", " "), rest.strip()))
        elif colon and not line.startswith("#"):
            found[-1].crates.append(name)
            uses[name] = rest.split()
    return found, uses


def own_uses() -> dict[str, list[str]]:
    """The crates of ours, in the order of crates.txt, with those that each stands on."""
    uses = rooms()[1]
    return {name: [it for it in used if it in uses] for name, used in uses.items()}


def reached(roots: list[T], below: Callable[[T], set[T]]) -> list[T]:
    """What is below these, and below that."""
    found: set[T] = set()
    left = list(roots)
    while left:
        new = below(left.pop()) - found
        found |= new
        left += new
    return sorted(found)


@dataclass(frozen=True)
class Import:
    """One name that a file imports, under the name by which the file knows it."""

    line: int
    module: str
    name: str
    known_as: str
    passed_on: bool


def imports_of(text: str) -> Iterator[Import]:
    """What the `use` lines of a file of definitions bring in, name by name."""
    for number, line in enumerate(text.splitlines(), 1):
        found = IMPORT.match(line)
        for part in (found["names"] or "").split(",") if found else ():
            name, *others = (word.strip() for word in part.split(" as "))
            if found and name:
                yield Import(
                    number, found["module"], name, [name, *others][-1], "pub" in found["head"]
                )


def without_imports(text: str) -> str:
    return "\n".join(line for line in text.splitlines() if not IMPORT.match(line))


def is_comment(line: str) -> bool:
    return line.strip().startswith("--")


@dataclass
class Definition:
    """A definition or a lemma: where it stands, what stands above it (its comment, the head of its module), its lines."""

    key: Key
    line: int
    comment: list[str]
    lines: list[str] = field(default_factory=list)

    @property
    def own_lines(self) -> list[str]:
        """Its lines without comments: what counts, and what names what it rests on."""
        return [line for line in self.lines if not is_comment(line)]

    @property
    def text(self) -> str:
        return "\n".join(self.own_lines)

    def constructors(self) -> list[str]:
        """The names of the cases, where it is a data type."""
        if not re.match(r"^\s*(?:pub )?data ", self.lines[0]):
            return []
        return [found[1] for found in map(CONSTRUCTOR.match, self.lines[1:]) if found]


class File:
    """A file of definitions: what it is about, what it imports, by the names that it knows, what it defines, in order, and
    the lines that are of no definition."""

    def __init__(self, path: Path) -> None:
        text = path.read_text(encoding="utf-8")
        self.path, self.module = path, ".".join(path.relative_to(CRATES).with_suffix("").parts)
        self.imports = {it.known_as: it for it in imports_of(text)}
        found = Cut(self.module)
        for number, line in enumerate(map(str.rstrip, text.splitlines()), 1):
            found.take(number, line)
        self.head = found.head
        self.others = found.others
        self.definitions = found.definitions
        self.owners = {
            case: name for name, it in self.definitions.items() for case in it.constructors()
        }


class Cut:
    """Cuts a text into definitions, line by line: each is what stands at a depth where one may begin, with its comment.

    Attributes:
        head: The comments above imports.
        others: The lines that are of no definition.
        definitions: By name, in order.
    """

    def __init__(self, module: str) -> None:
        self.module = module
        self.head: list[str] = []
        self.others: list[str] = []
        self.definitions: dict[str, Definition] = {}
        self.comment: list[str] = []  # what stands above the next definition
        self.last: list[str] = []  # where lines that go on are added
        self.is_open = False  # whether a definition goes on
        self.depths = {0}  # columns at which a definition may begin

    def take(self, number: int, line: str) -> None:
        """Takes the next line, which has no blanks at its end."""
        if IMPORT.match(line):
            self.head += self.comment
            self.comment = []
        elif is_comment(line):
            (self.last if self.is_open else self.comment).append(line)
        elif not line or line.lstrip().startswith("infix"):
            self.is_open = False
        else:
            self.take_text(number, line)

    def take_text(self, number: int, line: str) -> None:
        """Takes a line that begins a module or a definition, or goes on with what was begun."""
        depth = len(line) - len(line.lstrip())
        self.depths = {at for at in self.depths if at <= depth} | {0}
        name = begun_name(line)
        if MODULE.match(line):
            self.depths.add(depth + 2)
            self.comment = [*self.comment, line]
            self.last = self.others
        elif name is not None and depth in self.depths:
            made = Definition((self.module, name), number, self.comment)
            self.comment = []
            self.last = self.definitions.setdefault(name, made).lines
        self.is_open = self.last is not self.others
        self.last.append(line)


def begun_name(line: str) -> str | None:
    """The name of the definition that a line begins, if its depth allows one; None where it begins none."""
    begun = BEGINS.match(line)
    if begun is None or not DEFINED.match(line) or begun["name"] in KEYWORDS:
        return None
    return begun["name"]


class Library:
    """The files of definitions, by module."""

    def __init__(self, *parts: str) -> None:
        paths = sorted(
            path
            for part in parts
            for path in CRATES.glob(f"*/{part}/*.antt")
            if path.stem not in ("Lib", "Examples")
        )
        self.files = {file.module: file for file in map(File, paths)}

    def __getitem__(self, key: Key) -> Definition:
        return self.files[key[0]].definitions[key[1]]

    def has(self, key: Key) -> bool:
        return key[0] in self.files and key[1] in self.files[key[0]].definitions

    def resolve(self, module: str, name: str) -> Key | None:
        """The definition of ours that a name means in a file."""
        file = self.files.get(module)
        if file is None:
            return None
        name = file.owners.get(name, name)
        entry = file.imports.get(name)
        if name in file.definitions or entry is None:
            return (module, name) if name in file.definitions else None
        return self.resolve(entry.module, entry.name)
