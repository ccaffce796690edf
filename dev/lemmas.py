#!/usr/bin/env python3
"""Lemmas and definitions that nothing needs, and bodies that stand word for word elsewhere.

    dev/lemmas.py [CRATE ..]

It reads the files alone. What is needed begins at code, at what is written of a function's proof, and at what documents
cite; a name that is reached from there by names alone is needed. Names of the library are not looked up.
Status 1 where something is named.
"""
from __future__ import annotations

import re
import sys
from collections import defaultdict
from collections.abc import Iterator
from pathlib import Path

from shared import (
    APART,
    CITED,
    CRATES,
    TOP,
    File,
    Key,
    Library,
    asked,
    imports_of,
    reached,
    without_imports,
)

PATHED = re.compile(r"(?:(\w+)::)?proofs::([\w:]+)::(\w+)")
BODY = re.compile(
    r"^(?P<indent> *)(?:pub(?:\(crate\))? )?fn (?P<name>\w+).*?^(?P=indent)\{\n(?P<body>.*?)^(?P=indent)\}$",
    re.M | re.S,
)
LEAST = 5  # lines of a body that is told


def words_of(text: str) -> set[str]:
    """The words of a text, those of operators between their places too."""
    words = set(APART.split(text))
    return words | {f"◌{word}◌" for word in words} | {f"{word}◌" for word in words}


class Repository(Library):
    """All definitions and lemmas, and what needs them from outside."""

    def __init__(self) -> None:
        super().__init__("specs", "proofs")
        self.first: set[Key | None] = {
            it for file in self.files.values() for it in self.named(file, "\n".join(file.others))
        }
        own = {file.path for file in self.files.values()}
        for path in sorted(
            [*CRATES.glob("*/*/**/*.antt"), *CRATES.glob("*/src/**/*.rt"), *TOP.glob("**/*.md")]
        ):
            if "out" not in path.relative_to(TOP).parts and path.stem != "Lib" and path not in own:
                self.first |= self.roots(path)

    def named(self, file: File, text: str) -> set[Key]:
        """What a text in a file of definitions names."""
        return {
            found
            for word in words_of(text) & {*file.imports, *file.definitions, *file.owners}
            if (found := self.resolve(file.module, word))
        }

    def roots(self, path: Path) -> set[Key | None]:
        """What code, an answer or a document names."""
        text = path.read_text(encoding="utf-8")
        if path.suffix == ".md":
            return {
                self.resolve(f"{crate}.specs.{file}", name)
                for crate, file, name in CITED.findall(text)
            }
        words, own = words_of(without_imports(text)), path.relative_to(CRATES).parts[0]
        return {
            self.resolve(it.module, it.name) for it in imports_of(text) if it.known_as in words
        } | {
            self.resolve(
                f"{own if crate == 'crate' else crate}.proofs.{module.replace('::', '.')}", name
            )
            for crate, module, name in PATHED.findall(text)
        }

    def unneeded(self) -> Iterator[tuple[File, str]]:
        """What nothing reaches."""
        first = {it for it in self.first if it}
        needed = first | set(
            reached(list(first), lambda key: self.named(self.files[key[0]], self[key].text))
        )
        for file in self.files.values():
            yield from (
                (file, name) for name in file.definitions if (file.module, name) not in needed
            )


def bodies() -> dict[str, list[str]]:
    """The bodies of functions, each with the places where it stands."""
    found = defaultdict[str, list[str]](list)
    for path in sorted(CRATES.glob("*/src/**/*.rt")):
        text = path.read_text(encoding="utf-8")
        for one in BODY.finditer(text):
            lines = [line.strip() for line in one["body"].splitlines()]
            found["\n".join(lines)].append(
                f"{path.relative_to(TOP)}:{text.count(chr(10), 0, one.start()) + 1}: {one['name']}"
            )
    return found


def without_user(crates: list[str]) -> Iterator[str]:
    """The definitions and lemmas of these crates, or of all, that nothing needs."""
    for file, name in Repository().unneeded():
        if not crates or file.module.split(".")[0] in crates:
            it = file.definitions[name]
            yield f"{file.path.relative_to(TOP)}:{it.line}: {name} has no user ({len(it.own_lines)} lines)"


def repeated(crates: list[str]) -> Iterator[str]:
    """The bodies that stand more than once, once at least in one of these crates, or in any."""
    folders = [f"crates/{crate}/" for crate in crates] or ["crates/"]
    for body, places in bodies().items():
        is_long = body.count("\n") + 1 >= LEAST
        is_asked = any(folder in place for place in places for folder in folders)
        if len(places) > 1 and is_long and is_asked:
            yield f"{places[0]} stands again in {', '.join(places[1:])}"


def main(arguments: list[str]) -> int:
    lines = [*without_user(arguments), *repeated(arguments)]
    print(*lines, sep="\n")
    return 1 if lines else 0


if __name__ == "__main__":
    sys.exit(main(asked(__doc__)))
