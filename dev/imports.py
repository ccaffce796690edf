#!/usr/bin/env python3
"""Imports of specs, proofs and clauses that name nothing, and those that a file does not use.

    dev/imports.py [CRATE ..]

It reads the files alone and takes a second, so it is for the time before a check: after files or
names were moved. An import of another repository's library (std, itoa, ..) is not looked up.
Status 1 where an import names nothing.
"""
from __future__ import annotations

import re
import sys
from collections.abc import Iterator
from functools import lru_cache
from pathlib import Path

from shared import APART, CRATES, DEFINED, TOP, Import, asked, imports_of, without_imports

TYPES = r"\b(?:struct|enum|trait|type|const|static) %s\b"
UNREAD = ("Goals", "Given", "TheInside", "TheConstants")


@lru_cache(maxsize=None)
def names_in(path: Path) -> frozenset[str]:
    """The names that a file of specs/ or proofs/ shows to others."""
    text = path.read_text(encoding="utf-8") if path.is_file() else ""
    defined = (
        name
        for line in text.splitlines()
        if (found := DEFINED.match(line))
        for name in found["names"].split()
    )
    return frozenset(defined) | {entry.known_as for entry in imports_of(text) if entry.passed_on}


def is_declared(source: Path, words: list[str], name: str) -> bool:
    """Whether code declares the type that these words lead to, and says the name where it is one of its variants."""
    *modules, kind = [word for word in words if word != "TheVariants"]
    inside = source / "/".join(modules)
    files = (inside.with_suffix(".rt"), inside / "mod.rt", source / "lib.rt")
    text = "".join(path.read_text(encoding="utf-8") for path in files if path.is_file())
    if not re.search(TYPES % re.escape(kind), text):
        return "macro_rules!" in text or "!(" in text
    return words[-1] != "TheVariants" or re.search(rf"\b{re.escape(name)}\b", text) is not None


def is_there(entry: Import) -> bool:
    """Whether a module of this repository has the name; true for what is not looked up."""
    crate, *rest = entry.module.split(".")
    if (
        not (CRATES / crate).is_dir()
        or not rest
        or rest[:2] == ["specs", "contracts"]
        or rest[-1] in UNREAD
    ):
        return True
    if rest[:2] == ["specs", "declared"]:
        return is_declared(CRATES / crate / "src", rest[2:], entry.name)
    return entry.name in names_in((CRATES / crate).joinpath(*rest).with_suffix(".antt"))


def is_used(entry: Import, words: set[str], body: str) -> bool:
    if "◌" in entry.known_as:
        return all(any(part in word for word in words) for part in entry.known_as.split("◌"))
    return (
        entry.known_as in words
        or re.search(rf"(?<![\w-]){re.escape(entry.known_as)}(?![\w-])", body) is not None
    )


def sources(crates: list[str]) -> Iterator[Path]:
    """The files of code, definitions and proofs of these crates, without what was built."""
    for crate in crates:
        for path in sorted((CRATES / crate).rglob("*")):
            if path.suffix in (".rt", ".antt") and "out" not in path.parts:
                yield path


def check(path: Path) -> int:
    """Names the imports of a file that name nothing, and those that it does not use; how many name nothing.

    What code imports is not looked for in it: the compiler says that.
    """
    text = path.read_text(encoding="utf-8")
    body = without_imports(text)
    words = set(APART.split(body))
    missing = 0
    for entry in imports_of(text):
        place = f"{path.relative_to(TOP)}:{entry.line}"
        if not is_there(entry):
            missing += 1
            print(f"{place}: {entry.module} has no {entry.name}")
        elif path.suffix == ".antt" and not entry.passed_on and not is_used(entry, words, body):
            print(f"{place}: {entry.known_as} is not used")
    return missing


def main(arguments: list[str]) -> int:
    crates = arguments or sorted(path.name for path in CRATES.iterdir() if path.is_dir())
    missing = sum(map(check, sources(crates)))
    return 1 if missing else 0


if __name__ == "__main__":
    sys.exit(main(asked(__doc__)))
