#!/usr/bin/env python3
"""Lists every public call with its clauses, whether it may want memory, the tests that make it, and what it says in words.

    dev/calls.py [CRATE ..]     the list of these crates, or of all (the packages hold it as calls.txt)
    dev/calls.py --check        the calls that may want memory and that no test names, nor the page docs/verify/calls.md;
                                status 1 where there is one

A call is public where the root of its crate hands out its name or its type. Laws (modules `laws` and `.._laws` of a crate) take nothing and have
empty bodies: their clauses are the laws, and they are listed with them.
"""
from __future__ import annotations

import re
import sys
from collections.abc import Iterable, Iterator, Mapping
from dataclasses import dataclass
from functools import cache
from pathlib import Path

from shared import TOP, asked, own_uses
from signatures import Function, functions_of

PAGE = TOP / "docs" / "verify" / "calls.md"
TESTS = ("call_tests", "command_tests")

HANDED = re.compile(r"^pub use (?:\w+::)*(?:(\w+)|\{([^}]*)\});", re.M)
OPENED = re.compile(r"^pub mod (\w+);", re.M)
MADE_OF_MEMORY = re.compile(r"^impl(?:<[^{;]*?>)? From<AllocError> for (\w+)", re.M)
COMMENT = re.compile(r"^\s*//.*$", re.M)


@cache
def errors_of_memory() -> frozenset[str]:
    """The types of errors that may say want of memory: `AllocError`, and each that is made of one."""
    texts = (path.read_text() for path in (TOP / "crates").glob("*/src/**/*.rt"))
    return frozenset({"AllocError"}.union(*map(MADE_OF_MEMORY.findall, texts)))


def error_of(result: str) -> str:
    """The name of the error of a `Result`, without its parameters; empty where the type is none."""
    if not (result.startswith("Result<") and result.endswith(">")):
        return ""
    depth = 0
    start = len("Result<")
    for place, sign in enumerate(result):
        depth += (sign in "<([") - (sign in ">)]" and result[place - 1 : place + 1] != "->")
        if sign == "," and depth == 1:
            start = place + 1
    return result[start:-1].partition("<")[0].rpartition("::")[2]


@dataclass(frozen=True)
class Call:
    """A public function, and the crate that it is of."""

    crate: str
    function: Function

    @property
    def name(self) -> str:
        kind = self.function.kind
        return f"{kind}::{self.function.name}" if kind else self.function.name

    @property
    def wants_memory(self) -> bool:
        return error_of(self.function.result) in errors_of_memory()

    def made_in(self, texts: Mapping[str, str]) -> list[str]:
        """The files of tests that make it."""
        kind = self.function.kind
        word = self.function.name
        made = re.compile(
            rf"\b{kind}::{word}\(|\.{word}\(" if kind else rf"(?<![.:\w]){word}\b(?:\(|::<|<)"
        )
        return [
            name
            for name, text in texts.items()
            if made.search(text) and (kind in text or word not in ("new", "push"))
        ]

    def told(self, texts: Mapping[str, str]) -> str:
        """Its line in the list, and its comment."""
        ensured = (it.label for it in self.function.clauses if it.keyword == "ensures")
        clauses = ", ".join(label or "its clause" for label in ensured) or "no clause"
        tests = ", ".join(self.made_in(texts))
        return (
            f"{self.crate}: {self.name}: {clauses}{'; memory' if self.wants_memory else ''}"
            + (f"; {tests}" if tests else "")
            + (f"\n    {self.function.words}" if self.function.words else "")
        )


def handed_out(root: str) -> set[str]:
    """The names that the root of a crate hands out."""
    found: set[str] = set()
    for one, many in HANDED.findall(root):
        found |= (
            {one}
            if one
            else {word.strip().split(" as ")[0].split("::")[-1] for word in many.split(",")}
        )
    return found - {""}


def calls(crates: Iterable[str]) -> Iterator[Call]:
    """The public calls of crates, by file; a program, and a crate of tests, has none."""
    for crate in crates:
        root = TOP / "crates" / crate / "src" / "lib.rt"
        if root.exists() and crate not in TESTS:
            yield from calls_below(crate, root)


def calls_below(crate: str, root: Path) -> Iterator[Call]:
    """The public calls of the crate with this root file.

    A function is public where its module is (the root itself, or one that the root opens by `pub mod`), or where the root
    hands out its name or its type.
    """
    source = root.parent
    text = root.read_text()
    handed = handed_out(text)
    opened = set(OPENED.findall(text))
    for path in sorted(source.rglob("*.rt")):
        module = path.relative_to(source).parts[0].removesuffix(".rt")
        is_open = path == root or module in opened
        for function in functions_of(path.read_text()):
            if is_open or (function.kind or function.name) in handed:
                yield Call(crate, function)


def texts_of_tests() -> dict[str, str]:
    """The texts of the crates of tests without their comments, by the name of the file."""
    return {
        path.stem: COMMENT.sub("", path.read_text())
        for crate in TESTS
        for path in sorted((TOP / "crates" / crate / "src").glob("*.rt"))
    }


def untried(crates: Iterable[str], tests: Mapping[str, str]) -> list[Call]:
    """The calls that may want memory and that neither a test makes nor the page docs/verify/calls.md names."""
    page = PAGE.read_text()
    return [
        it
        for it in calls(crates)
        if it.wants_memory and not it.made_in(tests) and f"`{it.name}`" not in page
    ]


def check(crates: Iterable[str], tests: Mapping[str, str]) -> int:
    """Names the calls that no test makes; the status of the script."""
    found = untried(crates, tests)
    for it in found:
        print(f"{it.crate}: {it.name} may want memory, and no test makes it (docs/verify/calls.md)")
    return 1 if found else 0


def main(words: list[str]) -> int:
    crates = list(own_uses())
    tests = texts_of_tests()
    if words == ["--check"]:
        return check(crates, tests)
    if unknown := set(words) - set(crates):
        print(f"dev/calls.py: no crate {', '.join(sorted(unknown))}", file=sys.stderr)
        return 3
    print("\n".join(it.told(tests) for it in calls(words or crates)))
    return 0


if __name__ == "__main__":
    sys.exit(main(asked(__doc__)))
