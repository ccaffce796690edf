#!/usr/bin/env python3
"""Lays out long lines of proofs: a line of more than 200 columns becomes lines of at most 120.

    dev/proof_layout.py --check     names each line that is too long; status 1 where there is one
    dev/proof_layout.py --write     lays them out, in place

A line is broken at its blanks alone, so its words stay in their order, which is checked before a file is written. The
outermost blank that leaves a line well filled is taken: before an operator that joins (`→`, `∙`, `≡`, `×`, ..), behind
`=`, `in`, `,` and `;`, or else between two arguments. What is inside of brackets stands two columns further in for
each of them, so that one sees what belongs together. A `use` of many names becomes several of the same module, since a
`use` stands on one line. What cannot be broken, a quoted text, stays as it is.
"""
from __future__ import annotations

import argparse
import re
import sys
from collections.abc import Iterator
from pathlib import Path
from typing import NamedTuple

TOP = Path(__file__).resolve().parent.parent
LONGEST = 200  # columns from which on a line is laid out
WIDTH = 120  # columns of what it becomes
LEAST_FILLED = 60  # columns that a line has before it is broken, where there is such a place
DEEPEST = 24  # columns that brackets move a line in, at the most
OPENING, CLOSING = "([{«", ")]}»"
BEHIND = {"=", "in", ",", ";"}  # a line is broken behind these words first of all
BEFORE = (  # and before these, the loosest first
    {"→"},
    {"∙", "×", "↔"},
    {"≡", "≢", "≤", "<", "≤ℤ", "≤ℚ"},
    {"&&", "||", "++", "∷", "+", "-", "*", "+ℚ", "-ℚ", "*ℚ", "+ℤ", "*ℤ"},
)
WORD = re.compile(r'"(?:\\.|[^"\\])*"|[(){}\[\];,«»]|[^\s(){}\[\];,"«»]+')
USE = re.compile(r"^(?P<head>\s*(?:pub )?use \S+\.)\{(?P<names>[^}]*)\}(?P<rest>.*)$")
COMMENT = re.compile(r"^(?P<head>\s*-- )(?P<text>.*)$")


class Place(NamedTuple):
    """A blank at which a line may be broken.

    Attributes:
        column: Where the next word begins, counted from the line's first word.
        depth: How many brackets are open there.
        rank: How tightly the words beside it belong together: 0 behind a comma or `=`, most between two arguments.
    """

    column: int
    depth: int
    rank: int


def rank(before: str, word: str) -> int:
    """How tightly two words belong together that stand side by side."""
    if before in BEHIND:
        return 0
    return next(
        (place for place, joining in enumerate(BEFORE, start=1) if word in joining), len(BEFORE) + 1
    )


def places(text: str) -> Iterator[Place]:
    """The blanks of a line, without those inside of quoted texts."""
    depth = 0
    before = ""
    end = 0
    for match in WORD.finditer(text):
        word = match.group()
        if before and match.start() > end:
            yield Place(match.start(), depth, rank(before, word))
        depth += (word in OPENING) - (word in CLOSING)
        before = word
        end = match.end()


def has_comment(text: str) -> bool:
    """Whether a comment stands behind other words."""
    return any(match.group().startswith("--") for match in WORD.finditer(text))


def best_place(found: list[Place], start: int, inset: int) -> Place | None:
    """Where what is left of a line is broken next; None where it cannot be.

    Of the places within the width, and of those that leave the line well filled if there are any, the outermost and
    loosest is taken, the last one of these; where none is within the width, the first that there is.

    Args:
        found: The places of the whole line, in order.
        start: The column at which the rest begins.
        inset: How many columns it is moved in.
    """
    left = [it for it in found if it.column > start]
    within = [it for it in left if inset + it.column - start <= WIDTH + 1] or left[:1]
    filled = [it for it in within if inset + it.column - start >= LEAST_FILLED] or within
    if not filled:
        return None
    return min(filled, key=lambda it: (it.depth, it.rank, -it.column))


def broken(text: str, indent: int) -> list[str]:
    """A line, without its own indent, as lines with theirs."""
    found = list(places(text))
    outermost = min((place.depth for place in found), default=0)
    lines: list[str] = []
    start = 0
    inset = indent
    while inset + len(text) - start > WIDTH:
        best = best_place(found, start, inset)
        if best is None:
            break
        lines.append(" " * inset + text[start : best.column].rstrip())
        start = best.column
        inset = indent + min(DEEPEST, 2 + 2 * (best.depth - outermost))
    return [*lines, " " * inset + text[start:]]


def broken_use(match: re.Match[str]) -> list[str]:
    """A `use` of many names as several, each within the width."""
    head = match["head"]
    rows: list[list[str]] = [[]]
    for name in match["names"].split(", "):
        if (
            rows[-1]
            and len(head) + len(", ".join([*rows[-1], name])) + 2 + len(match["rest"]) > WIDTH
        ):
            # `{-` would begin a comment: such a name never stands first
            rows.append([rows[-1].pop()] if name.startswith("-") else [])
        rows[-1].append(name)
    return [f"{head}{{{', '.join(names)}}}{match['rest']}" for names in rows]


def broken_comment(match: re.Match[str]) -> list[str]:
    """A comment as several."""
    lines: list[str] = [""]
    for word in match["text"].split():
        if lines[-1] and len(match["head"]) + len(lines[-1]) + 1 + len(word) > WIDTH:
            lines.append("")
        lines[-1] = f"{lines[-1]} {word}".strip()
    return [match["head"] + line for line in lines]


def laid_out(line: str) -> list[str]:
    """The lines that a line becomes: itself, where it is short or cannot be broken."""
    if len(line) <= LONGEST:
        return [line]
    comment = COMMENT.match(line)
    if comment:
        return broken_comment(comment)
    use = USE.match(line)
    if use:
        return broken_use(use)
    if has_comment(line):
        return [line]
    text = line.lstrip(" ")
    return broken(text, len(line) - len(text))


def words(lines: list[str]) -> list[str]:
    """What must stay the same: all words but those that a `use` or a comment has again."""
    rest = [line for line in lines if not USE.match(line) and not COMMENT.match(line)]
    return [match.group() for line in rest for match in WORD.finditer(line)]


def proofs() -> list[Path]:
    return sorted(TOP.glob("crates/*/proofs/**/*.antt"))


def laid_out_file(path: Path) -> tuple[str, str]:
    """The text of a file, and what it becomes."""
    text = path.read_text(encoding="utf-8")
    before = text.split("\n")
    after = [new for line in before for new in laid_out(line)]
    if words(before) != words(after):
        sys.exit(f"{path}: its words would change")
    return text, "\n".join(after)


def main() -> int:
    parser = argparse.ArgumentParser(
        description=__doc__, formatter_class=argparse.RawDescriptionHelpFormatter
    )
    asked = parser.add_mutually_exclusive_group(required=True)
    asked.add_argument("--check", action="store_true", help="names each line that is too long")
    asked.add_argument("--write", action="store_true", help="lays them out, in place")
    writes = parser.parse_args().write
    count = 0
    for path in proofs():
        before, after = laid_out_file(path)
        if before == after:
            continue
        count += 1
        if writes:
            path.write_text(after, encoding="utf-8")
        else:
            print(
                f"{path.relative_to(TOP)}: has lines of more than {LONGEST} columns (dev/proof_layout.py --write)"
            )
    return 1 if count and not writes else 0


if __name__ == "__main__":
    sys.exit(main())
