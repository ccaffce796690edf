#!/usr/bin/env python3
"""Prints the definitions on which a clause rests: what has to be read to believe a theorem.

    dev/statement.py CRATE/FILE:NAME ..   the definitions, by file, from the ground up, with their texts
    dev/statement.py --all                the definitions of every theorem, names and texts (the packages hold this text)
    dev/statement.py --lists              their names by theorem and file
    dev/statement.py --senses             the names that have two senses in the statement of a theorem
    dev/statement.py --write              writes into docs/verify/reading.md how much says each theorem of its table
    dev/statement.py --check              says whether it is as --write makes it, and what a statement may not rest on; status 1
                                          where something is wrong

A definition of `crates/CRATE/specs/FILE.antt` rests on those that its text names. Arithmetic (`ARITHMETIC`) is printed
last, under a heading of its own, and counts as all else. Names of the toolchain's library are not
followed: it is trusted. Types that code declares (`specs.declared`) are printed and counted apart, from the code.
A value that holds a proof cites lemmas, which stand in files named `..Lemmas`. The machine checks them, and their types
say nothing that the value's type does not say: they are counted apart, and what they alone rest on is no part of a
statement. Files named `Inside..` have what only contracts of private code cite: no statement rests on them.
"""
from __future__ import annotations

import re
import sys
from collections.abc import Iterable, Iterator, Sequence
from graphlib import TopologicalSorter
from itertools import groupby

from shared import T, TOP, WORD, Definition, File, Key, Library, asked, reached

READING = TOP / "docs" / "verify" / "reading.md"
HEADLINE = "".join(re.findall(r"headline: `(.*?)`", READING.read_text())[:1])
# each promise, and each row of commands that share one, that these name has a row there
COMMANDS = (
    "bridge_tool/Commands:promise_of",
    "bridge_tool/OneFile:row_of",
    "bridge_tool/Verify:claim_row_of",
)
ARITHMETIC = {  # what numbers are
    f"exact_numbers/{file}"
    for file in (
        "Divisors",
        "Fits",
        "FloorLemmas",
        "Fraction",
        "LowestTerms",
        "Functions",
        "LowestLemmas",
        "Rational",
        "Sums",
        "Values",
    )
}
# names that stand for two things in the statement of a theorem: never more
TWO_SENSES = {
    "what a yes of an MPS file says": 2,
    "what an export is read as": 19,
    "export with names": 5,
    "return": 16,
    "return with names": 18,
    "verify_mps, verify_fixed": 7,
    "check": 20,
    "import": 2,
    "nl": 2,
    "mps, fixed": 2,
    "sol": 1,
    "make": 11,
}
ROW = re.compile(
    r"^\| (?P<name>[^|]+) \| (?P<roots>(?:headline|`\w+/[^|]*)[^|]*) \| (?P<said>[^|]+) \| (?P<count>[^|]*) \|$",
    re.M,
)
PROPOSITION = re.compile(r"[≡<≤∣≢]|\b(?:Is|Are|Has)[A-Z]")
FIELD = re.compile(r"(?:^\s+|[{;]\s*)[\w\-]+ = ", re.M)


def key_of(name: str) -> Key:
    """The key of CRATE/FILE:NAME."""
    place, _, own = name.partition(":")
    return place.replace("/", ".specs."), own


def place_of(module: str) -> str:
    """CRATE/FILE."""
    return module.replace(".specs.", "/")


# of each row of the reading list, what is promised, the definitions that say it
THEOREMS = {
    row["name"]: [
        key_of(HEADLINE if root == "headline" else root.strip("`"))
        for root in row["roots"].split(", ")
    ]
    for row in ROW.finditer(READING.read_text())
}
ALONE = list(THEOREMS)[:-1]  # those but the last, which is of all commands


def is_lemma(key: Key) -> bool:
    """Whether it stands in a file of lemmas."""
    return key[0].endswith("Lemmas")


def is_proof(it: Definition) -> bool:
    """Whether its type, up to its first clause, ends in a relation or in a proposition's name."""
    later = [
        line
        for line in it.own_lines[1:]
        if not re.match(rf"\s*({re.escape(it.key[1])}|unfolding)\b", line)
    ]
    return bool(PROPOSITION.search(" ".join([it.lines[0], *later])))


def is_arithmetic(module: str) -> bool:
    """Whether a file says what numbers are."""
    return place_of(module) in ARITHMETIC


def upwards(below: dict[T, set[T]]) -> list[T]:
    """Each after those that it rests on."""
    return list(
        TopologicalSorter(
            {it: sorted(others) for it, others in sorted(below.items())}
        ).static_order()
    )


def crate_of(module: str) -> str:
    """The crate in which a file stands."""
    return module.split(".")[0]


def crates_below(files: dict[str, set[str]]) -> dict[str, set[str]]:
    """Of each crate of these files, each with those that it rests on, the other crates that it rests on."""
    crates: dict[str, set[str]] = {crate_of(module): set() for module in files}
    for module, others in files.items():
        crate = crate_of(module)
        crates[crate] |= {crate_of(other) for other in others} - {crate}
    return crates


class Statement(Library):
    """All definitions of the repository."""

    def __init__(self) -> None:
        super().__init__("specs")

    def names_in(self, key: Key) -> set[Key]:
        """The definitions that one names, lemmas among them."""
        file, text = self.files[key[0]], self[key].text
        names = set(WORD.findall(FIELD.sub(" { ", text)))
        names |= {name.split(".")[0] for name in names}
        names |= {
            name
            for name in (*file.imports, *file.definitions)
            if name.startswith("◌") and name.strip("◌") in text
        }
        return {found for name in names if (found := self.resolve(key[0], name))} - {key}

    def rests_on(self, key: Key) -> set[Key]:
        """The definitions that one names, without lemmas."""
        return {it for it in self.names_in(key) if not is_lemma(it)}

    def lemmas_below(self, keys: list[Key]) -> list[Key]:
        """The lemmas that these cite, with those that they rest on."""
        return reached(keys, lambda key: {it for it in self.names_in(key) if is_lemma(it)})

    def closure(self, roots: Iterable[Key]) -> list[Key]:
        """What these rest on, themselves among them."""
        return sorted({*roots, *reached(list(roots), self.rests_on)})

    def of(self, theorem: str) -> list[Key]:
        """What the statement of a theorem rests on."""
        return self.closure(THEOREMS[theorem])

    def by_file(self, keys: list[Key]) -> dict[str, list[Key]]:
        """Definitions by file: crates, and files in a crate, after those that they rest on, definitions in their order.

        Arithmetic comes last."""
        files = self.files_below(keys)
        rank = {crate: number for number, crate in enumerate(upwards(crates_below(files)))}
        order = sorted(upwards(files), key=lambda it: (is_arithmetic(it), rank[crate_of(it)]))
        return {
            it: sorted((key for key in keys if key[0] == it), key=lambda key: self[key].line)
            for it in order
        }

    def files_below(self, keys: list[Key]) -> dict[str, set[str]]:
        """Of each file of these definitions the other files on which they rest."""
        files: dict[str, set[str]] = {module: set() for module, _ in keys}
        for key in keys:
            files[key[0]] |= {module for module, _ in self.rests_on(key)} - {key[0]}
        return files

    def types_of(self, keys: list[Key]) -> dict[tuple[str, str], list[str]]:
        """The types that code declares and these definitions use, by file and name, with their lines."""
        found = {
            it
            for module, group in groupby(keys, lambda key: key[0])
            for it in types_in(self.files[module], self.words_of(group))
        }
        return {it: declaration(*it) for it in sorted(found)}

    def figures(self, keys: Sequence[Key]) -> tuple[int, int, int, int]:
        """How many definitions, lines, files and crates these are."""
        modules = {module for module, _ in keys}
        return (
            len(keys),
            sum(len(self[key].own_lines) for key in keys),
            len(modules),
            len({it.split(".")[0] for it in modules}),
        )

    def words_of(self, keys: Iterable[Key]) -> set[str]:
        return {word for key in keys for word in WORD.findall(self[key].text)}

    def size(self, keys: Sequence[Key]) -> str:
        return "{} definitions, {} lines".format(*self.figures(keys))

    def whole_size(self, keys: list[Key]) -> str:
        return "{} definitions, {} lines, {} files, {} crates".format(*self.figures(keys))


def types_in(file: File, words: set[str]) -> list[tuple[str, str]]:
    """The types of code that these words of a file name: file and name."""
    types = set()
    for name, entry in file.imports.items():
        path = entry.module.split(".")
        if name in words and path[1:3] == ["specs", "declared"]:
            *modules, kind = [part for part in path[3:] if not part.startswith("The")]
            types.add(("/".join(["crates", path[0], "src", *(modules or ["lib"])]) + ".rt", kind))
    return sorted(types)


def declaration(file: str, name: str) -> list[str]:
    """The lines by which code declares a type; of one that contracts see as another value, that value."""
    text = (TOP / file).read_text() if (TOP / file).exists() else ""
    if model := re.search(rf"^impl(?:<[^>]*>)? Model for {name}\b", text, re.M):
        value = re.search(r"^.*ghost Value = .*$", text[model.start() :], re.M)
        return [
            f"{name} is seen as {value[0].strip().removeprefix('ghost Value = ').strip('{ };') if value else ''}"
        ]
    begun = re.search(
        rf"^(?:pub(?:\(\w+\))? )?(?:struct|enum) {name}\b(?:.*\n)*?(?!    ).*[;}}] *$", text, re.M
    )
    return [
        line
        for line in (begun[0] if begun else "").splitlines()
        if not line.strip().startswith("//")
    ]


def texts_of(statement: Statement, file: File, found: list[Key]) -> list[str]:
    """What definitions of a file say, below what they use by another name and of code."""
    words = statement.words_of(found)
    types = types_in(file, words)
    others = [it for name, it in sorted(file.imports.items()) if name != it.name and name in words]
    lines = [
        f"==== crates/{file.module.replace('.', '/')}.antt: {statement.size(found)}",
        *file.head,
        *(f"-- here {it.known_as} is {it.module}:{it.name}" for it in others),
    ]
    lines += [
        f"-- {', '.join(name for _, name in group)} of code: {place}"
        for place, group in groupby(types, lambda it: it[0])
    ]
    return [
        *lines,
        "",
        *(
            line
            for it in map(statement.__getitem__, found)
            for line in (*it.comment, *it.lines, "")
        ),
    ]


def printed(statement: Statement, roots: Iterable[Key]) -> str:
    """The texts of all definitions, by file."""
    keys = statement.closure(roots)
    lines = [
        next(
            part
            for part in READING.read_text().split("\n\n")
            if part.startswith("How to read them")
        ),
        "",
    ]
    files = statement.by_file(keys)
    arithmetic = [key for module in files if is_arithmetic(module) for key in files[module]]
    for module, found in files.items():
        if found[0] in arithmetic[:1]:
            lines += [
                f"######## Arithmetic: for who doubts the rational numbers: {statement.size(arithmetic)}",
                "",
            ]
        lines += texts_of(statement, statement.files[module], found)
    types = statement.types_of(keys)
    types_size = f"{len(types)} types of code, {sum(map(len, types.values()))} lines"
    lines += [f"==== types of code: {types_size}", ""] if types else []
    for (place, name), declared in types.items():
        lines += [f"-- {name}: {place}", *declared, ""]
    cited = statement.figures(statement.lemmas_below(keys))[1]
    return "\n".join(
        [
            *lines,
            f"{statement.whole_size(keys)}; {types_size}",
            f"lemmas that they cite, not to be read: {cited} lines",
        ]
    )


def lists(statement: Statement) -> str:
    """The definitions of each theorem by file, with the line at which each stands."""
    lines = []
    for it in ALONE:
        keys = statement.of(it)
        lines += [f"==== {it}: {statement.whole_size(keys)}", ""]
        for module, found in statement.by_file(keys).items():
            names = ", ".join(f"{statement[key].line} {key[1]}" for key in found)
            lines.append(
                f"crates/{module.replace('.', '/')}.antt ({statement.size(found)}): {names}"
            )
        lines.append("")
    return "\n".join(lines)


def all_texts(statement: Statement) -> str:
    """The definitions of each theorem by name, and the texts of all."""
    return f"{lists(statement)}\n{printed(statement, {root for roots in THEOREMS.values() for root in roots})}"


def reading(statement: Statement) -> str:
    """The text of docs/verify/reading.md, with the figures of today."""

    def counted(row: re.Match[str]) -> str:
        keys = statement.of(row["name"])
        count = "{}, {}; {}, {}; ".format(*statement.figures(keys)) + str(
            len(statement.types_of(keys))
        )
        return f"{row[0][:row.start('count') - row.start()]}{count} |"

    return ROW.sub(counted, READING.read_text())


def senses(statement: Statement, theorem: str) -> dict[str, list[str]]:
    """The names that more than one definition of a theorem's statement has, and where."""
    named: dict[str, list[str]] = {}
    for module, name in statement.of(theorem):
        named.setdefault(name, []).append(place_of(module))
    return {name: places for name, places in sorted(named.items()) if len(places) > 1}


def told_senses(statement: Statement) -> str:
    """The names with two senses in each statement that is looked at alone, a line a name."""
    lines = []
    for it in ALONE:
        named = senses(statement, it)
        lines += [
            f"{it}: {len(named)}",
            *(f"    {name}: " + ", ".join(places) for name, places in named.items()),
        ]
    return "\n".join(lines)


def promises_without_theorem(statement: Statement) -> Iterator[str]:
    """What the tables of commands promise and no row of the reading list says."""
    rows = {root for roots in THEOREMS.values() for root in roots}
    promised = {
        it
        for table in COMMANDS
        for it in statement.rests_on(key_of(table))
        if it[1].endswith(("_promise", "_row"))
    }
    for module, name in promised - rows:
        yield f"no theorem of docs/verify/reading.md has {place_of(module)}:{name}"


def wrongly_rested_on(statement: Statement, theorem: str) -> Iterator[str]:
    """What the statement of a theorem rests on and may not: what is inside, and a lemma whose type is no proposition."""
    for key in statement.of(theorem):
        shown = f"{place_of(key[0])}/{key[1]}"
        if ".Inside" in key[0]:
            yield f"{shown} is part of the statement of `{theorem}`"
        for lemma in statement.names_in(key):
            if is_lemma(lemma) and not is_proof(statement[lemma]):
                yield f"{place_of(lemma[0])}/{lemma[1]} is no proof, and {shown} cites it"


def too_many_senses(statement: Statement, theorem: str) -> Iterator[str]:
    """Whether more names have two senses in the statement of a theorem than are allowed."""
    named = senses(statement, theorem)
    most = TWO_SENSES.get(theorem, 0)
    if len(named) > most:
        yield (
            f"{len(named)} names have two senses in the statement of `{theorem}`, more than {most}: "
            f"{', '.join(named)} (dev/statement.py --senses)"
        )


def complaints(statement: Statement) -> list[str]:
    """Promises without a theorem, what statements rest on and may not, names of two senses, and a stale reading list."""
    found = set(promises_without_theorem(statement))
    for theorem in THEOREMS:
        found.update(wrongly_rested_on(statement, theorem))
    for theorem in ALONE:
        found.update(too_many_senses(statement, theorem))
    is_stale = READING.read_text() != reading(statement)
    if not is_stale:
        return sorted(found)
    stale = f"{READING.relative_to(TOP)} is not as the definitions are: dev/statement.py --write"
    return [*sorted(found), stale]


def check(statement: Statement) -> int:
    """Prints what is wrong; the status of the script."""
    found = complaints(statement)
    print("\n".join(found), end="\n" if found else "")
    return 1 if found else 0


def print_definitions(statement: Statement, names: list[str]) -> None:
    """Prints what these definitions, each CRATE/FILE:NAME, rest on; ends the script where one is not there."""
    for name in names:
        if not statement.has(key_of(name)):
            sys.exit(
                f"dev/statement.py: {name}: no definition CRATE/FILE:NAME and no option (dev/statement.py without words lists them)"
            )
    print(printed(statement, [key_of(name) for name in names]))


def main(words: list[str]) -> int:
    statement = Statement()
    texts = {"--all": all_texts, "--lists": lists, "--senses": told_senses}
    if words == ["--check"]:
        return check(statement)
    if words == ["--write"]:
        READING.write_text(reading(statement))
    elif len(words) == 1 and words[0] in texts:
        print(texts[words[0]](statement))
    else:
        print_definitions(statement, words)
    return 0


if __name__ == "__main__":
    sys.exit(main(asked(__doc__, 1)))
