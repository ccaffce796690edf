#!/usr/bin/env python3
"""Writes large valid texts: the same words give the same text.

    generate.py rows OUT.nl VARIABLES ROWS TERMS_PER_ROW [FORM]     an .nl text of linear constraints
    generate.py nested OUT.nl VARIABLES SHAPE       one row: a tree in which each variable stands once
    generate.py leaves FOLDER DEPTH                 leaves.nl, and a certificate `bound 3`: 2^DEPTH leaves
    generate.py planes FOLDER COUNT                 planes.nl, and one that is a chain of planes
    generate.py written OUT TEXT MANNER             the lines of a text, written in another manner

FORM   linear       the terms stand under J (what modelling systems write)
       list         each term is an expression, in a list under C
       defined      each row's terms belong to a defined variable of its own
       exponents    as linear, numbers such as 1.234e-05
       quotients    as list, each term a variable over 3, 6, 7 or 9
ORDER  ascending, descending or mixed
NAMES  numbered, short (random, of 7 bytes) or long (random, of 30), or as ordered8: numbered and padded by zeros to so many
       bytes, mixed8: the same with rows and columns in any order
SHAPE  right        v + (v + (v + ..))
       left         ((.. + v) + v) + v
       products     c v + (c v + (c v + ..))
       differences  v - (v - (v - ..))
       negations    -(v + -(v + -(v + ..)))
       negatives    -1 (v + -1 (v + ..))
       factors      2 (v + 0.5 (v + 2 (v + ..)))
       lists        v + v + (v + v + (..)), each a list of three
       balanced     the sum of two halves, each of which is such a sum
       spine        v + .. + v of 200 variables, and a tree of that shape, added up
MANNER crlf, trailing (a blank at the end of each line), padded (one before it), tabs (in place of blanks), empty (a line
       without a word after each), digits (20 of them in each decimal); for .nl texts comments (at the end of each line)
       and remarks (a line that is a comment after each); for MPS texts fixed (fields in their columns)
Of `rows` half of the variables are whole, and coefficients have one to six digits behind the point. The program of
certificates has 1,000 whole variables from 0 to 9 and 1,000 rows of 10 terms; each leaf with duals names three rows.
"""
from __future__ import annotations

import random
import re
import sys
from collections import Counter
from collections.abc import Callable, Iterable, Iterator
from itertools import accumulate, chain
from pathlib import Path

sys.path.append(str(Path(__file__).resolve().parents[1] / "dev"))
from shared import asked  # noqa: E402

DECIMAL = re.compile(r"-?\d+\.\d+")
SIDE = 200
VARIABLES = ROWS = 1000
TERMS = 10
GOAL = 30  # the objective is the sum of so many variables: those of rows 0, 1 and 2, and of each hundredth after them


def header(
    variables: int, rows: int, binary: int, integer: int, terms: int, slopes: int, defined: int = 0
) -> str:
    return (
        f"g3 1 1 0\n {variables} {rows} 1 0 0\n 0 0\n 0 0\n 0 0 0\n 0 0 0 1\n {binary} {integer} 0 0 0\n {terms} {slopes}\n 0 0\n"
        f" {defined} 0 0 0 0\n"
    )


def columns_before(counts: list[int]) -> str:
    """The segment k of so many terms a column."""
    return f"k{len(counts) - 1}\n" + "".join(f"{total}\n" for total in accumulate(counts[:-1]))


def single_row(count: int, body: Iterable[str], terms: Iterable[str]) -> Iterator[str]:
    """One row, at most 10, of variables that are at least 0."""
    yield header(count, 1, 0, 0, count, 0) + "C0\n"
    yield from body
    yield "O0 0\nn0\nr\n1 10\nb\n" + "2 0\n" * count + columns_before([1] * count) + f"J0 {count}\n"
    yield from terms


def decimal(rnd: random.Random) -> str:
    """A decimal text that is not 0."""
    digits = rnd.randint(1, 6)
    text = "%.*f" % (digits, rnd.random() * 100 - 50)
    return text if float(text) != 0 else "0.5"


def factor(rnd: random.Random, form: str) -> str:
    """The factor of a term under J."""
    if form == "exponents":
        return (
            f"{rnd.choice((-1, 1)) * rnd.randint(1000, 9999) / 1000:.3f}e{rnd.randint(-9, 9):+03d}"
        )
    return decimal(rnd) if form == "linear" else "0"


def rows(variables: int, count: int, per_row: int, form: str = "linear") -> Iterator[str]:
    """Rows of decimals over random variables, a quarter of them binary and a quarter whole.

    Args:
        variables: How many variables the model has.
        count: How many rows.
        per_row: How many terms each row has.
        form: What carries the terms: `linear` J segments, `list` sums of products, `quotients` sums of quotients,
            `defined` a defined variable a row.
    """
    rnd = random.Random(1)
    per_row = min(per_row, variables)
    binary = variables // 4
    integer = variables // 2 - binary
    columns = [sorted(rnd.sample(range(variables), per_row)) for _ in range(count)]
    defined = count if form == "defined" else 0
    yield header(variables, count, binary, integer, count * per_row, variables, defined)
    for i, row in enumerate(columns[:defined]):
        yield f"V{variables + i} {len(row)} 0\n{linear_terms(rnd, row)}n0\n"
    for i, row in enumerate(columns):
        yield f"C{i}\n{expression(rnd, row, form, variables + i)}"
    yield "O0 1\nn12.5\n"
    yield from sides_and_bounds(count, per_row * 50, variables - binary - integer)
    yield "0 0 1\n" * binary + "0 0 40\n" * integer
    times = Counter(chain.from_iterable(columns))
    yield columns_before([times[j] for j in range(variables)])
    for i, row in enumerate(columns):
        yield f"J{i} {len(row)}\n" + "".join(f"{j} {factor(rnd, form)}\n" for j in row)
    yield f"G0 {variables}\n{linear_terms(rnd, range(variables))}"


def linear_terms(rnd: random.Random, columns: Iterable[int]) -> str:
    """A line of a factor for each of these columns."""
    return "".join(f"{j} {decimal(rnd)}\n" for j in columns)


def sides_and_bounds(count: int, most: int, continuous: int) -> Iterator[str]:
    """The segment r of so many rows, and the lines of the segment b of so many continuous variables, each of several kinds.

    Args:
        count: How many rows there are.
        most: The greatest value of a row that is bounded above, the least negated of one that is bounded below.
        continuous: How many continuous variables there are.
    """
    yield "r\n"
    for i in range(count):
        yield (f"1 {most}\n", f"2 -{most}\n", f"0 -{i % 999} 7\n")[i % 3]
    yield "b\n"
    for j in range(continuous):
        yield ("2 0\n", "0 -10 20.5\n", "3\n", "1 100\n")[j % 4]


def expression(rnd: random.Random, row: list[int], form: str, defined: int) -> str:
    """The expression of a row in one of these forms; `defined` is the number of its defined variable."""
    if form == "list":
        terms = "".join(f"o2\nn{decimal(rnd)}\nv{j}\n" for j in row)
        return f"o54\n{len(row)}\n{terms}"
    if form == "quotients":
        terms = "".join(f"o3\nv{j}\nn{rnd.choice((3, 6, 7, 9))}\n" for j in row)
        return f"o54\n{len(row)}\n{terms}"
    return f"v{defined}\n" if form == "defined" else "n0\n"


def right(variables: list[str], front: str = "o0\n") -> Iterator[str]:
    """Each variable beside the tree of those after it."""
    for variable in variables[:-1]:
        yield f"{front}{variable}"
    yield variables[-1]


def left(variables: list[str]) -> Iterator[str]:
    """Each variable beside the tree of those before it."""
    yield "o0\n" * (len(variables) - 1)
    yield from variables


def lists(variables: list[str]) -> Iterator[str]:
    """Two variables and the tree of those after them, in a list."""
    for place in range(0, len(variables) - 2, 2):
        yield f"o54\n3\n{variables[place]}{variables[place + 1]}"
    yield from variables[-1:] if len(variables) % 2 else ("o0\n", *variables[-2:])


def balanced(variables: list[str]) -> Iterator[str]:
    """The sum of two halves."""
    waiting = [(0, len(variables))]
    while waiting:
        first, end = waiting.pop()
        if end - first == 1:
            yield variables[first]
        else:
            half = (first + end) // 2
            waiting += [(half, end), (first, half)]
            yield "o0\n"


def spine(variables: list[str]) -> Iterator[str]:
    """Chains of some variables, each beside the tree of those after it."""
    for first in range(0, len(variables) - SIDE, SIDE):
        yield "o0\n"
        yield from right(variables[first : first + SIDE])
    yield from right(variables[(len(variables) - 1) // SIDE * SIDE :])


def nested(count: int, shape: str) -> Iterator[str]:
    """One row whose expression is a deep tree of so many variables, in one of the shapes."""
    rnd = random.Random(1)
    places = list(range(count))
    rnd.shuffle(places)
    variables = [f"v{place}\n" for place in places]
    if shape == "products":
        variables = [f"o2\nn{rnd.randint(1, 99999) / 100}\n{it}" for it in variables]
    fronts = {
        "right": "o0\n",
        "products": "o0\n",
        "differences": "o1\n",
        "negations": "o16\no0\n",
        "negatives": "o2\nn-1\no0\n",
    }
    if shape in fronts:
        tree = right(variables, fronts[shape])
    elif shape == "factors":
        tree = right(
            [f"o2\nn{2 - place % 2 * 1.5:g}\no0\n{it}" for place, it in enumerate(variables[:-1])]
            + variables[-1:],
            "",
        )
    else:
        tree = {"left": left, "lists": lists, "balanced": balanced, "spine": spine}[shape](
            variables
        )
    return single_row(count, tree, (f"{place} 0\n" for place in range(count)))


def one_row(count: int, order: str) -> Iterator[str]:
    """One row of so many terms, with its columns ascending, descending or in any order (`mixed`)."""
    rnd = random.Random(1)
    places = list(range(count))
    if order == "mixed":
        rnd.shuffle(places)
    return single_row(
        count,
        ["n0\n"],
        (f"{place} {decimal(rnd)}\n" for place in places[:: -1 if order == "descending" else 1]),
    )


def distinct(rnd: random.Random, first: str, count: int, size: int) -> list[str]:
    """Names that begin so: with `size` letters and digits, none of them twice, or numbered where that is 0."""
    if not size:
        return [f"{first}{i}" for i in range(count)]
    names: dict[str, None] = {}
    while len(names) < count:
        names[first + "".join(rnd.choices("abcdefghijklmnopqrstuvwxyz0123456789", k=size))] = None
    return list(names)


def padded(rnd: random.Random, first: str, count: int, form: str) -> list[str]:
    """Numbered names of so many bytes, as `ordered8`, or in any order, as `mixed8`."""
    size = int(form.removeprefix("ordered").removeprefix("mixed")) - len(first)
    names = [f"{first}{i:0{size}}" for i in range(count)]
    if form.startswith("mixed"):
        rnd.shuffle(names)
    return names


def mps(entries: int, names: str) -> Iterator[str]:
    """An MPS text of so many entries, with names of a form."""
    rnd = random.Random(1)
    sizes = {"numbered": 0, "short": 6, "long": 29}
    count = entries // TERMS
    if names in sizes:
        rows, columns = (distinct(rnd, first, count, sizes[names]) for first in "RC")
    else:
        rows, columns = (padded(rnd, first, count, names) for first in "RC")
    yield "NAME x FREE\nROWS\n N OBJ\n" + "".join(f" L {row}\n" for row in rows) + "COLUMNS\n"
    for column in columns:
        yield "".join(
            f" {column} {rows[i]} {decimal(rnd)}\n" for i in sorted(rnd.sample(range(count), TERMS))
        )
    yield "RHS\n" + "".join(f" RHS {row} 50\n" for row in rows) + "BOUNDS\n"
    yield "".join(f" UP BND {column} 100\n" for column in columns) + "ENDATA\n"


def program() -> Iterator[str]:
    """Each row's sum is at least 1, the least objective is 3; the variables of rows repeat after a hundred."""
    yield header(VARIABLES, ROWS, 0, VARIABLES, ROWS * TERMS, GOAL)
    yield "".join(
        f"C{row}\nn0\n" for row in range(ROWS)
    ) + "O0 0\nn0\nr\n" + "2 1\n" * ROWS + "b\n" + "0 0 9\n" * VARIABLES
    yield columns_before([ROWS // VARIABLES * TERMS] * VARIABLES)
    for row in range(ROWS):
        start = row % (VARIABLES // TERMS) * TERMS
        yield f"J{row} {TERMS}\n" + "".join(
            f"{column} 1\n" for column in range(start, start + TERMS)
        )
    yield f"G0 {GOAL}\n" + "".join(f"{column} 1\n" for column in range(GOAL))


def duals(leaf: int) -> str:
    """A leaf that closes by the duals 1 of three rows."""
    first = leaf % (ROWS // 100) * 100
    return "duals 3\n" + "".join(f"{row} 1\n" for row in range(first, first + 3))


def leaves(depth: int) -> Iterator[str]:
    """A balanced tree: on the way down each level splits a variable of its own."""
    for leaf in range(1 << depth):
        above = depth if leaf == 0 else (leaf & -leaf).bit_length() - 1
        yield "".join(f"split {GOAL + level} 4\n" for level in range(depth - above, depth)) + duals(
            leaf
        )


def planes(count: int) -> Iterator[str]:
    """A chain: "x0 at most -1 - k" contradicts that x0 is at least 0; the rest goes on below "x0 at least -k"."""
    for number in range(count):
        yield f"plane 1 {-1 - number}\n0 1\nweights 1\n{ROWS + number} -1\n"
    yield duals(0)


def long_number(word: str) -> str:
    """A decimal with further digits, so that it has 20."""
    if not DECIMAL.fullmatch(word):
        return word
    missing = 20 - sum(character.isdigit() for character in word)
    return word + "7" * missing


def in_fixed_columns(line: str) -> str:
    """A line of a free MPS text with its fields in the columns of the fixed form.

    A line with a kind (of a row or a bound) has it in field 1; names of at most 8 bytes.
    """
    words = line.split()
    if not line.startswith(" ") or not words:
        return line.replace(" FREE", "")
    kind = words.pop(0) if words[0] in ("N", "L", "G", "E", "UP") else ""
    fields = [*words, "", "", ""]
    return f" {kind:<2} {fields[0]:<8}  {fields[1]:<8}  {fields[2]}".rstrip()


MANNERS: dict[str, Callable[[str], str]] = {
    "crlf": lambda line: f"{line}\r",
    "trailing": lambda line: f"{line} ",
    "padded": lambda line: f" {line}",
    "tabs": lambda line: line.replace(" ", "\t"),
    "empty": lambda line: f"{line}\n",
    "digits": lambda line: " ".join(map(long_number, line.split(" "))),
    "comments": lambda line: f"{line} # a remark",
    "remarks": lambda line: f"{line}\n# a remark",
    "fixed": in_fixed_columns,
}


def written(text: str, manner: str) -> Iterator[str]:
    """The lines of a text in one of the manners; the first line of an .nl text stays as it is.

    Args:
        text: the path of an .nl or a free MPS text.
        manner: a key of MANNERS.
    """
    change = MANNERS[manner]
    with open(text) as lines:
        for number, line in enumerate(lines):
            bare = line.removesuffix("\n")
            is_kept = number == 0 and bare.startswith("g")
            yield line if is_kept else change(bare) + "\n"


def main(kind: str, out: str, size: str, *more: str) -> None:
    makers: dict[str, Callable[..., Iterator[str]]] = {
        "rows": rows,
        "nested": nested,
        "row": one_row,
        "mps": mps,
        "leaves": leaves,
        "planes": planes,
    }
    if kind == "written":
        made = written(size, *more)
    else:
        made = makers[kind](int(size), *(int(word) if word.isdecimal() else word for word in more))
    texts = {Path(out): made}
    if kind in ("leaves", "planes"):
        texts = {
            Path(out, f"{kind}.nl"): program(),
            Path(out, f"{kind}.certificate"): chain(["certificate 1\nbound 0 3\n"], made),
        }
    for path, parts in texts.items():
        with path.open("w", newline="") as stream:
            stream.writelines(parts)


if __name__ == "__main__":
    main(*asked(__doc__, 3))
