#!/usr/bin/env python3
"""Certificates of larger models: one line a model, parted by tabs.

    certificate_table.py models FOLDER          writes FOLDER/NAME.nl, of two collections
    certificate_table.py families FOLDER [MOST] the same of families by size, MOST nonzeros (100000)
    certificate_table.py seeded FOLDER SEED     the same of families by a seed
    certificate_table.py search FOLDER SEED     the same of those that the search is measured by: jobs on
                                                one machine with a big M, and families by size and a seed
    certificate_table.py [-jN] SECONDS FOLDER FILE ..   certificates of .nl or MPS files in FOLDER,
                                                N models at once (1)
    certificate_table.py readme TABLE ..        the tables of drivers/TABLES.md of such lines
    certificate_table.py sizes TABLE ..         all of them in one
    certificate_table.py seeds TABLE ..         by family, of models by a seed

The models of collections, from two packages of Debian (examples of the one, samples of the other),
as GLPK reads them, by `bridge import`; MPS files need no such, as /usr/share/coin/Data/Sample/*.mps:

    apt-get install glpk-utils coinor-libcoinutils-dev coinor-cbc
    BRIDGE=crates/bridge/out/bridge drivers/tests/tools/certificate_table.py models /tmp/collections
    drivers/tests/tools/certificate_table.py -j2 60 /tmp/certificates /tmp/collections/*.nl >/tmp/table.tsv
    drivers/tests/tools/certificate_table.py readme /tmp/table.tsv

`bridge-certify` has that limit for the solver, and again for the search. Lines have processor
seconds of all processes and of the driver itself, and the MB that this one had.
"""

from __future__ import annotations

import glob
import json
import os
import re
import subprocess
import sys
import tempfile
import threading
from collections import Counter
from concurrent.futures import ThreadPoolExecutor
from fractions import Fraction
from pathlib import Path
from typing import Callable, Dict, Iterable, List, Mapping, NamedTuple, Optional, Sequence

TESTS = Path(__file__).resolve().parent.parent
sys.path.insert(0, str(TESTS))

from builders.families import family_model, seeded_models  # noqa: E402
from builders.scheduling import order_models  # noqa: E402
from running.places import BIN, program  # noqa: E402

COLLECTIONS = (
    "/usr/share/doc/glpk-utils/examples/*.mod",
    "/usr/share/doc/glpk-utils/examples/*.mps",
    "/usr/share/coin/Data/Sample/*.mps",
)
HEADINGS = (
    "model",
    "columns",
    "whole",
    "rows",
    "nodes",
    "bytes",
    "seconds",
    "search",
    "memory",
    "line",
)
FINAL_CLAIMS = ("optimal", "infeasible", "unbounded")
# Runs a command and prints the memory in MB that it had at most.
RUN_AND_TELL_MEMORY = """
import resource, runpy, sys
sys.argv[:] = sys.argv[1:]
try:
    runpy.run_path(sys.argv[0], run_name="__main__")
finally:
    print(resource.getrusage(resource.RUSAGE_SELF).ru_maxrss // 1024, flush=True)
"""
NODES = ("split", "plane", "lemma", "duals", "weights")  # the first words of a node's line
READ_SECONDS = 60  # of glpsol, for one model
MARGIN = 120  # seconds beyond both limits
LINEAR_FAMILIES = (
    "transport",
    "flow",
    "assignment",
    "covering",
    "staircase",
    "diet",
    "dense",
    "decimal_flow",
)
NONZEROS = (1000, 10_000, 100_000, 1_000_000)
OTHER_FAMILIES: Mapping[str, Sequence[int]] = {
    "parallel": (2, 3, 6),
    "knapsack": (20, 30, 40),
    "lots": (8, 12, 17, 20),
    "packing": (6, 8, 10),
    "stock": (3, 4, 6),
    "pigeons": (5, 6, 8),
    "frobenius": (5, 8),
    "split": (3, 4),
}
SEARCHED_FAMILIES: Mapping[str, int] = {
    "gap": 8,
    "color": 20,
    "lotsize": 14,
    "tspmtz": 22,
    "cfl": 28,
}
SEARCHED_SEEDS = (
    *("gap-4-20", "knap-100", "mknap-30", "sched-8", "col-12-6"),
    *("ufl-8-20", "cov-60-120", "fix-5-8", "job-5-4", "cut-5"),
)
LONG_NUMBER = 16  # characters from which a number is told as a double
MOST_SHOWN = 8  # proved models in the README's table

Row = Dict[str, str]


def mps_by_glpsol(path: str, folder: str) -> Optional[bytes]:
    """The free MPS text that glpsol writes of a model; None where it writes none in time.

    The sense stands in its LP text alone.
    """
    target, other = Path(folder, "model.mps"), Path(folder, "model.lp")
    target.unlink(missing_ok=True)
    for kind in ["-m"] if path.endswith(".mod") else ["--mps", "--freemps"]:
        words = ["glpsol", kind, path, "--check", "--wfreemps", str(target), "--wlp", str(other)]
        try:
            subprocess.run(words, cwd=folder, capture_output=True, timeout=READ_SECONDS)
        except subprocess.TimeoutExpired:
            return None
        if target.exists():
            return _with_sense(target.read_bytes(), b"\nMaximize\n" in other.read_bytes())
    return None


def _with_sense(text: bytes, is_max: bool) -> bytes:
    name, _, rest = text.partition(b"\n")
    return name + b"\n" + (b"OBJSENSE\n MAX\n" if is_max else b"") + rest


def write_collections(words: Sequence[str]) -> None:
    """Models of Debian's packages."""
    target = _made_folder(words[0])
    with tempfile.TemporaryDirectory() as folder:
        mps = Path(folder, "import.mps")
        for path in sorted(path for pattern in COLLECTIONS for path in glob.glob(pattern)):
            name, text = Path(path).stem, mps_by_glpsol(path, folder)
            if text is None:
                print(f"{name}: glpsol writes no MPS", file=sys.stderr)
                continue
            mps.write_bytes(text)
            done = subprocess.run([*program(), "import", str(mps)], capture_output=True)
            if done.returncode:
                print(f"{name}: {done.stderr.decode().strip()}", file=sys.stderr)
            else:
                (target / f"{name}.nl").write_bytes(done.stdout)


def write_families(words: Sequence[str]) -> None:
    """Models of families by size."""
    target = _made_folder(words[0])
    most = int(words[1]) if len(words) > 1 else 100_000
    sizes = {name: [size for size in NONZEROS if size <= most] for name in LINEAR_FAMILIES}
    for name, each in [*sizes.items(), *OTHER_FAMILIES.items()]:
        for size in each:
            (target / f"{name}-{size}.nl").write_bytes(family_model(name, size))


def write_seeded(words: Sequence[str]) -> None:
    """Models of families by a seed."""
    target = _made_folder(words[0])
    for name, text in seeded_models(words[1]).items():
        (target / f"{name}.nl").write_bytes(text)


def write_searched(words: Sequence[str]) -> None:
    """Models that show what the search reaches, and at which price."""
    target = _made_folder(words[0])
    for name, model in order_models(words[1]):
        (target / f"{name}.nl").write_bytes(model.text)
    for name, size in SEARCHED_FAMILIES.items():
        (target / f"{name}-{size}.nl").write_bytes(family_model(name, size))
    for name, text in seeded_models(words[1]).items():
        if name[: -len(words[1])] in SEARCHED_SEEDS:
            (target / f"{name}.nl").write_bytes(text)


def _made_folder(path: str) -> Path:
    Path(path).mkdir(parents=True, exist_ok=True)
    return Path(path)


def sizes_of(path: str) -> Sequence[str]:
    """Columns, integer columns and rows of a model; empty words where it is refused."""
    words = [sys.executable, str(BIN / "nl-bridge"), "stats", path, "json=1"]
    done = subprocess.run(words, capture_output=True, text=True)
    told = json.loads(done.stdout).get("stats") if done.returncode == 0 else None
    if told is None:
        return ["", "", ""]
    whole = told["binary"] + told["integer"]
    return [str(told["columns"]), str(whole), str(told["rows"])]


class Ended(NamedTuple):
    """The lines that a process wrote, and processor seconds of it and of all that it ran."""

    lines: List[str]
    seconds: float


def run_within(words: Sequence[str], limit: float) -> Ended:
    """Runs a process, and kills it after so many seconds."""
    with tempfile.TemporaryFile() as out:
        child = subprocess.Popen(
            words, stdin=subprocess.DEVNULL, stdout=out, stderr=subprocess.STDOUT
        )
        timer = threading.Timer(limit, child.kill)
        timer.start()
        _, status, used = os.wait4(child.pid, 0)
        child.returncode = os.waitstatus_to_exitcode(status)
        timer.cancel()
        out.seek(0)
        lines = out.read().decode("utf-8", "replace").strip().split("\n")
    seconds = used.ru_utime + used.ru_stime
    return Ended(["no end"] if child.returncode < 0 else lines, seconds)


def line_of_model(path: str, seconds: str, folder: str) -> Sequence[str]:
    """The cells of a model: its certificate is made, and stays in the folder."""
    name = re.sub(r"(\.nl|\.mps)?(\.gz|\.bz2|\.xz)?$", "", os.path.basename(path))
    certificate = Path(folder, name + ".certificate")
    command = [sys.executable, "-c", RUN_AND_TELL_MEMORY, str(BIN / "bridge-certify"), path]
    both = 2 * float(seconds)  # for the solver, and for the search
    options = [f"timelim={both:g}", "stats=1", f"certificate={certificate}"]
    told, spent = run_within([*command, *options], both + MARGIN)
    nodes = size = search = ""
    memory = told.pop() if told[-1].isdigit() else ""
    if certificate.exists():
        search = told.pop().rpartition("; ")[2].split(" ")[0]
        text = certificate.read_text("ascii")
        nodes = str(sum(line.startswith(NODES) for line in text.split("\n")))
        size = str(len(text))
    return [name, *sizes_of(path), nodes, size, f"{spent:.1f}", search, memory, told[-1]]


def print_lines(words: Sequence[str]) -> None:
    """A line a model, below the headings."""
    at_once = int(words[0][2:]) if words[0].startswith("-j") else 1
    seconds, folder, *paths = words[1:] if words[0].startswith("-j") else words
    _made_folder(folder)
    print("\t".join(HEADINGS), flush=True)
    with ThreadPoolExecutor(at_once) as pool:
        for cells in pool.map(lambda path: line_of_model(path, seconds, folder), paths):
            print("\t".join(cells), flush=True)


def rows_of(tables: Sequence[str]) -> List[Row]:
    """The lines of tables, by their headings."""
    lines = [line for path in tables for line in Path(path).read_text("utf-8").split("\n")]
    cells = [line.split("\t") for line in lines]
    return [
        dict(zip(HEADINGS, row))
        for row in cells
        if len(row) == len(HEADINGS) and row[0] != HEADINGS[0]
    ]


def print_table(headings: Sequence[str], lines: Iterable[Iterable[object]]) -> None:
    """A table of Markdown."""
    print(f"| {' | '.join(headings)} |")
    print("|---" * len(headings) + "|")
    for line in lines:
        print(f"| {' | '.join(map(str, line))} |")


def cell_of(row: Row, heading: str) -> str:
    """What stands in a cell; long numbers of the last line are told as doubles."""
    if heading == "columns (whole)":
        return f"{row['columns']} ({row['whole']})"
    if heading != "last line":
        return row[heading]
    words = [
        f"{float(Fraction(word)):.10g}.." if _is_long_number(word) else word
        for word in row["line"].split()
    ]
    return f"`{' '.join(words)}`"


def _is_long_number(word: str) -> bool:
    return len(word) >= LONG_NUMBER and word[-1].isdigit()


def print_models(rows: Sequence[Row], headings: Sequence[str]) -> None:
    """Each model with these cells."""
    print_table(headings, [[cell_of(row, heading) for heading in headings] for row in rows])


def is_final(row: Row) -> bool:
    """Whether its claim leaves nothing open."""
    return row["line"].split()[0] in FINAL_CLAIMS


def claim_of(row: Row) -> str:
    """The kind of its last line."""
    words = row["line"].split()
    return " ".join(words[:2] if words[0] == "not" else words[:1])


def print_readme(tables: Sequence[str]) -> None:
    """Models by the kind of their last line; those that are open; the proofs with the most nodes."""
    rows = rows_of(tables)
    kinds = Counter(claim_of(row) for row in rows)
    print(f"{len(rows)} models.\n")
    print_table(["last line", "models"], [(f"`{kind}`", n) for kind, n in sorted(kinds.items())])
    print()
    headings = ["model", "columns (whole)", "rows", "last line"]
    print_models([row for row in rows if not is_final(row)], headings)
    print()
    final = sorted(filter(is_final, rows), key=lambda row: -int(row["nodes"] or 0))
    headings[3:3] = ["nodes", "bytes", "seconds"]
    print_models(final[:MOST_SHOWN], headings)


def print_sizes(tables: Sequence[str]) -> None:
    """All models in one table."""
    print_models(rows_of(tables), ["model", "columns (whole)", *HEADINGS[3:-1], "last line"])


def print_seeds(tables: Sequence[str]) -> None:
    """A line a family, whose models are named by a letter at the end; then all of them."""
    rows = rows_of(tables)
    groups: Dict[str, List[Row]] = {}
    for row in rows:
        groups.setdefault(row["model"][:-1], []).append(row)
    lines = [_line_of_family(name, group) for name, group in groups.items()]
    lines.append([*_line_of_family("all", rows)[:-1], ""])
    print_table(["family", "models", "proved", "nodes", "bytes", "seconds", "left"], lines)


def _line_of_family(name: str, group: Sequence[Row]) -> List[str]:
    left = [row for row in group if not is_final(row)]
    nodes, size, seconds = (
        sum(float(row[heading] or 0) for row in group) for heading in ("nodes", "bytes", "seconds")
    )
    sums = [f"{nodes:.0f}", f"{size:.0f}", f"{seconds:.1f}"]
    told = ", ".join(f"{row['model']} `{row['line']}`" for row in left)
    return [name, str(len(group)), str(len(group) - len(left)), *sums, told]


COMMANDS: Mapping[str, Callable[[Sequence[str]], None]] = {
    "models": write_collections,
    "families": write_families,
    "seeded": write_seeded,
    "search": write_searched,
    "readme": print_readme,
    "sizes": print_sizes,
    "seeds": print_seeds,
}


def main() -> None:
    """Calls what the first word names."""
    words = sys.argv[1:]
    if not words or words[0] in ("-h", "--help"):
        print(__doc__)
    elif words[0] in COMMANDS:
        COMMANDS[words[0]](words[1:])
    else:
        print_lines(words)


if __name__ == "__main__":
    main()
