#!/usr/bin/env python3
"""Certificates of linear programs that others made: Netlib's, as one table.

    real.py fetch FOLDER             the models, by apt, into FOLDER/netlib
    real.py optima FOLDER            their exact optima by QSopt_ex, into FOLDER/optima.tsv
    real.py table [-jN] [--seconds S] [--bin DIR] FOLDER [NAME ..]
                                     a line a model, parted by tabs: what `bridge-certify` proves
                                     with a limit of S seconds (60), by the commands of another
                                     clone where DIR is its drivers/bin; N models at once (1)
    real.py counts TABLE ..          how many end how, for each of such tables
    real.py beside BEFORE AFTER      both as one table of Markdown

Debian has Netlib's programs in the sources of `coinor-dylp`. `fetch` asks apt for these with lists
and a cache of its own below FOLDER, so that nothing of the machine changes; it needs no rights.

    BRIDGE=crates/bridge/out/bridge
    drivers/tests/real.py fetch /tmp/real && drivers/tests/real.py optima /tmp/real
    drivers/tests/real.py table /tmp/real >after.tsv && drivers/tests/real.py counts after.tsv

Ten of the 91 take a solver alone minutes, or more than a megabyte of text: they are left out unless
they are named. `optima` needs `esolver` (Debian: qsopt-ex); without it gaps are left empty.
"""

from __future__ import annotations

import argparse
import gzip
import json
import os
import subprocess
import sys
import tarfile
import tempfile
import threading
from concurrent.futures import ThreadPoolExecutor
from fractions import Fraction
from pathlib import Path
from typing import Any, Dict, Iterator, List, Mapping, NamedTuple, Optional, Sequence

TESTS = Path(__file__).resolve().parent
BIN = TESTS.parent / "bin"
PACKAGE = "coinor-dylp"
SOURCES = "deb-src [signed-by=/usr/share/keyrings/debian-archive-keyring.gpg] {mirror} {suite} main"
MIRROR = "http://deb.debian.org/debian"
SUITE = "bookworm"
# Left out unless they are named
LARGE = (
    "80bau3b",
    "d2q06c",
    "dfl001",
    "fit2d",
    "fit2p",
    "greenbea",
    "greenbeb",
    "maros-r7",
    "pilot",
    "pilot87",
)
HEADINGS = ("model", "code", "claim", "apart", "gap", "bits", "wall", "seconds", "last", "note")
MARGIN = 120  # seconds beyond both limits
EXACT_SECONDS = 120  # of QSopt_ex for one model
NEAR = (("within 1e-9", 1e-9), ("within 1e-6", 1e-6))
Row = Dict[str, str]


def fetch(folder: Path) -> None:
    """Downloads and unpacks the models."""
    state = folder / "apt"
    for part in ("lists/partial", "cache/archives/partial", "source"):
        (state / part).mkdir(parents=True, exist_ok=True)
    listed = state / "sources.list"
    listed.write_text(SOURCES.format(mirror=MIRROR, suite=SUITE) + "\n")
    options = {
        "Dir::Etc::sourcelist": listed,
        "Dir::Etc::sourceparts": "/dev/null",
        "Dir::State::lists": state / "lists",
        "Dir::Cache": state / "cache",
    }
    words = [word for name, value in options.items() for word in ("-o", f"{name}={value}")]
    subprocess.run(["apt-get", *words, "update"], check=True, stdout=sys.stderr)
    asked = ["source", "--download-only", "--tar-only", PACKAGE]
    subprocess.run(["apt-get", *words, *asked], check=True, cwd=state / "source", stdout=sys.stderr)
    for archive in (state / "source").glob("*.orig.tar.*"):
        unpack(archive, folder / "netlib")


def unpack(archive: Path, target: Path) -> None:
    """Writes the models of an archive as plain MPS files."""
    target.mkdir(exist_ok=True)
    with tarfile.open(archive) as packed:
        for member in packed:
            place = Path(member.name)
            if place.parent.name == "Netlib" and place.name.endswith(".mps.gz"):
                content = packed.extractfile(member)
                assert content is not None, "a file"
                text = gzip.decompress(content.read())
                (target / place.name.removesuffix(".gz")).write_bytes(text)


def models_in(folder: Path, names: Sequence[str]) -> List[Path]:
    """The models that are asked for; all but the large ones where none is named."""
    found = sorted((folder / "netlib").glob("*.mps"))
    return [path for path in found if (path.stem in names if names else path.stem not in LARGE)]


def write_optima(folder: Path) -> None:
    """By model the exact optimum that QSopt_ex finds, in lines parted by tabs."""
    with (folder / "optima.tsv").open("w") as out:
        for path in models_in(folder, []):
            print(path.stem, exact_optimum(path), sep="\t", file=out, flush=True)


def objective_constant(path: Path) -> Fraction:
    """What an MPS file adds to its objective, which QSopt_ex leaves out: minus the side of its first
    N row."""
    words = [line.split() for line in path.read_text("latin-1").split("\n")]
    objective = next(line[1] for line in words if line[:1] == ["N"] and len(line) == 2)
    sides = words[words.index(["RHS"]) :]
    for line in sides:
        if line and line[0] in ("RANGES", "BOUNDS", "ENDATA"):
            break
        for name, side in zip(line, line[1:]):
            if name == objective:
                return -Fraction(side)
    return Fraction(0)


def exact_optimum(path: Path) -> str:
    """The optimum as a fraction; empty where there is none in time."""
    with tempfile.TemporaryDirectory() as folder:
        answer = Path(folder, "answer.sol")
        words = ["esolver", "-O", str(answer), str(path)]
        try:
            subprocess.run(words, cwd=folder, capture_output=True, timeout=EXACT_SECONDS)
            lines = answer.read_text().split("\n")
        except (subprocess.TimeoutExpired, FileNotFoundError):
            return ""
    if "OPTIMAL" not in lines[0]:
        return ""
    told = next(line.split("=")[1] for line in lines if "Value" in line)
    return str(Fraction(told.strip()) + objective_constant(path))


def optima(folder: Path) -> Dict[str, Fraction]:
    """The exact optima that were written."""
    path = folder / "optima.tsv"
    lines = path.read_text().split("\n") if path.exists() else []
    cells = [line.split("\t") for line in lines if line]
    return {name: Fraction(value) for name, value in cells if value}


class Ended(NamedTuple):
    """What a process wrote, and processor seconds of it and of all that it ran."""

    text: str
    seconds: float


def run_within(words: Sequence[str], limit: float) -> Ended:
    """Runs a process, and kills it after so many seconds."""
    with tempfile.TemporaryFile() as out:
        child = subprocess.Popen(
            words, stdin=subprocess.DEVNULL, stdout=out, stderr=subprocess.DEVNULL
        )
        timer = threading.Timer(limit, child.kill)
        timer.start()
        _, status, used = os.wait4(child.pid, 0)
        child.returncode = os.waitstatus_to_exitcode(status)
        timer.cancel()
        out.seek(0)
        text = out.read().decode("utf-8", "replace")
    return Ended(text, used.ru_utime + used.ru_stime)


def line_of_model(path: Path, bin_folder: str, seconds: float, optimum: Optional[Fraction]) -> Row:
    """The cells of a model."""
    with tempfile.TemporaryDirectory() as folder:
        certificate = Path(folder, "certificate")
        options = [f"timelim={seconds:g}", f"certificate={certificate}", "json=1", "jobs=1"]
        words = [sys.executable, str(Path(bin_folder, "bridge-certify")), str(path), *options]
        ended = run_within(words, 2 * seconds + MARGIN)
        text = certificate.read_text("ascii") if certificate.exists() else ""
    try:
        told: Mapping[str, Any] = json.loads(ended.text)
    except ValueError:
        told = {"lines": [f"no end: {ended.text[:60]!r}"]}
    value, bound = exact(told.get("value")), exact(told.get("bound"))
    near = next((v for v in (optimum, value, bound) if v is not None), Fraction(0))
    size = max(1.0, abs(float(near)))
    cells = dict.fromkeys(HEADINGS, "")
    lines: List[str] = told["lines"]
    note = next((line for line in lines[:-1] if "the exact optimum" in line), "")
    cells.update(
        model=path.stem,
        code=str(told.get("code", "")),
        claim=str(told.get("claim") or ""),
        apart=share(value, bound, size),
        gap=share(value if value is not None else bound, optimum, size),
        bits=str(widest(text)),
        wall=f"{told.get('seconds') or 0.0:.2f}",
        seconds=f"{ended.seconds:.2f}",
        last=lines[-1][:100],
        note=note[:200],
    )
    return cells


def exact(told: Optional[Mapping[str, Any]]) -> Optional[Fraction]:
    """The number of a report."""
    return None if told is None else Fraction(told["exact"])


def share(one: Optional[Fraction], other: Optional[Fraction], size: float) -> str:
    """How far two numbers are apart, as a share; empty where one is not known."""
    return "" if one is None or other is None else f"{abs(float(one - other)) / size:.0e}"


def widest(certificate: str) -> int:
    """Bits of the widest number in a certificate."""
    found = 0
    for line in certificate.split("\n"):
        for word in line.split()[1:]:
            try:
                number = Fraction(word)
            except ValueError:
                continue
            found = max(found, abs(number.numerator).bit_length(), number.denominator.bit_length())
    return found


def print_table(words: argparse.Namespace) -> None:
    """A line a model, below the headings."""
    folder = Path(words.folder)
    known = optima(folder)
    print("\t".join(HEADINGS), flush=True)

    def line_of(path: Path) -> Row:
        return line_of_model(path, words.bin, words.seconds, known.get(path.stem))

    with ThreadPoolExecutor(words.j) as pool:
        for row in pool.map(line_of, models_in(folder, words.names)):
            print("\t".join(row[name] for name in HEADINGS), flush=True)


def rows_of(table: str) -> List[Row]:
    """The lines of a table, by its headings."""
    first, *lines = Path(table).read_text().split("\n")
    return [dict(zip(first.split("\t"), line.split("\t"))) for line in lines if line]


def is_within(row: Row, share_of_value: float) -> bool:
    """Whether an optimum is proved, or a point and a bound that are so near each other."""
    if row["claim"] == "optimal":
        return True
    return row["claim"] == "within" and bool(row["apart"]) and float(row["apart"]) <= share_of_value


def counts(table: str) -> Iterator[str]:
    """How many end how, in lines."""
    rows = rows_of(table)
    yield f"{table}: {len(rows)} models"
    claims = [row["claim"] or "not proved" for row in rows]
    for claim in sorted(set(claims)):
        yield f"  {claim}: {claims.count(claim)}"
    for name, near in NEAR:
        yield f"  optimal or {name}: {sum(is_within(row, near) for row in rows)}"
    for heading in ("wall", "seconds"):
        yield f"  {heading}: {sum(float(row[heading] or 0) for row in rows):.1f}"


def beside(before: str, after: str) -> Iterator[str]:
    """Two tables as one, in Markdown."""
    old = {row["model"]: row for row in rows_of(before)}
    yield "| model | before | apart | seconds | after | apart | gap to V | bits | seconds |"
    yield "|---" * 9 + "|"
    for row in rows_of(after):
        was = old.get(row["model"], dict.fromkeys(HEADINGS, ""))
        cells = [row["model"]]
        for each, headings in ((was, ("apart",)), (row, ("apart", "gap", "bits"))):
            cells += [each["claim"] or "not proved", *map(each.__getitem__, headings)]
            cells.append(each["seconds"])
        yield f"| {' | '.join(cells)} |"


def parsed(words: Optional[Sequence[str]] = None) -> argparse.Namespace:
    """The words of a call."""
    parser = argparse.ArgumentParser(description="Certificates of Netlib's linear programs.")
    commands = parser.add_subparsers(dest="command", required=True)
    for name in ("fetch", "optima"):
        commands.add_parser(name).add_argument("folder")
    table = commands.add_parser("table")
    table.add_argument("-j", type=int, default=1)
    table.add_argument("--seconds", type=float, default=60.0)
    table.add_argument("--bin", default=str(BIN))
    table.add_argument("folder")
    table.add_argument("names", nargs="*")
    commands.add_parser("counts").add_argument("tables", nargs="+")
    both = commands.add_parser("beside")
    both.add_argument("before")
    both.add_argument("after")
    return parser.parse_args(words)


def main() -> None:
    words = parsed()
    if words.command == "fetch":
        fetch(Path(words.folder))
    elif words.command == "optima":
        write_optima(Path(words.folder))
    elif words.command == "table":
        print_table(words)
    elif words.command == "counts":
        print("\n".join(line for table in words.tables for line in counts(table)))
    else:
        print("\n".join(beside(words.before, words.after)))


if __name__ == "__main__":
    main()
