#!/usr/bin/env python3
"""Checks one crate over libraries that another clone has proved, and builds nothing below it.

    dev/check.py CRATE [--library] [--kept FOLDER] [rattle's flags, as --only MODULE::FUNCTION, --test, --jobs N]

GATE (a variable, else ../gate) is a clone in which `rt ci` ran or runs: its crates/X/out/rlib/X.rlib are the proved
libraries. A crate below CRATE that differs here from GATE's is taken from this clone's own crates/X/out/rlib, which
--library makes: it builds CRATE itself as a library, and proves it. It says where a library is missing. Libraries over
two builds of one crate do not go together: OWN (a variable, names of crates) are those taken from this clone although
their text is the same, since a crate below them differs. What was checked is kept in the crate's out/kept, or in FOLDER.
"""
from __future__ import annotations

import os
import shutil
import subprocess
import sys

from shared import TOP, own_uses, reached, rooms

if {"-h", "--help"} & set(
    sys.argv[1:]
):  # of the script that is called, also where there is no toolchain
    print(sys.modules["__main__"].__doc__)
    sys.exit()
KIT = os.path.dirname(
    os.path.dirname(os.path.realpath(shutil.which("rt") or sys.exit("rt is not on the PATH")))
)
GATE = os.path.abspath(os.environ.get("GATE", f"{TOP}/../gate"))
PARTS = ("src", "specs", "proofs")


def is_same(crate: str) -> bool:
    """Whether a crate's text is the same here and at GATE, and it is not to be taken from here all the same."""
    parts = [[f"{top}/crates/{crate}/{part}" for top in (TOP, GATE)] for part in PARTS]
    return crate not in os.environ.get("OWN", "").split() and not any(
        subprocess.run(["diff", "-rq", *folders], capture_output=True).returncode
        for folders in parts
        if any(map(os.path.exists, folders))
    )


def library(crate: str) -> str:
    """The proved library of a crate."""
    own, gate = (f"{top}/crates/{crate}/out/rlib/{crate}.rlib" for top in (TOP, GATE))
    found = gate if is_same(crate) else own
    if not os.path.exists(found):
        sys.exit(f"no library of {crate}: {found}")
    return found


def words(crate: str) -> list[str]:
    """The words that name the crate and all libraries for rattle."""
    uses, own = rooms()[1], own_uses()
    root = "src/main.rt" if os.path.exists(f"{TOP}/crates/{crate}/src/main.rt") else "src/lib.rt"
    of_kit = [
        f"{name}={KIT}/rlibs/{name}.rlib" for name in ["std", *uses[crate]] if name not in own
    ]
    libraries = [*of_kit, *(f"{name}={library(name)}" for name in own[crate])]
    folders = [
        f"{KIT}/rlibs",
        *(os.path.dirname(library(name)) for name in reached([crate], lambda it: set(own[it]))),
    ]
    return [
        "--crate-name",
        crate,
        root,
        *(word for it in libraries for word in ("--extern", it)),
        *(word for it in folders for word in ("-L", f"dependency={it}")),
        "--antt-project",
        f"{KIT}/rattle/logic/antt-project.json",
        "--logic-built",
        f"{KIT}/logic_built",
        "--links",
        f"{crate}=",
    ]


def main(crate: str, flags: list[str]) -> int:
    folder = f"{TOP}/crates/{crate}"
    if "--library" in flags:
        flags.remove("--library")
        os.makedirs(f"{folder}/out/rlib", exist_ok=True)
        ask = ["build", *words(crate), "--statements", "-o", f"{folder}/out/rlib/{crate}.rlib"]
    else:
        ask = ["check", *words(crate)]
        kept = f"{folder}/out/kept"
        if "--kept" in flags:
            at = flags.index("--kept")
            kept = flags[at + 1]
            del flags[at : at + 2]
        if "--test" not in flags:
            os.makedirs(kept, exist_ok=True)
            ask += ["--incremental", kept]
    jobs = [] if "--jobs" in flags else ["--jobs", "1"]
    return subprocess.run([f"{KIT}/bin/rattle", *ask, *jobs, *flags], cwd=folder).returncode


if __name__ == "__main__":
    if len(sys.argv) < 2:
        sys.exit(__doc__)
    sys.exit(main(sys.argv[1], sys.argv[2:]))
