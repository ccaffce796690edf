"""Runs a command as if something were not there: `without.py PART[,PART ..] COMMAND WORD ..`.

A part is `clp`, the library of CLP; `fractions`, the simplex in fractions that small programs get
beside it (without both there is no search); `rays`, time to look for rays; or `hurry`, the second that a certificate has where no
`prove=1` is said: it has thirty. The command's function is the one that pyproject.toml names.
"""

from __future__ import annotations

import importlib
import re
import sys
from pathlib import Path
from typing import NoReturn

DRIVERS = Path(__file__).resolve().parent.parent.parent


def _out_of_time(*words: object) -> NoReturn:
    raise importlib.import_module("bridge_drivers.system.errors").DeadlineExceeded("time")


PARTS = {
    "clp": ("bridge_drivers.exact.clp", "LOADED", [None]),
    "fractions": ("bridge_drivers.exact.rational_simplex", "MOST_ROWS", -1),
    "rays": ("bridge_drivers.exact.points", "find_ray", _out_of_time),
    "hurry": ("bridge_drivers.pipeline.certificate_search", "ONE_LEAF_SECONDS", 30.0),
}


def main() -> None:
    """Takes the parts away and calls the command, which ends this process."""
    sys.path.insert(0, str(DRIVERS))
    for part in sys.argv[1].split(","):
        module, name, value = PARTS[part]
        found = importlib.import_module(module)
        assert hasattr(found, name), f"{module} has no {name} any more"
        setattr(found, name, value)
    command = sys.argv[2]
    sys.argv = sys.argv[2:]
    text = (DRIVERS / "pyproject.toml").read_text(encoding="utf-8")
    entry = re.search(rf'^{command} = "([\w.]+):(\w+)"$', text, re.M)
    assert entry is not None, command
    getattr(importlib.import_module(entry[1]), entry[2])()


if __name__ == "__main__":
    main()
