"""Where things are: this clone, the proved program, solvers and libraries, and why one is not there."""

from __future__ import annotations

import ctypes
import functools
import importlib.util
import os
import shlex
import shutil
import subprocess
import sys
from pathlib import Path
from typing import Callable, Mapping, Sequence

TESTS = Path(__file__).resolve().parent.parent
DRIVERS = TESTS.parent
TOP = DRIVERS.parent
BIN = DRIVERS / "bin"
DATA = TESTS / "data"
EXAMPLES = TOP / "packaging" / "examples"
BUILT_PROGRAM = TOP / "crates" / "bridge" / "out" / "bridge"

SOLVERS = ("cbc", "clp", "esolver", "glpsol", "highs", "lp_solve")
MIXED_INTEGER_SOLVERS = ("cbc", "glpsol", "highs", "lp_solve")
HIGHS_PYTHON = "/usr/bin/python3"
CLP_LIBRARIES = ("libClp.so.1", "libClp.so", "libClp.1.dylib", "libClp.dylib")
NO_SUCH_FILE = 4  # the program's status where it knows the command and misses its files


@functools.lru_cache(maxsize=None)
def program() -> Sequence[str]:
    """The words that call the proved program: those of BRIDGE, else the one of this clone."""
    named = shlex.split(os.environ.get("BRIDGE", ""))
    if named:
        return named
    return [str(BUILT_PROGRAM)] if BUILT_PROGRAM.exists() else []


@functools.lru_cache(maxsize=None)
def why_missing(name: str) -> str:
    """Why what a test needs is not there; empty where it is there."""
    if name in WHY_MISSING:
        return WHY_MISSING[name]()
    return "" if shutil.which(name) else f"no {name}"


def installed_solvers() -> Sequence[str]:
    """The names of drivers whose solvers are there."""
    return [name for name in SOLVERS if not why_missing(name)]


def _knows(command: str) -> str:
    words = [*program(), command, "/nonexistent", "/nonexistent"]
    try:
        done = subprocess.run(words, capture_output=True) if program() else None
    except OSError:
        done = None
    known = done is not None and done.returncode == NO_SUCH_FILE
    return "" if known else f"no bridge that knows `{command}`: set BRIDGE"


def _clp_library() -> str:
    for name in CLP_LIBRARIES:
        try:
            ctypes.CDLL(name)
            return ""
        except OSError:
            continue
    return "no library of CLP (Debian: coinor-libclp1)"


def _module(name: str) -> str:
    return "" if importlib.util.find_spec(name) else f"no {name} in this Python"


def _highs() -> str:
    words = [HIGHS_PYTHON, "-c", "import numpy, scipy.optimize"]
    try:
        is_there = subprocess.run(words, capture_output=True).returncode == 0
    except OSError:
        is_there = False
    return "" if is_there else f"no SciPy in {HIGHS_PYTHON}"


def _any_solver() -> str:
    return "" if installed_solvers() else "no solver"


def _packages() -> str:
    if sys.version_info < (3, 11):
        return "packages are built by Python 3.11 or later"
    needs = ("dpkg-buildpackage", "dh", "setuptools", "wheel", "program")
    return next(filter(None, map(why_missing, needs)), "")


WHY_MISSING: Mapping[str, Callable[[], str]] = {
    "program": lambda: _knows("verify"),
    "mps": lambda: _knows("verify_mps"),
    "clp_library": _clp_library,
    "highs": _highs,
    "solver": _any_solver,
    "packages": _packages,
    **{
        name: functools.partial(_module, name)
        for name in ("pulp", "scipy", "numpy", "distributed", "setuptools", "wheel")
    },
}
