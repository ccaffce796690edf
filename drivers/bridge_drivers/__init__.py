"""AMPL solver drivers around the program `bridge`, and what they do as calls of Python.

A driver takes model.nl, lets `bridge` write MPS, runs a solver that reads MPS, and lets `bridge`
make model.sol of the answer and check it. `solve`, `certify`, `verify` and `explain` are the calls
that the commands are made of.

A name is loaded from its module when it is first asked for, since each command loads this package
as it starts, and none needs all of it.
"""

from __future__ import annotations

import importlib
from typing import TYPE_CHECKING

from .system.version import VERSION

if TYPE_CHECKING:
    from .api import certify, solve
    from .model.array_model import model_of_arrays
    from .model_calls import explain, figures, verify
    from .pipeline.monitor import ProgressEvent
    from .pipeline.report import ExactNumbers, Report
    from .system.errors import (
        BridgeError,
        FileFault,
        ModelRefused,
        NotInstalled,
        SolveInterrupted,
        WrongOption,
    )

__all__ = [
    "BridgeError",
    "ExactNumbers",
    "FileFault",
    "ModelRefused",
    "NotInstalled",
    "ProgressEvent",
    "Report",
    "SolveInterrupted",
    "VERSION",
    "WrongOption",
    "certify",
    "explain",
    "figures",
    "model_of_arrays",
    "solve",
    "verify",
]
MODULES = {
    "api": ("certify", "solve"),
    "model.array_model": ("model_of_arrays",),
    "model_calls": ("explain", "figures", "verify"),
    "pipeline.monitor": ("ProgressEvent",),
    "pipeline.report": ("ExactNumbers", "Report"),
    "system.errors": (
        "BridgeError",
        "FileFault",
        "ModelRefused",
        "NotInstalled",
        "SolveInterrupted",
        "WrongOption",
    ),
}  # the names that each of them has of this package's

if not TYPE_CHECKING:  # types are those of the imports above

    def __getattr__(name: str) -> object:
        """One of the names above, from its module (PEP 562); Python calls it once for each.

        Raises:
            AttributeError: The package has no such name.
        """
        for module, names in MODULES.items():
            if name in names:
                found = getattr(importlib.import_module(f".{module}", __name__), name)
                globals()[name] = found
                return found
        raise AttributeError(f"module {__name__!r} has no attribute {name!r}")

    def __dir__() -> list[str]:
        """The names above, for shells that complete them."""
        return sorted({*globals(), *__all__})
