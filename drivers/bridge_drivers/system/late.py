"""Modules that are loaded when something of them is first used, and not when a command starts.

A start costs what it imports. NumPy and the search for certificates take most of that, and a run
that asks for no certificate needs neither. Who uses such a module names it twice, so that types are
checked as of any other import:

    if TYPE_CHECKING:
        import numpy as np
    else:
        np = late_module("numpy")

`dev/style.py` has the list of the modules that may be loaded so, each with its reason (LATE), and
looks that both names are the same. `dev/layers.py` counts the first one as an import.
"""

from __future__ import annotations

import importlib
import importlib.util
from typing import Any


class LateModule:
    """Stands for a module, and loads it when an attribute is first asked for.

    What was asked for once is kept here, so that a second look costs no more than that at a module.
    """

    def __init__(self, name: str) -> None:
        """Of a module that is known to be there, by its whole name; nothing is loaded yet."""
        self._name_of_module = name

    def __getattr__(self, name: str) -> Any:
        """What the module has by that name; called where it was not asked for before.

        Raises:
            AttributeError: The module has no such name.
        """
        found = getattr(importlib.import_module(self._name_of_module), name)
        setattr(self, name, found)
        return found


def late_module(name: str, package: str | None = None) -> LateModule:
    """A module that is loaded when something of it is first used.

    Args:
        name: Its name as `import` takes it; with dots in front from `package` on.
        package: The package of the module that asks, which is its `__package__`.

    Raises:
        ModuleNotFoundError: It is not installed. That is looked for at once, so that a Python
            without NumPy is told as a command starts.
    """
    whole = importlib.util.resolve_name(name, package)
    if "." not in whole and importlib.util.find_spec(whole) is None:
        raise ModuleNotFoundError(f"No module named {whole!r}", name=whole)
    return LateModule(whole)
