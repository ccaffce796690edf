#!/usr/bin/env python3
"""Imports of a package go downward alone, without a cycle.

    dev/layers.py PACKAGE_FOLDER [LAYERS_FILE]     status 1 where one does not

LAYERS_FILE (else `layers.txt` beside PACKAGE_FOLDER, else none) has a line a layer, the lowest first; the package itself
is called `__init__`:

    name: pattern ..        modules by name within the package, `*` for any part: `formats.*`, `codes`
    name: pattern .. -> other ..    these layers alone, in place of all that are lower

A module may import those of its own layer and of lower ones. Each module must be in one layer. Counted are imports in
the module's body, in functions and classes, and under `if TYPE_CHECKING`; the last are allowed upward within
annotations alone if the file says `typing: free`. A cycle fails wherever its imports stand. Without a file cycles
alone are looked for.
"""

from __future__ import annotations

import ast
import fnmatch
import sys
from pathlib import Path
from typing import Dict, Iterator, List, NamedTuple, Optional, Set, Tuple

PLACES = ("module", "function", "typing")


class Import(NamedTuple):
    """One import of one module of the package by another one."""

    of: str
    by: str
    line: int
    place: str

    def describe(self) -> str:
        return f"{self.by}:{self.line} imports {self.of or 'the package'} ({self.place})"


class Layer(NamedTuple):
    """One layer: which modules are in it, and which layers they may import."""

    name: str
    patterns: Tuple[str, ...]
    allowed: Optional[Tuple[str, ...]]  # None: all lower ones


class Layers(NamedTuple):
    """All layers, the lowest first, and whether imports for annotations alone are free."""

    layers: List[Layer]
    is_typing_free: bool

    def of(self, module: str) -> Optional[int]:
        """The longest pattern that fits decides."""
        found = [
            (len(pattern), place)
            for place, layer in enumerate(self.layers)
            for pattern in layer.patterns
            if fnmatch.fnmatchcase(module or "__init__", pattern)
        ]
        return max(found)[1] if found else None

    def allows(self, by: int, of: int) -> bool:
        layer = self.layers[by]
        if by == of:
            return True
        return of < by if layer.allowed is None else self.layers[of].name in layer.allowed


def layers_of(path: Path) -> Layers:
    """The layers that a file names, as the head of this script says."""
    layers: List[Layer] = []
    is_typing_free = False
    for line in path.read_text(encoding="utf-8").splitlines():
        name, colon, rest = line.partition("#")[0].partition(":")
        if not colon:
            continue
        if name.strip() == "typing":
            is_typing_free = rest.split() == ["free"]
            continue
        patterns, arrow, allowed = rest.partition("->")
        layers.append(
            Layer(name.strip(), tuple(patterns.split()), tuple(allowed.split()) if arrow else None)
        )
    return Layers(layers, is_typing_free)


def modules_of(folder: Path) -> Dict[str, Path]:
    """By name within the package; that of the package itself is empty."""
    found = {}
    for path in sorted(folder.rglob("*.py")):
        parts = path.relative_to(folder).with_suffix("").parts
        found[".".join(parts[:-1] if parts[-1] == "__init__" else parts)] = path
    return found


class Finder(ast.NodeVisitor):
    """The imports of one module, each by the place where it stands."""

    def __init__(self, package: str, module: str, is_package: bool, modules: Set[str]) -> None:
        self.package = package
        self.module = module
        self.modules = modules
        self.parents = module.split(".") if is_package and module else module.split(".")[:-1]
        self.place = "module"
        self.found: List[Import] = []

    def add(self, name: str, line: int) -> None:
        if name != self.module and name in self.modules:
            self.found.append(Import(name, self.module, line, self.place))

    def within(self, node: ast.AST, place: str) -> None:
        before, self.place = self.place, place if self.place == "module" else self.place
        self.generic_visit(node)
        self.place = before

    def visit_FunctionDef(self, node: ast.FunctionDef) -> None:
        self.within(node, "function")

    def visit_AsyncFunctionDef(self, node: ast.AsyncFunctionDef) -> None:
        self.within(node, "function")

    def visit_If(self, node: ast.If) -> None:
        is_typing = "TYPE_CHECKING" in ast.unparse(node.test)
        self.within(node, "typing" if is_typing else "module")

    def visit_Import(self, node: ast.Import) -> None:
        for alias in node.names:
            if alias.name.split(".")[0] == self.package:
                self.add(".".join(alias.name.split(".")[1:]), node.lineno)

    def visit_ImportFrom(self, node: ast.ImportFrom) -> None:
        base = self.base(node)
        if base is None:
            return
        for alias in node.names:
            deeper = f"{base}.{alias.name}".lstrip(".")
            self.add(deeper if deeper in self.modules else base, node.lineno)

    def base(self, node: ast.ImportFrom) -> Optional[str]:
        """The module of the package that names come from; None of another package."""
        if not node.level:
            parts = (node.module or "").split(".")
            return ".".join(parts[1:]) if parts[0] == self.package else None
        up = len(self.parents) - (node.level - 1)
        return ".".join([*self.parents[:up], *filter(None, [node.module])])


def imports_of(folder: Path, modules: Dict[str, Path]) -> Iterator[Import]:
    for module, path in modules.items():
        finder = Finder(folder.name, module, path.name == "__init__.py", set(modules))
        finder.visit(ast.parse(path.read_text(encoding="utf-8")))
        yield from finder.found


def cycles(edges: Dict[str, Set[str]]) -> List[List[str]]:
    """Strongly connected components of more than one module (Tarjan), the largest first."""
    order: Dict[str, int] = {}
    low: Dict[str, int] = {}
    stack: List[str] = []
    found: List[List[str]] = []

    def visit(module: str) -> None:
        order[module] = low[module] = len(order)
        stack.append(module)
        for other in sorted(edges.get(module, ())):
            if other not in order:
                visit(other)
                low[module] = min(low[module], low[other])
            elif other in stack:
                low[module] = min(low[module], order[other])
        if low[module] == order[module]:
            at = stack.index(module)
            if len(stack) - at > 1:
                found.append(sorted(stack[at:]))
            del stack[at:]

    sys.setrecursionlimit(10_000)
    for module in sorted(edges):
        if module not in order:
            visit(module)
    return sorted(found, key=len, reverse=True)


def edges_of(imports: List[Import], places: Tuple[str, ...]) -> Dict[str, Set[str]]:
    edges: Dict[str, Set[str]] = {}
    for one in imports:
        if one.place in places:
            edges.setdefault(one.by, set()).add(one.of)
    return edges


def levels(edges: Dict[str, Set[str]], modules: Dict[str, Path]) -> int:
    """How many modules the longest chain of imports has; of a cycle as far as it goes."""
    known: Dict[str, int] = {}

    def height(module: str, above: Tuple[str, ...]) -> int:
        if module in known or module in above:
            return known.get(module, 0)
        under = [height(other, (*above, module)) for other in edges.get(module, ())]
        known[module] = 1 + max(under, default=0)
        return known[module]

    return max(height(module, ()) for module in modules)


def wrong_layers(imports: List[Import], modules: Dict[str, Path], layers: Layers) -> Iterator[str]:
    """Modules that are in no layer, and imports that their layer may not have."""
    for module in modules:
        if layers.of(module) is None:
            yield f"{module or 'the package'}: is in no layer"
    for one in imports:
        by, of = layers.of(one.by), layers.of(one.of)
        if by is None or of is None or one.place == "typing" and layers.is_typing_free:
            continue
        if not layers.allows(by, of):
            names = f"{layers.layers[by].name} -> {layers.layers[of].name}"
            yield f"upward, {names}: {one.describe()}"


def wrong(
    imports: List[Import], modules: Dict[str, Path], layers: Optional[Layers]
) -> Iterator[str]:
    """All that is wrong: cycles, and where there are layers what breaks them."""
    is_typing_free = layers is not None and layers.is_typing_free
    counted = PLACES[:2] if is_typing_free else PLACES
    for cycle in cycles(edges_of(imports, counted)):
        yield f"a cycle of {len(cycle)}: {', '.join(module or '(the package)' for module in cycle)}"
    if layers is not None:
        yield from wrong_layers(imports, modules, layers)


def layers_for(folder: Path, named: Optional[str]) -> Optional[Layers]:
    """The layers of a package: of the file that is named, else of `layers.txt` beside it, else none."""
    if named is None:
        beside = folder.parent / "layers.txt"
        return layers_of(beside) if beside.exists() else None
    given = Path(named)
    if not given.exists():
        sys.exit(f"layers: {given}: no such file")
    return layers_of(given)


def check(folder: Path, layers: Optional[Layers]) -> int:
    """Names what is wrong in a package, and says how much was looked at; the status of the script."""
    modules = modules_of(folder)
    imports = list(dict.fromkeys(imports_of(folder, modules)))
    found = list(wrong(imports, modules, layers))
    counts = {place: sum(one.place == place for one in imports) for place in PLACES}
    print(*found, sep="\n")
    height = levels(edges_of(imports, PLACES), modules)
    print(
        f"layers: {len(modules)} modules, {counts['module']} imports at their heads, "
        f"{counts['function']} in functions, {counts['typing']} for typing; "
        f"the longest chain has {height}; {len(found)} wrong"
    )
    return 1 if found else 0


def main(words: List[str]) -> int:
    if not words or words[0] in ("-h", "--help"):
        print(__doc__)
        return 0 if words else 3
    folder = Path(words[0]).resolve()
    named = words[1] if len(words) > 1 else None
    return check(folder, layers_for(folder, named))


if __name__ == "__main__":
    sys.exit(main(sys.argv[1:]))
