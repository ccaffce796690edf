#!/usr/bin/env python3
"""Checks the form of the Python of this repository, over the syntax tree: what black, mypy and flake8 do not look at.

    dev/style.py [FILE ..]      a line for each place that breaks a rule; status 1 where there is one
    dev/style.py --rules        the rules, by name

Without files, all Python that git knows is looked at. `dev/style-exceptions.txt` names places that may still break a
rule (`RULE FILE PLACE`, where PLACE is the function or class, or `-` for the module). A line of it that nothing needs any
more is a fault, too: so the list only gets shorter.
"""
from __future__ import annotations

import ast
import re
import subprocess
import sys
import warnings
from collections.abc import Callable, Iterator
from itertools import chain
from pathlib import Path
from typing import NamedTuple, Optional, Union

with warnings.catch_warnings():
    warnings.simplefilter("ignore", DeprecationWarning)
    import sre_parse as regular_expressions

TOP = Path(__file__).resolve().parent.parent
EXCEPTIONS = TOP / "dev" / "style-exceptions.txt"
PACKAGE = "drivers/bridge_drivers/"

MOST_LINES_OF_FUNCTION = 40  # its head counted, without its docstring
MOST_LINES_OF_MODULE = 600
MOST_LINES_WITHOUT_DOCSTRING = 8  # of a public function, its head counted
MOST_PACKED = 2  # names that one assignment may bind from a written list of values

SHEBANG = re.compile(rb"#!.*python3?\s")
TEMPLATE = re.compile(rb"@\w+@ import")  # a script whose marks packaging/ fills in is no Python yet
TRUTH_NAME = re.compile(r"(is|has|are|was|can|may|wants)_")
# Functions to which a truth value is a value among values: it has no name there.
PASSES_BOOLEANS = {
    "get",
    "getattr",
    "setdefault",
    "setattr",
    "pop",
    "Value",
    "append",
    "add",
}
EXCEPTION_BASE = re.compile(r"^(?:Base)?Exception$|Error$|^KeyboardInterrupt$|Warning$")
WRITING_MODE = re.compile(r"[wax+]")
FLAGS_OF_MANY_LINES = ("re.S", "re.M", "re.DOTALL", "re.MULTILINE")
# The modules of the package that may do what the others may not.
OF_EXCEPTIONS = ("system.errors",)
OF_PRINTING = ("commands.console", "solvers.highs_script")  # the second is a program of its own
OF_WRITING = ("system.files", "formats.source")
OF_PROCESSES = ("system.processes",)
# What is loaded when it is first used (system.late), each with its reason.
LATE = {
    "numpy": "one half of a start; small programs without a certificate are added up in lists",
    ".certificate_search": "the search for certificates, with CLP's library and NumPy",
    "..exact.search_deadline": "the clock of a search, which limits CLP's solves, too",
}
NAMES_OF_SECONDS = {"timeout", "seconds", "time_limit"}  # of parameters

Function = Union[ast.FunctionDef, ast.AsyncFunctionDef]
Defined = (ast.FunctionDef, ast.AsyncFunctionDef, ast.ClassDef)


class Finding(NamedTuple):
    """One place that breaks a rule."""

    rule: str
    path: str
    line: int
    place: str
    text: str

    def key(self) -> str:
        """What a line of the list of exceptions says."""
        return f"{self.rule} {self.path} {self.place}"


class Module(NamedTuple):
    """A module that is looked at.

    Attributes:
        path: From the top of the repository. It says whether the module is of the drivers' package, or a test.
        text: What stands in it.
        tree: Its syntax tree.
        places: Of each node the function or class in which it stands, as `Class.method`; `-` of the module itself.
    """

    path: str
    text: str
    tree: ast.Module
    places: dict[ast.AST, str]

    @property
    def is_of_drivers(self) -> bool:
        return self.path.startswith(PACKAGE)

    @property
    def is_test(self) -> bool:
        return "/tests/" in self.path

    def name_in_package(self) -> str:
        """Its name within the drivers' package, as `system.files`; nothing where it is not of it."""
        return self.path[len(PACKAGE) : -len(".py")].replace("/", ".") if self.is_of_drivers else ""

    def is_bound(self, free: tuple[str, ...]) -> bool:
        """Whether a rule of the drivers' package, which these modules of it are free of, binds this one."""
        return self.is_of_drivers and self.name_in_package() not in free

    def finding(self, rule: str, node: ast.AST, text: str) -> Finding:
        return Finding(
            rule, self.path, getattr(node, "lineno", 1), self.places.get(node, "-"), text
        )


Found = Iterator[tuple[ast.AST, str]]  # the nodes that break a rule, each with what is said of it
Rule = Callable[[Module], Found]


# ---- statements and expressions


def packed(module: Module) -> Found:
    """An assignment binds one thing, or a pair that belongs together."""
    for node in ast.walk(module.tree):
        if not isinstance(node, ast.Assign) or not isinstance(node.value, ast.Tuple):
            continue
        target = node.targets[0]
        if not isinstance(target, ast.Tuple) or is_simultaneous(target, node.value):
            continue
        if len(target.elts) > MOST_PACKED:
            yield node, f"binds {len(target.elts)} things at once: {ast.unparse(target)}"


def is_simultaneous(target: ast.Tuple, value: ast.Tuple) -> bool:
    """Whether the new values are made of the old ones, as in `a, b = b, a % b`."""
    bound = {ast.unparse(name) for name in target.elts}
    used = {
        ast.unparse(node) for node in ast.walk(value) if isinstance(node, (ast.Name, ast.Attribute))
    }
    return bool(bound & used)


def multiplied(module: Module) -> Found:
    """A list or a text is not multiplied by a truth value."""
    for node in ast.walk(module.tree):
        if not isinstance(node, ast.BinOp) or not isinstance(node.op, ast.Mult):
            continue
        for one, other in ((node.left, node.right), (node.right, node.left)):
            if is_sequence(one) and is_truth(other):
                yield node, f"multiplies by a truth value: {ast.unparse(node)[:60]}"
                break


def is_sequence(node: ast.expr) -> bool:
    """Whether this is written as a text, a list or a tuple."""
    is_text = isinstance(node, ast.Constant) and isinstance(node.value, (str, bytes))
    return is_text or isinstance(node, (ast.List, ast.Tuple, ast.JoinedStr, ast.ListComp))


def is_truth(node: ast.expr) -> bool:
    """Whether this is a truth value, by its form or by its name (`is_last`, `has_rows()`)."""
    if isinstance(node, (ast.Compare, ast.BoolOp)):
        return True
    if isinstance(node, ast.UnaryOp) and isinstance(node.op, ast.Not):
        return True
    return bool(TRUTH_NAME.match(last_name(node))) or last_name(node) == "bool"


def last_name(node: ast.AST) -> str:
    """The last word of what is named or called, else nothing."""
    if isinstance(node, ast.Call):
        return last_name(node.func)
    if isinstance(node, ast.Attribute):
        return node.attr
    return node.id if isinstance(node, ast.Name) else ""


def nested_conditional(module: Module) -> Found:
    """A conditional expression does not stand in another one."""
    for node in ast.walk(module.tree):
        if isinstance(node, ast.IfExp) and any(
            isinstance(part, ast.IfExp) for part in (node.test, node.body, node.orelse)
        ):
            yield node, f"a conditional in a conditional: {ast.unparse(node)[:60]}"


def boolean_argument(module: Module) -> Found:
    """`True` and `False` are passed by name."""
    for node in ast.walk(module.tree):
        if not isinstance(node, ast.Call) or last_name(node.func) in PASSES_BOOLEANS:
            continue
        for argument in node.args:
            if isinstance(argument, ast.Constant) and isinstance(argument.value, bool):
                yield node, f"{argument.value} is passed without a name: {ast.unparse(node)[:60]}"


# ---- functions, classes and modules


def long_function(module: Module) -> Found:
    """A function has at most 40 lines beside its docstring."""
    for node in ast.walk(module.tree):
        if isinstance(node, (ast.FunctionDef, ast.AsyncFunctionDef)):
            count = lines_of(node)
            if count > MOST_LINES_OF_FUNCTION:
                yield node, f"{node.name} has {count} lines"


def lines_of(node: Function) -> int:
    """The lines of a function without its docstring."""
    whole = (node.end_lineno or node.lineno) - node.lineno + 1
    first = node.body[0]
    if not isinstance(first, ast.Expr) or ast.get_docstring(node, clean=False) is None:
        return whole
    return whole - ((first.end_lineno or first.lineno) - first.lineno + 1)


def long_module(module: Module) -> Found:
    """A module has at most 600 lines."""
    count = len(module.text.splitlines())
    if count > MOST_LINES_OF_MODULE:
        yield module.tree, f"the module has {count} lines"


def undocumented(module: Module) -> Found:
    """A public class, and a public function of more than 8 lines, says in a docstring what it is for."""
    if module.is_test:
        return
    for node in ast.walk(module.tree):
        if not isinstance(node, Defined) or not is_public(module, node) or ast.get_docstring(node):
            continue
        if module.places[node] == "main":  # the docstring of the module says what a script does
            continue
        if isinstance(node, ast.ClassDef) or lines_of(node) > MOST_LINES_WITHOUT_DOCSTRING:
            yield node, f"{node.name} says nothing of itself"


def is_public(module: Module, node: ast.AST) -> bool:
    """Whether a name, and those in which it stands, have no underscore in front, and it does not stand in a function."""
    place = module.places[node]
    return not any(part.startswith("_") for part in place.split(".")) and "<" not in place


def unreal_argument(module: Module) -> Found:
    """What a docstring lists below `Args:` are parameters."""
    for node in ast.walk(module.tree):
        if not isinstance(node, Defined):
            continue
        named = documented_arguments(ast.get_docstring(node) or "")
        real = parameters_of(node)
        yield from (
            (node, f"{node.name} has no parameter {name}") for name in named if name not in real
        )


def documented_arguments(docstring: str) -> list[str]:
    """The names below `Args:`, each at the front of a line that is four blanks in."""
    _, head, rest = docstring.partition("Args:\n")
    if not head:
        return []
    names = []
    for line in rest.splitlines():
        if line and not line.startswith(" "):
            break
        match = re.match(r" {4}(\*{0,2}\w+)(?:, (\w+))*(?: \(.*\))?:", line)
        if match:
            names += re.findall(r"\w+", match.group().split("(")[0])
    return names


def parameters_of(node: ast.AST) -> set[str]:
    """The names of a function's parameters, or of those of a class's constructor and its fields."""
    if isinstance(node, ast.ClassDef):
        return parameters_of_class(node)
    assert isinstance(node, (ast.FunctionDef, ast.AsyncFunctionDef))
    given = node.args
    named = [*given.posonlyargs, *given.args, *given.kwonlyargs, given.vararg, given.kwarg]
    return {argument.arg for argument in named if argument is not None}


def parameters_of_class(node: ast.ClassDef) -> set[str]:
    """The names of a class's annotated fields and of its constructor's parameters."""
    found: set[str] = set()
    for it in node.body:
        if isinstance(it, ast.AnnAssign) and isinstance(it.target, ast.Name):
            found.add(it.target.id)
        if isinstance(it, ast.FunctionDef) and it.name in ("__init__", "__new__"):
            found |= parameters_of(it)
    return found


# ---- what one module alone may do


def exception_class(module: Module) -> Found:
    """Exceptions are defined in system.errors alone."""
    if not module.is_bound(OF_EXCEPTIONS):
        return
    for node in ast.walk(module.tree):
        if isinstance(node, ast.ClassDef) and any(
            EXCEPTION_BASE.search(last_name(base)) for base in node.bases
        ):
            yield node, f"{node.name} is an exception of its own"


def printing(module: Module) -> Found:
    """Only commands.console writes to the standard streams."""
    if not module.is_bound(OF_PRINTING):
        return
    for node in ast.walk(module.tree):
        if (
            isinstance(node, ast.Call)
            and isinstance(node.func, ast.Name)
            and node.func.id == "print"
        ):
            yield node, "prints"
        if isinstance(node, ast.Attribute) and ast.unparse(node) in ("sys.stdout", "sys.stderr"):
            yield node, f"uses {ast.unparse(node)}"


def writing(module: Module) -> Found:
    """Only system.files, and formats.source for private copies, open files for writing."""
    if not module.is_bound(OF_WRITING):
        return
    for node in ast.walk(module.tree):
        if isinstance(node, ast.Call) and is_writing(node):
            yield node, f"writes a file: {ast.unparse(node)[:60]}"


def is_writing(node: ast.Call) -> bool:
    """Whether a call opens a file for writing, or writes one at once."""
    if last_name(node.func) in ("write_text", "write_bytes"):
        return True
    if not isinstance(node.func, ast.Name) or node.func.id != "open":
        return False
    modes = [*node.args[1:2], *(it.value for it in node.keywords if it.arg == "mode")]
    return any(isinstance(it, ast.Constant) and WRITING_MODE.search(str(it.value)) for it in modes)


def starting(module: Module) -> Found:
    """Only system.processes starts programs."""
    if not module.is_bound(OF_PROCESSES):
        return
    for node in ast.walk(module.tree):
        names = [alias.name for alias in node.names] if isinstance(node, ast.Import) else []
        if isinstance(node, ast.ImportFrom):
            names = [node.module or ""]
        if "subprocess" in names:
            yield node, "imports subprocess"


def counted_time(module: Module) -> Found:
    """One deadline goes through a run: no parameter is a number of seconds."""
    if not module.is_bound(OF_PROCESSES):
        return
    for node in ast.walk(module.tree):
        if isinstance(node, (ast.FunctionDef, ast.AsyncFunctionDef)):
            for name in sorted(parameters_of(node) & NAMES_OF_SECONDS):
                yield node, f"{node.name} has a parameter {name}"


def hidden_import(module: Module) -> Found:
    """What one module of the package takes of another is imported at its head, not in a function."""
    if not module.is_of_drivers:
        return
    for node in ast.walk(module.tree):
        if isinstance(node, ast.ImportFrom) and node.level and module.places.get(node, "-") != "-":
            yield node, f"imports {node.module or '.'} in a function"


def late_import(module: Module) -> Found:
    """Only the modules of LATE are loaded when first used, below an import for types of the same."""
    if not module.is_bound(("system.late",)):
        return
    paired = {id(call) for node in ast.walk(module.tree) for call in paired_late_calls(node)}
    for node in ast.walk(module.tree):
        if isinstance(node, ast.Call) and last_name(node) == "late_module":
            if id(node) not in paired:
                yield node, f"no import for types stands above {ast.unparse(node)}"
            elif str(first_constant(node)) not in LATE:
                yield node, f"may not be loaded late: {ast.unparse(node)}"


def paired_late_calls(node: ast.AST) -> Iterator[ast.Call]:
    """The call of `late_module` in `if TYPE_CHECKING: import .. else: NAME = late_module(..)`.

    Nothing where both do not bind the same name to the same module.
    """
    if not isinstance(node, ast.If) or ast.unparse(node.test) != "TYPE_CHECKING":
        return
    if len(node.body) != 1 or len(node.orelse) != 1:
        return
    typed, late = node.body[0], node.orelse[0]
    if not isinstance(late, ast.Assign) or not isinstance(late.value, ast.Call):
        return
    name = ast.unparse(late.targets[0])
    if (first_constant(late.value), name) == module_and_name(typed):
        yield late.value


def first_constant(call: ast.Call) -> object:
    """The first argument of a call, where it is written out; else None."""
    first = call.args[0] if call.args else None
    return first.value if isinstance(first, ast.Constant) else None


def module_and_name(node: ast.AST) -> Optional[tuple[str, str]]:
    """The module that an import of one module names, dots in front, and the name that it binds."""
    if not isinstance(node, (ast.Import, ast.ImportFrom)) or len(node.names) != 1:
        return None
    alias = node.names[0]
    bound = alias.asname or alias.name
    if isinstance(node, ast.Import):
        return alias.name, bound
    inner = f"{node.module}." if node.module else ""
    return "." * node.level + inner + alias.name, bound


# ---- texts that others wrote


def regular_expression(module: Module) -> Found:
    """A regular expression sees one line or word, and cannot match one place in two ways."""
    if not module.is_of_drivers:
        return
    for node in ast.walk(module.tree):
        if isinstance(node, ast.Attribute) and ast.unparse(node) in FLAGS_OF_MANY_LINES:
            yield node, f"{ast.unparse(node)}: an expression over several lines"
        pattern = written_pattern(node)
        if pattern is not None and repeats_within(parsed(pattern)):
            yield node, f"a repetition in a repetition: {pattern!r}"


def written_pattern(node: ast.AST) -> Optional[str]:
    """The pattern that a call of a function of `re` has as a written text; None of all else."""
    if not isinstance(node, ast.Call) or not ast.unparse(node.func).startswith("re."):
        return None
    first = node.args[0] if node.args else None
    if not isinstance(first, ast.Constant):
        return None
    if isinstance(first.value, bytes):
        return first.value.decode("latin-1")
    return first.value if isinstance(first.value, str) else None


def parsed(pattern: str) -> object:
    """The parts of a pattern, as Python's own parser has them; nothing of what is no pattern."""
    try:
        return regular_expressions.parse(pattern)
    except (re.error, ValueError):
        return ()


def repeats_within(part: object, is_repeated: bool = False) -> bool:
    """Whether something without end is repeated without end."""
    if isinstance(part, regular_expressions.SubPattern):
        return any(repeats_within(part[at], is_repeated) for at in range(len(part)))
    if not isinstance(part, (tuple, list)):
        return False
    if len(part) == 2 and str(part[0]) in ("MAX_REPEAT", "MIN_REPEAT"):
        _, most, inner = part[1]
        has_no_end = most == regular_expressions.MAXREPEAT
        return (has_no_end and is_repeated) or repeats_within(inner, is_repeated or has_no_end)
    return any(repeats_within(item, is_repeated) for item in part)


RULES: dict[str, Rule] = {
    "packed": packed,
    "multiplied": multiplied,
    "nested-conditional": nested_conditional,
    "boolean-argument": boolean_argument,
    "long-function": long_function,
    "long-module": long_module,
    "undocumented": undocumented,
    "unreal-argument": unreal_argument,
    "exception-class": exception_class,
    "printing": printing,
    "writing": writing,
    "starting": starting,
    "counted-time": counted_time,
    "hidden-import": hidden_import,
    "late-import": late_import,
    "regular-expression": regular_expression,
}


# ---- files


def places_of(tree: ast.Module) -> dict[ast.AST, str]:
    """Of each node the function or class in which it stands (a function or class itself: its own name)."""
    places: dict[ast.AST, str] = {}

    def visit(node: ast.AST, place: str) -> None:
        for child in ast.iter_child_nodes(node):
            inner = place
            if isinstance(child, Defined):
                inner = child.name if place == "-" else f"{place}.{child.name}"
                if isinstance(node, (ast.FunctionDef, ast.AsyncFunctionDef)):
                    inner = f"{place}.<{child.name}>"
            places[child] = inner
            visit(child, inner)

    visit(tree, "-")
    return places


def module_of(path: Path) -> Module:
    """The module in this file of the repository."""
    return module_of_text(str(path.relative_to(TOP)), path.read_text(encoding="utf-8"))


def module_of_text(path: str, text: str) -> Module:
    """The module of this text, which stands (or would stand) at this path from the top of the repository."""
    tree = ast.parse(text, filename=path)
    return Module(path, text, tree, places_of(tree))


def is_python(path: Path) -> bool:
    """By its name, or by its first line where its name has no end; a template (`@name@`) is none."""
    if path.suffix == ".py":
        return True
    if path.suffix or not path.is_file():
        return False
    with open(path, "rb") as file:
        start = file.read(400)
    return bool(SHEBANG.match(start)) and not TEMPLATE.search(start)


def all_python() -> list[Path]:
    """All that git knows, or would add."""
    words = ["git", "ls-files", "--cached", "--others", "--exclude-standard"]
    names = subprocess.run(
        words, cwd=TOP, capture_output=True, text=True, check=True
    ).stdout.splitlines()
    return [
        TOP / name for name in sorted(set(names)) if (TOP / name).exists() and is_python(TOP / name)
    ]


def findings(module: Module) -> Iterator[Finding]:
    """All places of a module that break a rule, by rule."""
    for name, rule in RULES.items():
        yield from (module.finding(name, node, text) for node, text in rule(module))


def excepted() -> set[str]:
    """The lines of the list, without comments."""
    lines = EXCEPTIONS.read_text(encoding="utf-8").splitlines() if EXCEPTIONS.exists() else []
    return {line.partition("#")[0].strip() for line in lines} - {""}


def check(paths: list[Path], is_whole: bool) -> int:
    """Prints what breaks a rule and is no exception; the status of the script.

    Args:
        paths: The files that are looked at.
        is_whole: Whether they are all of the repository, so that an exception that none of them needs is a fault.
    """
    found = list(chain.from_iterable(findings(module_of(path)) for path in paths))
    allowed = excepted()
    wrong = [finding for finding in found if finding.key() not in allowed]
    for finding in wrong:
        print(f"{finding.path}:{finding.line}: {finding.place}: {finding.text} [{finding.rule}]")
    unneeded = allowed - {finding.key() for finding in found} if is_whole else set()
    for line in sorted(unneeded):
        print(f"{EXCEPTIONS.relative_to(TOP)}: nothing needs any more: {line}")
    print(f"style: {len(wrong)} wrong, {len(found) - len(wrong)} excepted")
    return 1 if wrong or unneeded else 0


def main(words: list[str]) -> int:
    if words[:1] in (["-h"], ["--help"]):
        print(__doc__)
        return 0
    if words == ["--rules"]:
        for name, rule in RULES.items():
            print(f"{name}: {rule.__doc__}")
        return 0
    if words:
        return check([Path(word).resolve() for word in words], is_whole=False)
    return check(all_python(), is_whole=True)


if __name__ == "__main__":
    sys.exit(main(sys.argv[1:]))
