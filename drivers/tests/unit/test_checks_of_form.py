"""The checks of dev/ that look at the form of texts: each rule finds what is planted, and says nothing of a clean text."""

from __future__ import annotations

import sys
from pathlib import Path
from types import ModuleType

import pytest

DEV = Path(__file__).resolve().parents[3] / "dev"
if not DEV.is_dir():
    pytest.skip("the scripts of dev/ are not here", allow_module_level=True)


def script(name: str) -> ModuleType:
    """A script of dev/ as a module; it is found by its name while it is imported alone."""
    sys.path.insert(0, str(DEV))
    try:
        return __import__(name)
    finally:
        sys.path.remove(str(DEV))


style = script("style")
layers = script("layers")
proof_layout = script("proof_layout")

OF_DRIVERS = "drivers/bridge_drivers/model/planted.py"
OF_ERRORS = "drivers/bridge_drivers/system/errors.py"
OF_CONSOLE = "drivers/bridge_drivers/commands/console.py"
OF_FILES = "drivers/bridge_drivers/system/files.py"
OF_PROCESSES = "drivers/bridge_drivers/system/processes.py"
ELSEWHERE = "dev/planted.py"
OF_TESTS = "drivers/tests/unit/planted.py"


def body(count: int) -> str:
    """So many lines of a function; its head is one more."""
    return "    pass\n" * count


def names_of_rules(path: str, text: str) -> set[str]:
    """The rules that a text at a path breaks."""
    return {finding.rule for finding in style.findings(style.module_of_text(path, text))}


def late(typed: str, loaded: str) -> str:
    """A module that is imported for types, and loaded when it is first used."""
    return f"if TYPE_CHECKING:\n    {typed}\nelse:\n    {loaded}\n"


BREAKS = [
    ("packed", "a, b, c = 1, 2, 3\n"),
    ("multiplied", "def f(is_last):\n    return [1] * is_last\n"),
    ("multiplied", "words = 'x' * (1 < 2)\n"),
    ("nested-conditional", "a = 1 if b else 2 if c else 3\n"),
    ("boolean-argument", "f(1, True)\n"),
    ("long-function", f"def _f():\n{body(40)}"),
    ("long-module", "\n" * 601),
    ("undocumented", "class Node:\n    depth = 0\n"),
    ("undocumented", f"def f():\n{body(8)}"),
    ("unreal-argument", 'def f(a):\n    """Adds.\n\n    Args:\n        b: One.\n    """\n'),
    ("exception-class", 'class Own(ValueError):\n    """Mine."""\n'),
    ("printing", "print(1)\n"),
    ("printing", "import sys\n\nsys.stderr.flush()\n"),
    ("writing", "open('a', 'w')\n"),
    ("writing", "path.write_text('a')\n"),
    ("starting", "import subprocess\n"),
    ("starting", "from subprocess import run\n"),
    ("counted-time", "def f(timeout):\n    pass\n"),
    ("hidden-import", "def f():\n    from ..system import files\n"),
    ("late-import", "np = late_module('numpy')\n"),
    ("late-import", late("import numpy as np", "other = late_module('numpy')")),
    ("late-import", late("import numpy as np", "np = late_module('scipy')")),
    ("late-import", late("import json", "json = late_module('json')")),
    ("regular-expression", "import re\n\nre.compile('a.b', re.DOTALL)\n"),
    ("regular-expression", "import re\n\nre.match('(a+)+', word)\n"),
]

KEEPS = [
    ("packed", OF_DRIVERS, "low, high = 1, 2\n"),
    ("packed", OF_DRIVERS, "a, b, c = b, c, a\n"),
    ("multiplied", OF_DRIVERS, "zeros = [0] * count\n"),
    ("nested-conditional", OF_DRIVERS, "a = 1 if b else 2\n"),
    ("boolean-argument", OF_DRIVERS, "f(1, is_last=True)\n"),
    ("boolean-argument", OF_DRIVERS, "words.get('a', False)\n"),
    ("long-function", OF_DRIVERS, f'def _f():\n    """One."""\n{body(39)}'),
    ("long-module", OF_DRIVERS, "\n" * 600),
    ("undocumented", OF_DRIVERS, 'class Node:\n    """One place of a tree."""\n'),
    ("undocumented", OF_DRIVERS, f"def f():\n{body(7)}"),
    ("undocumented", OF_DRIVERS, f"def _f():\n{body(8)}"),
    ("undocumented", OF_TESTS, f"def f():\n{body(8)}"),
    (
        "unreal-argument",
        OF_DRIVERS,
        'def f(a):\n    """Adds.\n\n    Args:\n        a: One.\n    """\n',
    ),
    ("exception-class", OF_ERRORS, 'class Own(ValueError):\n    """Mine."""\n'),
    ("printing", OF_CONSOLE, "print(1)\n"),
    ("printing", ELSEWHERE, "print(1)\n"),
    ("writing", OF_DRIVERS, "open('a')\n"),
    ("writing", OF_FILES, "open('a', 'w')\n"),
    ("starting", OF_PROCESSES, "import subprocess\n"),
    ("counted-time", OF_DRIVERS, "def f(deadline):\n    pass\n"),
    ("hidden-import", OF_DRIVERS, "from ..system import files\n"),
    ("hidden-import", OF_DRIVERS, "def f():\n    import scipy\n"),
    ("late-import", OF_DRIVERS, late("import numpy as np", "np = late_module('numpy')")),
    ("regular-expression", OF_DRIVERS, "import re\n\nre.match('a+b+', word)\n"),
]


@pytest.mark.parametrize("rule, text", BREAKS)
def test_a_rule_finds_what_breaks_it(rule: str, text: str) -> None:
    assert rule in names_of_rules(OF_DRIVERS, text)


@pytest.mark.parametrize("rule, path, text", KEEPS)
def test_a_rule_says_nothing_of_what_keeps_it(rule: str, path: str, text: str) -> None:
    assert rule not in names_of_rules(path, text)


def test_each_rule_of_style_has_a_case_of_both_kinds() -> None:
    assert {rule for rule, _ in BREAKS} == set(style.RULES)
    assert {rule for rule, _, _ in KEEPS} == set(style.RULES)


def test_a_finding_names_the_place_that_the_list_of_exceptions_names() -> None:
    text = 'class Node:\n    """One."""\n\n    def show(self):\n        print(1)\n'
    (finding,) = style.findings(style.module_of_text(OF_DRIVERS, text))
    assert finding.key() == f"printing {OF_DRIVERS} Node.show"
    assert finding.line == 5


# ---- dev/layers.py

LAYERS = "low: a\nhigh: b c __init__\n"


def wrong_imports(folder: Path, sources: dict[str, str], told: str) -> list[str]:
    """What dev/layers.py finds in a package of these modules below these layers."""
    package = folder / "pack"
    package.mkdir()
    for name, text in {"__init__": "", **sources}.items():
        (package / f"{name}.py").write_text(text, encoding="utf-8")
    beside = folder / "layers.txt"
    beside.write_text(told, encoding="utf-8")
    modules = layers.modules_of(package)
    imports = list(layers.imports_of(package, modules))
    return list(layers.wrong(imports, modules, layers.layers_of(beside)))


def test_imports_downward_are_right(tmp_path: Path) -> None:
    sources = {"a": "", "b": "from . import a\n", "c": "from pack.b import x\n"}
    assert wrong_imports(tmp_path, sources, LAYERS) == []


@pytest.mark.parametrize(
    "text, place",
    [
        ("from . import b\n", "module"),
        ("import pack.b\n", "module"),
        ("def f():\n    from .b import x\n", "function"),
        ("if TYPE_CHECKING:\n    from .b import X\n", "typing"),
    ],
)
def test_an_import_upward_is_wrong_wherever_it_stands(
    tmp_path: Path, text: str, place: str
) -> None:
    (found,) = wrong_imports(tmp_path, {"a": text, "b": "", "c": ""}, LAYERS)
    assert found.startswith("upward, low -> high: a:")
    assert found.endswith(f"imports b ({place})")


def test_an_import_for_typing_is_free_where_the_layers_say_so(tmp_path: Path) -> None:
    sources = {"a": "if TYPE_CHECKING:\n    from .b import X\n", "b": "from . import a\n", "c": ""}
    assert wrong_imports(tmp_path, sources, f"typing: free\n{LAYERS}") == []


def test_a_module_in_no_layer_is_wrong(tmp_path: Path) -> None:
    found = wrong_imports(tmp_path, {"a": "", "b": "", "c": "", "d": ""}, LAYERS)
    assert found == ["d: is in no layer"]


def test_a_cycle_within_a_layer_is_wrong(tmp_path: Path) -> None:
    sources = {"a": "", "b": "from . import c\n", "c": "def f():\n    from . import b\n"}
    assert wrong_imports(tmp_path, sources, LAYERS) == ["a cycle of 2: b, c"]


def test_a_layer_may_name_those_that_it_imports(tmp_path: Path) -> None:
    told = "low: a\nmiddle: b\nhigh: c __init__ -> middle\n"
    sources = {"a": "", "b": "from . import a\n", "c": "from . import a, b\n"}
    (found,) = wrong_imports(tmp_path, sources, told)
    assert found == "upward, high -> low: c:1 imports a (module)"


# ---- dev/proof_layout.py


def test_a_line_of_200_columns_stays() -> None:
    line = "  " + "x " * 99
    assert len(line) == proof_layout.LONGEST
    assert proof_layout.laid_out(line) == [line]


@pytest.mark.parametrize(
    "line",
    [
        "  step = " + " ∙ ".join(f"cong {word} (plus a b)" for word in "abcdefghijkl"),
        "  -- " + "words of a comment " * 12,
        "use rings.proofs.Sums.{" + ", ".join(f"sum-of-{at}" for at in range(30)) + "}",
    ],
    ids=["proof", "comment", "use"],
)
def test_a_longer_line_becomes_lines_within_the_width(line: str) -> None:
    assert len(line) > proof_layout.LONGEST
    found = proof_layout.laid_out(line)
    assert len(found) > 1
    assert max(map(len, found)) <= proof_layout.WIDTH


def test_a_proof_is_broken_before_the_loosest_operator_and_keeps_its_words() -> None:
    line = "  step = " + " ∙ ".join(f"cong {word} (plus a b)" for word in "abcdefghijkl")
    found = proof_layout.laid_out(line)
    assert " ".join(part.strip() for part in found) == line.strip()
    assert all(part.startswith("    ∙ ") for part in found[2:])


def test_a_use_of_many_names_keeps_them_in_order_and_begins_no_comment() -> None:
    names = [
        *(f"sum-of-{at}" for at in range(8)),
        "-inverse",
        *(f"product-{at}" for at in range(20)),
    ]
    found = proof_layout.laid_out("use rings.proofs.Sums.{" + ", ".join(names) + "}")
    inner = [line[line.index("{") + 1 : line.index("}")] for line in found]
    assert ", ".join(inner).split(", ") == names
    assert not any(part.startswith("-") for part in inner)


def test_what_cannot_be_broken_stays() -> None:
    line = '"' + "quoted words " * 20 + '"'
    assert proof_layout.laid_out(line) == [line]
