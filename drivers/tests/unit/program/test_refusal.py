"""Refusals in words: their places, expressions and names, by reason."""

from __future__ import annotations

import pickle
import re
from pathlib import Path

import pytest

from bridge_drivers.program.calls import Reply
from bridge_drivers.program.refusal import (
    Refusal,
    RefusalLine,
    RefusalText,
    context_lines,
    counts_of_nl,
    parse_refusal,
    read_fault,
    segment_at,
    why_unreadable,
)
from bridge_drivers.system.errors import (
    FileFault,
    ModelRefused,
    NotInstalled,
    ProgramFailed,
    WrongOption,
)
from timing import assert_linear

HEAD = b"g3 1 1 0\n 3 1 1 0 0\n" + b" 0 0\n" * 8
# line 11 C0, 14 to 21 its expression, with a product on line 17
PRODUCT = HEAD + (
    b"C0\no54\n3\no2\nn5\nv1\no2\nv0\no0\nv1\nn3\nv2\nO0 0\nn0\nr\n1 4\nb\n0 0 1\n0 0 1\n0 0 1\n"
)
NONLINEAR = "refused line 17: nonlinear"
CONTROLS = re.compile("[\x00-\x08\x0b-\x1f\x7f-\x9f]")


@pytest.fixture
def model(tmp_path: Path) -> Path:
    path = tmp_path / "m.nl"
    path.write_bytes(PRODUCT)
    return path


def line_of(model: Path, told: str, words: str = "export NL", name: str = "m.nl") -> str:
    call = [str(model) if word == "NL" else word for word in words.split()]
    return RefusalText(call, told, {str(model): name}).line


@pytest.mark.parametrize(
    "told, read",
    [
        ("refused line 12: nonlinear", RefusalLine(1, "line", 12, "nonlinear")),
        ("refused file 2 line 3: bad number", RefusalLine(2, "line", 3, "bad number")),
        ("refused file 2: other counts", RefusalLine(2, "", 0, "other counts")),
        ("refused row 0: too wide", RefusalLine(1, "row", 0, "too wide")),
        ("refused column 9: empty interval", RefusalLine(1, "column", 9, "empty interval")),
        ("refused objective 1: too wide", RefusalLine(1, "objective", 1, "too wide")),
        ("refused program: too large", RefusalLine(1, "", 0, "too large")),
        ("refused line 1: a: b", RefusalLine(1, "line", 1, "a: b")),
        ("refused line x: nonlinear", None),
        ("refused line 12", None),
        ("input fault", None),
        ("bad words", None),
        ("", None),
        ("refused line 1" + "0" * 5000 + ": x", None),
    ],
)
def test_lines_that_are_told(told: str, read: "RefusalLine | None") -> None:
    assert parse_refusal(told) == read


@pytest.mark.parametrize(
    "words, told, line",
    [
        (
            "export NL",
            "line 17: nonlinear",
            "m.nl line 17: constraint 0: (x0 * (x1 + 3)) is nonlinear",
        ),
        (
            "export NL",
            "row 4: row too wide",
            "m.nl: constraint 4: row too wide (the row's exact values do not fit 128 bits)",
        ),
        (
            "export NL",
            "objective 1: no such objective",
            "m.nl: objective 1: no such objective (the file has fewer objectives; they count from "
            "0 here)",
        ),
        (
            "export NL 0 r c",
            "file 3 line 3: repeated name",
            "c line 3: repeated name (an earlier line has it)",
        ),
        (
            "return NL a",
            "file 2 line 4: unknown name",
            "a line 4: unknown name (no column, or no row that was exported, has it)",
        ),
        (
            "return NL a",
            "file 2 line 1: bad first line",
            "a line 1: bad first line (it does not begin with `answer 1`)",
        ),
        ("check NL s", "file 2: other counts", "s: other counts (it is of another model)"),
        (
            "import p.mps",
            "column 2: empty interval",
            "p.mps: column 2: empty interval (a lower bound is above its upper bound, so nothing "
            "satisfies the model)",
        ),
        (
            "mps p.mps",
            "line 7: unknown row",
            "p.mps line 7: unknown row (no line of ROWS has it)",
        ),
        (
            "export NL",
            "file 9: too large",
            "refused file 9: too large (more than the file may hold)",
        ),
        ("export NL", "line 3: of no list", "m.nl line 3: header: of no list"),
        ("export NL", "line 31: missing segment", None),
    ],
)
def test_lines(model: Path, words: str, told: str, line: "str | None") -> None:
    """Expressions, places, and the files of the words, among which a fault is counted."""
    found = line_of(model, "refused " + told, words)
    if line is None:
        assert found.startswith("m.nl line 31: missing segment (no O of an objective")
    else:
        assert found == line


@pytest.mark.parametrize(
    "line, place",
    [
        (2, "header"),
        (23, "objective 0"),
        (26, "constraint 0"),
        (25, "sides of constraints"),
        (29, "variable 1"),
        (27, "bounds"),
    ],
)
def test_places_of_a_model(model: Path, line: int, place: str) -> None:
    assert line_of(model, f"refused line {line}: x").startswith(f"m.nl line {line}: {place}: ")


def test_an_operator_that_no_linear_model_has(model: Path) -> None:
    model.write_bytes(PRODUCT.replace(b"o2\nv0", b"o6\nv0"))
    assert line_of(model, "refused line 17: refused opcode 6") == (
        "m.nl line 17: constraint 0: less(x0, (x1 + 3)) is not linear (refused opcode 6)"
    )


def test_a_file_of_another_kind(model: Path) -> None:
    model.write_bytes(b"NAME\nROWS\n")
    assert line_of(model, "refused line 1: bad first line") == (
        "m.nl line 1: bad first line: it is an MPS file: `bridge-certify m.nl` and the drivers "
        "take it, `nl-bridge import m.nl m-2.nl` makes m-2.nl of it"
    )


def test_names_beside_the_model(model: Path) -> None:
    """They are looked for beside the file as the user calls it."""
    model.with_suffix(".row").write_bytes(b"Cap\nProfit\n")
    model.with_suffix(".col").write_bytes(b"a\nb\n\nz\n")
    assert line_of(model, NONLINEAR, name=str(model)) == (
        f"{model} line 17: constraint 0 (Cap): (a * (b + 3)) is nonlinear"
    )
    line = line_of(model, "refused objective 0: objective too wide", name=str(model))
    assert ".nl: objective 0 (Profit): objective too wide (" in line
    assert "constraint 0: (x0 * " in line_of(model, NONLINEAR)


def test_controls_of_a_terminal(model: Path) -> None:
    """Of names, comments, paths and lines around: they are shown and not obeyed."""
    model.write_bytes(PRODUCT.replace(b"v0\no0", b"v0\t# \x1b[2Jspeed\no0"))
    model.with_suffix(".row").write_bytes(b"Cap\x1b]0;title\x07\n")
    model.with_suffix(".col").write_bytes("a\x1b[31m\x9b1m\nb\rc\nz\n".encode())
    line = line_of(model, NONLINEAR, name=str(model))
    assert line == (
        f"{model} line 17: constraint 0 (Cap\\x1b]0;title\\x07): "
        "(a\\x1b[31m\\x9b1m * (b\\x0dc + 3)) is nonlinear"
    )
    assert line_of(model, NONLINEAR, name="m\x1b[1m.nl") == (
        "m\\x1b[1m.nl line 17: constraint 0: (\\x1b[2Jspeed * (x1 + 3)) is nonlinear"
    )
    more = RefusalText(["export", str(model)], NONLINEAR, {}).more()
    assert any("\\x1b[2Jspeed" in text for text in more)
    assert not any(CONTROLS.search(text) for text in [line, *more])


def test_further_lines(model: Path) -> None:
    """The whole expression, what helps, the lines around."""
    more = RefusalText(["export", str(model)], NONLINEAR, {}).more()
    assert more[0] == "in: ((5 * x1) + >>(x0 * (x1 + 3))<< + x2)"
    assert more[1].startswith("what helps: linearise it: ")
    assert (more[4], len(more)) == (">     17 o2", 8)
    assert RefusalText(["export", str(model)], "input fault", {}).more() == []


@pytest.mark.parametrize(
    "status, told, line",
    [
        (
            2,
            "refused line 12: nonlinear",
            "refused line 12: nonlinear (the model is not linear there)",
        ),
        (
            2,
            "refused line 9: refused opcode 39",
            "refused line 9: refused opcode 39 (an operator that is not linear)",
        ),
        (3, "bad words", "this bridge does not know the command `return` (bad words)"),
        (5, "", "its output could not be written"),
        (6, "", "want of memory"),
        (9, "", "ended with 9"),
        (-9, "", "`bridge return` was stopped by signal 9"),
    ],
)
def test_refusals_whose_words_are_not_known(status: int, told: str, line: str) -> None:
    refusal = Refusal("return", Reply(status, b"", told))
    assert (refusal.describe(), str(refusal), refusal.details()) == (line, line, None)


@pytest.mark.parametrize(
    "status, kind",
    [
        (2, ModelRefused),
        (3, WrongOption),
        (4, FileFault),
        (5, FileFault),
        (6, ProgramFailed),
        (-9, ProgramFailed),
        (127, NotInstalled),
    ],
)
def test_the_error_of_a_status(status: int, kind: type) -> None:
    refusal = Refusal("verify", Reply(status, b"", "refused line 1: x"))
    error = refusal.as_error()
    assert type(error) is kind
    assert (error.status, error.text) == (status, refusal.text)


def test_details_for_other_programs(model: Path) -> None:
    refusal = Refusal("export", Reply(2, b"", NONLINEAR), ["export", str(model)])
    details = refusal.details()
    assert details is not None
    assert {key: details[key] for key in ("told", "reason", "kind", "number", "file")} == {
        "told": NONLINEAR,
        "reason": "nonlinear",
        "kind": "line",
        "number": 17,
        "file": str(model),
    }
    whole = Refusal("check", Reply(2, b"", "refused file 2: other counts"), ["check", "a", "b"])
    details = whole.details()
    assert details is not None
    assert (details["kind"], details["number"], details["file"]) == (None, None, "b")


def test_a_refusal_goes_to_another_process() -> None:
    refusal = Refusal("export", Reply(2, b"", NONLINEAR), ["export", "m"], {"m": "model"})
    copy = pickle.loads(pickle.dumps(refusal))
    assert vars(copy) == vars(refusal)
    assert copy.text == refusal.text


def test_files_that_cannot_be_read(tmp_path: Path, model: Path) -> None:
    missing = str(tmp_path / "missing.sol")
    refusal = Refusal(
        "check", Reply(4, b"", "input fault"), ["check", str(model), missing], {missing: "x.sol"}
    )
    assert refusal.describe() == "x.sol: input fault (No such file or directory)"
    assert read_fault(str(tmp_path)) == "Is a directory"
    assert read_fault("a\0b") == "embedded null byte"
    assert read_fault("/dev/null") == read_fault(str(model)) == ""
    both = why_unreadable([str(model), "/dev/null"], {str(model): "m.nl"})
    assert both == "input fault: m.nl or /dev/null could not be read"
    (tmp_path / "mill.mps").write_bytes(b"NAME\n")
    nearby = why_unreadable([str(tmp_path / "mill.nl")], {})
    assert f"; {tmp_path}/mill.mps is an MPS file" in nearby


@pytest.mark.parametrize("text", [b"", b"g3 1 1", b"g3\nx y\n", b"g3\n1\n", b"g3\n" + b"1" * 5000])
def test_heads_that_tell_no_counts(tmp_path: Path, text: bytes) -> None:
    path = tmp_path / "m.nl"
    path.write_bytes(text)
    assert counts_of_nl(str(path)) == (None, None)
    assert counts_of_nl(str(tmp_path / "none")) == (None, None)


def test_lines_around_one(tmp_path: Path) -> None:
    path = tmp_path / "text"
    path.write_bytes(b"".join(b"line %d\n" % number for number in range(1, 9)))
    assert context_lines(str(path), 2) == [
        "       1 line 1",
        ">      2 line 2",
        "       3 line 3",
        "       4 line 4",
        "       5 line 5",
    ]
    path.write_bytes(b"text\n\0\n")
    assert context_lines(str(path), 1) == context_lines(str(tmp_path), 1) == []


def test_a_segment_takes_time_in_proportion_to_the_text(tmp_path: Path) -> None:
    path = tmp_path / "m.nl"

    def made(count: int) -> bytes:
        return HEAD + b"C0\n" + b"o16\n" * count

    def read(text: bytes) -> object:
        path.write_bytes(text)
        return segment_at(str(path), 10**9)

    assert_linear(made, read, 20_000)
