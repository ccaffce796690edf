"""The word of an MPS line that the proved program refuses it for."""

from __future__ import annotations

from pathlib import Path

import pytest

from bridge_drivers.program.mps_faults import BOUND_KINDS, mps_line_at, word_at_fault
from timing import assert_linear

MODEL = (
    "NAME t\nROWS\n N o\n L cap\nCOLUMNS\n x o 1\n x cap 2\nRHS\n RHS cap 9\nBOUNDS\n"
    " UP b x 4\nENDATA\n"
)
KINDS = ", ".join(BOUND_KINDS[:-1]) + f" or {BOUND_KINDS[-1]}"


@pytest.fixture
def path(tmp_path: Path) -> Path:
    return tmp_path / "m.mps"


@pytest.mark.parametrize(
    "old, new, line, reason, text",
    [
        (
            "ROWS",
            "ROW",
            2,
            "bad section",
            "`ROW`: no section that is known; did you mean `ROWS`?",
        ),
        ("BOUNDS", "ROWS", 10, "bad section", "`ROWS`: out of its order, or twice"),
        ("ENDATA", "QUADOBJ", 12, "bad section", "`QUADOBJ`: quadratic objectives are not read"),
        ("ENDATA", "sos1 x", 12, "bad section", "`sos1`: special ordered sets are not read"),
        (
            "ROWS",
            "OBJSENSE\n most\nROWS",
            3,
            "bad line",
            "`most`: no sense, which are MAX and MIN",
        ),
        (" L cap", " M cap", 4, "bad line", "`M`: no kind of a row, which are N, L, G and E"),
        (" x o 1", " x o 1 2 3", 6, "bad line", "of 5 words: `x o 1 2 3`"),
        (" x o 1", " x", 6, "bad line", "of 1 word: `x`"),
        (
            "x cap 2",
            "x capp 2",
            7,
            "unknown row",
            "`capp`: no line before has it; did you mean `cap`?",
        ),
        ("x cap 2", "x cap 2 row 3", 7, "unknown row", "`row`: no line before has it"),
        ("x cap 2", "x cap two", 7, "bad number", "`two`: no decimal number"),
        (
            "x cap 2",
            "x cap 2,5",
            7,
            "bad number",
            "`2,5`: no decimal number; a point stands before decimals",
        ),
        ("x cap 2", f"x cap {'9' * 40}", 7, "bad number", f"`{'9' * 40}`: more than 38 digits"),
        (" UP b x 4", " UP b x four", 11, "bad number", "`four`: no decimal number"),
        (
            " UP b x",
            " SC b x",
            11,
            "bad bound kind",
            "`SC`: semi-continuous columns are not read",
        ),
        (" UP b x", " UQ b x", 11, "bad bound kind", f"`UQ`: not {KINDS}"),
        (" UP b x 4", " FR b y", 11, "unknown column", "`y`: no line before has it"),
        (" UP b x 4", " UP b y 4", 11, "unknown column", "`y`: no line before has it"),
        (
            " x cap 2",
            " x cap 2\n y o 1\n x o 3",
            9,
            "column again",
            "`x`: the lines of a column must stand together",
        ),
        (" L cap", " L cap\n G cap", 5, "repeated row", "`cap`: a line before has it"),
        (
            " x o 1",
            " M 'MARKER' 'INT'",
            6,
            "bad marker",
            "`'INT'`: 'INTORG' or 'INTEND' is wanted",
        ),
        (" x o 1", " x o 1", 6, "second set", ""),  # where there is no more to say
        ("NAME t", "", 1, "bad line", ""),  # an empty line
    ],
)
def test_words(path: Path, old: str, new: str, line: int, reason: str, text: str) -> None:
    path.write_text(MODEL.replace(old, new, 1))
    assert word_at_fault(str(path), line, reason) == text


def test_a_file_that_is_gone(path: Path) -> None:
    assert word_at_fault(str(path), 1, "bad line") == ""


def test_what_stands_before_a_line(path: Path) -> None:
    path.write_text(MODEL)
    line = mps_line_at(str(path), 9)
    assert (line.words, line.section) == (["RHS", "cap", "9"], "RHS")
    assert (line.rows, line.columns) == (["o", "cap"], ["x"])


def test_bytes_that_are_no_text(path: Path) -> None:
    path.write_bytes(MODEL.encode().replace(b"x cap", b"x \xff\xfe"))
    assert word_at_fault(str(path), 7, "unknown row") == "`\udcff\udcfe`: no line before has it"


def test_near_names_among_many_take_time_in_proportion(path: Path) -> None:
    """Of a large model few names are looked at, so that a name that is none is told at once."""

    def made(count: int) -> bytes:
        rows = "".join(f" L row_of_a_large_model_{number}\n" for number in range(count))
        return f"NAME\nROWS\n N o\n{rows}COLUMNS\n x row_of_a_large_model_x 1\n".encode()

    def read(text: bytes) -> str:
        path.write_bytes(text)
        return word_at_fault(str(path), text.count(b"\n"), "unknown row")

    assert_linear(made, read, 20_000)
