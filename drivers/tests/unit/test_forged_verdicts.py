"""No name, path, log or false program makes a line that passes for a verdict."""

from __future__ import annotations

import io
import json
import re
import unicodedata
from pathlib import Path

import pytest
from bridge_drivers.commands.console import Console
from bridge_drivers.formats.names import NameLists, different_names
from bridge_drivers.formats.sol import solution_file
from bridge_drivers.program.verdict import set_apart, statement_of
from bridge_drivers.system.text import one_line
from hypothesis import given
from hypothesis import strategies as st

VERDICTS = (
    "optimal 99",
    "feasible 1/2",
    "within 1 2",
    "bound 3 of objective 1",
    "infeasible",
    "unbounded",
    "not proved: nothing",
    "yes 4",
    "proved",
)
BEGINNINGS = st.sampled_from(VERDICTS) | st.text(max_size=20)
# what stands in names by accident or by intent: the same again, nothing, what is not seen
NAMES = st.sampled_from(["", " ", "a", "a", "x1", "x1(x0)", "a(x0)", "\u202ea", "a\x1b", "a\\x1b"])


def printed(console: Console) -> str:
    """What was printed on a console of texts."""
    stream = vars(console)["_output"]
    assert isinstance(stream, io.StringIO)
    return stream.getvalue()


def begins_as_verdict(text: str) -> bool:
    """Whether any line of a text reads as a verdict, by a rule of the test's own."""
    words = tuple(verdict.split()[0] for verdict in VERDICTS)
    return any(re.match(rf"(?:{'|'.join(words)})\b", line) for line in text.split("\n"))


@given(st.lists(BEGINNINGS, min_size=1, max_size=4))
def test_lines_beside_a_verdict_do_not_begin_as_one(lines: list[str]) -> None:
    console = Console(io.StringIO(), io.StringIO())
    console.message([*lines, "feasible 17"])
    *above, verdict, end = printed(console).split("\n")
    assert (verdict, end) == ("feasible 17", "")
    assert not begins_as_verdict("\n".join(above))


@given(st.lists(st.text(max_size=8) | st.sampled_from(["\n", *VERDICTS]), max_size=8))
def test_a_log_that_comes_in_pieces(pieces: list[str]) -> None:
    console = Console(io.StringIO(), io.StringIO())
    for piece in pieces:
        console.log(piece)
    whole = printed(console)
    # a word that comes in two pieces may stand at a line's beginning; the piece that begins it tells
    if all(piece.endswith("\n") or piece in VERDICTS for piece in pieces):
        assert not begins_as_verdict(whole)
    assert whole.replace("  ", "") == one_log("".join(pieces)).replace("  ", "")


def one_log(text: str) -> str:
    """The log in one piece, escaped, without what sets lines apart."""
    return "\n".join(map(one_line, text.split("\n"))).replace("\\x09", "\t")


@pytest.mark.parametrize("verdict", VERDICTS)
def test_each_verdict_is_set_apart(verdict: str) -> None:
    assert set_apart(verdict) == "  " + verdict
    assert statement_of(set_apart(verdict)) is None
    assert set_apart("CBC: " + verdict) == "CBC: " + verdict


@given(st.lists(NAMES | st.text(max_size=3), max_size=8))
def test_names_of_a_list_are_seen_and_different(names: list[str]) -> None:
    shown = different_names(
        [one_line(name) for name in names], [f"x{j}" for j in range(len(names))]
    )
    assert len(set(shown)) == len(names)
    for name in shown:
        assert name and not any(
            unicodedata.category(letter) in ("Cc", "Zl", "Zp") for letter in name
        )


@pytest.mark.parametrize(
    "letter", ["\u202e", "\u2066", "\u200b", "\ufffe", "\U0001ffff", "\ufeff", "\x85"]
)
def test_what_is_not_seen_is_told_by_its_number(letter: str) -> None:
    told = one_line(f"a{letter}b")
    assert told.isascii() and told != one_line("ab")
    assert f"{ord(letter):x}" in told


@pytest.mark.parametrize(
    "text, names",
    [
        (b"a\n\nz\n", ["a", "", "z"]),
        (b"\n\nz\n", ["", "", "z"]),
        (b"a\r\n \r\nz", ["a", "", "z"]),
        (b"a\na\nz\n", ["a(x0)", "a(x1)", "z"]),
        (b"a\na\na(x0)\n", ["a(x0)(x0)", "a(x1)", "a(x0)"]),
        (b"x2\nb\n\n", ["x2", "b", ""]),
        (b"x2\nb\n\nc\n", ["x2(x0)", "b", "x2(x2)", "c"]),
        (b"x0\nx1\nx2\n", ["x0", "x1", "x2"]),
    ],
)
def test_each_line_of_a_list_is_the_name_of_its_place(
    tmp_path: Path, text: bytes, names: list[str]
) -> None:
    (tmp_path / "m.col").write_bytes(text)
    lists = NameLists(str(tmp_path / "m"))
    assert [lists.column(place) for place in range(len(names))] == names


@given(st.lists(NAMES, min_size=1, max_size=6))
def test_no_value_is_lost_in_json(names: list[str]) -> None:
    own = [f"x{j}" for j in range(len(names))]
    pairs = [(name, str(j)) for j, name in enumerate(different_names(names, own))]
    found = json.loads(solution_file("s.json", pairs, []))["values"]
    assert list(found.values()) == [text for _, text in pairs]
