"""What a terminal would obey is escaped; lists, counts and near words."""

from __future__ import annotations

import pytest
from bridge_drivers.system import text
from hypothesis import given
from hypothesis import strategies as st
from timing import assert_linear

CONTROLS = [chr(number) for number in (*range(0x20), *range(0x7F, 0xA0))]


@pytest.mark.parametrize(
    "given_text, told",
    [
        ("a\x1b[2Jb", "a\\x1b[2Jb"),
        ("a\r\x08\x7f\x9b", "a\\x0d\\x08\\x7f\\x9b"),
        (b"\x9b\xff".decode("utf-8", "surrogateescape"), "\\x9b\udcff"),
        ("a\tb\nc", "a\tb\nc"),
        ("größer ≥ 1", "größer ≥ 1"),
    ],
)
def test_controls_are_shown(given_text: str, told: str) -> None:
    assert text.printable(given_text) == told


def test_a_line_has_no_ends_of_lines() -> None:
    assert text.one_line("a\tb\nc\x1b") == "a\\x09b\\x0ac\\x1b"


@given(st.text())
def test_no_control_is_left(given_text: str) -> None:
    assert set(text.printable(given_text)) & set(CONTROLS) <= {"\n", "\t"}
    assert not set(text.one_line(given_text)) & set(CONTROLS)


@given(st.text())
def test_what_is_told_once_is_told_the_same_again(given_text: str) -> None:
    told = text.one_line(given_text)
    assert text.one_line(told) == text.printable(told) == told


@pytest.mark.parametrize(
    "words, told", [([], ""), (["a"], "a"), (["a", "b"], "a or b"), (["a", "b", "c"], "a, b or c")]
)
def test_alternatives(words: list[str], told: str) -> None:
    assert text.alternatives(words) == told


@pytest.mark.parametrize(
    "most, told", [(0, " and 3 more"), (2, "a, b and 1 more"), (3, "a, b, c"), (9, "a, b, c")]
)
def test_the_first_of_a_list(most: int, told: str) -> None:
    assert text.first_of(["a", "b", "c"], most) == told


@pytest.mark.parametrize(
    "count, thing, told",
    [(0, "row", "0 rows"), (1, "row", "1 row"), (2, "row", "2 rows"), (2, "bus", "2 buses")],
)
def test_counts(count: int, thing: str, told: str) -> None:
    assert text.counted(count, thing) == told


@pytest.mark.parametrize(
    "word, told",
    [
        ("proev", " did you mean `prove`?"),
        ("seconds", " did you mean `timelim`?"),
        ("quiet", " did you mean `wantsol=8`?"),
        ("judge", ""),  # what is meant is not known here
        ("qqqq", ""),
    ],
)
def test_what_was_meant(word: str, told: str) -> None:
    others = {"seconds": "timelim", "quiet": "wantsol=8", "judge": "verify"}
    assert text.did_you_mean(word, ["prove", "timelim", "wantsol"], others) == told


def test_a_near_word_is_looked_for_among_few_and_short_ones() -> None:
    """Names of a model are anybody's: there may be a million of them, of a million letters."""
    far = ["x" * 50] * text.MOST_NAMES
    assert text.nearest("proev", [*far, "prove"]) == ""
    assert text.nearest("proev", ["prove" * 1000, "prove"]) == "prove"
    assert text.nearest("prove" * 1000, ["prove" * 1000]) == ""


def test_hostile_text_is_told_in_linear_time() -> None:
    assert_linear(lambda n: "\x1b\r" * n, text.printable, 20_000)
