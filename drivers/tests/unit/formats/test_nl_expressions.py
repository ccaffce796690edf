"""Expressions of .nl files in words."""

from __future__ import annotations

from typing import List, Optional

import pytest
from hypothesis import given
from hypothesis import strategies as st

from bridge_drivers.formats.names import NameLists
from bridge_drivers.formats.nl_expressions import expression_in_words
from bridge_drivers.formats.nl_operators import COUNTED, OPERATORS, operator_of
from timing import assert_linear

NO_NAMES = NameLists("")


def in_words(text: str, variables: Optional[int] = None, mark: int = -1) -> str:
    """An expression of words that stand for lines."""
    lines = [word.encode() + b"\n" for word in text.split()]
    return expression_in_words(lines, NameLists("", variables), mark)


@pytest.mark.parametrize(
    "text, words",
    [
        ("o2 v0 v1", "(x0 * x1)"),
        ("o41 v2", "sin(x2)"),
        ("o16 o0 v0 n2.5", "-((x0 + 2.5))"),
        ("n7", "7"),
        ("o54 3 v0 v1 n-1", "(x0 + x1 + -1)"),
        ("o93 v0", "opcode 93(x0)"),
        ("o35 o22 v0 n3 n1 n2", "if((x0 < 3), 1, 2)"),
        ("o11 2 v0 o5 v1 n2", "min(x0, (x1 ^ 2))"),
        ("o2 v0", "(x0 * ..)"),
        ("o48 v0 v1", "atan2(x0, x1)"),
        ("o64", "piecewise(..)"),
        ("", ""),
        ("C0", ""),
        ("3", ""),
        ("n", ""),
        ("v\u00b2", ""),
        ("v" + "9" * 5000, ""),
    ],
)
def test_words(text: str, words: str) -> None:
    assert in_words(text) == words


def test_a_defined_variable() -> None:
    assert in_words("o2 v0 v3", variables=3) == "(x0 * v3)"


def test_the_mark() -> None:
    assert in_words("o54 2 v0 o2 v1 v1", mark=3) == "(x0 + >>(x1 * x1)<<)"


def test_comments_are_names() -> None:
    lines = [b"f0 2\t#gamma\n", b"v0 # speed of sound\n", b"h3:abc\n"]
    assert expression_in_words(lines, NO_NAMES) == "gamma(speed of sound, 'abc')"


def test_long_sums_are_told_by_their_first_terms() -> None:
    terms = [f"v{j}" for j in range(1000)]
    assert in_words("o54 1000 " + " ".join(terms)) == "(x0 + x1 + x2 + x3 + x4 + x5 + ..)"
    terms[500] = "o2 v7 v8"
    assert " + >>(x7 * x8)<< + .." in in_words("o54 1000 " + " ".join(terms), mark=502)


def test_deep_expressions_stay_short() -> None:
    deep = "o16 " * 20_000 + "o2 v0 v1"
    assert len(in_words(deep)) < 100
    marked = in_words(deep, mark=20_000)
    assert ">>(x0 * x1)<<" in marked
    assert len(marked) < 200


@given(st.lists(st.sampled_from(["o0", "o54", "o11", "f1 2", "v0", "n1", "2", "h1:a", "x", ""])))
def test_any_lines_are_read(lines: List[str]) -> None:
    """And what is told stays short, whatever they are."""
    text = expression_in_words([line.encode() + b"\n" for line in lines], NO_NAMES)
    assert len(text) < 400


@pytest.mark.parametrize("piece", [b"o16\n", b"o54\n2\nv0\n", b"n1\n", b"o0\nv0\n"])
def test_many_lines_take_linear_time(piece: bytes) -> None:
    def read(text: bytes) -> str:
        return expression_in_words(text.splitlines(keepends=True), NO_NAMES)

    assert_linear(lambda n: piece * n, read, 3_000)


@pytest.mark.parametrize("piece", [b"n1", b"#", b" # ", b"o1 "])
def test_long_lines_take_linear_time(piece: bytes) -> None:
    assert_linear(
        lambda n: b"n" + piece * n, lambda text: expression_in_words([text], NO_NAMES), 20_000
    )


def test_operators() -> None:
    assert all(not operator.is_infix or operator.operands == 2 for operator in OPERATORS.values())
    assert OPERATORS[54].operands == COUNTED
    assert operator_of(93) == ("opcode 93", 1, False)
