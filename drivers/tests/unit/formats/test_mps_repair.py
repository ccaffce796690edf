"""What is repaired in MPS texts, what stays, and that it takes time in proportion to the text."""

from __future__ import annotations

from typing import List

import pytest
from hypothesis import given
from hypothesis import strategies as st

from bridge_drivers.formats.mps_repair import BYTE_ORDER_MARK, repair_mps
from timing import assert_linear

CHANGED = "what is judged is the text with these changes"
WORDS = ["inf", "Inf", "INF", "+inf", "infinity", "Infinity", "+Infinity"]


def text(*bounds: str, head: str = "NAME p\n") -> bytes:
    lines = "".join(f" {bound}\n" for bound in bounds)
    return (
        f"{head}ROWS\n N cost\n L c1\nCOLUMNS\n x cost 1 c1 1\n inf cost 2 c1 1\nRHS\n"
        f" RHS c1 4\nBOUNDS\n{lines}ENDATA\n"
    ).encode()


@pytest.mark.parametrize(
    "given_text",
    [
        text("UP BND x 3", "LO BND inf 1"),
        text("UP inf 3"),
        text("UP BND x -inf"),
        text("LO BND x inf"),
        text("FX BND x inf"),
        text("UP BND x infant"),
        text(head="OBJSENSE\n MAXIMIZE\n"),
        text(head="OBJNAME\n other\n"),
        text(head="NAME MAXIMISE\n"),
    ],
)
def test_what_stays(given_text: bytes) -> None:
    """Also columns and rows of such names; bounds that no number can have stay for the refusal."""
    assert repair_mps(given_text) == (given_text, [])


@pytest.mark.parametrize("word", WORDS)
@pytest.mark.parametrize("label", [" BND", ""])
def test_bounds_of_infinity(word: str, label: str) -> None:
    lower = word.lstrip("+")
    got, notes = repair_mps(
        text(f"UP{label} x {word}", f"UP{label} inf 3", f"LO{label} x -{lower}")
    )
    assert got == text(f"PL{label} x", f"UP{label} inf 3", f"MI{label} x")
    assert notes == ["2 bounds of infinity are read as none", CHANGED]


@pytest.mark.parametrize(
    "head, repaired",
    [
        ("OBJSENSE\n MAXIMISE\n", "OBJSENSE\n MAX\n"),
        ("OBJSENSE\n Minimise\n", "OBJSENSE\n Min\n"),
        ("OBJSENSE MAXIMISE\n", "OBJSENSE MAX\n"),
        ("NAME p\nOBJNAME\n cost\n", "NAME p\n"),
        ("NAME p\nOBJNAME cost\n", "NAME p\n"),
    ],
)
def test_heads(head: str, repaired: str) -> None:
    got, notes = repair_mps(text(head=head))
    assert (got, notes[-1]) == (text(head=repaired), CHANGED)


def test_a_byte_order_mark() -> None:
    assert repair_mps(BYTE_ORDER_MARK + text()) == (
        text(),
        ["its byte order mark is left out", CHANGED],
    )


def test_the_end_of_a_line_is_kept() -> None:
    """And a comment does not end the section."""
    got, _ = repair_mps(
        b"ROWS\n N o\nCOLUMNS\nBOUNDS\n* c\n UP  B  x  inf \n UP B y 1e30\nENDATA\n"
    )
    assert got == b"ROWS\n N o\nCOLUMNS\nBOUNDS\n* c\n PL  B  x\n UP B y 1e30\nENDATA\n"


@given(st.lists(st.sampled_from(["UP BND x 3", "UP x inf", "LO BND x -inf", "", " ", "FR BND x"])))
def test_a_repaired_text_needs_no_repair(bounds: List[str]) -> None:
    once = repair_mps(text(*bounds))
    assert repair_mps(once.text) == (once.text, [])


@pytest.mark.parametrize(
    "front, piece",
    [
        (b"BOUNDS\n UP BND x inf\n", b"\n"),
        (b"BOUNDS\n", b" UP BND x inf\n"),
        (b"BOUNDS\n UP BND x inf", b" "),
        (b"ROWS\n", b"\n"),
        (b"", b"ROWS\n"),
        (b"", b"OBJSENSE\n"),
        (b"OBJNAME\n a\nROWS\n", b" L r\n"),
    ],
)
def test_hostile_texts_take_linear_time(front: bytes, piece: bytes) -> None:
    assert_linear(lambda n: front + piece * n, repair_mps, 10_000)
