"""Binary .nl files as text."""

from __future__ import annotations

import struct
from pathlib import Path
from typing import List

import pytest
from hypothesis import given
from hypothesis import strategies as st

from bridge_drivers.formats.binary_nl import text_of_binary
from timing import assert_linear

PAIRS = sorted((Path(__file__).parents[2] / "data" / "binary").glob("*.bin.nl"))
NAMES = [path.name for path in PAIRS]
HEAD = b"b3 1 1 0\n %d 0 0 0 0\n 0 0\n 0 0\n 0 0 0\n 0 0 %d 1\n 0 0 0 0 0\n 0 0\n 0 0\n 0 0 0 0 0\n"


def lines_of(data: bytes) -> List[str]:
    """Those below the head."""
    return text_of_binary(data).decode().split("\n")[10:-1]


@pytest.mark.parametrize("path", PAIRS, ids=NAMES)
def test_against_the_text_that_ampl_wrote(path: Path) -> None:
    expected = path.with_name(path.name.replace(".bin.", ".text."))
    assert text_of_binary(path.read_bytes()) == expected.read_bytes()


@pytest.mark.parametrize("path", PAIRS, ids=NAMES)
def test_damaged_files(path: Path) -> None:
    """Where bytes are missing at the end, are too many, or all but the first are."""
    data = path.read_bytes()
    for bad in (data[:-3], data[:100], data + b"?", b"b"):
        with pytest.raises(ValueError):
            text_of_binary(bad)


def test_big_endian_and_a_suffix() -> None:
    body = b"b0" + struct.pack(">dd", 0.5, 0.1 + 0.2)
    body += b"S" + struct.pack(">iii", 4, 1, 4) + b"rc\0\0" + struct.pack(">id", 0, 2.0)
    assert lines_of(HEAD % (1, 2) + body) == ["b", "0 0.5 0.30000000000000004", "S4 1 rc", "0 2"]


def test_whole_suffixes_and_all_nodes() -> None:
    body = b"S" + struct.pack("<iii", 0, 1, 2) + b"pr" + struct.pack("<ii", 0, 7)
    body += b"C" + struct.pack("<i", 0) + b"o" + struct.pack("<ii", 54, 3)
    body += b"s" + struct.pack("<h", -2) + b"l" + struct.pack("<i", 9)
    body += b"h" + struct.pack("<i", 2) + b"ab"
    assert lines_of(HEAD % (0, 1) + body) == [
        "S0 1 pr",
        "0 7",
        "C0",
        "o54",
        "3",
        "n-2",
        "n9",
        "h2:ab",
    ]


@pytest.mark.parametrize(
    "body",
    [
        b"o" + struct.pack("<i", 64),
        b"C" + struct.pack("<i", 0) + b"o" + struct.pack("<i", 64),
        b"C" + struct.pack("<i", 0) + b"f" + struct.pack("<ii", 0, 10**9),
        b"C" + struct.pack("<i", 0) + b"q",
        b"d" + struct.pack("<i", -1),
        b"b7",
    ],
)
def test_what_no_file_has(body: bytes) -> None:
    with pytest.raises(ValueError):
        text_of_binary(HEAD % (1, 1) + body)


@given(st.binary())
def test_any_bytes_are_read_or_refused(body: bytes) -> None:
    try:
        assert text_of_binary(HEAD % (1, 1) + body).startswith(b"g3 1 1 0\n")
    except ValueError:
        pass


@pytest.mark.parametrize("piece", [b"\n", b" ", b"C\0\0\0\0n" + b"\0" * 8])
def test_many_segments_take_linear_time(piece: bytes) -> None:
    def read(body: bytes) -> None:
        try:
            text_of_binary(HEAD % (1, 1) + body)
        except ValueError:
            pass

    assert_linear(lambda n: piece * n, read, 5_000)


@pytest.mark.parametrize("piece", [b"\n", b"b", b"b \n", b"1 "])
def test_heads_take_linear_time(piece: bytes) -> None:
    def read(text: bytes) -> None:
        try:
            text_of_binary(text)
        except ValueError:
            pass

    assert_linear(lambda n: b"b" + piece * n, read, 50_000)
