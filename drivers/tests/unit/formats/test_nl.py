"""Heads of .nl files, and the text forms that are made of them."""

from __future__ import annotations

import contextlib
from pathlib import Path
from typing import List, Optional

import pytest
from hypothesis import given
from hypothesis import strategies as st

from bridge_drivers.formats.nl import (
    NlHeader,
    printed_doubles_note,
    read_header,
    text_of_nl,
    with_shortest_decimals,
)
from bridge_drivers.system.errors import Damaged, ModelRefused
from timing import assert_linear

BINARY = sorted((Path(__file__).parents[2] / "data" / "binary").glob("*.bin.nl"))[0]
PRINTED = b"g3 1 1 0\n1 0\nn0.90000000000000002\n"


def written(folder: Path, data: bytes) -> str:
    path = folder / "m.nl"
    path.write_bytes(data)
    return str(path)


def test_a_head(tmp_path: Path) -> None:
    path = written(tmp_path, b"g3 1 1 0 # made\n 3 2 4 # counts\n")
    assert read_header(path) == NlHeader(["1", "1", "0"], 2, 3, 4)


@pytest.mark.parametrize("text", [b"", b"g3 1 1", b"g3 1 1 0\nx y\n", b"gx\n1 1\n", b"g10\n1 1\n"])
def test_no_heads(tmp_path: Path, text: bytes) -> None:
    with pytest.raises(Damaged):
        read_header(written(tmp_path, text))


@pytest.mark.parametrize("piece", [b" ", b"#", b"1 ", b"9"])
def test_heads_take_linear_time(tmp_path: Path, piece: bytes) -> None:
    def read(text: bytes) -> None:
        with contextlib.suppress(Damaged):
            read_header(written(tmp_path, b"g3 " + text))

    assert_linear(lambda n: piece * n, read, 50_000)


@pytest.mark.parametrize(
    "old, new, count",
    [
        (b"0 0.90000000000000002\nn6.4000000000000004\n", b"0 0.9\nn6.4\n", 2),
        (b"1 -0.10000000000000001\n", b"1 -0.1\n", 1),
        (b"1 9.0000000000000002e-06\n", b"1 9e-06\n", 1),
        (b"1 0.9 x0.90000000000000002 12345678901234567890\n", None, 0),
    ],
)
def test_shortest_decimals(old: bytes, new: Optional[bytes], count: int) -> None:
    assert with_shortest_decimals(old) == (old if new is None else new, count)


@given(st.lists(st.floats(allow_nan=False, allow_infinity=False)))
def test_no_double_changes(values: List[float]) -> None:
    text = "\n".join(f"0 {value:.17f}" for value in values).encode()
    shortened, _ = with_shortest_decimals(text)
    assert list(map(float, shortened.split())) == list(map(float, text.split()))


def test_a_printed_double_is_told() -> None:
    assert printed_doubles_note(PRINTED) == [
        "0.90000000000000002 in the .nl looks like a printed double: shortest=1 reads such numbers "
        "as 0.9"
    ]
    assert printed_doubles_note(b"n0.9\n") == []


def test_a_text_is_read_as_it_is(tmp_path: Path) -> None:
    path, target = written(tmp_path, PRINTED), str(tmp_path / "new.nl")
    assert text_of_nl(path, target).path == path
    assert len(text_of_nl(path, target).notes) == 1
    assert text_of_nl(path, target, tells_printed=False).notes == []


def test_a_text_with_shortest_decimals(tmp_path: Path) -> None:
    target = tmp_path / "new.nl"
    made = text_of_nl(written(tmp_path, PRINTED), str(target), shortens=True)
    assert made.path == str(target)
    assert target.read_bytes() == PRINTED.replace(b"0.90000000000000002", b"0.9")
    again = text_of_nl(str(target), str(tmp_path / "other.nl"), shortens=True)
    assert again == (str(target), [])


def test_a_binary_file(tmp_path: Path) -> None:
    target = tmp_path / "new.nl"
    made = text_of_nl(str(BINARY), str(target))
    assert "not proved" in made.notes[0]
    assert target.read_bytes().startswith(b"g")


def test_a_damaged_binary_file(tmp_path: Path) -> None:
    path = written(tmp_path, BINARY.read_bytes()[:-3])
    with pytest.raises(Damaged, match="ends too soon or is damaged"):
        text_of_nl(path, str(tmp_path / "new.nl"))


def test_the_model_is_not_overwritten(tmp_path: Path) -> None:
    path = written(tmp_path, PRINTED)
    with pytest.raises(ModelRefused, match="the model itself"):
        text_of_nl(path, path, shortens=True)
    assert Path(path).read_bytes() == PRINTED


@pytest.mark.parametrize("piece", [b"1", b"1.", b"n1", b"1.1 ", b"0", b"1e", b"\n", b"-"])
def test_decimals_take_linear_time(piece: bytes) -> None:
    assert_linear(lambda n: b"n1." + piece * n, with_shortest_decimals, 20_000)
