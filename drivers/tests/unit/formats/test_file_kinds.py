"""What files are, and that to find it out takes time in proportion to what is looked at."""

from __future__ import annotations

import gzip
from pathlib import Path
from typing import Callable, Optional

import pytest
from hypothesis import given
from hypothesis import strategies as st

from bridge_drivers.formats import file_kinds
from bridge_drivers.formats.file_kinds import (
    LP,
    MPS,
    explain_missing_model,
    is_lp_start,
    is_mps_file,
    is_mps_start,
    kind_of_file,
    start_of_file,
    stub_of,
)
from timing import assert_linear

FIXED = b"NAME          P\nROWS\n"


@pytest.mark.parametrize(
    "name, data, is_mps",
    [
        ("m.mps", FIXED, True),
        ("afiro", FIXED, True),
        ("m.MPS", b"", True),
        ("m.mps.gz", gzip.compress(FIXED, mtime=0), True),
        ("m.mps.gz", b"\x1f\x8b\x08", True),
        ("m.nl", b"g3 1 1\n", False),
        ("m.lp", b"Minimize\n obj: x\n", False),
        ("m", b"\n" * 60, False),
        ("m", b"\n" * 30 + b"* \r\n \t\r\nNAME\r\n", True),
        ("m", b"", False),
        ("m.gz", b"\x1f\x8b\x08", False),
        ("m.mps", b"\x7fELF\x02", False),
    ],
)
def test_what_is_mps(tmp_path: Path, name: str, data: bytes, is_mps: bool) -> None:
    path = tmp_path / name
    path.write_bytes(data)
    assert is_mps_file(str(path)) is is_mps
    assert not is_mps_file(str(tmp_path))


@pytest.mark.parametrize(
    "data, is_lp",
    [
        (b"\\ made\nMinimize\n obj: x\n", True),
        (b"/* made */\nmax: 3x;\n", True),
        (b"/* made */ max: 3x;\n", True),
        (b"// made\n\n/* by */ \nmin:", True),
        (b"/* made\nmax: 3x;\n", False),
        (b"maximal x\n", False),
        (b"g3 1 1 0\n", False),
        (b"max", False),
    ],
)
def test_what_is_lp(data: bytes, is_lp: bool) -> None:
    assert is_lp_start(data) is is_lp


@pytest.mark.parametrize(
    "name, data, told",
    [
        (
            "model.mps",
            b"* made\nNAME x\nROWS\n",
            "is an MPS file: `bridge-certify model.mps` and the drivers take it, `nl-bridge import "
            "model.mps model.nl` makes model.nl of it",
        ),
        ("model.txt", b"NAME\nROWS\n", "is an MPS file:"),
        ("model.lp", b"\\ made\nMinimize\n obj: x\n", "is an LP file, which no command here reads"),
        ("knap.nl.gz", b"\x1f\x8b\x08", "is a compressed file: `gunzip -k knap.nl.gz`"),
        ("model.mod", b"var x;\n", "is a text of AMPL: in AMPL, `write gmodel;` writes model.nl"),
        ("k.certificate", b"certificate 1\n", "is a certificate: `nl-bridge verify"),
        ("notes", b"\n", "is no .nl file by its name"),
    ],
)
def test_what_is_told(tmp_path: Path, name: str, data: bytes, told: str) -> None:
    (tmp_path / name).write_bytes(data)
    line = explain_missing_model(str(tmp_path / name)).replace(f"{tmp_path}/", "")
    assert line.startswith(f"{name} {told}")


def test_what_is_told_of_what_is_beside(tmp_path: Path) -> None:
    stub = str(tmp_path / "m")
    assert explain_missing_model(stub) == f"{stub}.nl: no such file"
    assert explain_missing_model(str(tmp_path)) == f"{tmp_path} is a folder"
    (tmp_path / "m.mps").write_bytes(FIXED)
    assert explain_missing_model(stub).startswith(
        f"{stub}.nl: no such file; {stub}.mps is an MPS file: "
    )


@pytest.mark.parametrize(
    "path, stub",
    [
        ("a/m.mps", "a/m"),
        ("m.mps.gz", "m"),
        ("m.MPS.XZ", "m"),
        ("afiro", "afiro"),
        ("m.gz", "m.gz"),
        ("a.mps/m", "a.mps/m"),
    ],
)
def test_stubs(path: str, stub: str) -> None:
    assert stub_of(path) == stub


@given(
    st.binary(max_size=300),
    st.sampled_from([b"", b"*", b"/*", b"\\", b"//", b" \n", b"max", b"NAME"]),
)
def test_no_start_fails(data: bytes, front: bytes) -> None:
    """Whatever the bytes are, and both tests never say yes."""
    start = front + data
    assert not (is_mps_start(start) and is_lp_start(start))


@pytest.mark.parametrize("piece", [b"/**/", b"/* */ ", b"// x\n", b"\\\n", b" \n", b"*\n", b"/*"])
@pytest.mark.parametrize("looks", [is_mps_start, is_lp_start])
def test_hostile_starts_take_linear_time(looks: Callable[[bytes], bool], piece: bytes) -> None:
    """The second of these took 46 s of 150 bytes by a regular expression over the whole text."""
    assert_linear(lambda n: piece * n + b"x", looks, 20_000)


def test_a_hostile_file_beside_a_model(tmp_path: Path) -> None:
    (tmp_path / "m.lp").write_bytes(b"/**/" * 2000 + b"x")
    assert kind_of_file(str(tmp_path / "m.lp")) is LP
    assert file_kinds.KIND_OF_END[".mps"] is MPS


@pytest.mark.parametrize(
    "start, kind",
    [
        (b"g3 1 1 0\t# problem knap\n 3 1 1 0 0\t# vars\n", file_kinds.ModelKind.NL),
        (b"g3 1 1 0\r\n 3 1 1 0 0\r\n", file_kinds.ModelKind.NL),
        (b"b3 1 1 0\n 3 1 1 0 0\n", file_kinds.ModelKind.NL),
        (b"g3 5\nb1 7\n", None),  # values of variables
        (b"g3 1 1 0\n", None),
        (b"* made by hand\nNAME knap\n", file_kinds.ModelKind.MPS),
        (b"max: 3x;\n", file_kinds.ModelKind.LP),
        (b"certificate 1\n", None),
        (b"<svg>", None),
        (b"", None),
    ],
)
def test_a_model_is_known_by_its_start(start: bytes, kind: Optional[file_kinds.ModelKind]) -> None:
    assert file_kinds.model_kind_of_start(start) is kind


def test_a_damaged_packed_file_has_no_start(tmp_path: Path) -> None:
    packed = gzip.compress(FIXED, mtime=0)
    path = tmp_path / "m.mps.gz"
    path.write_bytes(packed[:12] + b"\xff" * 20)
    assert start_of_file(str(path)) == b""
