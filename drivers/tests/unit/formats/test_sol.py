"""Texts of .sol files, and tables of values."""

from __future__ import annotations

import json
from pathlib import Path
from typing import List

import pytest
from hypothesis import given
from hypothesis import strategies as st

from bridge_drivers.formats.sol import (
    SolValues,
    failure_sol,
    read_sol,
    short_table,
    solution_file,
    with_message,
)
from bridge_drivers.system.errors import Damaged
from timing import assert_linear

HEAD = b"g3 1 1 0\n3 1 1 0\n"
FAILURE = b"bridge-cbc: no\n\nOptions\n3\n1\n1\n0\n1\n0\n3\n0\nobjno 2 501\n"
NUMBERS = st.lists(st.sampled_from(["0", "-1.5", "1e30", "0.1"]), max_size=5)


def sol_of(message: str, duals: List[str], values: List[str]) -> bytes:
    lines = [message, "", "Options", "3", "1", "1", "0", str(len(duals) + 2), str(len(duals))]
    lines += [str(len(values) + 1), str(len(values)), *duals, *values, "objno 0 0", ""]
    return "\n".join(lines).encode()


@pytest.fixture
def nl(tmp_path: Path) -> str:
    (tmp_path / "m.nl").write_bytes(HEAD)
    return str(tmp_path / "m.nl")


def test_a_failure(nl: str) -> None:
    assert failure_sol(nl, 501, 2, ["bridge-cbc: no"]) == FAILURE
    assert read_sol(FAILURE) == SolValues([], [])


def test_a_line_of_the_message_is_one_line(nl: str) -> None:
    text = failure_sol(nl, 501, 2, ["bridge-cbc: a\nb\x1b[1m"])
    assert text.startswith(b"bridge-cbc: a\\x0ab\\x1b[1m\n\nOptions\n")


def test_another_message() -> None:
    assert with_message(FAILURE, ["a", "b"]) == FAILURE.replace(b"bridge-cbc: no", b"a\nb")


@pytest.mark.parametrize("text", [b"", b"g3 1 1", b"g3 1 1 0\nx y\n", b"gx\n1 1\n"])
def test_a_failure_of_what_is_no_model(tmp_path: Path, text: bytes) -> None:
    path = tmp_path / "m.nl"
    path.write_bytes(text)
    with pytest.raises(Damaged):
        failure_sol(str(path), 501, 0, [""])


@given(NUMBERS, NUMBERS)
def test_numbers_are_read_back(duals: List[str], values: List[str]) -> None:
    text = sol_of("optimal", duals, values)
    assert read_sol(text) == (duals, values)
    assert read_sol(with_message(text, ["other", "lines"])) == (duals, values)


@pytest.mark.parametrize("text", [b"", b"Options\n", b"a\n\nOptions\n3\n1\n", b"a\n\nOptions\nx\n"])
def test_what_is_no_sol(text: bytes) -> None:
    with pytest.raises((ValueError, IndexError)):
        read_sol(text)


def test_short_tables() -> None:
    few = [("x", "0"), ("y", "1")]
    assert list(short_table(few)) == ["x 0", "y 1"]
    many = [(f"x{j}", str(j % 2)) for j in range(60)]
    lines = list(short_table(many))
    assert lines[0] == "x1 1"
    assert len(lines) == 21
    assert lines[-1] == "(40 values more: wantsol=2 prints all, solution=FILE writes them)"


def test_files_of_values() -> None:
    values, duals = [("x", "1"), ("y", "2.5")], [("c", "-1")]
    assert solution_file("s.txt", values, duals) == b"x 1\ny 2.5\n\nduals\nc -1\n"
    assert solution_file("s.txt", values, []) == b"x 1\ny 2.5\n"
    assert json.loads(solution_file("s.json", values, duals)) == {
        "values": {"x": "1", "y": "2.5"},
        "duals": {"c": "-1"},
    }


@pytest.mark.parametrize("piece", [b"\n", b"1\n", b"9", b"\nOptions\n", b"a"])
def test_sols_take_linear_time(piece: bytes) -> None:
    def read(text: bytes) -> None:
        try:
            read_sol(text)
        except (ValueError, IndexError):
            pass

    assert_linear(lambda n: b"m\n\nOptions\n3\n1\n1\n0\n" + piece * n, read, 50_000)
