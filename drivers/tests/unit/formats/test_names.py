"""Names beside a model."""

from __future__ import annotations

from pathlib import Path
from typing import Sequence

import pytest

from bridge_drivers.formats import names
from bridge_drivers.formats.names import NameLists, comment_of, numbered_name
from timing import assert_linear


@pytest.fixture
def stub(tmp_path: Path) -> str:
    (tmp_path / "m.row").write_bytes(b"Cap\r\n  Flow \nCost\n")
    (tmp_path / "m.col").write_bytes(b"Buy\nSell\x1b[0m\n")
    return str(tmp_path / "m")


def test_names_of_files(stub: str) -> None:
    names = NameLists(stub, variables=2, constraints=2)
    assert [names.row(i) for i in range(-1, 4)] == ["", "Cap", "Flow", "Cost", ""]
    assert names.constraint(1) == "constraint 1 (Flow)"
    assert names.objective(0) == "objective 0 (Cost)"
    assert names.variable(0) == "variable 0 (Buy)"
    assert names.variable(7) == "variable 7"


def test_controls_are_told_in_words(stub: str) -> None:
    assert NameLists(stub).column(1) == "Sell\\x1b[0m"


def test_operands(stub: str) -> None:
    names = NameLists(stub, variables=2)
    assert [names.operand(j, "") for j in (0, 2)] == ["Buy", "v2"]
    assert names.operand(3, "speed") == "speed"
    assert NameLists("").operand(5, "") == "x5"


def test_without_a_file() -> None:
    names = NameLists("/nowhere/m", constraints=1)
    assert names.constraint(0) == "constraint 0"
    assert names.constraint(0, "Cap") == "constraint 0 (Cap)"
    assert names.objective(0) == "objective 0"


def test_names_that_are_known() -> None:
    names = NameLists.of(["c", "obj"], ["x"], 1)
    assert (names.row(0), names.objective(0), names.column(0)) == ("c", "objective 0 (obj)", "x")


@pytest.mark.parametrize(
    "line, comment",
    [
        (b"C0 # Cap\n", "Cap"),
        (b"#x", "x"),
        (b"v0#x", ""),
        (b"v0 #", ""),
        (b"v0 # a # b \r\n", "a # b"),
        (b"v0 # # b", "# b"),
    ],
)
def test_comments(line: bytes, comment: str) -> None:
    assert comment_of(line) == comment


def test_numbered_names() -> None:
    assert numbered_name("row 1", "") == "row 1"
    assert numbered_name("row 1", "Cap") == "row 1 (Cap)"


@pytest.mark.parametrize("piece", [b"#", b" #", b" ", b"# \x0b ", b" #\x0b"])
def test_comments_take_linear_time(piece: bytes) -> None:
    assert_linear(lambda n: b"v0" + piece * n, comment_of, 20_000)


@pytest.mark.parametrize("piece", [b"\n", b"x\n", b"x", b" "])
def test_lists_take_linear_time(piece: bytes, tmp_path: Path) -> None:
    def read(text: bytes) -> str:
        (tmp_path / "m.col").write_bytes(text)
        return NameLists(str(tmp_path / "m")).column(0)

    assert_linear(lambda n: piece * n, read, 50_000)


@pytest.mark.parametrize("endings", [(".row",), (".col",), (".row", ".col")])
def test_lists_that_are_too_long_are_told(endings: Sequence[str], tmp_path: Path) -> None:
    stub = str(tmp_path / "m")
    for ending in endings:
        with open(stub + ending, "wb") as file:
            file.truncate(names.MOST_BYTES + 1)  # of which nothing stands on the disk
    told = NameLists(stub).note()
    assert told.startswith(" and ".join("m" + ending for ending in endings) + ": longer than ")
    assert NameLists(stub).row(0) == NameLists(stub).column(0) == ""


def test_lists_that_are_read_are_not_told(tmp_path: Path) -> None:
    stub = str(tmp_path / "m")
    with open(stub + ".col", "wb") as file:
        file.truncate(names.MOST_BYTES)
    assert (NameLists(stub).note(), NameLists("").note()) == ("", "")
