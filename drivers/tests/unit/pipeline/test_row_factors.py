"""The factors by which the proved program multiplies rows."""

from __future__ import annotations

from pathlib import Path
from typing import List, Optional

import pytest

from bridge_drivers.model.linear_program import LinearProgram
from bridge_drivers.pipeline.row_factors import factors_of, has_division, whole_form
from bridge_drivers.program.bridge import TEXT_LIMITS, Bridge
from bridge_drivers.program.calls import Reply
from bridge_drivers.system.deadline import Deadline
from bridge_drivers.system.processes import OutputLimits
from bridge_drivers.system.errors import UnsupportedModel
from timing import assert_linear

HEAD = b"g3 1 1 0\n1 3 1 0\n"
EXPORTED = (
    b"NAME nl\nROWS\n N obj\n L c0\n L c2\nCOLUMNS\n x0 c0 1\n x0 c2 1\nRHS\n RHS c0 6\nENDATA\n"
)


class Returning(Bridge):
    """A bridge whose `return` gives these duals back."""

    def __init__(self, duals: List[str]) -> None:
        super().__init__([])
        self.duals = duals
        self.answers: List[str] = []

    def call(
        self,
        *words: str,
        deadline: Optional[Deadline] = None,
        limits: OutputLimits = TEXT_LIMITS,
    ) -> Reply:
        self.answers.append(Path(words[2]).read_text())
        counts = [str(len(self.duals))] * 2 + ["1", "1"]
        lines = ["", "Options", "3", "1", "1", "0", *counts, *self.duals, "7", "objno 0 0", ""]
        return Reply(0, "\n".join(lines).encode(), "")


@pytest.fixture
def dividing(tmp_path: Path) -> str:
    (tmp_path / "m.nl").write_bytes(HEAD + b"C0\no3\nv0\nn2\n")
    return str(tmp_path / "m.nl")


def test_duals_of_1_come_back_as_the_factors(dividing: str) -> None:
    bridge = Returning(["6", "0", "7"])
    assert factors_of(bridge, dividing, ["c0", "c2"]) == {"c0": "6", "c2": "7"}
    assert bridge.answers == ["answer 1\nobjno 0\nrow c0 1\nrow c2 1\n"]


def test_nothing_is_asked_without_a_division(tmp_path: Path) -> None:
    (tmp_path / "m.nl").write_bytes(HEAD + b"C0\no2\nv0\nn3\n")
    bridge = Returning([])
    assert factors_of(bridge, str(tmp_path / "m.nl"), ["c0"]) == {"c0": "1"}
    assert factors_of(bridge, str(tmp_path / "m.nl"), []) == {}
    assert bridge.answers == []


@pytest.mark.parametrize(
    "line, divides",
    [
        (b"o3\n", True),
        (b"o03\t#division\n", True),
        (b"o3 # a\n", True),
        (b"o30\n", False),
        (b"o2\n", False),
        (b"n3\n", False),
        (b"vo3\n", False),
    ],
)
def test_divisions(tmp_path: Path, line: bytes, divides: bool) -> None:
    (tmp_path / "m.nl").write_bytes(HEAD + b"C0\n" + line)
    assert has_division(str(tmp_path / "m.nl")) is divides


@pytest.mark.parametrize("piece", [b"\no", b"\no2", b"\n", b"\no2 " + b" " * 50])
def test_divisions_are_looked_for_in_linear_time(tmp_path: Path, piece: bytes) -> None:
    def read(text: bytes) -> bool:
        (tmp_path / "m.nl").write_bytes(text)
        return has_division(str(tmp_path / "m.nl"))

    assert_linear(lambda n: HEAD + piece * n, read, 20_000)


def test_factors_are_taken_out(dividing: str) -> None:
    found = whole_form(Returning(["2", "0", "1"]), dividing, LinearProgram.of(EXPORTED))
    assert found.factors == {0: 2}
    p = found.program
    assert (p.m, p.row_upper, p.bound_scale) == (3, [3, None, 0], 1)
    assert (p.rows, p.row_scale) == ([[(0, 1)], [], [(0, 2)]], 2)


def test_factors_of_the_objective_that_was_exported(dividing: str) -> None:
    bridge = Returning(["2", "0", "1"])
    whole_form(bridge, dividing, LinearProgram.of(EXPORTED), 1)
    assert bridge.answers == ["answer 1\nobjno 1\nrow c0 1\nrow c2 1\n"]


@pytest.mark.parametrize("factor", ["1/2", "-3"])
def test_factors_that_are_not_whole(dividing: str, factor: str) -> None:
    with pytest.raises(UnsupportedModel):
        whole_form(Returning([factor, "0", "1"]), dividing, LinearProgram.of(EXPORTED))


def test_a_file_of_mps_has_none() -> None:
    program = LinearProgram.of_named(EXPORTED)
    assert whole_form(Returning([]), "m.mps", program).program.m == 2
