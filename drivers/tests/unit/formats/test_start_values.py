"""Values to begin with: files of each kind, and the guess of an .nl text."""

from __future__ import annotations

from fractions import Fraction
from typing import Dict, List, Tuple

import pytest
from hypothesis import given
from hypothesis import strategies

from bridge_drivers.formats.sol import solution_file
from bridge_drivers.formats.start_values import StartValues, primal_guess, read_start_values
from timing import assert_linear

THREE = Fraction(3)
HALF = Fraction(1, 2)
SOL = b"a message\n\nOptions\n3\n1\n1\n0\n2\n1\n2\n2\n0.25\n3\n0.5\nobjno 0 0\n"
DUALS: Tuple[List[Tuple[str, str]], ...] = ([], [("row", "1")])
NAMES = strategies.text("abcXYZ019_[]", min_size=1)
DECIMALS = strategies.decimals(allow_nan=False, allow_infinity=False, places=3).map(
    lambda number: f"{number:f}"
)


@pytest.mark.parametrize(
    "data, values",
    [
        (b"a 3\nb 0.5\n", {"a": THREE, "b": HALF}),
        (b"a 3\nb 5e-1\n\nduals\nc 7\n", {"a": THREE, "b": HALF}),
        (b"a 3\nb .5", {"a": THREE, "b": HALF}),
        (b'{"a": 3, "b": 0.5}', {"a": THREE, "b": HALF}),
        (b' {"values": {"a": "3", "b": "0.5"}, "duals": {"c": "7"}}', {"a": THREE, "b": HALF}),
        (b"", {}),
    ],
)
def test_values_by_name(data: bytes, values: Dict[str, Fraction]) -> None:
    assert read_start_values(data) == StartValues(values)


def test_a_sol_has_values_by_number() -> None:
    """Behind its duals, and as many as the model has variables."""
    assert read_start_values(SOL) == StartValues({}, {0: THREE, 1: HALF}, 2)


@given(strategies.dictionaries(NAMES, DECIMALS, min_size=1))
@pytest.mark.parametrize("name", ["values.txt", "values.json"])
def test_what_is_written_is_read(name: str, values: Dict[str, str]) -> None:
    """The file of `solution=FILE` is a start, with duals behind it or without."""
    for duals in DUALS:
        data = solution_file(name, list(values.items()), duals)
        found = {name: Fraction(text) for name, text in values.items()}
        assert read_start_values(data) == StartValues(found)


@pytest.mark.parametrize(
    "data, told",
    [
        (b"a\n", "no line NAME VALUE"),
        (b"a 1 2\n", "no line NAME VALUE"),
        (b"a one\n", "no decimal"),
        (b"a 1e999999999\n", "no decimal"),
        (b"a nan\n", "no decimal"),
        (b'{"a": [1]}', "no number"),
        (b'{"values": 3}', "no object"),
        (b'{"a": ', ""),
        (b"[" * 100_000, ""),
        (b'{"a":' * 100_000, ""),
        (b"x\n\nOptions\n3\n1\n", "cut or damaged"),
        (b"x\n\nOptions\nthree\n", ""),
    ],
)
def test_what_is_no_start(data: bytes, told: str) -> None:
    with pytest.raises(ValueError, match=told):
        read_start_values(data)


@pytest.mark.parametrize(
    "segment, guess",
    [
        (b"x2\n0 3\n4 0.5\n", {0: THREE, 4: HALF}),
        (b"x2\t# guess\n0 3 # a\n4 0.5\nr\n", {0: THREE, 4: HALF}),
        (b"x1\n0 3", {0: THREE}),
        (b"x0\n", {}),
        (b"x2\n0 3\n", {}),
        (b"x2\n0 3\n0 4\n", {}),  # the same variable twice
        (b"x1\n0 three\n", {}),
        (b"x1\n-1 3\n", {}),
        (b"xylophone\nx1\n2 3\n", {2: THREE}),
        (b"", {}),
    ],
)
def test_the_guess_of_a_model(segment: bytes, guess: Dict[int, Fraction]) -> None:
    assert primal_guess(b"g3 1 1 0\nC0\nn0\n" + segment) == guess


@pytest.mark.parametrize("piece", [b"x1\n", b"\nx", b"x9\n1 2\n", b"a 1\n", b'{"a":'])
def test_hostile_texts_are_read_in_linear_time(piece: bytes) -> None:
    def read(text: bytes) -> bool:
        """The guess of the text, and its values where it has any."""
        primal_guess(text)
        try:
            read_start_values(text)
        except ValueError:
            return False
        return True

    assert_linear(lambda count: piece * count, read, 5000)
