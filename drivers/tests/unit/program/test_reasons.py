"""Each reason is listed, and each that the program's own worked texts provoke is known."""

from __future__ import annotations

import sys
from pathlib import Path

import pytest

from bridge_drivers.program.reasons import (
    LISTED_WIDTH,
    REASON_OF_WORDS,
    REASONS,
    Reason,
    is_opcode,
    listed_reasons,
    reason_of,
)
from bridge_drivers.program.refusal import parse_refusal

TOP = Path(__file__).resolve().parents[4]
WORKED = ("refusals", "export")  # the second has what is too wide


def test_each_is_listed_and_says_something() -> None:
    text = listed_reasons()
    for title, reasons in REASONS.items():
        assert f"{title}:\n" in text
        for reason in reasons:
            assert f"  {', '.join(reason.words)}:  " in text
            assert reason.text or reason.more, reason.words
    assert max(map(len, text.split("\n"))) <= LISTED_WIDTH


def test_no_kind_of_text_has_a_reason_twice() -> None:
    for title, reasons in REASONS.items():
        words = [word for reason in reasons for word in reason.words]
        assert len(words) == len(set(words)), title


def test_the_first_kind_of_text_counts() -> None:
    """`bad number` is one of .nl files, of MPS texts and of certificates."""
    assert reason_of("bad number").text.startswith("not a decimal number")


@pytest.mark.parametrize(
    "words, expected",
    [("refused opcode 41", True), ("refused opcode", False), ("nonlinear", False)],
)
def test_operators(words: str, expected: bool) -> None:
    assert is_opcode(words) is expected


def test_the_number_of_an_operator_is_left_out() -> None:
    assert reason_of("refused opcode 41") is REASON_OF_WORDS["refused opcode"]


def test_a_reason_that_is_not_listed() -> None:
    assert reason_of("of no list") == Reason(("of no list",))


def test_what_the_worked_texts_provoke_is_listed() -> None:
    sys.path.append(str(TOP / "acceptance"))
    import texts  # type: ignore[import]  # of acceptance

    told = {case.told.rstrip("\n") for name in WORKED for case in texts.cases(name)}
    refusals = [line for line in told if line.startswith("refused ")]
    assert len(refusals) > 50
    for line in refusals:
        parsed = parse_refusal(line)
        assert parsed is not None, line
        reason = "refused opcode" if is_opcode(parsed.reason) else parsed.reason
        assert reason in REASON_OF_WORDS, line
