"""Numbers as people read them: the decimal is the number, or marked with how far off it may be."""

from __future__ import annotations

from fractions import Fraction

import pytest
from bridge_drivers.formats.told_numbers import (
    IN_BOXES,
    IN_MESSAGES,
    IN_REPORTS,
    Room,
    told_number,
)
from bridge_drivers.pages.wording import short_number
from bridge_drivers.pipeline.report import number_object
from bridge_drivers.program.verdict import decimal, with_decimal
from hypothesis import given
from hypothesis import strategies as st


def scaled(top: int, power: int, under: int = 1) -> Fraction:
    """`top` over `under`, times a power of ten."""
    return Fraction(top, under) * Fraction(10**power)


def shrunk(top: int, power: int, under: int = 1) -> Fraction:
    """`top` over `under`, over a power of ten."""
    return Fraction(top, under) / Fraction(10**power)


ROOMS = st.sampled_from([IN_MESSAGES, IN_BOXES, IN_REPORTS])
WIDE = st.integers(-(2**127), 2**127)
# of a verdict (128 bits over 128 bits), decimals, and numbers beyond doubles
NUMBERS = st.one_of(
    st.builds(Fraction, WIDE, st.integers(1, 2**127)),
    st.builds(shrunk, WIDE, st.integers(0, 60)),
    st.builds(scaled, WIDE, st.integers(0, 500)),
    st.builds(shrunk, WIDE, st.integers(300, 500), st.just(3)),
)


@given(NUMBERS, ROOMS)
def test_a_decimal_is_the_number_or_tells_how_far_off_it_may_be(
    value: Fraction, room: Room
) -> None:
    told = told_number(value, room)
    away = abs(Fraction(told.text) - value)
    assert away <= told.error
    assert told.is_exact == (away == 0)
    assert told.error <= abs(value) / Fraction(10) ** (room.rounded - 1)


@given(NUMBERS)
def test_what_is_rounded_is_marked_wherever_it_is_told(value: Fraction) -> None:
    message = decimal(value)
    box = short_number(value)
    report = number_object(value)
    assert Fraction(message.removeprefix("about ")) == value or message.startswith("about ")
    assert Fraction(box.removeprefix("\u2248 ")) == value or box.startswith("\u2248 ")
    assert report is not None and Fraction(report["exact"]) == value
    assert abs(Fraction(report["decimal"]) - value) <= Fraction(report["error"])
    assert Fraction(with_decimal(value).split(" (")[0]) == value


@pytest.mark.parametrize(
    "value, text, error",
    [
        ("19084119868861/25000000000", "763.36479475444", "0"),
        ("2/3", "0.6666666667", "1/20000000000"),
        ("-200000/3", "-66666.66667", "1/200000"),
        ("1/30000000", "3.333333333e-08", "1/200000000000000000"),
        ("1000000000000000000001", "1e+21", "500000000000"),
        ("100000000000000000000", "1" + "0" * 20, "0"),
        ("0", "0", "0"),
    ],
)
def test_decimals(value: str, text: str, error: str) -> None:
    assert told_number(Fraction(value)) == (text, Fraction(error))
