"""Decimals that are written from values, and read as exact numbers."""

from __future__ import annotations

import math
from fractions import Fraction
from typing import List, Optional, Union

import pytest
from hypothesis import given
from hypothesis import strategies as st

from bridge_drivers.formats.numbers import (
    LARGEST_EXPONENT,
    LARGEST_INTEGER,
    decimal,
    decimal_or_fraction,
    decimals,
    decimals_over_common_denominator,
    exact_decimal,
    lowest_terms,
    nearest_decimal,
    nearest_double,
    read_decimal,
    read_fraction,
)
from bridge_drivers.system.errors import NotDecimal
from timing import assert_linear

Value = Union[int, float, Fraction]
DOUBLES = st.floats(allow_nan=False, allow_infinity=False)
WHOLE = st.integers(-LARGEST_INTEGER, LARGEST_INTEGER)
FRACTIONS = st.fractions()


@pytest.mark.parametrize(
    "value, text",
    [
        (Fraction(1, 4), "0.25"),
        (Fraction(-13, 2), "-6.5"),
        (Fraction(7), "7"),
        (7, "7"),
        (Fraction(-3, 40), "-0.075"),
        (Fraction(0), "0"),
        (-0.0, "0"),
        (0.1, "0.1"),
        (2.0, "2"),
        (1e-300, "1e-300"),
        (Fraction(1, 2**50), None),
        (LARGEST_INTEGER, str(LARGEST_INTEGER)),
        (Fraction(7 * 10**40), "7e40"),
        (Fraction(-(10**400)), "-1e400"),
        (Fraction(1, 10**400), "1e-400"),
    ],
)
def test_an_exact_decimal(value: Value, text: Optional[str]) -> None:
    found, is_exact = decimal(value)
    assert is_exact
    assert text is None or found == text
    assert isinstance(value, float) or Fraction(found) == value


@pytest.mark.parametrize(
    "value, text",
    [
        (Fraction(1, 3), "0.33333333333333333"),
        (Fraction(1, 2**60), None),
        (Fraction(10**30, 7), None),
        (LARGEST_INTEGER + 1, None),
        (Fraction(1, 3 * 10**390), "0"),
    ],
)
def test_a_nearest_decimal(value: Value, text: Optional[str]) -> None:
    found, is_exact = decimal(value)
    assert not is_exact
    assert text is None or found == text
    away = abs(Fraction(found) - Fraction(value))
    assert away <= max(abs(Fraction(value)) / 10**16, Fraction(1, 10**380))


@pytest.mark.parametrize("value", [math.inf, -math.inf, math.nan, Fraction(10**400, 7)])
def test_values_without_a_decimal(value: Value) -> None:
    with pytest.raises(NotDecimal):
        decimal(value)
    with pytest.raises(NotDecimal):
        decimals([value, 1])


@given(st.one_of(WHOLE, DOUBLES, FRACTIONS))
def test_what_is_written_is_read_back(value: Value) -> None:
    text, is_exact = decimal(value)
    found = read_fraction(text.encode())
    if isinstance(value, float):
        assert float(found) == value
    elif is_exact:
        assert found == value
    else:
        assert abs(found - value) <= abs(Fraction(value)) / 10**16


@given(WHOLE, st.integers(-LARGEST_EXPONENT, LARGEST_EXPONENT))
def test_an_exact_decimal_is_one_that_the_proved_program_holds(integer: int, power: int) -> None:
    """At most 2^127 - 1 times a power of ten from -400 to 400, as the text stands."""
    text = exact_decimal(Fraction(integer) * Fraction(10) ** power)
    if text is not None:
        found = read_decimal(text.encode())
        assert abs(found.integer) <= LARGEST_INTEGER
        assert abs(found.exponent) <= LARGEST_EXPONENT
        assert Fraction(found.integer) * Fraction(10) ** found.exponent == Fraction(text)


@given(st.lists(st.one_of(WHOLE, DOUBLES, FRACTIONS), max_size=6))
def test_many_are_written_as_each(values: List[Value]) -> None:
    texts, rounded = decimals(values)
    each = [decimal(value) for value in values]
    assert texts == [text for text, _ in each]
    assert rounded == sum(not is_exact for _, is_exact in each)


@given(st.lists(DOUBLES, min_size=1))
def test_doubles_are_written_shortest(values: List[float]) -> None:
    texts, rounded = decimals(values)
    assert [float(text) for text in texts] == values
    assert rounded == 0


@given(st.lists(st.one_of(WHOLE, DOUBLES), max_size=6))
def test_decimals_over_a_common_denominator(values: List[Value]) -> None:
    texts = [decimal(value)[0].encode() for value in values]
    numerators, denominator = decimals_over_common_denominator(texts)
    assert [Fraction(v, denominator) for v in numerators] == [Fraction(t.decode()) for t in texts]
    assert math.gcd(denominator, *numerators) == 1


@given(st.lists(st.integers()), st.integers(min_value=1))
def test_lowest_terms(numerators: List[int], denominator: int) -> None:
    found, over = lowest_terms(numerators, denominator)
    assert [Fraction(v, over) for v in found] == [Fraction(v, denominator) for v in numerators]
    assert math.gcd(over, *found) == 1


@pytest.mark.parametrize(
    "text, value",
    [
        (b"1", Fraction(1)),
        (b"-.5", Fraction(-1, 2)),
        (b"5.", Fraction(5)),
        (b"+12.50", Fraction(25, 2)),
        (b"1e3", Fraction(1000)),
        (b"1E+3", Fraction(1000)),
        (b"-2.5e-2", Fraction(-1, 40)),
    ],
)
def test_spellings(text: bytes, value: Fraction) -> None:
    assert read_fraction(text) == value


@pytest.mark.parametrize(
    "text", [b"", b"-", b"e5", b"x", b"inf", b"1.2.3", b"1e9999999", b"1e-20000", b"9" * 5000]
)
def test_texts_that_are_no_decimals(text: bytes) -> None:
    with pytest.raises(NotDecimal):
        read_decimal(text)


@pytest.mark.parametrize("piece", [b"9", b"0", b"1."])
def test_many_digits_take_linear_time(piece: bytes) -> None:
    def read(text: bytes) -> None:
        with pytest.raises(NotDecimal):
            read_decimal(text)

    assert_linear(lambda n: piece * n, read, 100_000)


def test_beyond_doubles() -> None:
    assert nearest_double(10**400) is None
    assert nearest_double(Fraction(1, 4)) == 0.25
    assert nearest_decimal(Fraction(2, 3)) == "0.66666666666666667"


def test_a_fraction_in_words() -> None:
    assert decimal_or_fraction("1/4") == "0.25"
    assert decimal_or_fraction("1/3") == "1/3"
