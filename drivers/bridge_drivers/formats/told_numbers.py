"""Numbers as people read them: one function writes a fraction as a decimal, and says how near it is.

A verdict has fractions. Messages (`program.verdict`), pages (`pages.wording`) and reports
(`pipeline.report`) tell the same numbers as decimals, all by `told_number`; they differ in how many
digits they have room for (`Room`) alone.
"""

from __future__ import annotations

import decimal
from fractions import Fraction
from typing import NamedTuple

from .numbers import exact_decimal

LARGEST_EXPONENT = 10**6  # of ten, of a rounded decimal
LEAST_PLAIN = -4  # the exponent of the first digit below which an exponent is written
SIGN_AND_POINT = "-0."


class Room(NamedTuple):
    """How many digits are told.

    Attributes:
        exact: The most significant digits of an exact decimal that is told in full.
        rounded: How many significant digits are told of any other number.
        letters: The most letters of an exact decimal.
    """

    exact: int
    rounded: int
    letters: int


IN_MESSAGES = Room(exact=15, rounded=10, letters=60)
IN_BOXES = Room(exact=12, rounded=6, letters=12)
IN_REPORTS = Room(exact=39, rounded=17, letters=450)


class ToldNumber(NamedTuple):
    """A number as a decimal.

    Attributes:
        text: The decimal, without a word or a sign for `about`.
        error: By how much the number is off the decimal at most; 0 where the decimal is exact.
    """

    text: str
    error: Fraction

    @property
    def is_exact(self) -> bool:
        """Whether the decimal is the number."""
        return self.error == 0


def told_number(value: Fraction, room: Room = IN_MESSAGES) -> ToldNumber:
    """A number as a decimal: exactly where that has few digits, else its first ones, rounded.

    Args:
        value: Of any size.
        room: How many digits are told.

    Returns:
        The decimal, which `Fraction` and `float` read, and an error of at most half a unit of its
        last digit (half to even).
    """
    text = exact_decimal(value)
    if text is not None and len(text) <= room.letters:
        digits = text.partition("e")[0].strip(SIGN_AND_POINT).replace(".", "")
        if len(digits) <= room.exact:
            return ToldNumber(text, Fraction(0))
    return _rounded(value, room.rounded)


def _rounded(value: Fraction, digits: int) -> ToldNumber:
    """The nearest decimal of so many significant digits; it may be the number itself."""
    context = decimal.Context(digits, decimal.ROUND_HALF_EVEN, -LARGEST_EXPONENT, LARGEST_EXPONENT)
    nearest = context.divide(decimal.Decimal(value.numerator), decimal.Decimal(value.denominator))
    last_digit = Fraction(10) ** (nearest.adjusted() - digits + 1)
    error = Fraction(0) if Fraction(nearest) == value else last_digit / 2
    return ToldNumber(_written(nearest.normalize(context), digits), error)


def _written(number: decimal.Decimal, digits: int) -> str:
    """A decimal with a point where its exponent is small, else as `4.1e+15`."""
    exponent = number.adjusted()
    if LEAST_PLAIN <= exponent < digits:
        return f"{number:f}"
    sign = "-" if number.is_signed() else ""
    first, rest = str(number.as_tuple().digits[0]), number.as_tuple().digits[1:]
    places = "." + "".join(map(str, rest)) if rest else ""
    return f"{sign}{first}{places}e{exponent:+03d}"
