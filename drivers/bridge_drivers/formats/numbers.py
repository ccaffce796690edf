"""Decimals: what the proved program reads, written from values and read as exact numbers.

The proved program holds whole numbers up to 2^127 - 1 times a power of ten from -400 to 400. What
solvers answer is written so (`decimals`); a fraction that has no such decimal is written as the
nearest one of 17 digits. `read_decimal` is the one reader, on which those of fractions and of
common denominators stand.
"""

from __future__ import annotations

import decimal as decimals_module
import math
from array import array
from fractions import Fraction
from functools import lru_cache
from math import gcd
from typing import List, NamedTuple, Optional, Sequence, Tuple, Union

from ..system.errors import NotDecimal

Number = Union[int, float, Fraction]

LARGEST_INTEGER = 2**127 - 1  # of the whole number in front of the power of ten
LARGEST_EXPONENT = 400  # of ten, and the greatest count of decimal places
PLACES_WITHOUT_EXPONENT = 30  # a decimal of more places is written with its exponent
SMALLEST_NEAREST, LARGEST_NEAREST = -380, 380  # exponents of ten of a nearest decimal
SIGNIFICANT = decimals_module.Context(
    prec=17, Emin=-(10**6), Emax=10**6, rounding=decimals_module.ROUND_HALF_EVEN
)

# No text that the proved program writes comes near these limits, under which reading is quick.
MOST_DIGITS_READ = 4000
MOST_DIGITS_OF_COUNT = 18  # of a count, an index or an opcode, zeros in front aside
LARGEST_EXPONENT_READ = 9999
EXPONENT_DIGITS_READ = 6  # with a sign


class ScientificNumber(NamedTuple):
    """The number `integer` times ten to the power of `exponent`."""

    integer: int
    exponent: int


def read_decimal(text: bytes) -> ScientificNumber:
    """The one reader of decimals: an optional sign, digits with at most one point, an exponent.

    Args:
        text: Without blanks, such as `-1.50e3`; a point without digits on one side is taken.

    Returns:
        The exact value; `integer` keeps its zeros at the end.

    Raises:
        NotDecimal: The text is none, or longer than is read.
    """
    mantissa, _, power = text.lower().partition(b"e")
    whole, _, places = mantissa.partition(b".")
    if len(mantissa) > MOST_DIGITS_READ or len(power) > EXPONENT_DIGITS_READ:
        raise NotDecimal(f"a number of {len(text)} characters")
    try:
        integer, exponent = int(whole + places), int(power or 0)
    except ValueError:
        raise NotDecimal(f"no number: {text[:40]!r}") from None
    if abs(exponent) > LARGEST_EXPONENT_READ:
        raise NotDecimal(f"a number with the exponent {exponent}")
    return ScientificNumber(integer, exponent - len(places))


def read_whole(word: Union[str, bytes]) -> int:
    """The one reader of counts and indices of texts: ASCII digits without a sign.

    Args:
        word: A word of a file, or of a call.

    Raises:
        NotDecimal: The word is none, or has more digits than any count.
    """
    text = word.decode("latin-1") if isinstance(word, bytes) else word
    digits = text.lstrip("0") or text[-1:]
    if len(digits) > MOST_DIGITS_OF_COUNT:
        raise NotDecimal(f"a number of {len(text)} characters")
    if not (digits.isascii() and digits.isdigit()):
        raise NotDecimal(f"no number: {text[:40]!r}")
    return int(digits)


@lru_cache(maxsize=1 << 16)
def read_fraction(text: bytes) -> Fraction:
    """The exact value of a decimal. It is remembered: in a program most stand many times.

    Raises:
        NotDecimal: As `read_decimal`.
    """
    integer, exponent = read_decimal(text)
    if exponent >= 0:
        return Fraction(integer * 10**exponent)
    return Fraction(integer, 10**-exponent)


def decimals_over_common_denominator(texts: Sequence[bytes]) -> Tuple[List[int], int]:
    """Numerators of decimals, in their order, over their least common denominator, and the latter.

    Raises:
        NotDecimal: As `read_decimal`.
    """
    numbers = list(map(read_decimal, texts))
    least = min([0, *(exponent for _, exponent in numbers)])
    return lowest_terms([v * 10 ** (exponent - least) for v, exponent in numbers], 10**-least)


def lowest_terms(numerators: List[int], denominator: int) -> Tuple[List[int], int]:
    """The same fractions over their least common denominator; the given one is positive.

    Returns:
        The numerators in their order and the denominator, all divided by their common divisor.
    """
    common = gcd(denominator, *numerators)
    if common <= 1:
        return numerators, denominator
    return [v // common for v in numerators], denominator // common


def exact_decimal(value: Fraction) -> Optional[str]:
    """The decimal of a fraction; None where it has none that the proved program holds.

    A fraction has a decimal where its denominator has no prime factors but 2 and 5. One of up to 30
    places is written with a point, one of more with an exponent, and a whole number above 2^127 - 1
    with an exponent where its zeros allow it.
    """
    rest = value.denominator
    twos = (rest & -rest).bit_length() - 1
    rest >>= twos
    fives = 0
    while rest % 5 == 0:
        rest //= 5
        fives += 1
    places = max(twos, fives)
    if rest != 1 or places > LARGEST_EXPONENT:
        return None
    digits = value.numerator * 10**places // value.denominator
    if abs(digits) > LARGEST_INTEGER:
        return _with_exponent(digits) if places == 0 else None
    if places == 0:
        return str(digits)
    if places > PLACES_WITHOUT_EXPONENT:
        return f"{digits}e-{places}"
    text = str(abs(digits)).rjust(places + 1, "0")
    sign = "-" if digits < 0 else ""
    return f"{sign}{text[:-places]}.{text[-places:]}"


def _with_exponent(integer: int) -> Optional[str]:
    """A wide whole number as a narrower one times a power of ten; None where it is too wide
    still.
    """
    digits = str(abs(integer)).rstrip("0")
    zeros = len(str(abs(integer))) - len(digits)
    if int(digits) > LARGEST_INTEGER or zeros > LARGEST_EXPONENT:
        return None
    return f"{'-' if integer < 0 else ''}{digits}e{zeros}"


def nearest_decimal(value: Fraction) -> str:
    """The nearest decimal of 17 digits, half to even; 0 for what lies below 1e-380.

    For a fraction of which `exact_decimal` is None; the text is then not exact.

    Raises:
        NotDecimal: The value lies above 1e380.
    """
    numerator = decimals_module.Decimal(value.numerator)
    found = SIGNIFICANT.divide(numerator, decimals_module.Decimal(value.denominator))
    if found == 0 or found.adjusted() < SMALLEST_NEAREST:
        return "0"
    if found.adjusted() > LARGEST_NEAREST:
        raise NotDecimal("a value above 1e380")
    return str(found.normalize(SIGNIFICANT))


def decimal(value: Number) -> Tuple[str, bool]:
    """A value as a text, and whether the text is exact.

    A double is written as its shortest decimal, which counts as exact: what is checked is what is
    written. Not exact is a fraction that has only a nearest decimal.

    Raises:
        NotDecimal: The value is infinite, not a number, or a fraction above 1e380.
    """
    if isinstance(value, float):
        return _shortest_decimals([float(value)])[0], True
    fraction = Fraction(value)
    text = exact_decimal(fraction)
    return (nearest_decimal(fraction), False) if text is None else (text, True)


def decimals(values: Sequence[Number]) -> Tuple[List[str], int]:
    """Many values as texts, in their order, and how many of the texts are not exact.

    Each value is written once, since most of them stand many times. All is as `decimal` does it,
    but a sequence of doubles alone is written faster.

    Raises:
        NotDecimal: As `decimal`.
    """
    if set(map(type, values)) == {float}:
        return _shortest_decimals(values), 0
    keys = [v if isinstance(v, float) else (v.numerator, v.denominator) for v in values]
    written = {key: decimal(v) for key, v in dict(zip(keys, values)).items()}
    texts = [written[key][0] for key in keys]
    if all(is_exact for _, is_exact in written.values()):
        return texts, 0
    return texts, sum(not written[key][1] for key in keys)


def shortest_decimal(value: float) -> str:
    """The shortest decimal that is read as the same double, without a final .0.

    A zero keeps its sign, as -0, and what is not finite is `inf`, `-inf` or `nan`: for texts of .nl
    files, where no double may change. For answers use `decimal`.
    """
    text = repr(value)
    return text[:-2] if text.endswith(".0") else text


def _shortest_decimals(values: Sequence[Number]) -> List[str]:
    """The shortest decimal of each double, which are exactly Python floats, without a final .0.

    Both zeros are 0.

    Raises:
        NotDecimal: One of them is infinite, or not a number.
    """
    texts = {v: repr(v).removesuffix(".0") if v else "0" for v in set(require_finite(values))}
    return list(map(texts.__getitem__, values))


def require_finite(values: Sequence[Number]) -> Sequence[Number]:
    """The values themselves, where no double among them is infinite or not a number.

    A driver asks it of reduced costs, which are not written as decimals.

    Raises:
        NotDecimal: One of them is infinite, or not a number.
    """
    is_array = isinstance(values, array)
    doubles = values if is_array else [v for v in values if isinstance(v, float)]
    if not all(map(math.isfinite, doubles)):
        raise NotDecimal(str(next(v for v in doubles if not math.isfinite(v))))
    return values


def nearest_double(value: Union[Fraction, int]) -> Optional[float]:
    """The double nearest to an exact value; None where that is beyond the range of doubles."""
    try:
        return float(value)
    except OverflowError:
        return None


def decimal_or_fraction(fraction: str) -> str:
    """A verdict's text `p/q`, or whole number, as a decimal where it has one, else as it is."""
    return exact_decimal(Fraction(fraction)) or fraction
