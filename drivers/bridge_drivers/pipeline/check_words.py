"""What the proved program says of values and duals, in words, with fractions and their decimals.

`certification` tells them in the line `bridge check of the values`.
"""

from __future__ import annotations

from fractions import Fraction

from ..formats.numbers import exact_decimal
from ..program.verdict import Statement, with_decimal


def feasible_words(value: Fraction) -> str:
    """Words that values are a feasible point, with its objective in the objective's own sense."""
    return f"feasible, objective exactly {with_decimal(value)}"


def has_rounded_value(said: Statement) -> bool:
    """Whether a point's value has no exact decimal, so that one is told beside the verdict."""
    return said.value is not None and exact_decimal(said.value) is None


def shown_words(value: Fraction, bound: Fraction | None = None) -> str:
    """Words of `bridge check` on a point and duals: `yes V` without a bound, `gap V B` with one."""
    if bound is None:
        return f"yes: values and duals show the optimum {with_decimal(value)}"
    return f"gap: feasible, objective {with_decimal(value)}; the duals show {with_decimal(bound)}"


def tells_value(told: str, value: Fraction | None) -> bool:
    """Whether words of a check end with this value: then they are about the exact point."""
    return value is not None and told.endswith(f" {with_decimal(value)}")
