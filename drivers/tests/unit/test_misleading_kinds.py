"""What is said to be true of models that mislead, by a second way."""

from __future__ import annotations

import itertools
import math
from fractions import Fraction

import pytest

from builders.misleading import Misleading
from builders.misleading_kinds import models


def name_of(model: Misleading) -> str:
    """How a model is called in lists of tests."""
    return model.name


def models_of(kind: str) -> list[Misleading]:
    return [model for model in models() if model.name.rstrip("0123456789") == kind]


@pytest.mark.parametrize("model", models_of("diophantine"), ids=name_of)
def test_the_least_of_an_equation(model: Misleading) -> None:
    """At it the other column is whole and not below 0, and so it is at no less value."""
    ((side, _, row),) = model.rows
    a, b = int(row[0]), -int(row[1])
    c = int(side or 0)
    if model.best is None:
        assert c % math.gcd(a, b)
        return
    least, period = int(model.best), b // math.gcd(a, b)
    assert (a * least - c) % b == 0 and a * least >= c and least >= 0
    assert least < period or a * (least - period) < c


@pytest.mark.parametrize("model", models_of("huge_equations"), ids=name_of)
def test_points_of_huge_equations(model: Misleading) -> None:
    """Its best is that of all points of the box."""
    boxes = [range(int(high or 0) + 1) for _, _, high in model.columns]
    found = [
        sum(point)
        for point in itertools.product(*boxes)
        if not model_misses(model, [Fraction(value) for value in point])
    ]
    way = min if model.sense == "min" else max
    assert model.best == way(found, default=None)


def model_misses(model: Misleading, point: list[Fraction]) -> bool:
    """Whether a row is broken there."""
    return any(
        (low is not None and activity < Fraction(low))
        or (high is not None and activity > Fraction(high))
        for low, high, row in model.rows
        for activity in [sum((Fraction(a) * point[j] for j, a in row.items()), Fraction(0))]
    )
