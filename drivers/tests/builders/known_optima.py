"""Integer and mixed programs with their optimum, each for one thing that a search has to do."""

from __future__ import annotations

from fractions import Fraction as F
from typing import Mapping, NamedTuple, Optional

from builders.nl_text import BINARY, Objective, Row, least, most, nl_text, real, row, whole


class KnownOptimum(NamedTuple):
    """The .nl file of a model, and its optimum; None where it is infeasible."""

    text: bytes
    optimum: Optional[F]


KNOWN_OPTIMA: Mapping[str, KnownOptimum] = {
    "knap": KnownOptimum(
        nl_text([BINARY] * 3, [row(None, 10, 5, 4, "6.5")], [most(10, 7, 12)]), F(17)
    ),
    # covering rows, a constant in the objective
    "cover": KnownOptimum(
        nl_text(
            [BINARY] * 6,
            [
                row(1, None, 1, 1),
                Row(1, None, {1: 1, 2: 1}),
                Row(1, None, {2: 1, 3: 1}),
                Row(1, None, {3: 1, 4: 1}),
                Row(1, None, {4: 1, 5: 1}),
                Row(1, None, {0: 1, 5: 1}),
                Row(2, None, {0: 1, 2: 1, 4: 1, 5: 1}),
            ],
            [least(3, 4, 3, 4, 3, 4, constant="0.25")],
        ),
        F("37/4"),
    ),
    # the relaxation is at 5/2
    "odd_cycle": KnownOptimum(
        nl_text(
            [BINARY] * 5,
            [
                row(1, None, 1, 1),
                Row(1, None, {1: 1, 2: 1}),
                Row(1, None, {2: 1, 3: 1}),
                Row(1, None, {3: 1, 4: 1}),
                Row(1, None, {0: 1, 4: 1}),
            ],
            [least(1, 1, 1, 1, 1)],
        ),
        F(3),
    ),
    # general integers under an equality
    "eqknap": KnownOptimum(
        nl_text([whole(0, 99)] * 3, [row(1000, 1000, 37, 53, 111)], [least(1, 1, 1)]), F(14)
    ),
    # without upper bounds, and negative ones
    "open_box": KnownOptimum(
        nl_text([whole(), whole(-5)], [row(None, "17.5", 3, 2), row(None, 4, 1, -1)], [most(4, 1)]),
        F(21),
    ),
    "mixed": KnownOptimum(
        nl_text(
            [real(0, "7.5"), *[whole(0, 20)] * 2],
            [row(None, "24.5", "1.5", 3, 2), row(None, 14, "0.5", 1, 2)],
            [most("2.25", 5, 4)],
        ),
        F("173/4"),
    ),
    # a free column, whose reduced cost must be 0 exactly
    "free_column": KnownOptimum(
        nl_text(
            [real(None), *[whole(0, 9)] * 2],
            [row(0, 0, -1, 3, 5), Row(11, None, {1: 2, 2: 3})],
            [least(1)],
        ),
        F(17),
    ),
    # an objective column, as MiniZinc makes it
    "column": KnownOptimum(
        nl_text(
            [*[BINARY] * 5, whole(0, 5)],
            [
                row(1, None, 1, 1),
                Row(1, None, {1: 1, 2: 1}),
                Row(1, None, {2: 1, 3: 1}),
                Row(1, None, {3: 1, 4: 1}),
                Row(1, None, {0: 1, 4: 1}),
                row(0, 0, 1, 1, 1, 1, 1, -1),
            ],
            [Objective("min", 0, {5: 1})],
        ),
        F(3),
    ),
    "column_max": KnownOptimum(
        nl_text(
            [*[BINARY] * 5, whole(0, 5)],
            [
                row(None, 1, 1, 1),
                Row(None, 1, {1: 1, 2: 1}),
                Row(None, 1, {2: 1, 3: 1}),
                Row(None, 1, {3: 1, 4: 1}),
                Row(None, 1, {0: 1, 4: 1}),
                row(0, 0, 1, 1, 1, 1, 1, -1),
            ],
            [Objective("max", "0.5", {5: 3})],
        ),
        F("13/2"),
    ),
    # the objective column's own bound proves it
    "at_bound": KnownOptimum(
        nl_text([*[BINARY] * 2, whole(0, 2)], [row(0, 0, 1, 1, -1)], [Objective("max", 0, {2: 1})]),
        F(2),
    ),
    # infeasible by splits alone, with and without an objective, and already relaxed
    "parity": KnownOptimum(nl_text([whole(0, 10)] * 2, [row(13, 13, 2, 4)], [most(1)]), None),
    "parity_alone": KnownOptimum(nl_text([BINARY] * 4, [row(3, 3, 2, 2, 2, 2)], []), None),
    "relaxed": KnownOptimum(nl_text([BINARY] * 2, [row(3, None, 1, 1)], [least(1)]), None),
    # an objective in thirds, which export ties to a column, with a value that is a decimal
    "tied": KnownOptimum(
        nl_text(
            [whole(0, 9)] * 2,
            [row(None, 10, 2, 3)],
            [
                most(
                    0,
                    0,
                    constant=[
                        "o54",
                        "2",
                        "o3",
                        "o2",
                        "n2",
                        "v0",
                        "n3",
                        "o3",
                        "o2",
                        "n5",
                        "v1",
                        "n3",
                    ],
                )
            ],
        ),
        F(5),
    ),
    # and with one that is none
    "tied_thirds": KnownOptimum(
        nl_text(
            [whole(0, 9)] * 2,
            [row(None, 11, 2, 3)],
            [
                most(
                    0,
                    0,
                    constant=[
                        "o54",
                        "2",
                        "o3",
                        "o2",
                        "n3",
                        "v0",
                        "n3",
                        "o3",
                        "o2",
                        "n4",
                        "v1",
                        "n3",
                    ],
                )
            ],
        ),
        F("16/3"),
    ),
    # a row in thirds, which export writes times 3
    "scaled_row": KnownOptimum(
        nl_text(
            [whole(0, 9)] * 2,
            [row(None, 3, 0, 0)],
            [most(2, 3)],
            expressions={
                0: ["o54", "2", "o3", "o2", "n1", "v0", "n3", "o3", "o2", "n2", "v1", "n3"]
            },
        ),
        F(18),
    ),
    # the dual is 1/3
    "thirds_duals": KnownOptimum(
        nl_text(
            [real(0, 9), whole(0, 3)], [row(3, None, 3, 1), Row(None, 1, {1: 2})], [least(1, "0.5")]
        ),
        F(1),
    ),
    # bounds of whole columns that are not whole: a part of a split has none
    "open_ends": KnownOptimum(
        nl_text([whole("-1.5", "2.5"), whole("0.25", "0.75")], [row(None, 3, 1, 1)], [most(1)]),
        None,
    ),
    "inwards": KnownOptimum(
        nl_text(
            [whole("-1.5", "2.5"), whole("-0.5", "1.5")], [row(None, "3.5", 2, 1)], [most(3, 1)]
        ),
        F(4),
    ),
    # a column that is whole within tolerances alone
    "large_factor": KnownOptimum(
        nl_text([real("0.5"), BINARY], [row(None, 0, 1, -1000000)], [least("0.001", 10)]),
        F("20001/2000"),
    ),
    # the same through a column that is equal to it
    "equal_factor": KnownOptimum(
        nl_text(
            [real(0, 11), real(0, 1), real("0.5", 1000), BINARY],
            [
                row(0, 0, -1, 10, "0.001"),
                Row(None, 0, {1: -1000000, 2: 1}),
                Row(0, 0, {1: -1, 3: 1}),
            ],
            [least(1)],
        ),
        F("20001/2000"),
    ),
    # one lot for each period, its costs, and demands
    "lots": KnownOptimum(
        nl_text(
            [*[real()] * 8, *[BINARY] * 4],
            [
                Row(4, 4, {0: 1, 4: -1}),
                Row(7, 7, {1: 1, 4: 1, 5: -1}),
                Row(3, 3, {2: 1, 5: 1, 6: -1}),
                Row(6, 6, {3: 1, 6: 1, 7: -1}),
                Row(None, 0, {0: 1, 8: -20}),
                Row(None, 0, {1: 1, 9: -20}),
                Row(None, 0, {2: 1, 10: -20}),
                Row(None, 0, {3: 1, 11: -20}),
            ],
            [
                Objective(
                    "min", 0, {4: "0.3", 5: "0.3", 6: "0.3", 7: "0.3", 8: 5, 9: 6, 10: 7, 11: 8}
                )
            ],
        ),
        F("143/10"),
    ),
}

# Models with sides and bounds that some solvers take for infinite.
HUGE_BOUNDS: Mapping[str, KnownOptimum] = {
    "lower": KnownOptimum(
        nl_text([real("1e30")], [row(None, None, 1)], [least(1)]),
        F("1000000000000000000000000000000"),
    ),
    "upper": KnownOptimum(
        nl_text([real(0, "1e30"), real()], [row(None, 5, 1, -1)], [most(1)]),
        F("1000000000000000000000000000000"),
    ),
    "beyond": KnownOptimum(
        nl_text([real(0, "1e31")], [], [most(1)]), F("10000000000000000000000000000000")
    ),
    "side": KnownOptimum(
        nl_text([real(None)], [row("1e30", None, 1)], [least(1)]),
        F("1000000000000000000000000000000"),
    ),
    "near": KnownOptimum(
        nl_text([real("1e29")], [], [least(1)]), F("100000000000000000000000000000")
    ),
    "whole": KnownOptimum(
        nl_text([whole(0, "1e30")], [row(None, "2.5", "0.5")], [most(1)]), F("5")
    ),
}
