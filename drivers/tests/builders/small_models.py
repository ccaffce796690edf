"""Small models, with what every driver must answer."""

from __future__ import annotations

from dataclasses import dataclass, field
from fractions import Fraction as F
from typing import Mapping, Optional, Sequence

from builders.nl_text import Number, Row, least, most, nl_text, real, row, whole


@dataclass(frozen=True)
class SmallModel:
    """A model, and the answer that is right; what is None is not looked at.

    Attributes:
        text: the .nl file.
        code: AMPL's solve_result_num of the answer.
        objective: the optimum.
        duals: of all constraints.
        reduced_costs: by column, 0 where none is named.
        is_linear: whether no column is integer.
        options: further words of the call.
        message: stands in the message of the answer.
    """

    text: bytes
    code: int
    objective: Optional[F] = None
    duals: Optional[Sequence[Number]] = None
    reduced_costs: Optional[Mapping[int, Number]] = None
    is_linear: bool = True
    options: Sequence[str] = field(default_factory=list)
    message: str = ""

    def reaches_a_solver(self) -> bool:
        """Whether a solver is called at all: no refusal comes before, and no empty interval."""
        return self.code < 500 and self.message != EMPTY_INTERVAL


EMPTY_INTERVAL = "empty interval"
MODELS: Mapping[str, SmallModel] = {
    "knap": SmallModel(
        nl_text([whole(0, 1)] * 3, [row(None, 10, 5, 4, "6.5")], [most(10, 7, 12)]),
        0,
        objective=F(17),
        is_linear=False,
    ),
    "mixed": SmallModel(
        nl_text(
            [real(0, "7.5"), *[whole(0, 20)] * 2],
            [row(None, "24.5", "1.5", 3, 2), row(None, 14, "0.5", 1, 2)],
            [most("2.25", 5, 4)],
        ),
        0,
        objective=F("173/4"),
        is_linear=False,
    ),
    "eqknap": SmallModel(
        nl_text([whole(0, 99)] * 3, [row(1000, 1000, 37, 53, 111)], [least(1, 1, 1)]),
        0,
        objective=F(14),
        is_linear=False,
    ),
    "whole_infeasible": SmallModel(
        nl_text([whole(0, 10)] * 2, [row(13, 13, 2, 4)], [most(1)]), 200, is_linear=False
    ),
    "whole_unbounded": SmallModel(
        nl_text([whole()] * 2, [row(None, 3, 1, -1)], [most(1, 1)]), 300, is_linear=False
    ),
    "large_whole": SmallModel(
        nl_text([whole(0, 98765432)], [row(None, "197530864.5", 2)], [most(1, constant=1)]),
        0,
        objective=F(98765433),
        is_linear=False,
    ),
    "product": SmallModel(
        nl_text(
            [real(), real(0, 4)], [row(None, 10, 3, 1), row(1, 7, 1, 1)], [most(3, 2, constant=5)]
        ),
        0,
        objective=F(19),
        duals=[1, 0],
        reduced_costs={1: 1},
    ),
    "diet": SmallModel(
        nl_text(
            [real(0, 100)] * 2,
            [row(4, None, "0.5", "2.5"), row("6.4", None, "1.5", "0.5")],
            [least("0.9", 1)],
        ),
        0,
        objective=F("22/5"),
        duals=["0.3", "0.5"],
    ),
    "scaled": SmallModel(
        nl_text(
            [real()] * 2,
            [Row(None, 1, {1: 1}), row(None, 8, 1, 1)],
            [most(1, 2)],
            expressions={0: ["o3", "v0", "n3"]},
        ),
        0,
        objective=F(3),
        duals=[3, 0],
        reduced_costs={1: -1},
    ),
    "thirds": SmallModel(
        nl_text(
            [real()] * 2,
            [row(None, 1, 3, 1), row(None, 2, 1, 7)],
            [most(0, 1, constant=["o3", "v0", "n3"])],
        ),
        0,
        objective=F("1/3"),
        duals=["1/15", "2/15"],
    ),
    "ranges": SmallModel(
        nl_text(
            [real(None), real(None, 3)],
            [row(-4, 6, 1, 1), row(2, 2, 1, -1)],
            [least(2, 1, constant="-1.5")],
        ),
        0,
        objective=F("-13/2"),
        duals=["1.5", "0.5"],
    ),
    "rowless": SmallModel(
        nl_text([real(3), real(None, 4)], [], [least(1, -1, constant=2)]), 0, objective=F(1)
    ),
    "free_row": SmallModel(
        nl_text([real(), real(0, 2)], [row(None, None, 1), row(3, None, 1, 1)], [least(1)]),
        0,
        objective=F(1),
        duals=[0, 1],
        reduced_costs={1: -1},
    ),
    "no_objective": SmallModel(nl_text([real()] * 2, [row(2, None, 1, 1)], []), 0),
    "second": SmallModel(
        nl_text([real(0, 9)], [row(None, 7, 1)], [least(1), most(2, constant=1)]),
        0,
        objective=F(15),
        duals=[2],
        options=["objno=2"],
    ),
    "infeasible": SmallModel(
        nl_text([real()] * 2, [row(3, None, 1, 1), row(None, 2, 1, 1)], [least(1, 1)]), 200
    ),
    "unbounded": SmallModel(nl_text([real()] * 2, [row(None, 3, 1, -1)], [most(1, 1)]), 300),
    "unbounded_rowless": SmallModel(nl_text([real()], [], [most(1)]), 300),
    "crossed": SmallModel(
        nl_text([real(3, 2)], [row(1, None, 1)], [least(1)]), 200, message=EMPTY_INTERVAL
    ),
    "nonlinear": SmallModel(
        nl_text(
            [real(0, 9)] * 2, [row(None, 7, 0, 0)], [most(1)], expressions={0: ["o2", "v0", "v1"]}
        ),
        501,
        message="is nonlinear",
    ),
    "square_root": SmallModel(
        nl_text([real(0, 9)], [row(None, 2, 0)], [most(1)], expressions={0: ["o39", "v0"]}),
        501,
        message="sqrt(x0) is not linear (refused opcode 39)",
    ),
    "logical": SmallModel(
        nl_text([real(0, 9)], [], [], logical_constraints=1), 501, message="refused count"
    ),
    "third_objective": SmallModel(
        nl_text([real(0, 9)], [], [least(1)]),
        501,
        options=["objno=3"],
        message="objno=3: no such objective: the file has 1, and objno counts from 1",
    ),
}
