"""Small MPS files, with the verdict that is right of each."""

from __future__ import annotations

from fractions import Fraction as F
from pathlib import Path
from typing import Mapping, NamedTuple

FOLDER = Path(__file__).resolve().parent.parent / "data" / "mps"


class MpsModel(NamedTuple):
    """An MPS file.

    Attributes:
        text: of the file.
        verdict: the last line that is right.
        values: by the names of columns, where the optimum is one point alone.
    """

    text: str
    verdict: str
    values: Mapping[str, F]


def _text(name: str) -> str:
    return (FOLDER / f"{name}.mps").read_text(encoding="ascii")


# In fixed columns `fixed` and `cut_off` are read, too: nothing beyond column 61 is read there,
# where `cut_off` has a whole second pair, so that it is another program in each form.
READ_IN_BOTH_FORMS = ("fixed", "cut_off")
MPS_MODELS: Mapping[str, MpsModel] = {
    "fixed": MpsModel(_text("fixed"), "optimal -23/2", {"ONE": F(1), "TWO": F(1), "THREE": F(0)}),
    "cut_off": MpsModel(
        _text("cut_off"), "optimal -23/2", {"ONE": F(1), "TWO": F(1), "THREE": F(0)}
    ),
    "free_form": MpsModel(_text("free_form"), "optimal -3/2", {"x": F("3/2")}),
    "two_objectives": MpsModel(_text("two_objectives"), "optimal 3/2", {"x": F("3/2")}),
    "range_of_l": MpsModel(_text("range_of_l"), "optimal 3/2", {"x": F("3/2")}),
    "negative_range_of_l": MpsModel(_text("negative_range_of_l"), "optimal 3/2", {"x": F("3/2")}),
    "range_of_g": MpsModel(_text("range_of_g"), "optimal -13/2", {"x": F("13/2")}),
    "negative_range_of_g": MpsModel(
        _text("negative_range_of_g"), "optimal -13/2", {"x": F("13/2")}
    ),
    "range_of_e": MpsModel(_text("range_of_e"), "optimal -13/2", {"x": F("13/2")}),
    "negative_range_of_e": MpsModel(_text("negative_range_of_e"), "optimal 3/2", {"x": F("3/2")}),
    "empty_range_of_e": MpsModel(_text("empty_range_of_e"), "optimal 4", {"x": F(4)}),
    "upper_below_zero": MpsModel(_text("upper_below_zero"), "optimal -5", {}),
    "upper_and_lower_below_zero": MpsModel(
        _text("upper_and_lower_below_zero"), "optimal 2", {"x": F(-2)}
    ),
    "constant": MpsModel(_text("constant"), "optimal 7", {"x": F(5)}),
    "most": MpsModel(_text("most"), "optimal 13/3", {}),
    "whole": MpsModel(_text("whole"), "optimal 17/2", {}),
    "whole_by_bounds": MpsModel(_text("whole_by_bounds"), "optimal 7", {"x": F(2), "y": F(1)}),
    "binary": MpsModel(_text("binary"), "optimal 3", {"x": F(0), "y": F(1)}),
    "infeasible": MpsModel(_text("infeasible"), "infeasible", {}),
    "whole_infeasible": MpsModel(_text("whole_infeasible"), "infeasible", {}),
    "unbounded": MpsModel(_text("unbounded"), "unbounded", {}),
    "only_second_objective": MpsModel(_text("only_second_objective"), "optimal 3", {}),
}
