"""Integer programs that one disjunction refutes, or whose relaxation in fractions decides."""

from __future__ import annotations

import re
from pathlib import Path
from typing import List

import pytest

from bridge_drivers.exact.evidence import AnswerByPlace, AnswerClaim
from bridge_drivers.exact.evidence_store import first_proved
from builders.misleading_kinds import models
from builders.nl_text import most, nl_text, row, whole
from running.certifying import CertifiedModel

pytestmark = pytest.mark.needs("program")
LARGE_SIDE = 10**13 + 1
NEAR_SIDE = "0.30000000000000004"
ODD = nl_text(
    [whole(0, LARGE_SIDE)] * 2, [row(LARGE_SIDE, LARGE_SIDE, 2, 2)], [most(1, 2)]
)  # of whole numbers
NEAR = nl_text([whole(0, 9)], [row(NEAR_SIDE, NEAR_SIDE, "0.1")], [most(1)])  # of decimals


def test_columns_and_rows_without_a_whole_number_between_their_bounds(tmp_path: Path) -> None:
    """Rows whose coefficients are the same up to a factor among them."""
    for model in models():
        if model.name.startswith(("two_rows", "crossing_bounds")):
            refuter = CertifiedModel(tmp_path, model.text()).certifier.refuter
            found = first_proved(refuter.rounding_refutations())
            assert found.is_proved == (model.best is None), model.name


@pytest.mark.needs("clp_library")
@pytest.mark.parametrize("claim", [AnswerClaim.INFEASIBLE, AnswerClaim.UNKNOWN])
def test_equations_that_nearly_depend_on_each_other(tmp_path: Path, claim: AnswerClaim) -> None:
    """No search in doubles closes there, but the relaxation in fractions does."""
    for model in models(10):
        if model.name.startswith("whole_singular"):
            found = CertifiedModel(tmp_path, model.text(), proves=False).certify(claim)
            assert found.line == f"optimal {model.best}", model.name


@pytest.mark.needs("clp_library")
@pytest.mark.parametrize(
    "text, x, proves, line",
    [
        (ODD, [998.0, 4999999999002.0], False, "infeasible"),
        (NEAR, [3.0], False, "not proved: rows of whole .* which is rounding"),
        (NEAR, [3.0], True, "infeasible"),
    ],
)
def test_answers_that_miss_rows_by_rounding(
    tmp_path: Path, text: bytes, x: List[float], proves: bool, line: str
) -> None:
    """They are meant where numbers have decimals; where all are whole the refutation is true."""
    work = CertifiedModel(tmp_path, text, proves=proves)
    found = work.certify(AnswerClaim.POINT, AnswerByPlace(x))
    assert re.fullmatch(line, found.line), found.line
