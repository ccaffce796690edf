"""Certificates of small models whose optimum is known, judged by the proved program."""

from __future__ import annotations

from pathlib import Path

import pytest

from bridge_drivers.exact.evidence import AnswerClaim
from builders.known_optima import KNOWN_OPTIMA
from builders.small_models import MODELS
from running.certifying import CertifiedModel

pytestmark = pytest.mark.needs("program", "clp_library")


@pytest.mark.parametrize("name", KNOWN_OPTIMA)
def test_known_optima(tmp_path: Path, name: str) -> None:
    """Whatever is true: the search for a refutation finds a point where there is one."""
    text, optimum = KNOWN_OPTIMA[name]
    found = CertifiedModel(tmp_path, text).certify(AnswerClaim.INFEASIBLE)
    assert found.line == ("infeasible" if optimum is None else f"optimal {optimum}")
    assert found.value == optimum


LINEAR = ["product", "diet", "scaled", "thirds", "ranges", "rowless", "free_row"]


@pytest.mark.parametrize("name", LINEAR)
def test_linear_optima(tmp_path: Path, name: str) -> None:
    """The exact vertex and its duals, from what no solver told."""
    model = MODELS[name]
    found = CertifiedModel(tmp_path, model.text, proves=False).certify(AnswerClaim.POINT)
    assert found.line == f"optimal {model.objective}"


@pytest.mark.parametrize("name", ["unbounded", "unbounded_rowless", "whole_unbounded"])
def test_unbounded(tmp_path: Path, name: str) -> None:
    found = CertifiedModel(tmp_path, MODELS[name].text, proves=False)
    assert found.certify(AnswerClaim.UNBOUNDED).line == "unbounded"
