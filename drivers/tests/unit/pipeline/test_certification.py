"""What is told of the values and duals that are passed on: each line of the proved program in words."""

from __future__ import annotations

from fractions import Fraction
from pathlib import Path
from typing import List, Optional

import pytest

from bridge_drivers.model.linear_program import LinearProgram
from bridge_drivers.pipeline.answered_run import proved_gap_words, shows_its_claim
from bridge_drivers.pipeline.answer import is_point
from bridge_drivers.pipeline.certification import AnswerCertifier
from bridge_drivers.pipeline.check_words import feasible_words
from bridge_drivers.pipeline.monitor import Monitor
from bridge_drivers.pipeline.settings import CertificateSettings, Settings
from bridge_drivers.program.bridge import Bridge
from bridge_drivers.program.verdict import statement_of
from bridge_drivers.solvers.run import SolverRun
from bridge_drivers.solvers.settings import SolverSettings

PROGRAMS = Path(__file__).parents[2] / "data" / "mps"


def certifier(folder: Path, program: str, *, prove: bool = False) -> AnswerCertifier:
    read = LinearProgram.of((PROGRAMS / f"{program}.mps").read_bytes())
    run = SolverRun(read, SolverSettings(), str(folder), "/nonexistent")
    settings = Settings(certificate=CertificateSettings(prove=prove))
    return AnswerCertifier(Bridge(["/nonexistent"]), "m.nl", run, settings, Monitor("test"))


@pytest.mark.parametrize(
    "line, words",
    [
        ("yes 19/2", "yes: values and duals show the optimum 9.5"),
        ("gap 9 17/2", "gap: feasible, objective 9; the duals show 8.5"),
        ("row 1 has no side", "the dual of constraint 1 has the wrong sign"),
        ("bound 1 has no side", "the reduced cost of variable 1 has no bound to rest on"),
        ("row 1 broken", "constraint 1 is broken"),
        ("bound 1 broken", "a bound of variable 1 is broken"),
        ("too wide at row 1", "exact values do not fit 128 bits (too wide at row 1)"),
        ("too wide at total", "exact values do not fit 128 bits (too wide at total)"),
    ],
)
def test_lines_of_check(line: str, words: str, tmp_path: Path) -> None:
    assert certifier(tmp_path, "diet").check_words(line) == words


@pytest.mark.parametrize(
    "exported, told",
    [
        ("c1", "constraint 1"),
        ("x0", "variable 0"),
        ("zdef", "the objective's row"),
        ("z", "the objective's row"),
        ("a whole number", "a whole number"),
    ],
)
def test_places(exported: str, told: str, tmp_path: Path) -> None:
    assert certifier(tmp_path, "diet").named_place(exported) == told


def test_a_feasible_point() -> None:
    assert feasible_words(Fraction(17)) == "feasible, objective exactly 17"
    assert feasible_words(Fraction(1, 3)) == (
        "feasible, objective exactly 1/3 (about 0.3333333333)"
    )


@pytest.mark.parametrize(
    "values, point, is_same",
    [
        (["1", "0.50", "1e-1"], [1, Fraction(1, 2), Fraction(1, 10)], True),
        (["0.3333333333333333"], [Fraction(1, 3)], False),
        (["1"], [1, 0], False),
        (["1"], None, False),
        ([], [], True),
    ],
)
def test_decimals_that_are_a_point(
    values: List[str], point: Optional[List[Fraction]], is_same: bool
) -> None:
    assert is_point(values, point) == is_same


@pytest.mark.parametrize(
    "line, words",
    [
        ("optimal 17", []),
        ("infeasible", []),
        ("optimal 22/5", []),
        ("optimal 2/3", ["a point has the objective about 0.6666666667, and none is better"]),
        ("feasible 17", ["the search for a better one did not end: prove=1 goes on"]),
        ("bound 19", ["no point has more than 19"]),
    ],
)
def test_a_claim_in_words(line: str, words: List[str], tmp_path: Path) -> None:
    found = certifier(tmp_path, "knap").claim_words(statement_of(line))
    assert len(found) == len(words)
    for line_found, part in zip(found, words):
        assert line_found.startswith("in words: ") and part in line_found
    assert "prove=1" not in str(
        certifier(tmp_path, "knap", prove=True).claim_words(statement_of(line))
    )


@pytest.mark.parametrize(
    "line, words",
    [
        ("optimal 17", ", and the point is proved optimal"),
        ("within 20 16", ", 20.00 % are proved"),
        ("feasible 17", ""),
        ("bound 17", ""),
    ],
)
def test_a_gap_in_words(line: str, words: str) -> None:
    assert proved_gap_words(statement_of(line)) == words
    assert proved_gap_words(None) == ""


@pytest.mark.parametrize(
    "told, claim, shows",
    [
        ("yes: values and duals show the optimum 9.5", "optimal", True),
        ("gap: feasible, objective 9; the duals show 8.5", "optimal", False),
        ("gap: feasible, objective 9; the duals show 8.5", "within", True),
        ("the dual of constraint 1 has the wrong sign", "optimal", False),
        ("constraint 1 is broken", "optimal", True),  # other duals do not mend values
    ],
)
def test_whether_duals_show_what_is_proved(told: str, claim: str, shows: bool) -> None:
    assert shows_its_claim(told, claim) == shows
