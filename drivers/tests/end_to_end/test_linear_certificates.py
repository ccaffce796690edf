"""Linear programs whose optimum needs more than a short point, by the proved program's verdicts."""

from __future__ import annotations

import random
import re
from fractions import Fraction
from pathlib import Path
from typing import Callable, Iterator

import pytest

from bridge_drivers.exact import basis
from bridge_drivers.exact.basis import can_lift
from bridge_drivers.exact.clp import LpStatus
from bridge_drivers.exact.dual_bound import is_optimal_in_doubles
from bridge_drivers.exact.evidence import AnswerByPlace, AnswerClaim, Evidence
from bridge_drivers.exact.relaxation import relaxation
from bridge_drivers.exact.search_deadline import SearchDeadline
from bridge_drivers.exact.short_points import (
    NEAR_OF_DOUBLES,
    ShortPoint,
    fixed_points,
    short_point,
)
from bridge_drivers.model.integer_form import IntegerProgram
from bridge_drivers.model.linear_program import LinearProgram
from bridge_drivers.pipeline.exact_optimum import ExactOptimum
from bridge_drivers.program.bridge import Bridge
from bridge_drivers.system.deadline import Deadline
from builders.families import family_model, uneven
from builders.misleading import Misleading
from builders.misleading_kinds import models
from builders.nl_text import Objective, least, most, nl_text, real, row
from builders.small_models import MODELS
from running.certifying import CertifiedModel
from running.places import program

pytestmark = pytest.mark.needs("program", "clp_library")
TOO_WIDE = (
    r"the exact optimum needs numbers of (more than )?\d+ bits \(.*\); a certificate holds 127"
)
NEAR = Fraction(1, 10**9)


@pytest.fixture(params=["scipy", "without"])
def lifting(request: pytest.FixtureRequest, monkeypatch: pytest.MonkeyPatch) -> None:
    """With SciPy, and as without it."""
    if request.param == "without":
        monkeypatch.setattr(basis, "scipy_or_none", lambda: None)
    elif not can_lift():
        pytest.skip("no SciPy")


def certified(folder: Path, text: bytes) -> Evidence:
    """Of a point that is not given."""
    return CertifiedModel(folder, text).certify(AnswerClaim.POINT, AnswerByPlace())


def assert_near(found: Evidence, note: str) -> None:
    """The claim is `within`, its point and its bound are within 1e-9, and its note is so."""
    assert found.claim == "within", found.line
    bound, value = (Fraction(word) for word in found.line.split()[1:3])
    assert abs(value - bound) <= NEAR * max(Fraction(1), abs(bound))
    assert re.fullmatch(note, found.note), found.note


@pytest.mark.usefixtures("lifting")
@pytest.mark.parametrize("size", [757, 1000])
def test_equations_of_decimals_with_columns_of_their_own(tmp_path: Path, size: int) -> None:
    assert_near(certified(tmp_path, family_model("staircase", size)), TOO_WIDE)


def test_inequalities_of_decimals(tmp_path: Path) -> None:
    assert_near(certified(tmp_path, family_model("diet", 100_000)), TOO_WIDE)


def test_an_optimum_that_the_proved_program_finds_too_wide(tmp_path: Path) -> None:
    """Short numbers come next."""
    found = certified(tmp_path, family_model("diet", 30_000))
    assert_near(found, "the exact optimum: bridge verify says `too wide at .*")


def test_badly_scaled_equations_in_pairs_of_columns(tmp_path: Path) -> None:
    """Their fractions together are too wide for the objective."""
    found = certified(tmp_path, family_model("uneven", 2000))
    assert found.claim == "within", found.line
    bound, value = map(Fraction, found.line.split()[1:])
    assert abs(bound - value) < value / 10**9


@pytest.mark.usefixtures("lifting")
@pytest.mark.parametrize("family", ["transport", "assignment", "flow"])
def test_whole_data_have_a_whole_optimum(tmp_path: Path, family: str) -> None:
    assert re.fullmatch(r"optimal \d+", certified(tmp_path, family_model(family, 4000)).line)


@pytest.mark.parametrize("seed", range(3))
@pytest.mark.parametrize("size", [60, 300, 600])
def test_badly_scaled_programs(tmp_path: Path, size: int, seed: int) -> None:
    """Exactly, or within a millionth with a note that says why not."""
    found = certified(tmp_path, uneven(size, random.Random(f"{size} {seed}")))
    assert found.claim in ("optimal", "within", "infeasible"), found.line
    if found.claim == "within":
        value, bound = map(Fraction, found.line.split()[1:3])
        assert abs(value - bound) <= max(Fraction(1), abs(bound)) / 10**6
        assert "the exact optimum" in found.note


@pytest.mark.parametrize("size", [2, 3])
def test_refinement_where_the_basis_of_clp_is_not_the_exact_one(tmp_path: Path, size: int) -> None:
    work = CertifiedModel(tmp_path, family_model("parallel", size))
    found = work.certify(AnswerClaim.POINT)
    assert found.claim == "optimal", found.line
    linear = work.certifier.linear
    clp = work.task.solve_relaxation().clp
    assert clp is not None
    work.store.note = ""
    own, *refined = linear.bases(clp)
    assert list(linear.by_bases([own])) == []
    assert next(linear.by_bases(refined)).line == found.line


def test_nearly_equal_equations_contradict_each_other(tmp_path: Path) -> None:
    """They miss each other by 5e-9, and CLP takes them for one: no bound is told."""
    sides = ("7.699999995", "7.7")
    text = nl_text(
        [real(0, 5), real(0, 9)],
        [row(side, side, "2.5", "0.1") for side in sides],
        [least(5, 1)],
    )
    assert certified(tmp_path, text).line == "infeasible"


def point_near_clp(program: IntegerProgram) -> ShortPoint | None:
    """From CLP's optimum."""
    clp = relaxation(program)
    assert clp.solve() is LpStatus.OPTIMAL
    return short_point(program, fixed_points(clp.values()), NEAR_OF_DOUBLES, Deadline())


def test_equations_of_which_nothing_is_left_to_round(tmp_path: Path) -> None:
    """No point is told that is none."""
    text = nl_text(
        [real(0, 1)] * 3,
        [row("1.5", "1.5", "1.1", "0.7", "0.3"), row("0.9", "0.9", "0.3", "1.3", "0.1")],
        [least("0.3", "0.9", "0.7")],
    )
    work = CertifiedModel(tmp_path, text)
    assert work.certify(AnswerClaim.POINT).claim == "optimal"
    found = point_near_clp(work.program)
    assert found is None or work.program.is_feasible(found.point)


def test_equations_without_columns_of_their_own(tmp_path: Path) -> None:
    """Columns are eliminated until each has some."""
    program = CertifiedModel(tmp_path, family_model("decimal_flow", 300)).program
    found = point_near_clp(program)
    assert found is not None and program.is_feasible(found.point)


@pytest.mark.parametrize("proves", [False, True])
@pytest.mark.parametrize(
    "name, line",
    [
        ("product", "optimal 19"),
        ("thirds", "optimal 1/3"),
        ("infeasible", "infeasible"),
        ("unbounded", "unbounded"),
        ("unbounded_rowless", "unbounded"),
        ("rowless", "optimal 1"),
    ],
)
def test_what_is_true_without_an_answer(tmp_path: Path, name: str, line: str, proves: bool) -> None:
    """As where a solver stopped without a point."""
    work = CertifiedModel(tmp_path, MODELS[name].text, proves=proves)
    assert work.certify(AnswerClaim.UNKNOWN).line == line


@pytest.mark.needs("esolver")
@pytest.mark.parametrize("sense", [least, most])
def test_the_exact_optimum_by_another_program(
    tmp_path: Path, sense: Callable[..., Objective]
) -> None:
    """QSopt_ex answers by the file's numbers, in the objective's own sense; so in no time nothing."""
    text = nl_text(
        [real(0, 9), real(0, 7)],
        [row(4, None, 3, 2), row(None, "1.25", 1, "-1.5")],
        [sense(2, 3)],
    )
    (tmp_path / "model.nl").write_bytes(text)
    given = LinearProgram.of(Bridge(list(program())).export(str(tmp_path / "model.nl")))
    ask = ExactOptimum(given, {}, SearchDeadline())
    found = ask(Deadline(30.0))
    assert found is not None
    value = 2 * found.point[0] + 3 * found.point[1]
    assert value == (Fraction(71, 26) if sense is least else 39)
    assert all(isinstance(dual, Fraction) for dual in found.duals.values())
    assert ask(Deadline(0.0)) is None


def misleading(count: int) -> Iterator[Misleading]:
    return filter(Misleading.is_linear, models(count))


def test_fractions_of_nearly_singular_programs(tmp_path: Path) -> None:
    """The simplex method in whole numbers says what is true of each of them."""
    for model in misleading(4):
        if any(model.costs.values()):
            wanted = f"optimal {model.best}"
            if model.best is None:
                wanted = "infeasible"
            if model.is_unbounded:
                wanted = "unbounded"
            refuter = CertifiedModel(tmp_path, model.text()).certifier.refuter
            assert next(refuter.by_rational_simplex()).line == wanted, model.name


def test_doubles_are_right_where_their_duals_meet_them(tmp_path: Path) -> None:
    """Of nearly singular programs, tiny rays and far ends."""
    closed = 0
    for model in misleading(12):
        program = CertifiedModel(tmp_path, model.text()).program
        clp = relaxation(program)
        if clp.solve() is not LpStatus.OPTIMAL:
            continue
        x, duals = clp.values(), dict(enumerate(clp.duals()))
        if is_optimal_in_doubles(program, x, duals):
            closed += 1
            assert model.best is not None and not model.is_unbounded, model.name
            terms = [float(c) * v for c, v in zip(program.cost_fractions, x)]
            gap = abs(program.sign * sum(terms) - float(model.best))
            assert gap <= 1e-6 * max(1.0, sum(abs(term) for term in terms)), model.name
    assert closed > 20
