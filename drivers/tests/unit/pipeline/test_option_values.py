"""Options as values: what each may be, and the settings that they make."""

from __future__ import annotations

from pathlib import Path

import pytest

from bridge_drivers.pipeline.option_values import (
    checked_values,
    kinds_of,
    run_settings,
    values_of_words,
)
from bridge_drivers.solvers import SOLVERS
from bridge_drivers.system.errors import WrongOption


@pytest.mark.parametrize(
    "name, value",
    [
        ("prove", 2),
        ("prove", "1"),
        ("prove", 1.0),
        ("jobs", -1),
        ("jobs", True),
        ("jobs", 1.5),
        ("objno", 0),
        ("mipgap", 1.5),
        ("mipgap", "0.1"),
        ("timelim", -1),
        ("timelim", float("nan")),
        ("timelim", float("inf")),
        ("timelim", 10**400),
        ("jobs", float("inf")),
        ("format", "fix"),
        ("certificate", 3),
        ("bridge", 3),
        ("extra", [1]),
        ("outlev", 3),
        ("wantsol", 16),
        ("gap", 1),
        ("xcheck", 1),  # of glpsol alone
    ],
)
def test_a_value_of_another_kind(name: str, value: object) -> None:
    with pytest.raises(WrongOption):
        checked_values("cbc", {name: value})


def test_values_are_taken_as_they_are() -> None:
    """No value is taken apart: an equals sign or a blank in a path means nothing."""
    given = {"certificate": Path("a=b timelim=5"), "extra": ["-x", "a b"], "timelim": 3}
    values = checked_values("cbc", given)
    assert values == {"certificate": "a=b timelim=5", "extra": ["-x", "a b"], "timelim": 3.0}


def test_an_empty_path_is_none() -> None:
    values = checked_values("cbc", {"certificate": "", "timelim": 5, "keep": None})
    settings = run_settings("cbc", values).settings
    assert (settings.certificate.path, settings.time_limit, settings.keep_folder) == ("", 5.0, "")


def test_nothing_given_is_as_commands_have_it() -> None:
    wanted = run_settings("glpsol", {})
    settings, certificate = wanted.settings, wanted.settings.certificate
    assert (settings.solver, settings.objective, settings.time_limit) == ("glpsol", 0, 0.0)
    assert certificate.check and certificate.bound and not certificate.prove
    assert settings.round_integers and settings.shortest_numbers is None
    assert wanted.wants_values and wanted.wants_duals and not wanted.outputs.sol


def test_strict_proves() -> None:
    certificate = run_settings("cbc", {"strict": True}).settings.certificate
    assert certificate.strict and certificate.prove


@pytest.mark.parametrize("name", ["prove", "strict"])
def test_nothing_is_proved_without_a_check(name: str) -> None:
    with pytest.raises(WrongOption, match="check=0 proves nothing"):
        run_settings("cbc", {name: True, "check": False})


@pytest.mark.parametrize("solver", list(SOLVERS))
def test_words_of_each_option(solver: str) -> None:
    """Each option can be given as a word; a value of the right kind is read from it."""
    texts = {"format": "fixed", "only": "mps", "objno": "2", "mipgap": "0.5", "timelim": "1.5"}
    for name in kinds_of(solver):
        text = texts.get(name, "1")
        values = checked_values(solver, values_of_words(solver, [f"{name}={text}"]))
        assert list(values) == [name]


@pytest.mark.parametrize("word", ["prove", "gap=1", "jobs=many", "=1"])
def test_words_that_are_none(word: str) -> None:
    with pytest.raises(WrongOption):
        values_of_words("cbc", [word])
