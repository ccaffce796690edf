"""Options as words: what each may be, how they are said, and that tables agree."""

from __future__ import annotations

from types import SimpleNamespace
from typing import Dict, List

import pytest
from bridge_drivers.commands.certify import CertifyCommand
from bridge_drivers.commands.options import (
    CERTIFY_OPTIONS,
    COMMON_OPTIONS,
    COUNT,
    OTHER_NAMES,
    NumberRange,
    Option,
    OptionValues,
    own_options,
)
from bridge_drivers.pipeline.option_values import (
    CERTIFY_SOLVER_SECONDS,
    certify_settings,
    kinds_of,
)
from bridge_drivers.solvers import SOLVERS
from bridge_drivers.system.errors import WrongOption

EVERY = {
    (solver, option.name): option
    for solver in SOLVERS
    for option in (*COMMON_OPTIONS, *own_options(solver))
}


def values(*words: str, solver: str = "cbc") -> OptionValues:
    found = OptionValues((*COMMON_OPTIONS, *own_options(solver)))
    found.take(words)
    return found


def certify_options() -> OptionValues:
    return OptionValues((*COMMON_OPTIONS, *own_options("cbc"), *CERTIFY_OPTIONS))


@pytest.mark.parametrize(
    "word, meant",
    [
        ("gap", "mipgap"),
        ("timeout", "timelim"),
        ("quiet", "wantsol=8"),
        ("o", "certificate"),
        ("timelimit", "timelim"),
        ("proove", "prove"),
        ("certficate", "certificate"),
    ],
)
def test_what_was_meant(word: str, meant: str) -> None:
    with pytest.raises(WrongOption, match=rf"^unknown option {word}; did you mean `{meant}`\?"):
        certify_options().take([word + "=1"])


@pytest.mark.parametrize("words", [["foo"], ["foo=1"], ["-foo"], ["timelim=1", "foo", "2"]])
def test_an_unknown_option(words: List[str]) -> None:
    with pytest.raises(WrongOption, match="^unknown option foo; -= lists the options$"):
        values(*words)


def test_an_option_without_a_value() -> None:
    with pytest.raises(WrongOption, match="^no value for timelim$"):
        values("timelim")


@pytest.mark.parametrize("option", EVERY.values(), ids=map("-".join, EVERY))
def test_each_option(option: Option) -> None:
    """A default is in its range, what is out of it is told with what is wanted, and bridge-certify takes it too."""
    if option.default != "":
        assert option.read(str(option.default)) == option.default
    if isinstance(option.kind, NumberRange):
        for bad in ("-1", "x", "nan", "1e400"):
            with pytest.raises(WrongOption, match=f"^{option.name}={bad}: .* is wanted$"):
                option.read(bad)


@pytest.mark.parametrize(
    "word", ["prove=2", "outlev=3", "wantsol=16", "objno=0", "only=lp", "format=nl", "mipgap=2"]
)
def test_a_value_out_of_its_range(word: str) -> None:
    with pytest.raises(WrongOption, match=f"^{word}: .* is wanted$"):
        values(word)


def test_the_values_of_an_option_in_words() -> None:
    assert Option("x", 0, COUNT, "").values() == "(a whole number from 0 to 1024; 0)"
    known = values().known
    assert known["outlev"].values() == "(0, 1 or 2; 0)"
    assert known["format"].values() == "(free or fixed)"
    assert known["mipgap"].values() == "(a number from 0 to 1; 0)"
    assert certify_options().known["timelim"].values() == "(a number from 0 on; 0)"


@pytest.mark.parametrize("solver", SOLVERS)
def test_calls_of_python_take_the_same_options(solver: str) -> None:
    names = {option.name for option in (*COMMON_OPTIONS, *own_options(solver))}
    assert names - {"json"} == set(kinds_of(solver))


def test_what_other_programs_say_means_an_option_of_ours() -> None:
    ours = {option.name for option in EVERY.values()}
    assert {meant.partition("=")[0] for meant in OTHER_NAMES.values()} <= ours


@pytest.mark.parametrize(
    "words",
    [
        ["timelim=3", "prove=1"],
        ["timelim", "3", "-prove", "1"],
        ["TimeLim", "=", "3", "prove", "=1"],
        ["timelim=", "3", "--prove=1"],
    ],
)
def test_one_way_or_another(words: List[str]) -> None:
    found = values(*words)
    assert (found["timelim"], found.flag("prove")) == (3.0, True)
    assert found.echo == ["timelim=3", "prove=1"]


def test_the_last_word_counts() -> None:
    assert values("timelim=3", "timelim=4")["timelim"] == 4.0


def test_what_stands_before_a_wrong_word_is_taken() -> None:
    found = values()
    with pytest.raises(WrongOption):
        found.take(["outlev=2", "foo=1", "objno=2"])
    assert (found.number("outlev"), found.number("objno")) == (2, 1)


@pytest.mark.parametrize("name", ["bridge_cbc_options", "bridge-cbc_options"])
def test_the_environment(name: str, monkeypatch: pytest.MonkeyPatch) -> None:
    monkeypatch.setenv(name, "timelim=3 keep='a b'")
    found = values()
    found.take_environment("bridge-cbc")
    assert (found["timelim"], found.text("keep")) == (3.0, "a b")
    monkeypatch.setenv(name, "keep='a")
    with pytest.raises(WrongOption, match=f"^{name}: a quote does not end$"):
        found.take_environment("bridge-cbc")


@pytest.mark.parametrize(
    "words, found",
    [
        ({}, {"time_limit": 0.0, "objective": 0, "shortest_numbers": None}),
        ({"timelim": "3", "objno": "2"}, {"time_limit": 3.0, "objective": 1}),
        ({"shortest": "0"}, {"shortest_numbers": False}),
        ({"solver": "/x", "bridge": "a b"}, {"solver_path": "/x", "bridge": "a b"}),
    ],
)
def test_settings(words: Dict[str, str], found: Dict[str, object]) -> None:
    settings = values(*(f"{name}={text}" for name, text in words.items())).run_settings(
        "cbc", writes_sol=False
    )
    assert {name: getattr(settings.settings, name) for name in found} == found


@pytest.mark.parametrize("writes_sol", [False, True])
def test_settings_of_what_is_written(writes_sol: bool) -> None:
    """Whatever the sum of `wantsol` says of the .sol; the rest of it counts."""
    for word, wants_values in (("wantsol=0", False), ("wantsol=3", True)):
        settings = values(word).run_settings("cbc", writes_sol=writes_sol)
        assert (settings.outputs.sol, settings.wants_values) == (writes_sol, wants_values)


def test_settings_of_the_solver() -> None:
    settings = values("extra=-a 'b c'", "mipgap=0.5").run_settings("cbc", writes_sol=False)
    asked = settings.settings.solver_settings
    assert (list(asked.arguments), asked.mip_gap) == (["-a", "b c"], 0.5)
    with pytest.raises(WrongOption, match="^extra: a quote does not end$"):
        values("extra=-a 'b").run_settings("cbc", writes_sol=False)
    with pytest.raises(WrongOption, match="^check=0 proves nothing"):
        values("check=0", "prove=1").run_settings("cbc", writes_sol=False)


def test_certify_proves_without_a_limit_of_the_run() -> None:
    """Where nothing is said only the solver has a limit by the clock; with `timelim=0` it has none."""
    found = certify_options().run_settings("cbc", writes_sol=False)
    assert (found.settings.certificate.prove, found.settings.time_limit) == (True, 0.0)
    assert found.settings.solver_seconds == 0.0
    assert certify_settings(found).settings.solver_seconds == CERTIFY_SOLVER_SECONDS


@pytest.mark.parametrize(
    "words, limit, solver_seconds",
    [([], 0.0, CERTIFY_SOLVER_SECONDS), (["timelim=0"], 0.0, 0.0), (["timelim=7"], 7.0, 0.0)],
)
def test_what_is_said_of_a_limit(words: list[str], limit: float, solver_seconds: float) -> None:
    command = CertifyCommand("cbc")
    command.options = certify_options()
    command.options.take(words)
    command.call = SimpleNamespace(is_ampl=False, saves=False)  # type: ignore[assignment]
    settings = command._run_settings().settings
    assert (settings.time_limit, settings.solver_seconds) == (limit, solver_seconds)


EXTREME = [
    "9" * 5000,
    "1e400",
    "-1e400",
    "nan",
    "inf",
    "-1",
    "1_0",
    "\u0663",
    "0x10",
    "",
    " 1 ",
    "1e10",
]


@pytest.mark.parametrize("option", EVERY.values(), ids=map("-".join, EVERY))
@pytest.mark.parametrize("word", EXTREME)
def test_extreme_values(option: Option, word: str) -> None:
    """They are taken, within the option's range, or refused in a line that is not long."""
    values = OptionValues([option])
    try:
        values.take([f"{option.name}={word}", "x"][: 1 if word else 2])
    except WrongOption as error:
        assert len(str(error)) < 400
    else:
        value = values[option.name]
        assert isinstance(value, str) or value <= 1e400 and value == value
