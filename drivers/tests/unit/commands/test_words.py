"""The words of calls, in any order."""

from __future__ import annotations

from pathlib import Path
from typing import List, Optional

import pytest
from bridge_drivers.commands.front_words import FrontCall, parse_front_call, why_not_callable
from bridge_drivers.commands.nl_bridge import check_callable
from bridge_drivers.commands.certify import named_driver
from bridge_drivers.commands.words import DriverCall, HelpKind, parse_driver_call
from bridge_drivers.system.errors import WrongWords


@pytest.mark.parametrize(
    "call, options",
    [
        ("knap -AMPL prove=1 timelim 3 -e", ["prove=1", "timelim", "3"]),
        ("prove=1 knap -AMPL timelim 3 -e", ["prove=1", "timelim", "3"]),
        ("-AMPL -e prove=1 timelim=3 -- knap", ["prove=1", "timelim=3"]),
        ("prove = 1 timelim= 3 -e -AMPL knap", ["prove", "=", "1", "timelim=", "3"]),
        ("-prove 1 -AMPL --timelim =3 -e knap", ["-prove", "1", "--timelim", "=3"]),
    ],
)
def test_any_order(call: str, options: "list[str]") -> None:
    wanted = DriverCall("knap", is_ampl=True, echoes=False, options=options)
    assert parse_driver_call(call.split()) == wanted


@pytest.mark.parametrize(
    "call, model",
    [
        ("-- -x=1", "-x=1"),
        ("-- -- x", "--"),
        ("-", "-"),
        ("./a=b", "./a=b"),
        ("timelim=3", None),
        ("", None),
    ],
)
def test_what_is_the_model(call: str, model: Optional[str]) -> None:
    assert parse_driver_call(call.split()).model == model


@pytest.mark.parametrize(
    "call, kind, topic",
    [
        ("-v", HelpKind.VERSIONS, ""),
        ("knap --version", HelpKind.VERSIONS, ""),
        ("-= -v", HelpKind.OPTIONS, ""),
        ("knap timelim=9 -?", HelpKind.HELP, ""),
        ("help", HelpKind.HELP, ""),
        ("help timelim", HelpKind.HELP, "timelim"),
        ("-- -h", None, ""),
    ],
)
def test_help(call: str, kind: Optional[HelpKind], topic: str) -> None:
    found = parse_driver_call(call.split())
    assert (found.help_kind, found.help_topic) == (kind, topic)


@pytest.mark.parametrize(
    "call",
    [
        "explain m c --svg s json=1",
        "json=1 --svg=s explain m c",
        "explain json=1 m --svg s -- c",
    ],
)
def test_any_order_of_the_front(call: str) -> None:
    wanted = FrontCall("explain", ["m", "c"], wants_json=True, pages={"svg": "s"})
    assert parse_front_call(call.split()) == wanted


@pytest.mark.parametrize(
    "call, rest",
    [
        ("export -- -x", ["-x"]),
        ("export -", ["-"]),
        ("--svg=s explain m --html h -- -c", ["m", "-c"]),
        ("--version", []),
    ],
)
def test_the_files_of_the_front(call: str, rest: "list[str]") -> None:
    assert parse_front_call(call.split()).rest == rest


@pytest.mark.parametrize(
    "call, why",
    [
        ("export m -x", "unknown option -x; -h lists the commands"),
        ("explain m c --pdf x", "unknown option --pdf"),
        ("explain m c --htlm x", "unknown option --htlm; did you mean `--html`?"),
        ("explain m c --html", "--html takes a FILE; -h lists the commands"),
        ("export m json=1", "export takes no json=1;"),
        ("stats m --html=h", "stats takes no --html;"),
        ("verify m c --html x", "verify takes no --html;"),
        ("json=1", "nl-bridge takes no json=1;"),
    ],
)
def test_wrong_words_of_the_front(call: str, why: str) -> None:
    with pytest.raises(WrongWords) as caught:
        parse_front_call(call.split())
    assert str(caught.value).startswith(why)


def test_with_help_any_option_will_do() -> None:
    assert parse_front_call(["verify", "x", "--svg=s", "-h"]).wants_help


@pytest.mark.parametrize(
    "call, takes",
    [
        ("export a", True),
        ("export a 0", True),
        ("export a 00", False),
        ("export a 4294967295", True),
        ("export a 4294967296", False),
        ("export a 0 r", False),
        ("return a b", True),
        ("return a b r c", True),
        ("return a", False),
        ("make 1 2", True),
        ("make 1", False),
        ("explain export a", True),
        ("explain return a b r c", True),
        ("completion zsh", True),
        ("completion csh", False),
        ("version", True),
        ("version x", False),
        ("nl \udcff", True),
    ],
)
def test_what_commands_take(call: str, takes: bool) -> None:
    assert (why_not_callable(call.split()) == "") == takes


@pytest.mark.parametrize(
    "call, why",
    [
        ("explain", "explain takes MODEL [K] or MODEL CERTIFICATE or COMMAND FILE ..;"),
        ("explain m c d", "explain takes MODEL [K] or MODEL CERTIFICATE or COMMAND FILE ..;"),
        ("export a -1x", "bad words: K is a plain number up to 4294967295, not -1x;"),
    ],
)
def test_what_no_command_takes(call: str, why: str) -> None:
    word, *rest = call.split()
    with pytest.raises(WrongWords) as caught:
        check_callable(FrontCall(word, rest))
    assert str(caught.value).startswith(why)


@pytest.fixture
def folder(tmp_path: Path, monkeypatch: pytest.MonkeyPatch) -> Path:
    """The current folder, which is empty but for a model."""
    monkeypatch.chdir(tmp_path)
    (tmp_path / "k.nl").write_text("g3\n")
    return tmp_path


# names that a stranger may give to a file
TRAPS = ["bridge=sh a.nl", "solver=x", "extra=-foo", "prove=1", "-AMPL", "-s", "-v", "-=", "json=1"]


@pytest.mark.parametrize("trap", TRAPS)
@pytest.mark.parametrize("dashes", [[], ["--"]])
def test_a_file_is_never_an_option(folder: Path, trap: str, dashes: List[str]) -> None:
    """In any order that a shell gives to what it finds, before `--` and behind it."""
    (folder / trap).write_text("")
    for words in (sorted(["k.nl", trap]), sorted(["k.nl", trap])[::-1], ["k.nl", trap], [trap]):
        found = parse_driver_call([*dashes, *words])
        assert (found.options, found.is_ampl, found.saves, found.help_kind) == (
            [],
            False,
            False,
            None,
        )
        assert found.model == words[0]
        assert bool(found.fault) == (len(words) > 1)
        assert [trap in note for note in found.notes] == [True]
        front = parse_front_call(["verify", *dashes, *words])
        assert (list(front.rest), front.wants_json, front.wants_help) == (words, False, False)


@pytest.mark.parametrize("word", ["bridge=sh", "-solver=x", "EXTRA=y"])
def test_behind_dashes_nothing_starts_a_program(folder: Path, word: str) -> None:
    assert "starts a program" in parse_driver_call(["k.nl", "--", word]).fault
    assert parse_driver_call(["k.nl", word]).options == [word]
    assert not parse_driver_call(["k.nl", "--", "prove=1"]).fault


def test_a_value_may_be_a_file(folder: Path) -> None:
    (folder / "c").write_text("")
    for call in (
        "k.nl certificate c",
        "k.nl certificate = c",
        "k.nl certificate= c",
        "-certificate c k.nl",
    ):
        found = parse_driver_call(call.split())
        assert (found.model, found.fault) == ("k.nl", "")
        assert found.options[-1] == "c"


@pytest.mark.parametrize(
    "words",
    [
        ["driver=clp"],
        ["driver", "clp"],
        ["driver", "=", "clp"],
        ["-driver=clp"],
        ["DRIVER=clp"],
        ["driver=cbc", "driver=clp"],
        ["mipgap=0", "driver=clp"],
    ],
)
def test_the_driver_of_certificates_in_any_spelling(words: List[str]) -> None:
    assert named_driver(["k.nl", *words]) == "clp"


def test_the_driver_of_certificates_in_the_variable(monkeypatch: pytest.MonkeyPatch) -> None:
    monkeypatch.setenv("bridge_certify_options", "driver=clp")
    assert named_driver(["k.nl"]) == "clp"
    assert named_driver(["k.nl", "driver=glpsol"]) == "glpsol"
