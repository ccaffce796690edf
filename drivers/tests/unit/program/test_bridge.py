"""How the proved program is found, and what its calls answer: programs of this test take its place."""

from __future__ import annotations

import json
import os
from pathlib import Path
from typing import Callable, List, Sequence

import pytest

from bridge_drivers.program import bridge as module
from bridge_drivers.program.bridge import (
    Bridge,
    ModelForm,
    build_facts,
    find_program,
    is_proved_program,
    sha256_of_file,
)
from bridge_drivers.program.calls import Command, Reply, files_of_call, is_utf8
from bridge_drivers.program.refusal import Refusal
from bridge_drivers.program.verdict import NoVerdict
from bridge_drivers.system.deadline import Deadline
from bridge_drivers.system.errors import (
    DeadlineExceeded,
    NotFound,
    NotInstalled,
    NotStarted,
    ProgramFailed,
)

Script = Callable[[str, str], str]


@pytest.fixture
def script(tmp_path: Path) -> Script:
    """Makes a program of a name that is a line of a shell; its path."""

    def made(name: str, line: str) -> str:
        path = tmp_path / name / "bridge"
        path.parent.mkdir()
        path.write_text(f"#!/bin/sh\n{line}\n")
        path.chmod(0o755)
        return str(path)

    return made


PROVED = "echo bad words >&2; exit 3"


@pytest.mark.parametrize(
    "line, is_proved",
    [
        (PROVED, True),
        ("echo bad words >&2; exit 255", False),
        ("echo usage >&2; exit 3", False),
        ("exit 3", False),
        ("kill -9 $$", False),
    ],
)
def test_which_program_is_the_proved_one(script: Script, line: str, is_proved: bool) -> None:
    assert is_proved_program(script("one", line)) is is_proved


def test_a_program_that_is_not_there() -> None:
    assert not is_proved_program("/nonexistent/bridge")


def test_the_path_is_looked_through(script: Script, monkeypatch: pytest.MonkeyPatch) -> None:
    """iproute2's `bridge` is passed over."""
    first = script("first", "echo bad words >&2; exit 255")
    other = script("other", "echo usage >&2; exit 3")
    proved = script("proved", PROVED)
    folders = [os.path.dirname(path) for path in (first, other, proved)]
    monkeypatch.setenv("BRIDGE", "")
    monkeypatch.setenv("PATH", os.pathsep.join(folders))
    assert find_program("", []) == [proved]
    assert find_program("", [other]) == [other]  # a place of our own is believed
    assert find_program("", [os.path.dirname(other)]) == [proved]  # a folder is none
    assert find_program("a 'b c'", []) == ["a", "b c"]
    monkeypatch.setenv("BRIDGE", "nice bridge")
    assert find_program("", []) == ["nice", "bridge"]
    monkeypatch.setenv("BRIDGE", "")
    monkeypatch.setenv("PATH", os.pathsep.join(folders[:2]))
    with pytest.raises(NotFound, match="is another program") as caught:
        find_program("", [])
    assert caught.value.other == first


def test_words_that_are_not_closed() -> None:
    with pytest.raises(NotInstalled, match="a quote does not end"):
        find_program("bridge 'x", [])


def test_sums(tmp_path: Path) -> None:
    path = tmp_path / "file"
    path.write_bytes(b"")
    empty = "e3b0c44298fc1c149afbf4c8996fb92427ae41e4649b934ca495991b7852b855"
    assert sha256_of_file(str(path)) == empty
    assert sha256_of_file(str(tmp_path)) is None
    assert sha256_of_file(None) is None


def test_a_note_is_of_exactly_one_program(tmp_path: Path, monkeypatch: pytest.MonkeyPatch) -> None:
    program = tmp_path / "bridge"
    program.write_bytes(b"program")
    monkeypatch.setattr(module, "BUILD_NOTES", ("{program}.built", str(tmp_path / "built.json")))
    assert build_facts(str(program)) == {}
    facts = {"sha256": sha256_of_file(str(program)), "proved": "yes"}
    for text in ("", "[]", "{", json.dumps({**facts, "sha256": "0" * 64})):
        (tmp_path / "bridge.built").write_text(text)
        assert build_facts(str(program)) == {}
    (tmp_path / "built.json").write_text(json.dumps(facts))
    assert build_facts(str(program)) == facts
    program.write_bytes(b"another program")
    assert build_facts(str(program)) == {}
    assert build_facts(str(tmp_path / "none")) == {}


def test_a_call(script: Script) -> None:
    told: List[Sequence[str]] = []
    program = script("one", 'echo "$@"; echo no >&2; exit 5')
    bridge = Bridge([program], note=told.append)
    assert bridge.call("export", "m.nl") == (5, b"export m.nl\n", "no")
    assert told == [[program, "export", "m.nl"]]


def test_each_command(script: Script) -> None:
    lines = ["case $1 in", 'return) echo "$@"; echo Options;;', 'import) echo "g $@";;']
    lines += ['*) echo "NAME $@"; echo ENDATA;;', "esac"]
    bridge = Bridge([script("one", "\n".join(lines))])
    assert bridge.export("m.nl") == b"NAME export m.nl\nENDATA\n"
    assert bridge.export("m.nl", 2) == b"NAME export m.nl 2\nENDATA\n"
    assert bridge.return_("m.nl", "a.txt") == b"return m.nl a.txt\nOptions\n"
    assert bridge.text(Command.IMPORT, "m.mps") == b"g import m.mps\n"


@pytest.mark.parametrize(
    ("command", "name"),
    [
        (Command.EXPORT, "MPS"),
        (Command.FIXED, "MPS"),
        (Command.IMPORT, ".nl"),
        (Command.RETURN, ".sol"),
    ],
)
@pytest.mark.parametrize("text", ["", "optimal 17", "NAME nl", "ENDATA"])
def test_another_text(script: Script, command: Command, name: str, text: str) -> None:
    """What is no text of the command's kind is no text, whatever the status is."""
    bridge = Bridge([script("one", f"echo {text}")])
    with pytest.raises(ProgramFailed, match=f"`bridge {command.value}` wrote no {name} text"):
        bridge.text(command, "m")


@pytest.mark.parametrize(
    "form, command",
    [
        (ModelForm.NL, Command.VERIFY),
        (ModelForm.FREE, Command.VERIFY_MPS),
        (ModelForm.FIXED, Command.VERIFY_FIXED),
    ],
)
def test_the_form_of_a_model_decides_by_what_it_is_judged(
    script: Script, form: ModelForm, command: Command
) -> None:
    line = f'[ "$*" = "{command.value} model certificate" ] && echo optimal 17'
    bridge = Bridge([script("one", line)])
    bridge.forms["model"] = form
    assert bridge.verify("model", "certificate").line == "optimal 17"


@pytest.mark.parametrize(
    "line",
    [
        "echo optimal 17; exit 1",
        "echo leaf 0 gap 3",
        "true",
        "exit 1",
        "echo optimal 17; echo optimal 18",
        "echo yes 17",
        "printf 'optimal 17'",
    ],
)
def test_a_false_program_gives_no_verdict(script: Script, line: str) -> None:
    with pytest.raises(NoVerdict):
        Bridge([script("one", line)]).verify("m.nl", "m.certificate")


def test_the_line_of_check(script: Script) -> None:
    answering = '[ "$*" = "check m.nl m.sol" ] && echo gap 9 8; exit 1'
    assert Bridge([script("one", answering)]).check("m.nl", "m.sol") == "gap 9 8"
    with pytest.raises(NoVerdict):
        Bridge([script("two", "echo yes 9; exit 1")]).check("m.nl", "m.sol")


@pytest.mark.parametrize("status", [2, 3, 4, 5, 6, 7, 127])
def test_another_status_is_a_refusal(script: Script, status: int) -> None:
    bridge = Bridge([script("one", f"echo optimal 17; echo told >&2; exit {status}")])
    calls: Sequence[Callable[[str, str], object]] = (bridge.verify, bridge.check, bridge.return_)
    for call in calls:
        with pytest.raises(Refusal) as caught:
            call("m.nl", "other")
        assert (caught.value.status, caught.value.told) == (status, "told")
        assert caught.value.words[1:] == ["m.nl", "other"]


def test_a_text_with_the_status_of_a_verdict_is_refused(script: Script) -> None:
    with pytest.raises(Refusal):
        Bridge([script("one", "echo text; exit 1")]).export("m.nl")


def test_a_program_that_is_ended(script: Script) -> None:
    with pytest.raises(Refusal) as caught:
        Bridge([script("one", "kill -9 $$")]).verify("m.nl", "c")
    assert caught.value.describe() == "`bridge verify` was stopped by signal 9"


def test_a_limit(script: Script) -> None:
    bridge = Bridge([script("one", "exec sleep 600")])
    with pytest.raises(DeadlineExceeded):
        bridge.verify("m.nl", "c", Deadline(0.05))


def test_a_program_that_cannot_be_run() -> None:
    with pytest.raises(NotStarted, match="/nonexistent/bridge could not be run"):
        Bridge(["/nonexistent/bridge"]).call("export", "m.nl")


def test_paths_that_are_not_utf8(script: Script, tmp_path: Path) -> None:
    """They are given as links, one for each path."""
    model = os.fsdecode(os.fsencode(tmp_path) + b"/m\xff.nl")
    Path(model).write_text("text\n")
    bridge = Bridge([script("one", 'cat "$2"; echo "$2" >&2')])
    first, second = (bridge.call("nl", model) for _ in range(2))
    assert first == second and first.out == b"text\n"
    assert is_utf8(first.told) and os.path.samefile(first.told, model)
    refusal = bridge.refusal(["nl", model], Reply(3, b"", "bad words"))
    assert refusal.describe() == "a path that is not UTF-8"
    del bridge
    assert not os.path.lexists(first.told)


@pytest.mark.parametrize(
    "words, files",
    [
        ("export a", "a"),
        ("export a 1", "a"),
        ("export a 1 rows cols", "a rows cols"),
        ("return a b", "a b"),
        ("return a b rows cols", "a b rows cols"),
        ("make 1 5", ""),
        ("", ""),
    ],
)
def test_the_files_of_a_call(words: str, files: str) -> None:
    assert files_of_call(words.split()) == files.split()
