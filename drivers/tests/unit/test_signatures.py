"""What dev/calls.py says of a public call: its answer, its clauses and whether it may want memory, however it stands."""

from __future__ import annotations

import sys
from pathlib import Path
from types import ModuleType
from typing import TYPE_CHECKING

import pytest

if TYPE_CHECKING:
    from signatures import Function

HERE = Path(__file__).resolve().parent
DEV = HERE.parents[2] / "dev"
if not DEV.is_dir():
    pytest.skip("the scripts of dev/ are not here", allow_module_level=True)
HARD = (HERE.parent / "data" / "signatures" / "hard.txt").read_text(encoding="utf-8")


def script(name: str) -> ModuleType:
    """A script of dev/ as a module; it is found by its name while it is imported alone."""
    sys.path.insert(0, str(DEV))
    try:
        return __import__(name)
    finally:
        sys.path.remove(str(DEV))


calls = script("calls")
signatures = script("signatures")


def told(function: Function) -> tuple[str, str, str, str]:
    """The type and the name of a function, what it answers, its clauses and the first words of its comment."""
    clauses = " ".join(f"{it.keyword}:{it.label}" for it in function.clauses)
    return function.kind, function.name, function.result, clauses


def test_each_public_function_of_a_hard_text_is_read() -> None:
    assert [told(it) for it in signatures.functions_of(HARD)] == [
        ("", "closed_in_column_0", "Result<u32,AllocError>", "requires: ensures:sum"),
        ("", "with_array", "[u8;4]", "ensures: ensures:rest ghost:n"),
        ("", "with_arrows", "Option<Vec<(u32,&'a[u8;N])>>", "ensures:"),
        ("", "without_answer", "", ""),
        ("Kept", "keep", "Result<(),Stop<Fault<T>>>", "ensures:kept ensures:err"),
        ("Kept", "last", "Option<T>", ""),
        ("Other", "tuple", "(u32,Result<u8,Wide>)", ""),
        ("", "last_of_all", "Result<Vec<(u32,fn(u8)->u8)>,crate::faults::Unread>", ""),
    ]


def test_the_words_of_a_function_are_those_above_it() -> None:
    words = {it.name: it.words for it in signatures.functions_of(HARD)}
    assert words["with_array"].startswith("An array type has")
    assert words["last"] == "A method behind a private one."
    assert words["without_answer"] == ""


@pytest.mark.parametrize(
    ("result", "error"),
    [
        ("Result<u32,AllocError>", "AllocError"),
        ("Result<(),Stop<Fault<T>>>", "Stop"),
        ("Result<(u32,Vec<u8>),crate::faults::Unread>", "Unread"),
        ("Result<Vec<(u32,fn(u8)->u8)>,Answer>", "Answer"),
        ("Result<Answer,Stop<AnswerFault>>", "Stop"),
        ("Option<Result<u8,AllocError>>", ""),
        ("Stop<G>", ""),
        ("", ""),
    ],
)
def test_the_error_of_an_answer(result: str, error: str) -> None:
    assert calls.error_of(result) == error


def test_errors_that_say_want_of_memory() -> None:
    assert {"AllocError", "Stop", "Answer", "Unread"} <= calls.errors_of_memory()
    assert "HeadFault" not in calls.errors_of_memory()


@pytest.mark.parametrize(
    ("text", "awaited"),
    [
        ("pub fn f(\n    a: u32,\n", "line 3: ) is awaited, not the end"),
        ("\npub fn f() -> u8\n", "line 3: a clause or a body is awaited"),
        (
            "pub fn f() -> u8\n    promises { a }\n    ensures { b }\n{}\n",
            "line 3: an item is awaited",
        ),
        ("impl Kept {\n    pub fn f() {}\n", "line 3: } is awaited"),
    ],
)
def test_another_form_is_an_error(text: str, awaited: str) -> None:
    with pytest.raises(signatures.SignatureError) as caught:
        signatures.functions_of(text)
    assert awaited in str(caught.value)
