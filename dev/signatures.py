"""The functions of a Rattle text with their signatures, as brackets and clauses mark them; dev/calls.py lists them.

A text is cut into tokens (comments and strings are one token each), and every item is read from its first word to the
bracket that closes it. So it does not matter on which lines a signature stands, nor what is inside its types and clauses.
"""

from __future__ import annotations

import re
from collections.abc import Iterator, Sequence
from dataclasses import dataclass

TOKEN = re.compile(
    r"""
    (?P<comment>//[^\n]*)
    |(?P<string>b?r?"(?:[^"\\]|\\.)*")
    |(?P<character>b?'(?:[^'\\\n]|\\[^'\n]+)')
    |(?P<word>\w+)
    |(?P<arrow>->|=>)
    |(?P<sign>\S)
    """,
    re.VERBOSE | re.DOTALL,
)
CLOSERS = {"(": ")", "[": "]", "{": "}"}
CLAUSES = frozenset({"requires", "ensures", "ghost"})


class SignatureError(ValueError):
    """A text is none of the forms that this module reads: the line, and what was awaited there."""


@dataclass(frozen=True)
class Token:
    """A piece of a text that is not blank, and where it begins and ends."""

    text: str
    start: int
    end: int


@dataclass(frozen=True)
class Clause:
    """A clause of a signature: `requires`, `ensures` or `ghost`, and its name, or none."""

    keyword: str
    label: str


@dataclass(frozen=True)
class Function:
    """A function that a text makes public, with its body.

    `kind` is the type whose `impl` has it, or none; `result` is the text of the type that it answers, or none, without
    blanks between its tokens; `words` is its comment.
    """

    kind: str
    name: str
    result: str
    clauses: tuple[Clause, ...]
    words: str


@dataclass(frozen=True)
class Heading:
    """What stands between `impl` and its block: the type, and whether a trait asks for the functions of the block."""

    kind: str
    is_of_trait: bool


def tokens_of(text: str) -> list[Token]:
    """The tokens of a text, without its comments."""
    return [
        Token(found.group(), found.start(), found.end())
        for found in TOKEN.finditer(text)
        if found.lastgroup != "comment"
    ]


class SignatureReader:
    """Goes over the tokens of one text."""

    def __init__(self, text: str) -> None:
        self._text = text
        self._tokens = tokens_of(text)
        self._at = 0

    def functions(self) -> Iterator[Function]:
        """The public functions of the text that have bodies: at its top, and of its types."""
        while self._here():
            if self._here() == "impl":
                yield from self._functions_of_block()
            elif self._is_public_function():
                yield from self._function("")
            else:
                self._pass_group()

    def _here(self, ahead: int = 0) -> str:
        place = self._at + ahead
        return self._tokens[place].text if place < len(self._tokens) else ""

    def _is_public_function(self) -> bool:
        return (self._here(), self._here(1)) == ("pub", "fn")

    def _error(self, awaited: str) -> SignatureError:
        place = self._tokens[self._at].start if self._here() else len(self._text)
        line = self._text.count("\n", 0, place) + 1
        return SignatureError(f"line {line}: {awaited} is awaited, not {self._here() or 'the end'}")

    def _pass_group(self) -> None:
        """Passes one token, or a group in brackets as a whole."""
        closers = [CLOSERS.get(self._here(), "")]
        self._at += 1
        while closers != [""] and closers:
            if not self._here():
                raise self._error(closers[-1])
            if self._here() in CLOSERS:
                closers.append(CLOSERS[self._here()])
            elif self._here() == closers[-1]:
                closers.pop()
            self._at += 1

    def _pass_parameters(self) -> None:
        """Passes what stands between `<` and `>`, where it stands here; an arrow is a token of its own."""
        depth = 0
        while self._here():
            depth += {"<": 1, ">": -1}.get(self._here(), 0)
            if not depth and self._here() != ">":
                return
            self._pass_group()
            if not depth:
                return

    def _functions_of_block(self) -> Iterator[Function]:
        heading = self._heading()
        if heading.is_of_trait:
            self._pass_group()
            return
        self._at += 1
        while self._here() != "}":
            if not self._here():
                raise self._error("}")
            if self._is_public_function():
                yield from self._function(heading.kind)
            else:
                self._pass_group()
        self._at += 1

    def _heading(self) -> Heading:
        """Reads from `impl` to the bracket of its block."""
        self._at += 1
        self._pass_parameters()
        path = self._path()
        is_of_trait = self._here() == "for"
        if is_of_trait:
            self._at += 1
            path = self._path()
        while self._here() != "{":
            if not self._here():
                raise self._error("{")
            self._pass_group()
        return Heading(path, is_of_trait)

    def _path(self) -> str:
        """The last name of a path of names, `a::B<C>`; its parameters are passed."""
        name = ""
        while self._here() not in ("for", "where", "{", ""):
            if re.fullmatch(r"\w+", self._here()):
                name = self._here()
            if self._here() == "<":
                self._pass_parameters()
            else:
                self._pass_group()
        return name

    def _function(self, kind: str) -> Iterator[Function]:
        """The function that begins here; none where it has no body."""
        words = comment_above(self._text[: self._tokens[self._at].start])
        self._at += 2
        name = self._here()
        self._at += 1
        self._pass_parameters()
        if self._here() != "(":
            raise self._error("(")
        self._pass_group()
        result = self._result()
        clauses = tuple(self._clauses())
        if self._here() == ";":
            self._at += 1
        elif self._here() == "{":
            self._pass_group()
            if self._here() in ("requires", "ensures"):  # what was passed was a clause
                raise self._error("an item")
            yield Function(kind, name, result, clauses, words)
        else:
            raise self._error("a clause or a body")

    def _result(self) -> str:
        """The type that a function answers; what `where` says of parameters is passed."""
        found = ""
        if self._here() == "->":
            self._at += 1
            found = self._type_text()
        if self._here() == "where":
            self._type_text()
        return found

    def _type_text(self) -> str:
        """The text up to a clause, `where`, a body or the end of the item."""
        parts: list[str] = []
        while self._here() not in CLAUSES | {"{", ";", ""} and (
            not parts or self._here() != "where"
        ):
            first = self._at
            self._pass_group()
            parts += (token.text for token in self._tokens[first : self._at])
        return "".join(parts)

    def _clauses(self) -> Iterator[Clause]:
        while self._here() in CLAUSES:
            keyword = self._here()
            self._at += 1
            label: Sequence[str] = ()
            while self._here() != "{":
                if not self._here():
                    raise self._error("{")
                label = [*label, self._here()]
                self._at += 1
            self._pass_group()
            yield Clause(keyword, "".join(word for word in label if re.fullmatch(r"\w+", word)))


def comment_above(text: str) -> str:
    """The words of the `///` lines at the end of a text, with its attributes among them."""
    lines = text.rpartition("\n\n")[2].splitlines()
    return " ".join(line.strip(" /") for line in lines if line.lstrip().startswith("///"))


def functions_of(text: str) -> list[Function]:
    """The public functions of a Rattle text that have bodies, in order.

    Raises:
        SignatureError: the text has brackets that do not close, or a signature of another form.
    """
    return list(SignatureReader(text).functions())
