"""Templates of pages, and what is put into them: text is escaped unless it is of a template itself."""

from __future__ import annotations

import os
from html import escape
from string import Template
from typing import Dict, Iterable, Mapping

FOLDER = os.path.join(os.path.dirname(os.path.dirname(os.path.abspath(__file__))), "texts")


class Html(str):
    """A piece of a page. Any other text is escaped where it becomes part of one."""


def template_text(name: str) -> str:
    """The text of a file with templates or styles."""
    with open(os.path.join(FOLDER, name), encoding="utf-8") as file:
        return file.read()


def templates_of(text: str) -> Dict[str, Template]:
    """The templates of a text, by their names: each stands below a line `[name]`."""
    found: Dict[str, str] = {}
    name = ""
    for line in text.splitlines(keepends=True):
        if line.startswith("[") and line.rstrip().endswith("]"):
            name = line.strip()[1:-1]
            found[name] = ""
        elif name:
            found[name] += line
    return {name: Template(piece) for name, piece in found.items()}


TEMPLATES = templates_of(template_text("page.html"))


def filled(template: str, /, **words: object) -> Html:
    """A template with its words, which are escaped unless they are pieces of a page."""
    texts = {
        name: word if isinstance(word, Html) else escape(str(word)) for name, word in words.items()
    }
    return Html(TEMPLATES[template].substitute(texts))


def filled_with_rows(
    template: str, row: str, rows: Iterable[Mapping[str, object]], **words: object
) -> Html:
    """A template around rows, each of which is a template with its words; nothing where there are none."""
    text = "".join(filled(row, **words_of_row) for words_of_row in rows)
    return filled(template, rows=Html(text), **words) if text else Html()
