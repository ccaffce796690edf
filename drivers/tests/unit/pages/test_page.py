"""The page: to the byte that of tests/data/pages, escaped, and without anything from elsewhere."""

from __future__ import annotations

import re
from html.parser import HTMLParser
from pathlib import Path
from typing import List, Optional, Tuple

import pytest

from bridge_drivers.pages.page import MOST_USED, as_sentence
from bridge_drivers.pages.templates import Html, filled, filled_with_rows, templates_of
from bridge_drivers.system.text import printable
from explained import KNAP, explanation, full_tree

DATA = Path(__file__).resolve().parents[2] / "data" / "pages"
FAILED = KNAP.replace("optimal 0 / point 2 / 0 1 / 1 1", "bound 0 16")
VOID = {"meta", "link", "br", "img", "rect", "path"}
OUTER = re.compile(r"(?i)<script|<link|<img|url\(|src=|href=|@import|javascript:")


class Tags(HTMLParser):
    """Holds the tags that are open, and fails where one is closed that is not."""

    def __init__(self) -> None:
        super().__init__()
        self.open: List[str] = []

    def handle_starttag(self, tag: str, attrs: List[Tuple[str, Optional[str]]]) -> None:
        if tag not in VOID:
            self.open.append(tag)

    def handle_startendtag(self, tag: str, attrs: List[Tuple[str, Optional[str]]]) -> None:
        pass

    def handle_endtag(self, tag: str) -> None:
        assert self.open and self.open.pop() == tag, tag


@pytest.mark.parametrize(
    "name, words, line", [("holds", KNAP, "optimal 17"), ("fails", FAILED, "leaf 0 gap 17")]
)
def test_to_the_byte(name: str, words: str, line: str) -> None:
    explained = explanation("knap", words, line, ["a", "b", "z"])
    assert explained.html_page() == (DATA / f"{name}.html").read_text(encoding="utf-8")
    assert explained.svg_tree() == (DATA / f"{name}.svg").read_text(encoding="utf-8")


@pytest.mark.parametrize(
    "model, words, line",
    [
        ("knap", KNAP, "optimal 17"),
        ("knap", FAILED, "leaf 0 gap 17"),
        ("wide", full_tree(9, "bound 0 40"), "leaf 31 gap 41"),
        ("endless", "feasible 0 / point 0", "feasible 0"),
        ("endless", "feasible 0 / point 1 / 1 .25", "variable 1 not whole"),
    ],
)
def test_a_page_is_whole_and_its_own(model: str, words: str, line: str) -> None:
    page = explanation(model, words, line).html_page()
    tags = Tags()
    tags.feed(page)
    tags.close()
    assert tags.open == []
    assert not OUTER.search(page)
    assert printable(page) == page
    assert not re.search(r"\$\w", page)  # of a template


HOSTILE = "<script>alert(1)</script>&\"'"


def test_hostile_names_are_escaped() -> None:
    """Of variables, of files, and in the sentences on a failure."""
    explained = explanation("knap", FAILED, "leaf 0 gap 17", [HOSTILE] * 3)
    explained.model_file = explained.model_file._replace(name=HOSTILE)
    explained.certificate_file = explained.certificate_file._replace(name=f"{HOSTILE}.certificate")
    page = explained.html_page()
    assert "<script" not in page
    assert page.count("&lt;script&gt;alert(1)") > 5
    tags = Tags()
    tags.feed(page)
    assert tags.open == []


def test_text_is_escaped_unless_it_is_of_a_template() -> None:
    assert filled("step", step="<b>&") == "<li>&lt;b&gt;&amp;</li>\n"
    assert filled("step", step=Html("<b>x</b>")) == "<li><b>x</b></li>\n"
    assert filled("step", step="$step") == "<li>$step</li>\n"
    assert filled_with_rows("path", "step", []) == ""
    assert "<li>&lt;</li>" in filled_with_rows("path", "step", [{"step": "<"}])


def test_templates_of_a_text() -> None:
    found = templates_of("[one]\n<p>$a</p>\n[two]\nb [c]\n")
    assert {name: template.template for name, template in found.items()} == {
        "one": "<p>$a</p>\n",
        "two": "b [c]\n",
    }


def test_many_rows_that_leaves_use() -> None:
    explained = explanation("knap", KNAP, "optimal 17")
    use = explained.wording.used[0]
    explained.wording.used = [use] * (MOST_USED + 5)
    assert "and 5 rows more" in explained.html_page()


def test_a_file_that_was_replaced_has_no_sum() -> None:
    explained = explanation("knap", KNAP, "optimal 17")
    explained.model_file = explained.model_file._replace(sha256=None)
    page = explained.html_page()
    assert "<td>not known: another file stands there</td>" in page
    assert "SHA-256 " + "2" * 64 in page


def test_sentences() -> None:
    assert as_sentence("it is so") == "It is so."
