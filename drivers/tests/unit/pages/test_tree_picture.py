"""The tree as a picture: which nodes are drawn, with what in them, and in which colours."""

from __future__ import annotations

import xml.etree.ElementTree as xml
from typing import List

import pytest

from bridge_drivers.pages.tree_picture import (
    MOST_DEPTH,
    MOST_LETTERS,
    MOST_SHOWN,
    TreePicture,
    shortened,
)
from explained import KNAP, explanation, full_tree

SVG = "{http://www.w3.org/2000/svg}"


def colours(picture: TreePicture) -> List[str]:
    root = xml.fromstring(picture.svg(is_file=True))
    return [group.get("class", "") for group in root.findall(SVG + "g")]


def test_each_node_has_a_box() -> None:
    root = xml.fromstring(explanation("knap", KNAP, "optimal 17").svg_tree())
    groups = root.findall(SVG + "g")
    kinds = [group.get("class") for group in groups]
    assert kinds == ["cut", "duals", "cut", "cut", "duals", "weights", "weights"]
    assert [[text.text for text in group.findall(SVG + "text")] for group in groups] == [
        ["6", "all points", "bound 17", "split x2"],
        ["7", "x2 \u2264 0", "bound 17", "closes by bounds alone"],
        ["8", "x2 \u2265 1", "bound 12", "split x0"],
        ["9", "x0 \u2264 0", "bound 12", "split x1"],
        ["10", "x1 \u2264 0", "bound 12", "closes by bounds alone"],
        ["11", "x1 \u2265 1", "no point", "rows contradict (1)"],
        ["13", "x0 \u2265 1", "no point", "rows contradict (1)"],
    ]
    assert len(root.findall(SVG + "path")) == 6 + 1  # a curve to each branch, and the background


def test_a_cut_and_its_proof() -> None:
    words = (
        "bound 0 7 / lemma 2 0 / 0 1 / 1 -7 / split 1 0 / duals 1 / 0 1 / duals 0 / duals 1 / 1 1"
    )
    explained = explanation("flow", words, "bound 7", ["y", "x"])
    drawn = [(node.part, node.bound, node.way) for node in explained.picture.drawn]
    assert drawn == [
        ("all points", "bound 7", "lemma y - 7 x"),
        ("proof: y - 7 x \u2264 0", "bound 0", "split x"),
        ("x \u2264 0", "bound 0", "closes by duals (1)"),
        ("x \u2265 1", "bound 0", "closes by bounds alone"),
        ("with y - 7 x \u2264 0", "bound 7", "closes by duals (1)"),
    ]
    assert explained.svg_tree().count('class="proof"') == 1


def test_a_certificate_without_a_tree() -> None:
    explained = explanation("endless", "feasible 0 / point 0", "feasible 0")
    texts = [text.text for text in xml.fromstring(explained.svg_tree()).iter(SVG + "text")]
    assert texts == ["the certificate has no tree"]
    assert "Its tree" not in explained.html_page()


def test_a_large_tree_is_collapsed() -> None:
    explained = explanation("wide", full_tree(9, "bound 0 45"), "bound 45")
    picture = explained.picture
    kinds = colours(picture)
    assert "fails" not in kinds and kinds.count("folded") > 1
    assert len(picture.drawn) <= MOST_SHOWN
    assert max(node.depth for node in picture.drawn) <= MOST_DEPTH
    assert "+ 30 nodes, 16 leaves" in explained.svg_tree()


def test_the_path_to_a_leaf_that_fails_is_drawn() -> None:
    explained = explanation("wide", full_tree(9, "bound 0 40"), "leaf 31 gap 41")
    assert explained.failure is not None
    assert explained.failure.leaf in [node.place for node in explained.picture.drawn]
    kinds = colours(explained.picture)
    assert "fails" in kinds and kinds.count("folded") > 1


def test_all_that_do_not_close_are_marked() -> None:
    """The verdict is about the first one; the others are worked out."""
    explained = explanation("knap", full_tree(3, "bound 0 10"), "leaf 1 gap 12")
    leaves = [place for place, node in enumerate(explained.certificate.nodes) if node.is_leaf]
    closes = [explained.picture.closes(place) for place in leaves]
    assert closes == [True, False, True, False, True, False, False, False]


def test_leaves_that_are_not_judged() -> None:
    """Without exact numbers nothing is known of leaves behind the first that fails."""
    words = full_tree(2, "bound 0 10")
    picture = explanation("knap", words, "leaf 1 gap 12", is_exact=False).picture
    ways = [node.way for node in picture.drawn if node.way.startswith(("leaf", "closes"))]
    assert ways == [
        "closes by bounds alone",
        "leaf 1 does not close",
        "leaf 2 is not judged",
        "leaf 3 is not judged",
    ]
    assert {node.bound for node in picture.drawn} == {""}


@pytest.mark.parametrize("names", [["<b>&", "\x1b[31mb", "z"], ['"', "'", "]]>"]])
def test_hostile_names_are_escaped(names: List[str]) -> None:
    """Names are shown without controls, as `NameLists` reads them; a picture escapes what is a mark of XML."""
    text = explanation("knap", KNAP, "optimal 17", names).svg_tree()
    printable = text.replace("\x1b", "")
    assert "<b>" not in text
    boxes = xml.fromstring(printable).findall(SVG + "g")
    heads = [box.findall(SVG + "text")[1].text for box in boxes]
    assert heads[3] == f"{names[0]} \u2264 0"


def test_a_long_name_is_cut_in_its_box_and_whole_in_its_title() -> None:
    name = "n" * 200
    explained = explanation("knap", KNAP, "optimal 17", [name, "b", "z"])
    root = xml.fromstring(explained.svg_tree())
    group = root.findall(SVG + "g")[3]
    texts = [text.text or "" for text in group.findall(SVG + "text")]
    assert max(map(len, texts)) <= MOST_LETTERS
    title = group.find(SVG + "title")
    assert title is not None and (title.text or "").startswith(f"{name} \u2264 0\n")


def test_shortened() -> None:
    assert (shortened("abc", 3), shortened("abcd", 3)) == ("abc", "ab\u2026")
