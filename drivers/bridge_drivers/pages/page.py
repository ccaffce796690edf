"""One page of HTML on a certificate, without scripts and without anything from elsewhere.

It has the claim, the tree as a picture, the sums of the leaves that are drawn, and the rows that
leaves use; of a certificate that does not hold the first leaf that does not close, too.
"""

from __future__ import annotations

import time
from fractions import Fraction
from typing import Iterator, List, NamedTuple, Optional, Sequence, Tuple

from ..exact.certificate import NodeKind
from .failure import Failure
from ..exact.leaf_sums import LeafSums, NodeContext, Part
from .templates import Html, filled, filled_with_rows, template_text
from .tree_picture import TreePicture
from .wording import Wording, exact_and_decimal

LETTER_WIDTH = 0.62  # of a letter of fixed width, in its height, and a little more
BESIDE_PICTURE = 60  # units that a page has beside the picture
MOST_USED = 200  # rows on a page
MOST_TERMS = 60  # lines of one sum
SUMS_SECONDS = 5.0  # for all sums
MOST_INDENT = 12  # levels of the list of parts


class PageFacts(NamedTuple):
    """What a page says beside what is worked out of the certificate.

    Attributes:
        model: The name of its file.
        certificate: The name of its file.
        verdict: The line of the proved program.
        is_proved: Whether the certificate holds.
        claim: In words.
        failure: Why it does not hold; None where it does.
        sums: The SHA-256 of files, behind what they are called.
    """

    model: str
    certificate: str
    verdict: str
    is_proved: bool
    claim: str
    failure: Optional[Failure]
    sums: Sequence[Tuple[str, str]]


def html_page(facts: PageFacts, wording: Wording, picture: Optional[TreePicture]) -> str:
    """The text of the page that `nl-bridge explain --html` writes; `pages.explanation` asks for it.

    Args:
        facts: What it says of files and of the verdict.
        wording: Makes the sentences on the certificate, in the names of the file.
        picture: Of its tree; None where it has none.
    """
    point = wording.certificate.point or {}
    values = [
        {"name": wording.column(column), "value": exact_and_decimal(value)}
        for column, value in point.items()
    ]
    return filled(
        "page",
        style=Html(template_text("page.css")),
        mark="yes" if facts.is_proved else "no",
        word="holds of" if facts.is_proved else "does not hold of",
        verdict=facts.verdict,
        model=facts.model,
        certificate=facts.certificate,
        claim=as_sentence(facts.claim),
        failure=_failure(facts.failure),
        facts=_facts(facts, wording),
        point=filled_with_rows("point", "value", values),
        tree=_tree(picture) if picture else "",
        sums=_sums(wording, picture) if picture else "",
        used=_used(wording),
    )


def as_sentence(text: str) -> str:
    """With a capital and a full stop."""
    return text[:1].upper() + text[1:] + "."


def _facts(facts: PageFacts, wording: Wording) -> Html:
    """The lines of the certificate, but for the rows that it uses, and the sums of files."""
    lines = [line.partition(" ") for line in wording.lines()]
    told = [(head, text.strip()) for head, _, text in lines if head != "uses"]
    rows = ({"head": head, "text": text} for head, text in [*told, *facts.sums])
    return filled_with_rows("facts", "fact", rows)


def _failure(failure: Optional[Failure]) -> Html:
    if failure is None:
        return Html()
    steps = filled_with_rows("path", "step", ({"step": step} for step in failure.path))
    return filled("failure", failure=as_sentence(failure.text), path=steps)


def _tree(picture: TreePicture) -> Html:
    """The picture, its colours, and each part that is drawn, in full."""
    rows = (
        {**node._asdict(), "indent": 0.5 + min(node.depth, MOST_INDENT)} for node in picture.drawn
    )
    svg = Html(picture.svg(is_file=False))
    return filled_with_rows(
        "tree", "part", rows, width=picture.size().width + BESIDE_PICTURE, picture=svg
    )


def _sums(wording: Wording, picture: TreePicture) -> Html:
    """How the leaves that are drawn close, in letters so small that the widest line fits."""
    nodes = wording.certificate.nodes
    leaves = [node.place for node in picture.drawn if nodes[node.place].is_leaf]
    found = list(sums_of_leaves(wording, leaves))
    widest = max((len(line) for it in found for line in (*it.lines, it.result)), default=1)
    rows = (
        {
            "line": nodes[it.place].line,
            "leaf": nodes[it.place].leaf_number,
            "lines": "\n".join([*it.lines, it.result]),
            "part": ", ".join(wording.path_words(it.place, with_lines=False)) or "all points",
            "size": f"clamp(.5rem, calc((100vw - 4.5rem) / {LETTER_WIDTH * widest:.1f}), .875rem)",
        }
        for it in found
    )
    return filled_with_rows("sums", "sum", rows)


def _used(wording: Wording) -> Html:
    """The rows of the model, and in how many leaves they are used."""
    leaves = max(wording.counts.leaves, 1)
    more = Html()
    if len(wording.used) > MOST_USED:
        more = filled("more", count=len(wording.used) - MOST_USED)
    rows = (
        {
            "row": wording.row(use.row),
            "times": use.leaves,
            "width": min(max(1, round(100 * use.leaves / leaves)), 100),
        }
        for use in wording.used[:MOST_USED]
    )
    return filled_with_rows("used", "use", rows, more=more)


class LeafSum(NamedTuple):
    """The sum of a leaf, as it is shown.

    Attributes:
        place: Of the leaf.
        lines: Its terms, one below the other, and the total.
        result: What the total shows.
    """

    place: int
    lines: Sequence[str]
    result: str


class Product(NamedTuple):
    """A line of a sum: a factor times a bound."""

    factor: Fraction
    bound_words: str
    product: Fraction


def sums_of_leaves(wording: Wording, places: Sequence[int]) -> Iterator[LeafSum]:
    """The sums of leaves at these places, as far as there is time; none of a leaf that shows nothing."""
    end = time.monotonic() + SUMS_SECONDS
    for place in places:
        if wording.sums is None or time.monotonic() > end:
            return
        found = leaf_sum(wording.sums, wording, place)
        if found is not None:
            yield found


def leaf_sum(sums: LeafSums, wording: Wording, place: int) -> Optional[LeafSum]:
    """The sum of one leaf; None where a bound is missing that one of its terms rests on."""
    context = sums.context(place)
    total = sums.proved_bound(place, context)
    if total is None:
        return None
    is_farkas = sums.certificate.nodes[place].kind is NodeKind.WEIGHTS
    products = list(_products(sums, wording, place, context))
    if context.target.constant and not is_farkas:
        constant = context.target.constant
        products.append(Product(Fraction(1), "constant of the objective", constant))
    rest = products[MOST_TERMS:]
    if rest:
        total_of_rest = sum((it.product for it in rest), Fraction(0))
        others = Product(Fraction(1), f"{len(rest)} products more", total_of_rest)
        products = [*products[:MOST_TERMS], others]
    result = _farkas_result(total) if is_farkas else _dual_result(total, context)
    return LeafSum(place, lines_of_sum(products, total), result)


def _products(
    sums: LeafSums, wording: Wording, place: int, context: NodeContext
) -> Iterator[Product]:
    for term in sums.terms(place, context):
        if term.bound is not None:
            is_row = term.part is Part.ROW
            name = wording.row(term.number, place) if is_row else wording.column(term.number)
            sign = chr(0x2265) if term.is_lower else chr(0x2264)
            yield Product(term.factor, f"{name} {sign} {term.bound}", term.factor * term.bound)


def _farkas_result(total: Fraction) -> str:
    return f"0 \u2265 {exact_and_decimal(total)}: {'no point' if total > 0 else 'true'}"


def _dual_result(total: Fraction, context: NodeContext) -> str:
    form = "lemma's form" if context.target.cut_line else "objective"
    sign = chr(0x2264) if context.target.maximise else chr(0x2265)
    return f"{form} {sign} {exact_and_decimal(total)}"


def lines_of_sum(products: Sequence[Product], total: Fraction) -> List[str]:
    """Factors and products below each other, in full, and the total below them."""
    rows = [
        (exact_and_decimal(it.factor), it.bound_words, exact_and_decimal(it.product))
        for it in products
    ]
    total_text = exact_and_decimal(total)
    left = max((len(factor) for factor, _, _ in rows), default=0)
    middle = max((len(words) for _, words, _ in rows), default=0)
    right = max([len(total_text), *(len(product) for _, _, product in rows)])
    width = left + middle + right + 7
    lines = [
        f"{factor:>{left}} \u00d7 ({words}){' ' * (middle - len(words))}  {product:>{right}}"
        for factor, words, product in rows
    ]
    return [*lines, "\u2500" * width, f"{total_text:>{width}}"]
