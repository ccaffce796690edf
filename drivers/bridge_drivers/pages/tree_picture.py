"""The tree of a certificate as a picture in SVG.

Each node stands in a box with the part of the points that it is, the bound that is shown there,
and how it goes on or closes. Its branches are on its right. Large trees are collapsed to a depth.
"""

from __future__ import annotations

import time
from collections import Counter
from fractions import Fraction
from html import escape
from typing import Dict, Iterator, List, Mapping, NamedTuple, Optional, Tuple

from ..exact.certificate import ROOT, Node, NodeKind
from ..exact.leaf_sums import LeafSums
from .templates import template_text
from .wording import Wording, short_number

MOST_SHOWN = 64  # nodes before a tree is collapsed
MOST_DEPTH = 8
MOST_PATH = 40  # levels down to a leaf that fails, which are shown in any case
SECONDS = 5.0  # in which bounds are worked out
BOX_WIDTH, BOX_HEIGHT = 204, 58  # in the units of the picture, as all lengths below
COLUMN_WIDTH, ROW_HEIGHT = 240, 70
MARGIN = 12
MOST_LETTERS = 27  # of a line in a box
MOST_HEAD_LETTERS = 21  # of its first line, which is bold
LEAST_HEAD_LETTERS = 6  # of a form before its sign

ValuesByPlace = Mapping[int, Optional[Fraction]]  # None: there is no point below the node


class DrawnNode(NamedTuple):
    """A node in the picture.

    Attributes:
        place: In the certificate.
        x: Of the left end of its box.
        y: Of the upper end.
        line: In the certificate.
        depth: How many nodes are above it.
        part: What holds there, in full.
        head: The same, short enough for the box.
        bound: What is shown there; empty where that is not known.
        way: How it goes on or closes.
        kind: The class of its colours.
    """

    place: int
    x: int
    y: int
    line: int
    depth: int
    part: str
    head: str
    bound: str
    way: str
    kind: str


class Size(NamedTuple):
    """Of a picture, in its units."""

    width: int
    height: int


def shortened(text: str, most: int = MOST_LETTERS) -> str:
    """A text of at most so many letters."""
    return text if len(text) <= most else text[: most - 1] + "\u2026"


class TreePicture:
    """The picture of one certificate's tree.

    Attributes:
        drawn: The nodes that are drawn, from the root on.
    """

    def __init__(
        self, wording: Wording, failing: Optional[int] = None, *, is_proved: bool = True
    ) -> None:
        """
        Args:
            wording: Of the certificate.
            failing: The place of the first leaf that does not close; None where no leaf is at fault.
            is_proved: Whether all leaves close, since the certificate holds.
        """
        self.certificate = wording.certificate
        self.wording = wording
        self.sums = wording.sums
        self.failing = failing
        self.is_proved = is_proved
        path = self.certificate.path(failing)[:MOST_PATH] if failing is not None else []
        self.failing_path = set(path)
        self.shown_depth = self._shown_depth()
        self.values = node_bounds(self.sums) if self.sums is not None else {}
        heights = self._heights()
        self.lowest = MARGIN + ROW_HEIGHT * sum(not self._shown_below(place) for place in heights)
        self.drawn = [self._drawn(place, y) for place, y in heights.items()]

    def _shown_depth(self) -> int:
        """The greatest depth down to which there are few nodes; deeper ones are collapsed."""
        counts = Counter(node.depth for node in self.certificate.nodes)
        total = depth = 0
        for depth in sorted(counts):
            total += counts[depth]
            if total > MOST_SHOWN or depth > MOST_DEPTH:
                return max(depth - 1, 1)
        return depth

    def is_collapsed(self, place: int) -> bool:
        """Whether the nodes below this one are not drawn."""
        node = self.certificate.nodes[place]
        return (
            not node.is_leaf and node.depth >= self.shown_depth and place not in self.failing_path
        )

    def _shown_below(self, place: int) -> List[int]:
        return [] if self.is_collapsed(place) else self.certificate.children(place)

    def _heights(self) -> Dict[int, int]:
        """By place of each node that is drawn its `y`: leaves are one below the other, and other
        nodes beside their first branch."""
        heights: Dict[int, int] = {}
        lowest = MARGIN
        waiting = [0] if self.certificate.nodes else []
        while waiting:
            place = waiting.pop()
            below = self._shown_below(place)
            heights[place] = lowest
            if not below:
                lowest += ROW_HEIGHT
            waiting += reversed(below)
        return heights

    def _drawn(self, place: int, y: int) -> DrawnNode:
        node, closes = self.certificate.nodes[place], self.closes(place)
        part, head = self._part_texts(node)
        return DrawnNode(
            place=place,
            x=MARGIN + COLUMN_WIDTH * node.depth,
            y=y,
            line=node.line,
            depth=node.depth,
            part=part,
            head=head,
            bound=self._bound_text(place, closes),
            way=self._way_text(place, closes),
            kind=self._colours(place, closes),
        )

    def _part_texts(self, node: Node) -> Tuple[str, str]:
        """`z \u2264 0` in full and for a box, where the start alone of a long form stands."""
        if node.parent == ROOT:
            return "all points", "all points"
        above = self.certificate.nodes[node.parent]
        side = self.wording.side(above, node.branch)
        sign = f" {chr(0x2264) if side.is_at_most else chr(0x2265)} {side.number}"
        divided = self.wording.divided(above)
        if above.kind is NodeKind.CUT:
            divided = ("with " if node.branch else "proof: ") + divided
        most = max(MOST_HEAD_LETTERS - len(sign), LEAST_HEAD_LETTERS)
        return divided + sign, shortened(divided, most) + sign

    def closes(self, place: int) -> Optional[bool]:
        """Whether a leaf shows what it has to; None where that is not known, and of other nodes.

        The verdict is about the first leaf that does not close, so that those before it do.
        """
        if self.is_proved or self._is_before_failing(place):
            return True
        if place == self.failing:
            return False
        if self.sums is None or not self.values or not self.certificate.nodes[place].is_leaf:
            return None
        return closes_by_sum(self.sums, place)

    def _is_before_failing(self, place: int) -> bool:
        nodes = self.certificate.nodes
        if self.failing is None:
            return False
        return nodes[place].leaf_number < nodes[self.failing].leaf_number

    def _bound_text(self, place: int, closes: Optional[bool]) -> str:
        if self.certificate.nodes[place].kind is NodeKind.WEIGHTS:
            return "no point" if closes else ""
        if place not in self.values:
            return ""
        value = self.values[place]
        return "no point" if value is None else f"bound {short_number(value)}"

    def _way_text(self, place: int, closes: Optional[bool]) -> str:
        node = self.certificate.nodes[place]
        if self.is_collapsed(place):
            return f"+ {node.size - 1} nodes, {node.leaves} leaves"
        if not node.is_leaf:
            return f"{node.kind} {self.wording.divided(node)}"
        if closes is None:
            return f"leaf {node.leaf_number} is not judged"
        if not closes:
            return f"leaf {node.leaf_number} does not close"
        if not node.entries:
            return "closes by bounds alone"
        is_farkas = node.kind is NodeKind.WEIGHTS
        return f"{'rows contradict' if is_farkas else 'closes by duals'} ({len(node.entries)})"

    def _colours(self, place: int, closes: Optional[bool]) -> str:
        """The class of a node in the style sheet."""
        node = self.certificate.nodes[place]
        if node.is_leaf and closes is not None:
            return node.kind.value if closes else "fails"
        return "folded" if self.is_collapsed(place) else "cut"

    def size(self) -> Size:
        """Of the whole picture."""
        right = max((node.x for node in self.drawn), default=MARGIN) + BOX_WIDTH + MARGIN
        below = self.lowest - (ROW_HEIGHT - BOX_HEIGHT) + MARGIN
        return Size(right, max(below, BOX_HEIGHT))

    def svg(self, *, is_file: bool) -> str:
        """The picture: as a file of its own, on white, or as a part of a page, light or dark."""
        width, height = self.size()
        nodes = self.certificate.nodes
        style = template_text("tree.css") + ("" if is_file else template_text("tree-dark.css"))
        label = "the certificate has no tree"
        if nodes:
            label = f"the tree of the certificate: {len(nodes)} nodes, {nodes[0].leaves} leaves"
        lines = [
            f'<svg xmlns="http://www.w3.org/2000/svg" class="tree" width="{width}" '
            f'height="{height}" viewBox="0 0 {width} {height}" role="img" aria-label="{label}">',
            f"<title>{label}</title>",
            f"<style>\n{style}</style>",
        ]
        if is_file:
            paper = f"M0 0H{width}V{height}H0Z"
            lines.append(f'<path d="{paper}" style="fill: #fff; stroke: none"/>')
        lines += [*self._connections(), *self._boxes()]
        if not nodes:
            lines.append(f'<text x="{MARGIN}" y="{BOX_HEIGHT // 2}">{label}</text>')
        return "\n".join([*lines, "</svg>", ""])

    def _connections(self) -> Iterator[str]:
        """The curves from nodes to their branches."""
        node_at = {node.place: node for node in self.drawn}
        for node in self.drawn:
            is_cut = self.certificate.nodes[node.place].kind is NodeKind.CUT
            for branch, child in enumerate(self._shown_below(node.place)):
                target = node_at[child]
                x, y = node.x + BOX_WIDTH, node.y + BOX_HEIGHT // 2
                middle, end = (x + target.x) // 2, target.y + BOX_HEIGHT // 2
                mark = ' class="proof"' if is_cut and branch == 0 else ""
                curve = f"M{x} {y} C{middle} {y} {middle} {end} {target.x} {end}"
                yield f'<path{mark} d="{curve}"/>'

    def _boxes(self) -> Iterator[str]:
        """The nodes with their texts. What is cut off is told in full where it is pointed at."""
        for node in self.drawn:
            texts = [text for text in (node.bound, node.way) if text]
            title = escape("\n".join([node.part, *texts, f"line {node.line}"]))
            yield (
                f'<g class="{node.kind}"><title>{title}</title>'
                f'<rect x="{node.x}" y="{node.y}" width="{BOX_WIDTH}" height="{BOX_HEIGHT}" rx="6"/>'
            )
            right, first = node.x + BOX_WIDTH - 8, node.y + 18
            yield f'<text class="line" x="{right}" y="{first}">{node.line}</text>'
            for number, text in enumerate([node.head, *texts]):
                mark = ' class="part"' if number == 0 else ""
                shown = escape(shortened(text))
                yield f'<text{mark} x="{node.x + 8}" y="{first + 16 * number}">{shown}</text>'
            yield "</g>"


def closes_by_sum(sums: LeafSums, place: int) -> bool:
    """Whether the sum of a leaf shows what it has to."""
    context = sums.context(place)
    bound, target = sums.proved_bound(place, context), context.target
    if bound is None:
        return False
    if sums.certificate.nodes[place].kind is NodeKind.WEIGHTS:
        return bound > 0
    if target.value is None:
        return False
    return bound <= target.value if target.maximise else bound >= target.value


def node_bounds(sums: LeafSums) -> ValuesByPlace:
    """The bound that is shown at each node: that of a leaf's sum, else the worse one of its branches.

    A cut has the bound of its second branch, since the first one proves the cut.

    Returns:
        By place; None where there is no point. Nodes above a leaf whose sum shows nothing are left
        out, and those that are left when the time is over.
    """
    values: Dict[int, Optional[Fraction]] = {}
    certificate, end = sums.certificate, time.monotonic() + SECONDS
    for place in reversed(range(len(certificate.nodes))):
        if time.monotonic() > end:
            break
        node = certificate.nodes[place]
        if node.kind is NodeKind.WEIGHTS:
            values[place] = None
        elif node.kind is NodeKind.DUALS:
            bound = sums.proved_bound(place, sums.context(place))
            if bound is not None:
                values[place] = bound
        else:
            below = certificate.children(place)[1 if node.kind is NodeKind.CUT else 0 :]
            if all(child in values for child in below):
                values[place] = _worse_bound(sums, place, [values[child] for child in below])
    return values


def _worse_bound(
    sums: LeafSums, place: int, bounds: List[Optional[Fraction]]
) -> Optional[Fraction]:
    """What holds of all points of a node by the bounds of its branches."""
    is_in_proof = any(
        above.kind is NodeKind.CUT and branch == 0
        for above, branch in sums.certificate.branches(place)
    )
    worse = max if is_in_proof or sums.target.maximise else min
    return worse((bound for bound in bounds if bound is not None), default=None)
