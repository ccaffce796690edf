"""Certificates in words: what they say where they hold, and where they fail."""

from __future__ import annotations

import shutil
from typing import NamedTuple, Sequence

import pytest

from builders.nl_text import BINARY, most, nl_text, real, row, whole
from running.places import EXAMPLES
from running.workspace import Workspace


class ExplainedCase(NamedTuple):
    """A certificate, and what is told of it.

    Attributes:
        model: its name in MODELS.
        columns: the names of its variables, in a file beside it; without them they have none.
        certificate: its lines.
        status: of `nl-bridge explain`.
        lines: that are told, in their order.
    """

    model: str
    columns: Sequence[str]
    certificate: Sequence[str]
    status: int
    lines: Sequence[str]


KNAP_CERTIFICATE = (EXAMPLES / "knap.certificate").read_text(encoding="ascii").split("\n")[:-1]
MODELS = {
    "knap": (EXAMPLES / "knap.nl").read_bytes(),
    # 12 a + 21 b + 33 c = 500
    "parity": nl_text([whole(None)] * 3, [row(500, 500, 12, 21, 33)], []),
    # max y, y at most 10 x and 7
    "flow": nl_text([real(0, 7), BINARY], [row(None, 0, 1, -10)], [most(1)]),
    # max x + y, x - y at most 2
    "endless": nl_text([real(), whole()], [row(None, 2, 1, -1)], [most(1, 1)]),
    "wide": nl_text([BINARY] * 9, [], [most(1, 2, 3, 4, 5, 6, 7, 8, 9)]),
    "small": nl_text([real()] * 2, [row(None, 2, 3, 5)], [most(1)]),
}

CASES = [
    ExplainedCase(
        "knap",
        ["a", "b", "z"],
        KNAP_CERTIFICATE,
        0,
        [
            "m.certificate holds of m.nl: optimal 17",
            "claim     a point has the objective 17, and none is better",
            "point     a 1, b 1; the others 0",
            "tree      7 nodes: 3 splits, 0 planes, 0 lemmas, 4 leaves (2 by " "weights); depth 3",
            "uses      constraint 0 in 2 of 4 leaves",
        ],
    ),
    ExplainedCase(
        "parity",
        ["a", "b", "c"],
        [
            "certificate 1",
            "infeasible",
            "plane 3 166",
            "0 4",
            "1 7",
            "2 11",
            "weights 2",
            "0 1/3",
            "1 -1",
            "weights 2",
            "0 -1/3",
            "1 1",
        ],
        0,
        [
            "m.certificate holds of m.nl: infeasible",
            "tree      3 nodes: 0 splits, 1 plane, 0 lemmas, 2 leaves (2 by " "weights); depth 1",
            "uses      planes and lemmas 2 times",
        ],
    ),
    ExplainedCase(
        "flow",
        ["y", "x"],
        [
            "certificate 1",
            "bound 0 7",
            "lemma 2 0",
            "0 1",
            "1 -7",
            "split 1 0",
            "duals 1",
            "0 1",
            "duals 0",
            "duals 1",
            "1 1",
        ],
        0,
        ["m.certificate holds of m.nl: bound 7"],
    ),
    ExplainedCase(
        "endless",
        [],
        ["certificate 1", "unbounded 0", "point 0", "ray 2", "0 1", "1 1"],
        0,
        [
            "claim     the objective goes above every number",
            "point     all 0",
            "ray       x0 1, x1 1",
        ],
    ),
    ExplainedCase(
        "knap",
        ["a", "b", "z"],
        [
            "certificate 1",
            "bound 0 16",
            "split 2 0",
            "duals 0",
            "split 0 0",
            "split 1 0",
            "duals 0",
            "weights 1",
            "0 -1",
            "weights 1",
            "0 -1",
        ],
        1,
        [
            "m.certificate does not hold of m.nl: leaf 0 gap 17",
            "claim     it claims: no point has more than 16",
            "fails     leaf 0 (line 4): its duals show that no point of this "
            "part is better than 17, and the claim needs 16: 1 (6.25 %) too "
            "high",
            "path      1. z at most 0 (line 3)",
        ],
    ),
    ExplainedCase(
        "parity",
        ["a", "b", "c"],
        [
            "certificate 1",
            "infeasible",
            "plane 3 166",
            "0 4",
            "1 7",
            "2 11",
            "weights 2",
            "0 1/3",
            "1 -2",
            "weights 2",
            "0 -1/3",
            "1 1",
        ],
        1,
        [
            "fails     leaf 0 (line 7): the numbers leave variable 0 (a) the "
            "cost 4, which asks for its lower bound, and there is none",
            "path      1. 4 a + 7 b + 11 c at most 166 (plane) (line 3)",
        ],
    ),
    ExplainedCase(
        "parity",
        ["a", "b", "c"],
        [
            "certificate 1",
            "infeasible",
            "plane 3 167",
            "0 4",
            "1 7",
            "2 11",
            "weights 2",
            "0 1/3",
            "1 -1",
            "weights 2",
            "0 -1/3",
            "1 1",
        ],
        1,
        [
            "fails     leaf 0 (line 7): its weights show -1/3, and contradict "
            "each other only above 0: about 0.3333333333 too little"
        ],
    ),
    ExplainedCase(
        "flow",
        ["y", "x"],
        [
            "certificate 1",
            "bound 0 7",
            "lemma 2 -1",
            "0 1",
            "1 -7",
            "split 1 0",
            "duals 1",
            "0 1",
            "duals 0",
            "duals 1",
            "1 1",
        ],
        1,
        [
            "fails     leaf 0 (line 7): its duals show that no point of this "
            "part is better than 0, and the lemma of line 3 needs -1: 1 "
            "(100.00 %) too high",
            "path      1. in the proof of the lemma: y - 7 x at most -1 (line 3)",
            "path      2. x at most 0 (line 6)",
        ],
    ),
    ExplainedCase(
        "small",
        [],
        [
            "certificate 1",
            "feasible 0",
            "point 2",
            "0 1e-36",
            "1 1000000000000000000000000000000000000",
        ],
        1,
        [
            "fails     a sum of constraint 0 at the point, or a side of it, "
            "passes 128 bits: numbers with fewer digits are wanted"
        ],
    ),
    ExplainedCase(
        "endless",
        [],
        ["certificate 1", "unbounded 0", "point 0", "ray 1", "0 1"],
        1,
        ["fails     constraint 0 changes by 1 along the ray, past a side " "that it has"],
    ),
    ExplainedCase(
        "endless",
        [],
        ["certificate 1", "feasible 0", "point 1", "0 3"],
        1,
        ["fails     constraint 0 is 3 at the point, and at most 2: 1 too much"],
    ),
    ExplainedCase(
        "endless",
        [],
        ["certificate 1", "feasible 0", "point 1", "0 -.5"],
        1,
        ["fails     variable 0 is -1/2 at the point, and at least 0: 0.5 " "too little"],
    ),
    ExplainedCase(
        "endless",
        [],
        ["certificate 1", "feasible 0", "point 1", "1 .25"],
        1,
        ["fails     variable 1 is 1/4 at the point, 0.25 from a whole number"],
    ),
    ExplainedCase(
        "endless",
        [],
        ["certificate 1", "unbounded 0", "point 0", "ray 0"],
        1,
        ["fails     along the ray the objective changes by 0, which is no better"],
    ),
    ExplainedCase(
        "endless",
        [],
        ["certificate 1", "feasible 0", "point 1", "7 1"],
        2,
        ["m.certificate line 4: index out of range", ">      4 7 1"],
    ),
    ExplainedCase(
        "endless",
        [],
        ["letters"],
        2,
        ["m.certificate line 1: bad first line (it does not begin with " "`certificate 1`)"],
    ),
]


def write_case(workspace: Workspace, model: str, certificate: Sequence[str]) -> None:
    """Writes a model and a certificate beside it."""
    workspace.write("m.nl", MODELS[model])
    workspace.write("m.certificate", "\n".join([*certificate, ""]))


@pytest.mark.needs("program")
@pytest.mark.parametrize("case", CASES, ids=lambda case: f"{case.model}-{case.lines[0][:50]}")
def test_lines(workspace: Workspace, case: ExplainedCase) -> None:
    """What is told of a certificate."""
    write_case(workspace, case.model, case.certificate)
    if case.columns:
        workspace.write("m.col", "\n".join([*case.columns, ""]))
    ended = workspace.run("nl-bridge", "explain", "m", "m.certificate", "json=1")
    told = workspace.report(ended, "nl-bridge")
    more = told["refusal"]["more"] if "refusal" in told else []
    lines = "\n".join([*told["lines"], *more]).split("\n")
    assert ended.status == case.status
    assert [line for line in lines if line in case.lines] == list(case.lines), lines


def full_tree(depth: int) -> Sequence[str]:
    """All splits of so many columns, with leaves without numbers."""
    lines = ["duals 0"]
    for level in reversed(range(depth)):
        lines = [f"split {level} 0", *lines, *lines]
    return lines


# What a browser tells of a page: whether it is as wide as the window, how many sums are not cut
# off, how many boxes the tree has, whether that of the leaf that fails is seen, and the width.
PROBE = (
    "<script>document.title = [document.documentElement.scrollWidth <= innerWidth, "
    "[...document.querySelectorAll('pre')]"
    ".filter(it => it.scrollWidth <= it.clientWidth).length, "
    "document.querySelectorAll('svg rect').length, "
    "document.querySelector('.fails rect').getBoundingClientRect().width > 100, "
    "innerWidth].join(' ')</script></body>"
)
BROWSER = shutil.which("chromium") or shutil.which("google-chrome") or "chromium"


@pytest.mark.needs("program", BROWSER)
@pytest.mark.parametrize("width", [1280, 500])
def test_page_in_a_browser(workspace: Workspace, width: int) -> None:
    """Nothing but the tree is wider than the page, no sum is cut off, and the tree is drawn."""
    write_case(workspace, "wide", ["certificate 1", "bound 0 40", *full_tree(9)])
    workspace.run("nl-bridge", "explain", "m", "m.certificate", "--html", "m.html")
    page = workspace.read("m.html").decode()
    workspace.write("m.html", page.replace("</body>", PROBE))
    ended = workspace.run_process(
        [
            BROWSER,
            "--headless=new",
            "--no-sandbox",
            "--disable-gpu",
            f"--window-size={width},900",
            f"--user-data-dir={workspace.path('profile')}",
            "--dump-dom",
            f"file://{workspace.path('m.html')}",
        ]
    )
    boxes, sums = page.count("<rect "), page.count("<pre ")
    assert sums > 1
    assert f"<title>true {sums} {boxes} true {width}</title>" in ended.out, ended.err
