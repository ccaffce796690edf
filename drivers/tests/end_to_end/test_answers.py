"""What is told of an answer that is wrong, rounded, or not understood, over stored runs."""

from __future__ import annotations


import pytest

from builders.small_models import MODELS
from running.places import DATA
from running.workspace import Call, Reply, SolContent, Workspace

WRONG_ANSWERS = [
    Call(
        "bridge-lp_solve m -AMPL",
        without=("clp", "fractions"),
        answer={"x0 4": "x0 3"},
        stored="diet",
        sol=SolContent(
            code=100,
            last_line="bound 0",
            lines=[
                "its point misses constraint 1 (second) by 0.23 of the largest term",
                "bridge check of the .sol: constraint 0 (first) is broken; no row "
                "or bound is missed by more than 0.23 of its largest term",
            ],
        ),
    ),
    Call(
        "bridge-lp_solve m -AMPL",
        without=("clp", "fractions"),
        answer={"x1 0.8": "x1 101"},
        stored="diet",
        sol=SolContent(
            code=100,
            last_line="bound 0",
            lines=[
                "its point misses variable 1 (beta) by 0.0099 of the largest term",
                "bridge check of the .sol: a bound of variable 1 (beta) is broken; "
                "no row or bound is missed by more than 0.0099 of its largest term",
            ],
        ),
    ),
    Call(
        "bridge-lp_solve m -AMPL",
        without=("clp", "fractions"),
        answer={"c0 0.3": "c0 0.2"},
        stored="diet",
        sol=SolContent(
            code=100,
            last_line="within 0 22/5",
            lines=["bridge check of the .sol: gap: feasible, objective 4.4; the duals show 4"],
        ),
    ),
    Call(
        "bridge-lp_solve m -AMPL",
        without=("clp", "fractions"),
        answer={"c0 0.3": "c0 -0.3"},
        stored="diet",
        sol=SolContent(
            code=100,
            last_line="within 0 22/5",
            lines=[
                "bridge check of the .sol: the dual of constraint 0 (first) has " "the wrong sign"
            ],
        ),
    ),
]


@pytest.mark.needs("program")
@pytest.mark.parametrize("call", WRONG_ANSWERS, ids=str)
def test_wrong_answers(workspace: Workspace, call: Call) -> None:
    """An answer that is changed in one place, without a search: what it misses is told."""
    workspace.write("m.row", "first\nsecond\ncost\n")
    workspace.write("m.col", "alpha\nbeta\n")
    workspace.write_model(call.stored)
    workspace.check(call)


REPAIRED_ANSWERS = [
    Call(
        "bridge-lp_solve m -AMPL",
        answer={"x0 4": "x0 3"},
        stored="diet",
        sol=SolContent(
            code=0,
            last_line="optimal 22/5",
            duals=[0.3, 0.5],
            matches=["another point was found; objective ", "\nbridge check of the .sol: yes"],
        ),
    ),
    Call(
        "bridge-lp_solve m -AMPL",
        answer={"c0 0.3": "c0 0.2"},
        stored="diet",
        sol=SolContent(
            code=0,
            last_line="optimal 22/5",
            duals=[0.3, 0.5],
            matches=["\nbridge check of the .sol: yes"],
            lacks=["point was found; objective"],
        ),
    ),
    Call(
        "bridge-lp_solve m -AMPL prove=1",
        answer={"x1 1": "x1 0"},
        stored="knap",
        sol=SolContent(
            code=0,
            last_line="optimal 17",
            duals=[],
            matches=[
                "a better point was found; objective ",
                "\nbridge check of the .sol: feasible",
            ],
        ),
    ),
]


@pytest.mark.needs("program", "clp_library")
@pytest.mark.parametrize("call", REPAIRED_ANSWERS, ids=str)
def test_repaired_answers(workspace: Workspace, call: Call) -> None:
    """A search finds the point and its duals; what the solver said stays in the message."""
    workspace.write_model(call.stored)
    workspace.check(call)


BROKEN_WHOLE_VALUES = [
    Call(
        "bridge-lp_solve m -AMPL",
        without=("clp",),
        answer={"x0 1": "x0 1", "x1 1": "x1 1", "x2 0": "x2 1"},
        stored="knap",
        sol=SolContent(
            code=100,
            last_line="not proved: no exact point has the answer's whole variables",
            matches=["its point misses constraint 0 by 0.55 of the largest term"],
        ),
    ),
    Call(
        "bridge-lp_solve m -AMPL",
        without=("clp",),
        answer={"x0 1": "x0 0.25", "x1 1": "x1 0", "x2 0": "x2 0"},
        stored="knap",
        sol=SolContent(
            code=100,
            last_line="not proved: no exact point has the answer's whole variables",
            matches=["1 integer variables are not within 1e-05 of a whole number"],
        ),
    ),
]


@pytest.mark.needs("program")
@pytest.mark.parametrize("call", BROKEN_WHOLE_VALUES, ids=str)
def test_broken_whole_values(workspace: Workspace, call: Call) -> None:
    """Whole values that break a row, or are not whole, without a search."""
    workspace.write_model(call.stored)
    workspace.check(call)


FRACTIONS = [
    Call(
        "bridge-esolver m -AMPL",
        stored="thirds",
        sol=SolContent(
            last_line="optimal 1/3",
            matches=[
                "\n\\d+ exact values have no decimal of at most 38",
                "bridge check of the .sol: the reduced cost of .*; the exact "
                "values and duals are rounded to decimals in it\n",
            ],
        ),
    ),
    Call(
        "bridge-esolver m -AMPL",
        answer={
            "(?s)^status.*": "status OPTIMAL\n\tValue = 0\nVARS:\nx0 = 10/3\nREDUCED COST:\nPI:\nSLACK:"
        },
        stored="no_objective",
        sol=SolContent(last_line="optimal 0", values=[3.3333333333333335, 0.0]),
    ),
]


@pytest.mark.needs("program")
@pytest.mark.parametrize("call", FRACTIONS, ids=str)
def test_fractions(workspace: Workspace, call: Call) -> None:
    """Fractions are written as the nearest decimals."""
    workspace.write_model(call.stored)
    workspace.check(call)


LINES_OF_CHECK = [
    Call(
        "bridge-cbc m -AMPL",
        bridge_says={"check": Reply(0, "yes 19/2")},
        stored="product",
        sol=SolContent(
            lines=["bridge check of the .sol: yes: values and duals show the optimum 9.5"]
        ),
    ),
    Call(
        "bridge-cbc m -AMPL",
        bridge_says={"check": Reply(1, "gap 9 17/2")},
        stored="product",
        sol=SolContent(
            lines=["bridge check of the .sol: gap: feasible, objective 9; the duals show 8.5"]
        ),
    ),
    Call(
        "bridge-cbc m -AMPL",
        bridge_says={"check": Reply(1, "row 1 has no side")},
        stored="product",
        sol=SolContent(
            lines=["bridge check of the .sol: the dual of constraint 1 has the wrong sign"]
        ),
    ),
    Call(
        "bridge-cbc m -AMPL",
        bridge_says={"check": Reply(1, "bound 1 has no side")},
        stored="product",
        sol=SolContent(
            lines=[
                "bridge check of the .sol: the reduced cost of variable 1 has no "
                "bound to rest on"
            ]
        ),
    ),
    Call(
        "bridge-cbc m -AMPL",
        bridge_says={"check": Reply(1, "bound 1 broken")},
        stored="product",
        sol=SolContent(
            lines=[
                "bridge check of the .sol: no row or bound is missed by more than "
                "1e-15 of its largest term, which is rounding"
            ]
        ),
    ),
    Call(
        "bridge-cbc m -AMPL",
        bridge_says={"check": Reply(1, "too wide at row 1")},
        stored="product",
        sol=SolContent(
            lines=[
                "bridge check of the .sol: exact values do not fit 128 bits (too " "wide at row 1)"
            ]
        ),
    ),
    Call(
        "bridge-cbc m -AMPL",
        bridge_says={"check": Reply(1, "too wide at cost 1")},
        stored="product",
        sol=SolContent(
            lines=[
                "bridge check of the .sol: exact values do not fit 128 bits (too " "wide at cost 1)"
            ]
        ),
    ),
    Call(
        "bridge-cbc m -AMPL",
        bridge_says={"check": Reply(1, "too wide at total")},
        stored="product",
        sol=SolContent(
            lines=[
                "bridge check of the .sol: exact values do not fit 128 bits (too " "wide at total)"
            ]
        ),
    ),
]


@pytest.mark.needs("program")
@pytest.mark.parametrize("call", LINES_OF_CHECK, ids=str)
def test_lines_of_check(workspace: Workspace, call: Call) -> None:
    """What the line before the last makes of each line of `bridge check`."""
    workspace.write_model(call.stored)
    workspace.check(call)


BRIDGE_LACKS = [
    Call(
        "bridge-cbc m -AMPL",
        bridge_says={"verify": Reply(3, "bad words")},
        stored="product",
        sol=SolContent(
            last_line="not proved: this bridge does not know the command `verify` (bad words)"
        ),
    ),
    Call(
        "bridge-cbc m -AMPL",
        bridge_says={"check": Reply(3, "bad words")},
        stored="product",
        sol=SolContent(last_line="optimal 19"),
    ),
    Call(
        "bridge-cbc m -AMPL",
        bridge_says={"return": Reply(3, "bad words")},
        stored="product",
        sol=SolContent(
            code=507, matches=["return: this bridge does not know the command `return`"]
        ),
    ),
    Call(
        "bridge-cbc m -AMPL",
        bridge_says={"verify": Reply(1, "leaf 0 gap 20")},
        stored="product",
        sol=SolContent(last_line="not proved: bridge verify says `leaf 0 gap 20`"),
    ),
]


@pytest.mark.needs("program")
@pytest.mark.parametrize("call", BRIDGE_LACKS, ids=str)
def test_bridge_lacks(workspace: Workspace, call: Call) -> None:
    """A `bridge` that lacks a command, refuses, or accepts no certificate."""
    workspace.write_model(call.stored)
    workspace.check(call)


RELAXATION = [
    Call(
        "bridge-esolver m -AMPL relax=1",
        answer={
            "(?s)^NAME.*": "NAME nl\nENDATA",
            "(?s)^status.*": "status OPTIMAL\n\tValue = 250/13\nVARS:\nx0 = 1\nx2 = 10/13\nREDUCED "
            "COST:\nPI:\nc0 = 24/13\nSLACK:",
        },
        stored="diet",
        sol=SolContent(matches=["^.*objective 250/13 \\(integer variables relaxed\\)"]),
    ),
]


@pytest.mark.needs("program")
@pytest.mark.parametrize("call", RELAXATION, ids=str)
def test_relaxation(workspace: Workspace, call: Call) -> None:
    """What a relaxed model's duals show."""
    workspace.write("m.nl", MODELS["knap"].text)
    workspace.check(call)


BOUNDS = [
    Call(
        "bridge-esolver m -AMPL relax=1",
        answer={
            "(?s)^NAME.*": "NAME nl\nENDATA",
            "(?s)^status.*": "status OPTIMAL\n\tValue = 250/13\nVARS:\nx0 = 1\nx2 = 10/13\nREDUCED "
            "COST:\nPI:\nc0 = 24/13\nSLACK:",
        },
        stored="diet",
        sol=SolContent(matches=["\nbound \\S+$"]),
    ),
    Call(
        "bridge-esolver m -AMPL relax=1",
        answer={
            "(?s)^NAME.*": "NAME nl\nENDATA",
            "(?s)^status.*": "status OPTIMAL\n\tValue = 250/13\nVARS:\nx0 = 1\nx2 = 10/13\nREDUCED "
            "COST:\nPI:\nc0 = -24/13\nSLACK:",
        },
        stored="diet",
        sol=SolContent(duals=[1.8461538461538463], matches=["\nbound \\S+$"]),
    ),
    Call(
        "bridge-cbc m -AMPL bound=1",
        stored="knap",
        sol=SolContent(matches=["\n(within 19|optimal) 17$"]),
    ),
]


@pytest.mark.needs("program", "clp_library")
@pytest.mark.parametrize("call", BOUNDS, ids=str)
def test_bounds(workspace: Workspace, call: Call) -> None:
    """Bounds of relaxed models, also where the duals show none."""
    workspace.write("m.nl", MODELS["knap"].text)
    workspace.check(call)


WITHOUT_A_SEARCH = [
    Call(
        "bridge-cbc m -AMPL",
        without=("clp",),
        stored="infeasible",
        sol=SolContent(last_line="infeasible"),
    ),
    Call(
        "bridge-cbc m -AMPL",
        without=("clp",),
        stored="whole_infeasible",
        sol=SolContent(last_line="infeasible"),
    ),
    Call(
        "bridge-cbc m -AMPL",
        without=("clp",),
        stored="product",
        sol=SolContent(last_line="optimal 19"),
    ),
    Call(
        "bridge-cbc m -AMPL",
        without=("clp",),
        stored="knap",
        sol=SolContent(last_line="feasible 17"),
    ),
    Call(
        "bridge-cbc m -AMPL",
        without=("clp",),
        stored="mixed",
        sol=SolContent(last_line="feasible 173/4"),
    ),
    Call(
        "bridge-cbc m -AMPL prove=1",
        without=("clp",),
        stored="knap",
        sol=SolContent(
            last_line="not proved: there was no search; without it: feasible 17",
            lines=[
                "prove=1 needs the library of CLP, which is not there (Debian: apt "
                "install coinor-libclp1)"
            ],
        ),
    ),
    Call(
        "bridge-cbc m -AMPL prove=1",
        without=("clp",),
        stored="infeasible",
        sol=SolContent(last_line="infeasible", lacks=["prove=1 needs"]),
    ),
    Call(
        "bridge-cbc m -AMPL prove=1",
        without=("clp",),
        stored="product",
        sol=SolContent(last_line="optimal 19", lacks=["prove=1 needs"]),
    ),
]


@pytest.mark.needs("program")
@pytest.mark.parametrize("call", WITHOUT_A_SEARCH, ids=str)
def test_without_a_search(workspace: Workspace, call: Call) -> None:
    """What a solver's own answer gives."""
    workspace.write_model(call.stored)
    workspace.check(call)


@pytest.mark.needs("program")
def test_spelling_of_numbers(workspace: Workspace) -> None:
    """Numbers in their shortest spelling, and a binary file."""
    workspace.write(
        "m.nl",
        MODELS["diet"]
        .text.replace(b"0.9", b"0.90000000000000002")
        .replace(b"6.4", b"6.4000000000000004"),
    )
    workspace.check(
        Call(
            "bridge-cbc m -AMPL",
            stored="diet",
            sol=SolContent(matches=["\noptimal \\d{17,}/\\d+$"]),
        )
    )
    workspace.check(
        Call(
            "bridge-cbc m -AMPL shortest=1",
            stored="diet",
            sol=SolContent(
                last_line="optimal 22/5",
                matches=["2 numbers of the .nl file were read in their shortest spelling"],
            ),
        )
    )
    workspace.write("m.nl", (DATA / "binary/mixed.bin.nl").read_bytes())
    workspace.check(
        Call(
            "bridge-cbc m -AMPL",
            stored="mixed",
            sol=SolContent(
                lines=["the binary .nl file was turned into text, which is not proved"],
                matches=["\n(feasible|optimal) 173/4$"],
            ),
        )
    )


UNFIT = [
    Call("bridge-cbc m -AMPL", answer={".{12}$": ""}, stored="diet", sol=SolContent(code=506)),
    Call(
        "bridge-glpsol m -AMPL",
        answer={"j 1 b 4": "j 9 b 4"},
        stored="diet",
        sol=SolContent(code=506),
    ),
    Call("bridge-esolver m -AMPL", answer={"4/5": "4/0"}, stored="diet", sol=SolContent(code=506)),
]


@pytest.mark.needs("program")
@pytest.mark.parametrize("call", UNFIT, ids=str)
def test_unfit(workspace: Workspace, call: Call) -> None:
    """Answers with values that are missing, of another model, or no numbers."""
    workspace.write_model(call.stored)
    workspace.check(call)
