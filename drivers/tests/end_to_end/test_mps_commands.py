"""MPS files before `nl-bridge`, drivers and `bridge-certify`."""

from __future__ import annotations

import gzip
from typing import Sequence

import pytest

from builders.mps_models import MPS_MODELS
from running.workspace import Call, Workspace

FIXED = MPS_MODELS["fixed"].text.encode()

NL_BRIDGE = [
    Call("nl-bridge verify m.mps m.certificate", output="feasible -23/2\n"),
    Call("nl-bridge verify_mps m.mps m.certificate", output="feasible -23/2\n"),
    Call("nl-bridge verify_fixed m.mps m.certificate", output="feasible -23/2\n"),
    Call("nl-bridge verify m.mps.gz m.certificate", prints=["feasible -23/2\n"]),
    Call("nl-bridge verify m.mps m.high", 1, prints=["row 0 broken\n"]),
    Call(
        "nl-bridge verify m.mps m.second",
        2,
        prints=["nl-bridge: m.mps: objective 1: no such objective"],
    ),
    Call(
        "nl-bridge verify m.mps m.mps",
        2,
        prints=["line 1: bad first line (it does not begin with `certificate 1`)"],
    ),
    Call(
        "nl-bridge explain m.mps m.certificate",
        prints=[
            "m.certificate holds of m.mps: feasible -23/2\nclaim     a point "
            "has the objective -11.5\npoint     ONE 1, TWO 1; the others 0\n"
        ],
    ),
    Call(
        "nl-bridge explain m.mps.gz m.over",
        1,
        prints=[
            "fails     constraint 0 (CAP) is 23/2 at the point, and at most " "10: 1.5 too much"
        ],
    ),
    Call("nl-bridge explain m.mps", prints=["m.mps: is not refused\n"]),
    Call("nl-bridge explain m.blank", 2, prints=["  >      8     MY ONE    COST"]),
    Call(
        "nl-bridge stats m.mps.gz",
        prints=[
            "sense         minimise, constant 11/2\ncolumns       3: 0 "
            "continuous, 3 binary, 0 integer; 0 free, 0 fixed\n"
        ],
    ),
    Call("nl-bridge stats m.mps 1", 2),
    Call(
        "nl-bridge stats m.digits",
        prints=["not doubles   1 numbers: 0.1234567890123456789 (cap)\n"],
    ),
    Call("nl-bridge verify m.mps m.certificate json=1", prints=['"exact": "-23/2"']),
    Call("nl-bridge stats m.mps.gz json=1", prints=['"columns": 3']),
    Call("nl-bridge stats m.certificate json=1", 2, prints=['"status": 2']),
]


@pytest.mark.needs("mps")
@pytest.mark.parametrize("call", NL_BRIDGE, ids=str)
def test_nl_bridge(workspace: Workspace, call: Call) -> None:
    """MPS files, with certificates of a point that is within the rows, and of others."""
    workspace.write("m.mps", FIXED)
    workspace.write("m.mps.gz", gzip.compress(FIXED))
    workspace.write("m.certificate", "certificate 1\nfeasible 0\npoint 2\n0 1\n1 1\n")
    workspace.write("m.high", "certificate 1\nfeasible 0\npoint 2\n0 1\n1 3/2\n")
    workspace.write("m.over", "certificate 1\nfeasible 0\npoint 2\n0 1\n2 1\n")
    workspace.write("m.second", "certificate 1\nfeasible 1\npoint 0\n")
    workspace.write(
        "m.blank",
        FIXED.replace(b"    ONE       COST", b"    MY ONE    COST"),
    )
    workspace.write(
        "m.digits",
        MPS_MODELS["free_form"].text.encode().replace(b"cap 3", b"cap 0.1234567890123456789"),
    )
    workspace.check(call)


@pytest.mark.needs("mps", "solver")
@pytest.mark.parametrize(
    ("text", "told"),
    [
        (gzip.compress(FIXED)[:60], "m.mps: the packed file ends too soon or is damaged"),
        (
            FIXED.replace(b"    ONE       COST", b"    MY ONE    COST"),
            "names with blanks are not read",
        ),
    ],
    ids=["damaged", "blank-in-a-name"],
)
def test_files_that_a_driver_refuses(
    workspace: Workspace, first_driver: str, text: bytes, told: str
) -> None:
    """Before the first driver whose solver is there."""
    workspace.write("m.mps", text)
    workspace.check(Call(f"bridge-{first_driver} m.mps", 2, prints=[told]))


@pytest.mark.needs("mps", "solver")
@pytest.mark.parametrize(
    ("word", "status", "told"),
    [
        ("objno=2", 2, "objno=2: no such objective"),
        ("shortest=1", 3, "shortest=1 is for .nl files"),
        ("format=nl", 3, "format=nl: free or fixed is wanted"),
        ("-AMPL", 3, "a .sol is the answer to an .nl file: wantsol=2"),
        ("-s", 3, "a .sol is the answer to an .nl file: wantsol=2"),
    ],
)
def test_words_that_a_driver_refuses(
    workspace: Workspace, first_driver: str, word: str, status: int, told: str
) -> None:
    """What an MPS file does not go with; nothing is written."""
    workspace.write("m.mps", FIXED)
    workspace.check(Call(f"bridge-{first_driver} m.mps {word}", status, prints=[told]))
    assert workspace.names() == {"m.mps"}


WHOLE_BY_MARKERS = (
    "NAME t\nROWS\n N o\n E row\nCOLUMNS\n M 'MARKER' 'INTORG'\n col o 1 row 1\n"
    " M 'MARKER' 'INTEND'\nRHS\n row 1.5\nENDATA\n"
)
EMPTY_INTERVAL = (
    "NAME t\nROWS\n N o\n G r\nCOLUMNS\n x o 1 r 1\n low o 1\nBOUNDS\n LO B low 3\n UP B low 2\n"
    "ENDATA\n"
)
OTHER_FORM = (
    "it is read in free form; in fixed columns it is another program, which format=fixed reads"
)


@pytest.mark.needs("mps", "solver")
@pytest.mark.parametrize(
    ("text", "words", "told"),
    [
        (
            MPS_MODELS["cut_off"].text,
            "json=1",
            ['"code": 0', "optimal -23/2", OTHER_FORM],
        ),
        (MPS_MODELS["cut_off"].text, "json=1 format=fixed", ['"code": 0', "optimal -33/2"]),
        (WHOLE_BY_MARKERS, "wantsol=6 relax=1", ["variable 0 (col) is not whole"]),
        (EMPTY_INTERVAL, "json=1", ['"code": 200', "m.mps: column 1 (low): empty interval"]),
    ],
    ids=["free", "fixed", "relaxed", "empty-interval"],
)
def test_verdicts(
    workspace: Workspace, first_driver: str, text: str, words: str, told: Sequence[str]
) -> None:
    """What a driver says of a text that is another program in fixed columns, and of others."""
    workspace.write("m.mps", text)
    workspace.check(Call(f"bridge-{first_driver} m.mps {words}", prints=told))


@pytest.mark.needs("mps", "solver")
def test_certificates(workspace: Workspace, first_driver: str) -> None:
    """Certificates beside a model."""
    workspace.write("m.mps", MPS_MODELS["free_form"].text.encode())
    workspace.check(Call(f"bridge-certify m.mps driver={first_driver}", prints=["optimal -3/2\n"]))
    workspace.check(Call("nl-bridge verify m.mps m.certificate", output="optimal -3/2\n"))
    workspace.path("m.certificate").unlink()
    workspace.check(
        Call(
            f"bridge-{first_driver} m.mps json=1 overwrite=1 certificate=m.mps",
            5,
            prints=["the certificate is not kept:", "it is what this command reads"],
            lacks=["unpacks to"],
        )
    )
    workspace.path("m.mps").unlink()
    workspace.write("m.mps.gz", gzip.compress(MPS_MODELS["free_form"].text.encode()))
    workspace.check(
        Call(f"bridge-certify m.mps.gz driver={first_driver}", prints=["optimal -3/2\n"])
    )
    workspace.check(Call("nl-bridge verify m.mps.gz m.certificate", prints=["optimal -3/2\n"]))
    workspace.path("m.certificate").unlink()
    workspace.check(
        Call(
            f"bridge-{first_driver} m.mps.gz json=1 overwrite=1 certificate=m.mps.gz",
            5,
            prints=[
                "the certificate is not kept:",
                "it is what this command reads",
                "what is judged is the text that m.mps.gz unpacks to",
            ],
        )
    )
    workspace.path("m.mps.gz").unlink()
