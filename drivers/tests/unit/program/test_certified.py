"""The .sol texts that `bridge certified` writes, and texts that it never writes."""

from __future__ import annotations


import pytest

from bridge_drivers.program.calls import Reply
from bridge_drivers.program.certified import CODES, read_certified
from bridge_drivers.program.verdict import Claim, NoVerdict

LINES = {
    Claim.OPTIMAL: "optimal 17",
    Claim.WITHIN: "within 20 17",
    Claim.FEASIBLE: "feasible 17 of objective 2",
    Claim.BOUND: "bound 1/3",
    Claim.INFEASIBLE: "infeasible",
    Claim.UNBOUNDED: "unbounded",
}


def sol(line: str, code: int, end: str = "objno 0 {code}\n") -> bytes:
    """A text with this message and this code in its last line."""
    middle = "\n\nOptions\n3\n1\n1\n0\n1\n0\n2\n2\n1\n0\n"
    return (line + middle + end.format(code=code)).encode()


@pytest.mark.parametrize("claim", list(Claim), ids=[claim.value for claim in Claim])
def test_each_claim_has_its_code(claim: Claim) -> None:
    """The text is kept as it is; with any other code it is none."""
    text = sol(LINES[claim], CODES[claim])
    found = read_certified(Reply(0, text, ""))
    assert (found.text, found.statement.claim, found.code) == (text, claim, CODES[claim])
    for code in {0, 100, 200, 300, 450, 999} - {int(CODES[claim])}:
        with pytest.raises(NoVerdict):
            read_certified(Reply(0, sol(LINES[claim], code), ""))


@pytest.mark.parametrize(
    "status, text",
    [
        (1, b""),
        (0, b""),
        (1, sol("optimal 17", 0)),
        (0, sol("optimal 17\nand more", 0)),
        (0, sol("CBC 2.10.8: optimal solution", 0)),
        (0, sol("gap 17 18", 0)),
        (0, sol("optimal 17", 0, end="")),
        (0, sol("optimal 17", 0, end="objno 0 x\n")),
        (0, b"optimal 17\nOptions\n3\n1\n1\n0\n1\n0\n2\n0\nobjno 0 0\n"),
    ],
)
def test_what_is_no_such_text(status: int, text: bytes) -> None:
    """Then the program is not the proved one, or the certificate does not hold."""
    with pytest.raises(NoVerdict):
        read_certified(Reply(status, text, ""))


def test_codes_are_those_of_the_rule() -> None:
    """Every claim has one; a limit without a point is that of a bound alone."""
    assert {claim: int(code) for claim, code in CODES.items()} == {
        Claim.OPTIMAL: 0,
        Claim.WITHIN: 100,
        Claim.FEASIBLE: 100,
        Claim.BOUND: 450,
        Claim.INFEASIBLE: 200,
        Claim.UNBOUNDED: 300,
    }
