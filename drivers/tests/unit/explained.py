"""Small programs and certificates of them, and what is told of these, for the tests of pages."""

from __future__ import annotations

from typing import Mapping, Sequence

from bridge_drivers.exact.certificate import Certificate, read_certificate
from bridge_drivers.formats.names import NameLists
from bridge_drivers.model.integer_form import IntegerProgram
from bridge_drivers.pages.explanation import ExplainedFile, Explanation
from bridge_drivers.program.calls import Reply
from bridge_drivers.program.verdict import NOT_PROVED, Verdict
from programs import Column, Row, program


def binary(cost: float) -> Column:
    return Column(0, 1, is_integer=True, cost=cost)


PROGRAMS: Mapping[str, IntegerProgram] = {
    "knap": program(
        [binary(10), binary(7), binary(12)], [Row(None, 10, {0: 5, 1: 4, 2: "6.5"})], "max"
    ),
    "parity": program(
        [Column(None, None, is_integer=True)] * 3, [Row(500, 500, {0: 12, 1: 21, 2: 33})]
    ),
    "flow": program(
        [Column(0, 7, cost=1), binary(0)], [Row(None, 0, {0: 1, 1: -10})], "max"
    ),  # y at most 10 x
    "endless": program(
        [Column(0, None, cost=1), Column(0, None, is_integer=True, cost=1)],
        [Row(None, 2, {0: 1, 1: -1})],
        "max",
    ),
    "wide": program([binary(cost) for cost in range(1, 10)], [], "max"),
    "small": program([Column(cost=1), Column()], [Row(None, 2, {0: 3, 1: 5})], "max"),
}
KNAP = (
    "optimal 0 / point 2 / 0 1 / 1 1 / split 2 0 / duals 0 / split 0 0 / split 1 0 / duals 0 / "
    "weights 1 / 0 -1 / weights 1 / 0 -1"
)  # over `knap`, with the objective 17


def full_tree(depth: int, claim: str) -> str:
    """A certificate that splits so many columns, all of them, with leaves without numbers."""
    lines = ["duals 0"]
    for level in reversed(range(depth)):
        lines = [f"split {level} 0", *lines, *lines]
    return " / ".join([claim, *lines])


def certificate(words: str) -> Certificate:
    """Its lines behind the first, with ` / ` between."""
    return read_certificate(["certificate 1", *words.split(" / ")])


def verdict(line: str) -> Verdict:
    """As the proved program answers this line."""
    status = 1 if NOT_PROVED.fullmatch(line) else 0
    return Verdict(Reply(status, f"{line}\n".encode(), ""))


def explanation(
    model: str, words: str, line: str, columns: Sequence[str] = (), *, is_exact: bool = True
) -> Explanation:
    """What is told of a certificate.

    Args:
        model: The name of a program.
        words: The certificate.
        line: Of the verdict.
        columns: Names of variables.
        is_exact: Whether the program can be read in exact numbers.
    """
    found = PROGRAMS[model]
    return Explanation(
        certificate=certificate(words),
        verdict=verdict(line),
        names=NameLists.of([], columns, found.m),
        constraints=found.m,
        program=found if is_exact else None,
        note="" if is_exact else "without bounds: a reason",
        model_file=ExplainedFile("folder/m.nl", "1" * 64),
        certificate_file=ExplainedFile("folder/m.certificate", "2" * 64),
    )
