"""The factors by which `bridge export` multiplies rows, and the whole form that takes them out.

A row is multiplied where the file divides. The exported text does not tell by what: the dual of a
row comes back from `bridge return` times its factor, so that duals of 1 come back as the factors.
`certification` takes them out before a search, `statistics` tells them.
"""

from __future__ import annotations

import os
import tempfile
from fractions import Fraction
from typing import Dict, Mapping, NamedTuple, Sequence

from ..system.files import write_new
from ..model.integer_form import IntegerProgram
from ..system.errors import UnsupportedModel
from ..model.linear_program import EPIGRAPH_ROW, LinearProgram
from ..formats.nl import read_header
from ..program.bridge import Bridge
from ..formats.sol import read_sol


DIVISION = b"3"  # the operator's number in an .nl text
LONGEST_OPCODE = 8  # bytes that are looked at behind `o`


class WholeForm(NamedTuple):
    """A program in whole numbers, with the factors of its rows.

    Attributes:
        program: The file's own rows, that is without the factors.
        factors: What `export` multiplied rows by, by the file's constraint, those that are not 1.
    """

    program: IntegerProgram
    factors: Dict[int, int]


def factors_of(bridge: Bridge, nl: str, rows: Sequence[str], objective: int = 0) -> Dict[str, str]:
    """What each exported row was multiplied by, as a decimal by the row's name.

    The proved program is asked only where the file divides: else no row is multiplied.

    Args:
        bridge: The proved program.
        nl: The path of the file, an .nl text.
        rows: The names of the exported rows: c and the number of the constraint.
        objective: The number of the objective that was exported, from 0.

    Raises:
        Refusal: The proved program does not take the duals back.
    """
    if not rows or not has_division(nl):
        return dict.fromkeys(rows, "1")
    answer = f"answer 1\nobjno {objective}\n" + "".join(f"row {r} 1\n" for r in rows)
    with tempfile.TemporaryDirectory(prefix="nl-bridge-") as folder:
        duals, _ = read_sol(
            bridge.return_(nl, write_new(os.path.join(folder, "ones.txt"), answer.encode()))
        )
    return {row: duals[int(row[1:])] for row in rows}


def has_division(nl: str) -> bool:
    """Whether an .nl text has a line `o3` (or `o03`), the operator of a division."""
    with open(nl, "rb") as file:
        text = file.read()
    place = text.find(b"\no")
    while place >= 0:
        opcode = text[place + 2 : place + 2 + LONGEST_OPCODE].split(None, 1)
        if opcode and opcode[0].lstrip(b"0") == DIVISION:
            return True
        place = text.find(b"\no", place + 1)
    return False


def whole_form(bridge: Bridge, nl: str, program: LinearProgram, objective: int = 0) -> WholeForm:
    """A file's program in whole numbers, for the search.

    Args:
        bridge: The proved program.
        nl: The path of the file as the proved program reads it.
        program: What was exported of it, or an MPS file's own program, which has no factors.
        objective: The number of the objective that was exported, from 0.

    Raises:
        UnsupportedModel: The search does not take it.
        Refusal: The proved program does not tell the factors.
    """
    names = [name for name in program.names.rows if name != EPIGRAPH_ROW]
    if not program.is_exported:
        return WholeForm(IntegerProgram.of(program, {}, len(names)), {})
    factors = whole_factors(factors_of(bridge, nl, names, objective))
    return WholeForm(IntegerProgram.of(program, factors, read_header(nl).constraints), factors)


def whole_factors(texts: Mapping[str, str]) -> Dict[int, int]:
    """By constraint, the factors that are above 1.

    Args:
        texts: By the row's exported name (`c3` of constraint 3), its factor as a decimal.

    Raises:
        UnsupportedModel: A factor is not whole, or below 0.
    """
    known = {text: Fraction(text) for text in set(texts.values())}  # most rows have the same one
    if any(factor.denominator != 1 or factor < 0 for factor in known.values()):
        raise UnsupportedModel("a row's factor is not whole")
    large = {text: int(factor) for text, factor in known.items() if factor > 1}
    return {int(row[1:]): large[text] for row, text in texts.items() if text in large}
