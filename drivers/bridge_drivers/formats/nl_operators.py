"""The operators of .nl expressions: their names, and how many operands follow each.

The numbers are those of Gay, "Writing .nl Files" (2005). Expressions are told in words by them
(`nl_expressions`), and binary files are read by them (`binary_nl`).
"""

from __future__ import annotations

from typing import Mapping, NamedTuple

COUNTED = -1  # operands: a count of them follows the operator
PIECEWISE_LINEAR = 64  # its operands are slopes and breakpoints, in a form of their own
SUM = 54


class Operator(NamedTuple):
    """An operator as it is written in words.

    Attributes:
        name: How it is called.
        operands: How many follow; COUNTED where their count does.
        is_infix: Whether its name stands between its two operands.
    """

    name: str
    operands: int = 1
    is_infix: bool = False


def _infix(name: str) -> Operator:
    """An operator of two operands that is written between them."""
    return Operator(name, 2, is_infix=True)


def _over_list(name: str) -> Operator:
    """An operator whose count of operands follows it in the file."""
    return Operator(name, COUNTED)


OPERATORS: Mapping[int, Operator] = {
    0: _infix("+"),
    1: _infix("-"),
    2: _infix("*"),
    3: _infix("/"),
    4: _infix("mod"),
    5: _infix("^"),
    6: Operator("less", 2),
    7: Operator("opcode 7", 2),
    8: Operator("opcode 8", 2),
    9: Operator("opcode 9", 2),
    10: Operator("opcode 10", 2),
    11: _over_list("min"),
    12: _over_list("max"),
    13: Operator("floor", 1),
    14: Operator("ceil", 1),
    15: Operator("abs", 1),
    16: Operator("-", 1),
    20: _infix("or"),
    21: _infix("and"),
    22: _infix("<"),
    23: _infix("<="),
    24: _infix("="),
    28: _infix(">="),
    29: _infix(">"),
    30: _infix("!="),
    34: Operator("not", 1),
    35: Operator("if", 3),
    37: Operator("tanh", 1),
    38: Operator("tan", 1),
    39: Operator("sqrt", 1),
    40: Operator("sinh", 1),
    41: Operator("sin", 1),
    42: Operator("log10", 1),
    43: Operator("log", 1),
    44: Operator("exp", 1),
    45: Operator("cosh", 1),
    46: Operator("cos", 1),
    47: Operator("atanh", 1),
    48: Operator("atan2", 2),
    49: Operator("atan", 1),
    50: Operator("asinh", 1),
    51: Operator("asin", 1),
    52: Operator("acosh", 1),
    53: Operator("acos", 1),
    54: _over_list("sum"),
    55: _infix("div"),
    56: Operator("precision", 2),
    57: Operator("round", 2),
    58: Operator("trunc", 2),
    59: _over_list("count"),
    60: _over_list("numberof"),
    61: _over_list("numberof"),
    62: Operator("atleast", 2),
    63: Operator("atmost", 2),
    64: Operator("piecewise", 1),
    65: Operator("if", 3),
    66: Operator("exactly", 2),
    67: Operator("!atleast", 2),
    68: Operator("!atmost", 2),
    69: Operator("!exactly", 2),
    70: _over_list("forall"),
    71: _over_list("exists"),
    72: Operator("implies", 3),
    73: _infix("iff"),
    74: _over_list("alldiff"),
    75: Operator("!alldiff", 2),
    76: _infix("^"),
    77: Operator("square", 1),
    78: _infix("^"),
}


def operator_of(opcode: int) -> Operator:
    """The operator of a number as it stands behind the o of a file.

    An unknown one is called by its number, and taken to have one operand.
    """
    return OPERATORS.get(opcode, Operator(f"opcode {opcode}"))
