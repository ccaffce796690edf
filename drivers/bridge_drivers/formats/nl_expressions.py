"""An expression of an .nl file in words, such as `((5 * x1) + >>(x0 * x1)<<)`, for refusals.

An expression stands in prefix form, a node a line. It may be a million operators deep, so nothing
recurses; and what is made of it is kept short: of long sums the first terms, of deep expressions
the part around the node that is marked as the fault.
"""

from __future__ import annotations

from typing import Iterable, List, NamedTuple, Optional

from .names import NameLists, comment_of
from .nl_operators import COUNTED, PIECEWISE_LINEAR, SUM, operator_of
from .numbers import read_whole

MARK_OPENS, MARK_CLOSES = ">>", "<<"  # about the fault
LEFT_OUT = ".."
LONGEST_PHRASE = 40  # characters of a part that is not the fault
LONGEST_MARKED = 160
KEPT_OF_START, KEPT_OF_END = LONGEST_PHRASE - 12, 8
KEPT_AROUND_MARK = 40
MOST_OPERANDS = 6
LONGEST_NUMBER = 9  # digits of a count or index


class _Phrase(NamedTuple):
    """The words of a part of an expression, and whether the mark of the fault is in them."""

    text: str
    is_marked: bool = False

    def shortened(self) -> str:
        """The text, cut so that it can stand in a line; `..` stands for what is left out.

        A phrase with the mark keeps it, with KEPT_AROUND_MARK characters on each side, where it is
        longer than LONGEST_MARKED; another one keeps its start and end, where it is longer than
        LONGEST_PHRASE.
        """
        text = self.text
        if self.is_marked:
            if len(text) <= LONGEST_MARKED:
                return text
            start = max(0, text.index(MARK_OPENS) - KEPT_AROUND_MARK)
            end = text.index(MARK_CLOSES) + len(MARK_CLOSES) + KEPT_AROUND_MARK
            return f"{LEFT_OUT} {text[start:end]} {LEFT_OUT}"
        if len(text) <= LONGEST_PHRASE:
            return text
        return f"{text[:KEPT_OF_START]} {LEFT_OUT} {text[-KEPT_OF_END:]}"


class _Node:
    """A node whose operands are being collected.

    Attributes:
        text: The leaf, or the name of the operator.
        missing: How many operands are to come; COUNTED where their count stands on the next line.
        opcode: None where it is no operator.
        has_arguments: Whether its operands follow its name in parentheses, if nothing else is said.
        is_fault: Whether it is the node that is marked.
        operands: Those that are kept, in their order.
        leaves_out: Whether an operand was not kept.
    """

    def __init__(
        self,
        text: str,
        missing: int = 0,
        *,
        opcode: Optional[int] = None,
        has_arguments: bool = False,
    ) -> None:
        """A node without operands; the arguments are the attributes of the class."""
        self.text = text
        self.missing = missing
        self.opcode = opcode
        self.has_arguments = has_arguments
        self.is_fault = False
        self.operands: List[_Phrase] = []
        self.leaves_out = False

    def take(self, operand: _Phrase) -> None:
        """Takes the next operand; it is kept among the first MOST_OPERANDS, or if it is marked."""
        self.missing -= 1
        if len(self.operands) < MOST_OPERANDS or operand.is_marked:
            self.operands.append(operand)
        else:
            self.leaves_out = True

    def phrase(self) -> _Phrase:
        """The node in words with the operands that it has so far, marked where it is the fault."""
        texts = [operand.shortened() for operand in self.operands]
        if self.leaves_out:
            texts.append(LEFT_OUT)
        text = self._with_operands(texts)
        if self.is_fault:
            return _Phrase(MARK_OPENS + _Phrase(text).shortened() + MARK_CLOSES, is_marked=True)
        return _Phrase(text, any(operand.is_marked for operand in self.operands))

    def _with_operands(self, texts: List[str]) -> str:
        """The name with its operands: `(a + b)`, `(a <= b)`, `max(a, b)`; a leaf alone.

        An infix operator that has not two operands yet is written as a function.
        """
        is_infix = self.opcode is not None and operator_of(self.opcode).is_infix
        if self.opcode == SUM and texts:
            return f"({' + '.join(texts)})"
        if is_infix and len(texts) == 2:
            return f"({texts[0]} {self.text} {texts[1]})"
        return f"{self.text}({', '.join(texts)})" if self.has_arguments else self.text


def expression_in_words(lines: Iterable[bytes], names: NameLists, mark: int = -1) -> str:
    """The expression that begins on the first of the lines, in words.

    Args:
        lines: Of the .nl text; those behind the end of the expression are not read.
        names: Those of variables.
        mark: The line, from 0, whose node is the fault; -1 for none.

    Returns:
        "" where the first line is no node. Where the lines end too soon, or one is no node, the
            expression as far as it goes, with `..` where it is cut.
    """
    open_nodes: List[_Node] = []
    numbered = enumerate(lines)
    for number, line in numbered:
        node = _node_of(line, names)
        if node is None:
            break
        node.is_fault = number == mark
        if node.missing == COUNTED:
            _, next_line = next(numbered, (0, b""))
            node.missing = _number_in(_content(next_line).split())
        open_nodes.append(node)
        while open_nodes[-1].missing == 0:
            phrase = open_nodes.pop().phrase()
            if not open_nodes:
                return phrase.shortened()
            open_nodes[-1].take(phrase)
    return _cut_off(open_nodes)


def _cut_off(open_nodes: List[_Node]) -> str:
    """The expression as far as it goes: its lines end while these nodes, outermost first, are open.

    Each open node becomes the last operand of the one around it, and `..` its own last one.
    """
    inner: List[_Phrase] = []
    for node in reversed(open_nodes):
        for phrase in inner:
            node.take(phrase)
        node.operands.append(_Phrase(LEFT_OUT))
        inner = [node.phrase()]
    return "".join(phrase.shortened() for phrase in inner)


def _node_of(line: bytes, names: NameLists) -> Optional[_Node]:
    """The node that a line of an .nl expression is, without operands; None where it is none."""
    text = _content(line)
    kind, rest = text[:1], text[1:]
    if kind in ("n", "s", "l"):
        return _Node(rest) if rest else None
    if kind == "h":
        return _Node(f"'{rest.partition(':')[2]}'")
    if kind == "v" and _is_number(rest):
        return _Node(names.operand(read_whole(rest), comment_of(line)))
    return _operator_node(line, kind, rest.split()) if kind in ("f", "o") else None


def _operator_node(line: bytes, kind: str, words: List[str]) -> Optional[_Node]:
    """The node of a function `f` or an operator `o`; None where its first word is no number.

    Args:
        line: The whole line, whose comment names a function.
        kind: `f` or `o`.
        words: Those behind it: the number of the operator; or of the function, and its count of
            operands.
    """
    if not words or not _is_number(words[0]):
        return None
    if kind == "o":
        return _operation(read_whole(words[0]))
    name = comment_of(line) or f"function {words[0]}"
    return _Node(name, _number_in(words[1:]), has_arguments=True)


def _operation(opcode: int) -> _Node:
    """The node of an operator by its number; one of piecewise linear terms is a leaf."""
    if opcode == PIECEWISE_LINEAR:
        return _Node("piecewise(..)", opcode=opcode)
    operator = operator_of(opcode)
    return _Node(operator.name, operator.operands, opcode=opcode, has_arguments=True)


def _content(line: bytes) -> str:
    """A line without its comment and outer blanks; bytes that are not UTF-8 become surrogates."""
    return line.split(b"#", 1)[0].strip().decode("utf-8", "surrogateescape")


def _is_number(word: str) -> bool:
    """Whether a word is an index or a count: ASCII digits alone, at most LONGEST_NUMBER."""
    return word.isascii() and word.isdigit() and len(word) <= LONGEST_NUMBER


def _number_in(words: List[str]) -> int:
    """The value of the first word; 0 where there is none or it is no number."""
    return read_whole(words[0]) if words and _is_number(words[0]) else 0
