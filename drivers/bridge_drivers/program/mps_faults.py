"""The word that is at fault in a line of an MPS text that the proved program refuses."""

from __future__ import annotations

import re
from typing import Callable, Dict, List, Mapping, NamedTuple, Sequence

from ..system.text import alternatives, did_you_mean

SECTIONS = ("NAME", "OBJSENSE", "ROWS", "COLUMNS", "RHS", "RANGES", "BOUNDS", "ENDATA")
OTHER_SECTIONS: Mapping[str, str] = {
    "SOS": "special ordered sets",
    "SOS1": "special ordered sets",
    "SOS2": "special ordered sets",
    "SETS": "special ordered sets",
    "QUADOBJ": "quadratic objectives",
    "QMATRIX": "quadratic objectives",
    "QSECTION": "quadratic objectives",
    "QCMATRIX": "quadratic rows",
    "CSECTION": "cones",
    "INDICATORS": "indicator rows",
    "GENCONS": "general constraints",
    "PWLOBJ": "piecewise-linear objectives",
    "LAZYCONS": "lazy rows",
    "USERCUTS": "cuts",
    "OBJNAME": "objectives that are not the first N row",
}  # sections of other kinds of models, and what they hold
BOUND_KINDS = ("LO", "UP", "FX", "FR", "MI", "PL", "BV", "LI", "UI")
SEMI_CONTINUOUS = ("SC", "SI")  # kinds of bounds that are not read
BOUNDS_WITHOUT_NUMBER = ("FR", "MI", "PL", "BV")
ROW_KINDS = ("N", "L", "G", "E")
NUMBER = re.compile(r"[-+]?(\d+\.?\d*|\.\d+)([eEdD][-+]?\d+)?")  # of one word
LONGEST_SHOWN = 60  # letters of a line that is shown


class MpsLine(NamedTuple):
    """A line of an MPS text, and what stands before it.

    Attributes:
        words: Those of the line.
        section: The one that it stands in, in capitals; of the head of a section that itself.
        rows: Names of the rows that were declared before, in order.
        columns: Names of the columns before, in order.
    """

    words: Sequence[str]
    section: str
    rows: Sequence[str]
    columns: Sequence[str]


def word_at_fault(path: str, number: int, reason: str) -> str:
    """Which word of a line makes the proved program refuse it, and what is wrong with it.

    Args:
        path: A file with an MPS text.
        number: Of the line, from 1.
        reason: Of the refusal, in the program's own words.

    Returns:
        For example `` `XX`: not LO, UP, ..``; empty where nothing more than the reason is known.
    """
    find = _FINDERS.get(reason)
    if find is None:
        return ""
    try:
        line = mps_line_at(path, number)
    except OSError:
        return ""
    return find(line) if line.words else ""


def mps_line_at(path: str, number: int) -> MpsLine:
    """A line of an MPS text, by its number from 1.

    Raises:
        OSError: The file cannot be read.
    """
    section, words = "", list[str]()
    rows: List[str] = []
    columns: Dict[str, None] = {}
    with open(path, encoding="utf-8", errors="surrogateescape") as file:
        for count, text in enumerate(file, 1):
            words = text.split()
            if count == number:
                break
            if text[:1].strip() and words and words[0] != "*":
                section = words[0].upper()
            elif section == "ROWS" and len(words) > 1:
                rows.append(words[1])
            elif section == "COLUMNS" and words:
                columns[words[0]] = None
    return MpsLine(words, section, rows, list(columns))


def _about(word: str, text: str, known: Sequence[str] = ()) -> str:
    """A word and what is wrong with it, with one of the known words where it is near to that."""
    meant = did_you_mean(word, known)
    return f"`{word}`: {text};{meant}" if meant else f"`{word}`: {text}"


def _column_again(line: MpsLine) -> str:
    """A column whose lines go on behind those of another one: its name is the first word."""
    return _about(line.words[0], "the lines of a column must stand together")


def _repeated_row(line: MpsLine) -> str:
    """A row that is declared twice: its name is the last word."""
    return _about(line.words[-1], "a line before has it")


def _bad_marker(line: MpsLine) -> str:
    """A marker that begins and ends nothing: its kind is the last word."""
    return _about(line.words[-1], "'INTORG' or 'INTEND' is wanted")


def _bad_section(line: MpsLine) -> str:
    """The head of a section: of another kind of model, out of its place, or unknown."""
    word = line.words[0]
    if word.upper() in OTHER_SECTIONS:
        return _about(word, f"{OTHER_SECTIONS[word.upper()]} are not read")
    if word.upper() in SECTIONS:
        return _about(word, "out of its order, or twice")
    return _about(word, "no section that is known", (*SECTIONS, *OTHER_SECTIONS))


def _bad_bound_kind(line: MpsLine) -> str:
    """The first word of a line of BOUNDS, which is no kind of bound that is read."""
    word = line.words[0]
    if word.upper() in SEMI_CONTINUOUS:
        return _about(word, "semi-continuous columns are not read")
    return _about(word, "not " + alternatives(BOUND_KINDS))


def _unknown_row(line: MpsLine) -> str:
    """Names of rows stand in front of numbers, in pairs from the end of the line."""
    return _not_declared(line.words[-2:0:-2][::-1], line.rows)


def _unknown_column(line: MpsLine) -> str:
    """A column of BOUNDS: its name stands last, or in front of the number of the bound."""
    has_number = len(line.words) > 1 and line.words[0].upper() not in BOUNDS_WITHOUT_NUMBER
    return _not_declared([line.words[-2 if has_number else -1]], line.columns)


def _not_declared(words: Sequence[str], known: Sequence[str]) -> str:
    """The first word at a name's place that is none of the known names."""
    names = set(known)
    for word in words:
        if word not in names:
            return _about(word, "no line before has it", known)
    return ""


def _bad_number(line: MpsLine) -> str:
    """The first word at a number's place that is none."""
    words = line.words
    at_numbers = [words[-1]] if line.section == "BOUNDS" else list(words[-1:0:-2])[::-1]
    for word in at_numbers:
        if not NUMBER.fullmatch(word):
            comma = "; a point stands before decimals" if "," in word else ""
            return _about(word, "no decimal number" + comma)
    return _about(at_numbers[0], "more than 38 digits") if at_numbers else ""


def _bad_line(line: MpsLine) -> str:
    """What is no kind of a row and no sense; else how many words there are."""
    word, count = line.words[0], len(line.words)
    if line.section == "ROWS" and word.upper() not in ROW_KINDS:
        return _about(word, "no kind of a row, which are N, L, G and E")
    if line.section == "OBJSENSE":
        return _about(word, "no sense, which are MAX and MIN")
    shown = " ".join(line.words)[:LONGEST_SHOWN]
    return f"of {count} {'word' if count == 1 else 'words'}: `{shown}`"


_FINDERS: Mapping[str, Callable[[MpsLine], str]] = {
    "column again": _column_again,
    "repeated row": _repeated_row,
    "bad marker": _bad_marker,
    "bad section": _bad_section,
    "bad bound kind": _bad_bound_kind,
    "unknown row": _unknown_row,
    "unknown column": _unknown_column,
    "bad number": _bad_number,
    "bad line": _bad_line,
}  # what looks for the word, by the reason of the refusal
