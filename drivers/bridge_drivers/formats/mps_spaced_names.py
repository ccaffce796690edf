"""Names with blanks in fixed columns of MPS files, written with `_` in the place of each blank.

In fixed columns a name is what stands in its field, blanks among it; in free form it is one word,
and the proved program reads no other names. A blank becomes one other character, so that all
columns stay where they are. `mps_repair` asks for this last.
"""

from __future__ import annotations

import re
from typing import Dict, Iterator, List, NamedTuple, Optional, Tuple

from .mps_layout_repair import Edit, Repair

BLANK_NAME = re.compile(rb"\n [ NLGE]{2} [^\s*]+ +[^\s]")  # a line of ROWS with a third word
SECTIONS = (b"ROWS", b"COLUMNS", b"RHS", b"RANGES", b"BOUNDS")
NAMES = ((4, 12), (14, 22), (39, 47))
NUMBERS = ((24, 36), (49, 61))
GAPS = ((0, 1), (3, 4), (12, 14), (22, 24), (36, 39), (47, 49), (61, 100))
NUMBER = re.compile(rb"[-+]?(\d+\.?\d*|\.\d+)([eEdD][-+]?\d+)?")
FILLER = b"_"


class _Field(NamedTuple):
    """A name of a line: where it begins in the text, and its bytes, without blanks around them."""

    start: int
    name: bytes


def spaced_names_repair(text: bytes) -> Optional[Repair]:
    """The edits that write `_` for each blank within a name; None where there is none to be made.

    That has one meaning where rows have such names, all lines keep to the fixed columns, and no two
    names become the same. Names that differ in the blanks in front of them alone count as the same.
    """
    at = text.find(b"\nROWS")
    end = text.find(b"\nCOLUMNS", at)
    if at < 0 or BLANK_NAME.search(text, at, end if end > 0 else len(text)) is None:
        return None
    edits: List[Edit] = []
    known: Dict[bytes, bytes] = {}  # by what is written, the field as it stands
    for start, line in _data_lines(text):
        fields = _fields(start, line)
        if fields is None:
            return None
        of_line = _edits(fields, known)
        if of_line is None:
            return None
        edits += of_line
    count = sum(b" " in raw.strip() for raw in known.values())
    note = f"{count} names with blanks in fixed columns have `_` in the place of each blank"
    return Repair(edits, note) if edits else None


def _edits(fields: List[Tuple[_Field, bytes]], known: Dict[bytes, bytes]) -> Optional[List[Edit]]:
    """The edits of a line; None where a name becomes the same as another one.

    Args:
        fields: The names of the line, each with its field as it stands.
        known: Fields as they stand, by what is written for them; those of the line are added.
    """
    edits: List[Edit] = []
    for field, raw in fields:
        written = field.name.replace(b" ", FILLER)
        if known.setdefault(written, raw) != raw:
            return None
        if written != field.name:
            edits.append(Edit(field.start, field.start + len(written), written))
    return edits


def _data_lines(text: bytes) -> Iterator[Tuple[int, bytes]]:
    """The lines of data of SECTIONS, each with its first byte in the text."""
    start, is_data = 0, False
    for line in text.split(b"\n"):
        if line[:1].strip() and not line.startswith(b"*"):
            is_data = line.split()[0] in SECTIONS
        elif is_data and line.strip() and not line.startswith(b"*"):
            yield start, line.rstrip()
        start += len(line) + 1


def _fields(start: int, line: bytes) -> Optional[List[Tuple[_Field, bytes]]]:
    """The names of a line, each with its field as it stands, but for blanks behind it.

    None where the line does not keep to fixed columns: something stands between fields, or is no
    number in the place of one, or a tab shifts them.
    """
    is_apart = not any(line[first:last].strip() for first, last in GAPS)
    numbers = [line[first:last].strip() for first, last in NUMBERS]
    if b"\t" in line or not is_apart or not all(map(_is_number_or_blank, numbers)):
        return None
    found = []
    for first, last in NAMES:
        raw = line[first:last].rstrip()
        name = raw.lstrip()
        if name:
            found.append((_Field(start + first + len(raw) - len(name), name), raw))
    return found


def _is_number_or_blank(word: bytes) -> bool:
    return not word or NUMBER.fullmatch(word) is not None
