"""Lines of MPS files that are laid out in ways which the proved program does not read, though they
have one meaning: comments behind `$`, names that are left blank, NAME twice, and PL before UP.

`mps_repair` asks for each of these repairs, one after the other. Each looks only at lines that may
need it, and takes time in proportion to the text.
"""

from __future__ import annotations

import bisect
import re
from typing import Dict, Iterator, List, NamedTuple, Optional, Set

COMMENT = b"$"  # of the first word of a comment, in the third or fifth field of a line
SECTION_HEAD = re.compile(rb"(NAME|ROWS|COLUMNS|RHS|RANGES|BOUNDS|ENDATA)\b")  # of one line
BLANK_FIELD = b"\n" + b" " * 12  # a line whose first two fields are blank
NAMED_LINES = (b"COLUMNS", b"RHS", b"RANGES")  # sections whose lines begin with a name
BLANK_SET = b" " * 10  # behind the kind of a bound
KINDS_WITHOUT_VALUE = (b"FR", b"MI", b"PL", b"BV")
FIELD_OF_ROW = 14  # where the third field begins in fixed columns
# how many words a line can have before a comment, by section: all of its fields, or its first pair
WORDS_BEFORE_COMMENT: Dict[bytes, tuple[int, ...]] = {
    b"ROWS": (2,),
    b"COLUMNS": (3, 5),
    b"RHS": (2, 3, 4, 5),
    b"RANGES": (2, 3, 4, 5),
    b"BOUNDS": (3, 4),
}


class Edit(NamedTuple):
    """What is written in place of the text's bytes from `start` as far as `end`."""

    start: int
    end: int
    text: bytes


class Repair(NamedTuple):
    """Edits of a text, which do not overlap, and what to tell of them."""

    edits: List[Edit]
    note: str


def edited(text: bytes, edits: List[Edit]) -> bytes:
    """The text with its edits, which may come in any order and do not overlap."""
    pieces, at = [], 0
    for edit in sorted(edits):
        pieces += [text[at : edit.start], edit.text]
        at = edit.end
    return b"".join([*pieces, text[at:]]) if edits else text


class Sections:
    """Where sections begin in a text: their heads, by place, in their order.

    Attributes:
        starts: The first byte of each head.
        names: Of the sections, by place.
    """

    def __init__(self, text: bytes) -> None:
        """Finds the heads of a text: words in the first column of a line."""
        self.starts: List[int] = []
        self.names: List[bytes] = []
        for name in (b"NAME", b"ROWS", b"COLUMNS", b"RHS", b"RANGES", b"BOUNDS", b"ENDATA"):
            at = 0 if text.startswith(name) else text.find(b"\n" + name) + 1
            while at or text.startswith(name):
                head = SECTION_HEAD.match(text, at)
                if head is not None and head[1] == name:
                    self.starts.append(at)
                at = text.find(b"\n" + name, at + len(name)) + 1
                if not at:
                    break
        self.starts.sort()
        self.names = [_head_at(text, at) for at in self.starts]

    def is_head(self, place: int) -> bool:
        """Whether the head of a section begins at a byte of the text."""
        found = bisect.bisect_left(self.starts, place)
        return found < len(self.starts) and self.starts[found] == place

    def section_at(self, place: int) -> bytes:
        """The name of the section in which a byte of the text is; empty before the first."""
        found = bisect.bisect_right(self.starts, place) - 1
        return self.names[found] if found >= 0 else b""


def _head_at(text: bytes, at: int) -> bytes:
    found = SECTION_HEAD.match(text, at)
    return found[1] if found is not None else b""


def comments_repair(text: bytes) -> Optional[Repair]:
    """The edits that leave out comments behind `$`; None where there is none.

    A comment begins with the first word in the place of a third or fifth field that begins with
    `$`, unless a row has that name.
    """
    if COMMENT not in text:
        return None
    sections = Sections(text)
    rows: Set[bytes] = set()
    edits = []
    for start, end in _lines_with(text, COMMENT):
        section = sections.section_at(start)
        words = text[start:end].split()
        is_head = sections.is_head(start) or words[0].startswith(b"*")
        place = next((k for k, word in enumerate(words) if word.startswith(COMMENT)), None)
        if section == b"ROWS" and place == 1:
            rows.add(words[1])
        if is_head or place not in WORDS_BEFORE_COMMENT.get(section, ()):
            continue
        if section == b"ROWS" or words[place] not in rows:
            edits.append(_cut(text, start, end, place))
    if not edits:
        return None
    lines = "1 line" if len(edits) == 1 else f"{len(edits)} lines"
    return Repair(edits, f"comments behind `$` are left out, in {lines}")


def _lines_with(text: bytes, mark: bytes) -> Iterator[tuple[int, int]]:
    """The lines that have a mark, each from its first byte as far as its end."""
    at = text.find(mark)
    while at >= 0:
        start = text.rfind(b"\n", 0, at) + 1
        end = text.find(b"\n", at)
        end = len(text) if end < 0 else end
        yield start, end
        at = text.find(mark, end)


def _cut(text: bytes, start: int, end: int, words: int) -> Edit:
    """The edit that leaves only the first words of a line."""
    at = start
    for word in text[start:end].split(None, words)[:words]:
        at = text.index(word, at, end) + len(word)
    is_dos = text[end - 1 : end] == b"\r"
    return Edit(at, end - is_dos, b"")


def blank_names_repair(text: bytes) -> Optional[Repair]:
    """The edits that write the column's name where a line of COLUMNS leaves its field blank, and
    the set's in RHS and RANGES; None where none does. It is the name of the line before.
    """
    if BLANK_FIELD not in text:
        return None
    sections = Sections(text)
    edits, name = [], b""
    for start, end in _blank_lines(text):
        if sections.section_at(start) not in NAMED_LINES:
            continue
        words = text[start:end].split()
        known = _name_before(text, start)
        name = known or name
        if len(words) in (2, 4) and name:
            first = start + len(text[start:end]) - len(text[start:end].lstrip())
            has_room = first - start >= FIELD_OF_ROW and len(name) <= 8
            field = b"    " + name.ljust(10) if has_room else b" " + name + b" "
            edits.append(Edit(start, start + FIELD_OF_ROW if has_room else first, field))
    if not edits:
        return None
    lines = "1 line has" if len(edits) == 1 else f"{len(edits)} lines have"
    return Repair(edits, f"{lines} a blank where a name stands: that of the line before is read")


def blank_sets_repair(text: bytes) -> Optional[Repair]:
    """The edits that write the set's name where a line of BOUNDS leaves its field blank, though a
    line before has it; None where none does.
    """
    start = 0 if text.startswith(b"BOUNDS") else text.find(b"\nBOUNDS") + 1
    if not text.startswith(b"BOUNDS", start) or text.find(BLANK_SET, start) < 0:
        return None
    edits, name = [], b""
    for at, end in _data_lines(text, start):
        words = text[at:end].split()
        is_bare = bool(words) and words[0].upper() in KINDS_WITHOUT_VALUE
        if len(words) == 4 - is_bare:
            name = words[1]
        elif name and len(words) == 3 - is_bare and text[at + 3 : at + FIELD_OF_ROW].isspace():
            edits.append(Edit(at + 3, at + FIELD_OF_ROW, b" " + name.ljust(10)))
    if not edits:
        return None
    lines = "1 line of BOUNDS has" if len(edits) == 1 else f"{len(edits)} lines of BOUNDS have"
    return Repair(edits, f"{lines} a blank where the set stands: that of the line before is read")


def _data_lines(text: bytes, start: int) -> Iterator[tuple[int, int]]:
    """The lines of the section whose head begins at `start`, each from its first byte as far as
    the byte behind its end."""
    at = text.find(b"\n", start) + 1
    while 0 < at < len(text) and (text[at : at + 1].isspace() or text[at : at + 1] == b"*"):
        end = text.find(b"\n", at) + 1 or len(text)
        yield at, end
        at = end


def _blank_lines(text: bytes) -> Iterator[tuple[int, int]]:
    """The lines whose first two fields are blank, each from its first byte as far as its end."""
    at = text.find(BLANK_FIELD)
    while at >= 0:
        end = text.find(b"\n", at + 1)
        end = len(text) if end < 0 else end
        yield at + 1, end
        at = text.find(BLANK_FIELD, end)


def _name_before(text: bytes, start: int) -> bytes:
    """The name of the column in the line before; empty where its field is blank, too, or that is a
    head or a comment."""
    line = text[text.rfind(b"\n", 0, start - 1) + 1 : start - 1]
    words = line.split()
    is_named = line[:1].isspace() and len(words) in (3, 5) and not words[0].startswith(b"*")
    return words[0] if is_named else b""


def name_repair(text: bytes) -> Optional[Repair]:
    """The edit that leaves out a second NAME, which says nothing of the program; None where there
    is none.

    Behind ENDATA, that is left out with it, so that what follows is read, or refused by its name.
    """
    sections = Sections(text)
    places = [k for k, name in enumerate(sections.names) if name == b"NAME"]
    if len(places) < 2:
        return None
    second = places[1]
    start = sections.starts[second]
    if sections.names[second - 1] == b"ENDATA":
        start = sections.starts[second - 1]
    elif sections.names[second - 1] != b"NAME":
        return None
    end = text.find(b"\n", sections.starts[second]) + 1 or len(text)
    return Repair([Edit(start, end, b"")], "NAME stands twice: the second is left out")


def double_bounds_repair(text: bytes) -> Optional[Repair]:
    """The edits that leave out each line PL of the section BOUNDS whose column has a line UP behind
    it: no upper end is what a column has anyway. None where there is none.
    """
    start = 0 if text.startswith(b"BOUNDS") else text.find(b"\nBOUNDS") + 1
    if not text.startswith(b"BOUNDS", start) or b"PL" not in text[start:]:
        return None
    endless: Dict[bytes, List[Edit]] = {}  # lines PL, by their column
    edits: List[Edit] = []
    count = 0
    for at, end in _data_lines(text, start):
        words = text[at:end].split()
        kind = words[0].upper() if words else b""
        if kind == b"PL" and len(words) in (2, 3):
            endless.setdefault(words[-1], []).append(Edit(at, end, b""))
        elif kind == b"UP" and len(words) in (3, 4) and words[-2] in endless:
            edits += endless.pop(words[-2])
            count += 1
    if not edits:
        return None
    columns = "1 column has" if count == 1 else f"{count} columns have"
    return Repair(edits, f"{columns} PL and then UP: PL is left out")
