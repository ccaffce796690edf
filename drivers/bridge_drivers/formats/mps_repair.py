"""What other programs write in MPS files and the proved program does not read, repaired in a copy.

The text is gone through by lines: its head, as far as COLUMNS, and its first BOUNDS section. Each
line is looked at once, whatever it has. `formats.source.read_model` calls `repair_mps` for each MPS
file.
"""

from __future__ import annotations

import re
from typing import Callable, Dict, Iterator, List, NamedTuple, Optional, Sequence, Tuple

from .mps_layout_repair import (
    Edit,
    Repair,
    blank_names_repair,
    blank_sets_repair,
    comments_repair,
    double_bounds_repair,
    edited,
    name_repair,
)
from .mps_spaced_names import spaced_names_repair

BYTE_ORDER_MARK = b"\xef\xbb\xbf"
INFINITY = re.compile(rb"(?P<sign>[-+]?)inf(?:inity)?", re.IGNORECASE)  # of one word
BRITISH = re.compile(rb"(MAX|MIN)IMISE\b", re.IGNORECASE)
BARE_KINDS: Dict[Tuple[bytes, bytes], bytes] = {  # by kind and sign of the infinite bound
    (b"LO", b"-"): b"MI",
    (b"UP", b""): b"PL",
    (b"UP", b"+"): b"PL",
}
# in this order: each is asked of the text that those before have left
LAYOUT_REPAIRS: Sequence[Callable[[bytes], Optional[Repair]]] = (
    comments_repair,
    name_repair,
    blank_names_repair,
    blank_sets_repair,
    double_bounds_repair,
    spaced_names_repair,
)


class RepairedMps(NamedTuple):
    """A text as it is judged, and what to tell of its repair; without notes it is as it was."""

    text: bytes
    notes: List[str]


class _Line(NamedTuple):
    """A line of the text, from byte `start` as far as `end`, and its words."""

    start: int
    end: int  # without the line's end
    words: List[bytes]


def repair_mps(text: bytes) -> RepairedMps:
    """The text without a byte order mark, bounds of infinity, British senses and a plain OBJNAME.

    An upper bound of infinity and a lower one of minus infinity are written as none. OBJNAME is
    left out where it names the first N row, which is the objective anyway. What is only laid out
    otherwise is written as it is read (`mps_layout_repair`).
    """
    notes = []
    if text.startswith(BYTE_ORDER_MARK):
        text = text[len(BYTE_ORDER_MARK) :]
        notes.append("its byte order mark is left out")
    bounds = list(_bound_edits(text))
    if bounds:
        one, more = "a bound of infinity is", f"{len(bounds)} bounds of infinity are"
        notes.append(f"{one if len(bounds) == 1 else more} read as none")
    sense = _sense_repair(text)
    objective = _objective_repair(text)
    if sense is not None:
        notes.append("MAXIMISE and MINIMISE are read as MAX and MIN")
    if objective is not None:
        notes.append("OBJNAME names the first N row: it is left out")
    text = edited(text, [edit for edit in (sense, objective, *bounds) if edit is not None])
    for repair_of in LAYOUT_REPAIRS:
        repair = repair_of(text)
        if repair is not None:
            text = edited(text, repair.edits)
            notes.append(repair.note)
    if notes:
        notes.append("what is judged is the text with these changes")
    return RepairedMps(text, notes)


def _lines(text: bytes, start: int) -> Iterator[_Line]:
    """The lines of a text from a place on, at which a line begins."""
    while start < len(text):
        end = text.find(b"\n", start)
        end = len(text) if end < 0 else end
        yield _Line(start, end, text[start:end].split())
        start = end + 1


def _is_head(text: bytes, line: _Line) -> bool:
    """Whether a line of the text begins in the first column, as heads of sections do.

    So do comments there. An empty line is none.
    """
    return bool(line.words) and not text[line.start : line.start + 1].isspace()


def _is_comment(line: _Line) -> bool:
    """Whether the first word of a line begins with a star; an empty line is no comment."""
    return bool(line.words) and line.words[0].startswith(b"*")


def _sense_repair(text: bytes) -> Optional[Edit]:
    """The edit that makes MAX or MIN of the first MAXIMISE or MINIMISE of the section OBJSENSE.

    The word may stand on the section's head or on a line below it. None where there is no such
    word.
    """
    for head, line, words in _records(text):
        found = BRITISH.match(words[0]) if head.words[0].upper() == b"OBJSENSE" and words else None
        if found is not None:
            at = text.rindex(words[0], line.start, line.end)
            return Edit(at, at + found.end(), found[1])
    return None


def _objective_repair(text: bytes) -> Optional[Edit]:
    """The edit that leaves OBJNAME out where it names the first N row; else None.

    The name may stand on the section's head or below it, but in front of ROWS alone.
    """
    name, edit = b"", Edit(0, 0, b"")
    for head, line, words in _records(text):
        section = head.words[0].upper()
        if section == b"OBJNAME" and len(words) == 1 and not name:
            name, edit = words[0], Edit(head.start, min(line.end + 1, len(text)), b"")
        elif section == b"ROWS" and len(words) > 1 and words[0].upper() == b"N":
            return edit if name == words[1] else None
    return None


def _records(text: bytes) -> Iterator[Tuple[_Line, _Line, List[bytes]]]:
    """Goes through the lines before COLUMNS that are no comments.

    Yields:
        The head of the section that the line is in, the line, and its words of data: of a head
            those behind the section's name.
    """
    head: Optional[_Line] = None
    for line in _lines(text, 0):
        words = line.words
        if _is_comment(line):
            continue
        if _is_head(text, line):
            head = line
            words = words[1:]
            if head.words[0].upper() == b"COLUMNS":
                return
        if head is not None:
            yield head, line, words


def _bound_edits(text: bytes) -> Iterator[Edit]:
    """The edits of the lines of the first BOUNDS section, in their order; see `_bound_edit`."""
    start = 0 if text.startswith(b"BOUNDS") else text.find(b"\nBOUNDS") + 1
    if not text.startswith(b"BOUNDS", start):
        return
    lines = _lines(text, start)
    next(lines)
    for line in lines:
        if _is_head(text, line) and not _is_comment(line):
            return
        edit = _bound_edit(text, line)
        if edit is not None:
            yield edit


def _bound_edit(text: bytes, line: _Line) -> Optional[Edit]:
    """The edit of a line `KIND [SET] COLUMN VALUE` whose value is an infinity that bounds nothing.

    LO with minus infinity becomes MI, UP with infinity PL, both without the value. None of all
    other lines: an infinity that would be a bound stays for the proved program to refuse.
    """
    if _is_comment(line) or len(line.words) not in (3, 4):
        return None
    kind, value = line.words[0], line.words[-1]
    infinity = INFINITY.fullmatch(value)
    bare = BARE_KINDS.get((kind.upper(), infinity["sign"])) if infinity else None
    if bare is None:
        return None
    kind_at = text.index(kind, line.start)
    value_at = text.rindex(value, line.start, line.end)
    return Edit(kind_at, line.end, bare + text[kind_at + len(kind) : value_at].rstrip())
