"""MPS text in the one written form of the proved program, read and written.

`bridge export`, `bridge mps` and `bridge fixed` write that form: one entry a line, words parted by
one blank, a set's name on each line, the lines of a column together. Each line of data begins with
a blank. Nothing that is proved rests on this reader.

A text of a million entries has few numbers that differ. So each number stands once, as it is
written, and entries are arrays of whole numbers by place.

`read_mps` makes `MpsColumns` of a text, for `model.linear_program` and `program.mps_forms`;
`canonical` and `write_mps` make a text in its own numbering of it.
"""

from __future__ import annotations

import copy
import itertools
from array import array
from collections import Counter, defaultdict
from dataclasses import dataclass
from functools import cached_property
from typing import (
    TYPE_CHECKING,
    Dict,
    Iterator,
    List,
    Mapping,
    NamedTuple,
    Optional,
    Sequence,
    Tuple,
)

from .numbers import decimals_over_common_denominator, read_fraction

SECTIONS = (b"OBJSENSE", b"ROWS", b"COLUMNS", b"RHS", b"RANGES", b"BOUNDS")
MAXIMISED = b" MAX\n"  # the section OBJSENSE
BLOCK = 1 << 17  # bytes that are taken apart at once
OBJECTIVE, EXTRA_OBJECTIVE = -1, -2  # places of N rows: the first one, and others
INTEGER_BOUNDS = (b"BV", b"LI", b"UI")  # kinds of bounds that make a column integer
NO_VALUE = (b"BV", b"MI", b"PL", b"FR")  # kinds of bounds without a value
# What each kind of bound sets: None stands for the value of its line, an empty text for infinity.
LOWER_BOUNDS = {b"LO": None, b"LI": None, b"FX": None, b"BV": b"0", b"MI": b"", b"FR": b""}
UPPER_BOUNDS = {b"UP": None, b"UI": None, b"FX": None, b"BV": b"1", b"PL": b"", b"FR": b""}
INTEGERS_BEGIN, INTEGERS_END = b"'INTORG'", b"'INTEND'"

WrittenBound = Optional[bytes]  # empty where it is infinite, None where it is not set
if TYPE_CHECKING:
    Places = array[int]  # by entry, of C's int


class RowBounds(NamedTuple):
    """Bounds by row, whole numbers over one denominator; None: there is no such bound."""

    lower: List[Optional[int]]
    upper: List[Optional[int]]
    denominator: int


@dataclass
class MpsColumns:
    """What an MPS text says, with its numbers as they are written.

    Attributes:
        maximise: Whether its sense is MAX.
        objective: The name of the first N row; empty where there is none.
        rows: The names of the rows that are not N, in their order.
        kinds: Of each row L, G or E.
        columns: The names of the columns, in their order.
        is_integer: By column.
        numbers: The numbers of entries, each once, in the order in which they first stand there.
        entry_rows: By entry its row; OBJECTIVE or EXTRA_OBJECTIVE of N rows.
        entry_columns: By entry its column. Columns stand in their order.
        entry_numbers: By entry the place of its coefficient in `numbers`.
        rhs: By row, those that are written. That of the objective is minus its constant.
        ranges: By row.
        lower: By column as it is written; see `bounds`.
        upper: The same from above.
    """

    maximise: bool
    objective: bytes
    rows: List[bytes]
    kinds: List[str]
    columns: List[bytes]
    is_integer: List[bool]
    numbers: List[bytes]
    entry_rows: Places
    entry_columns: Places
    entry_numbers: Places
    rhs: Dict[int, bytes]
    ranges: Dict[int, bytes]
    lower: List[WrittenBound]
    upper: List[WrittenBound]

    def bounds(self) -> Tuple[List[bytes], List[bytes]]:
        """Lower and upper bounds of all columns as they are written, empty where there are none.

        A column without a lower bound goes from 0 on, but for one whose upper bound is below 0,
        which has no lower end. Without an upper bound it has no upper end, whether it is integer or
        not.
        """
        lower = [b"0" if bound is None else bound for bound in self.lower]
        for column in self.negative_upper_bounds():
            lower[column] = b""
        return lower, [bound or b"" for bound in self.upper]

    def negative_upper_bounds(self) -> List[int]:
        """The columns, by place, whose upper bound is below 0 and whose lower bound is not written.

        The upper bound takes their lower one away. Other readers of MPS may take that otherwise, so
        that a note tells of them.
        """
        return [
            column
            for column, (lower, upper) in enumerate(zip(self.lower, self.upper))
            if lower is None and upper and upper.startswith(b"-") and read_fraction(upper) < 0
        ]

    def row_bounds(self) -> RowBounds:
        """What right-hand sides and ranges say of rows, over their least common denominator.

        A row without a side has 0. A range R of a row G or L reaches |R| from its right-hand side;
        of a row E it reaches R upwards if R is not negative, else |R| downwards.
        """
        texts = list({b"0", *self.rhs.values(), *self.ranges.values()})
        numerators, denominator = decimals_over_common_denominator(texts)
        value_of = dict(zip(texts, numerators))
        sides = [value_of[self.rhs.get(row, b"0")] for row in range(len(self.kinds))]
        lower = [side if kind in "GE" else None for kind, side in zip(self.kinds, sides)]
        upper = [side if kind in "LE" else None for kind, side in zip(self.kinds, sides)]
        for row, text in self.ranges.items():
            width = value_of[text]
            if self.kinds[row] == "G" or (self.kinds[row] == "E" and width >= 0):
                upper[row] = sides[row] + abs(width)
            else:
                lower[row] = sides[row] - abs(width)
        return RowBounds(lower, upper, denominator)


def read_mps(text: bytes) -> MpsColumns:
    """A text in the written form, as the proved program wrote it and nobody else.

    The form is not checked: of another text it raises KeyError or IndexError, or answers something
    else than what the text says.
    """
    return _MpsReader(text).columns_read()


class _Section(NamedTuple):
    """The lines of a section without its head: the text's bytes from `start` as far as `stop`."""

    text: bytes = b""
    start: int = 0
    stop: int = 0

    def blocks(self) -> Iterator[bytes]:
        """The bytes of whole lines with their ends, in pieces of some more than BLOCK bytes."""
        at = self.start
        while at < self.stop:
            end = self.text.find(b"\n", at + BLOCK, self.stop) + 1 or self.stop
            yield self.text[at:end]
            at = end

    def words(self) -> Iterator[List[bytes]]:
        """The words of all lines of each block, behind an empty one: a line begins with a blank."""
        return (block.replace(b"\n", b"").split(b" ") for block in self.blocks())


def _sections(text: bytes) -> List[_Section]:
    """The six sections of a text in the order of SECTIONS; those that are missing are empty."""
    text = b"\n" + text
    starts: Dict[bytes, int] = {}
    for name in SECTIONS:
        at = text.find(b"\n%s\n" % name)
        if at >= 0:
            starts[name] = at
    stops = [*starts.values(), text.find(b"\nENDATA")][1:]
    ends = dict(zip(starts, [stop + 1 or len(text) for stop in stops]))
    return [
        _Section(text, starts[name] + len(name) + 2, ends[name]) if name in starts else _Section()
        for name in SECTIONS
    ]


class _MpsReader:
    """Goes through the sections of a text once, in their order, as it is made.

    The fields that are not told here are those of `MpsColumns`, which `columns_read` makes of them.

    Attributes:
        place_of_row: By name of each row its number from 0; OBJECTIVE or EXTRA_OBJECTIVE of N rows.
        entry_counts: By column how many entries it has.
        place_of_number: By number as it is written its place in `numbers`, given when first asked
            for.
        rhs: The section, whose lines are read by `columns_read`.
        ranges: The same.
    """

    def __init__(self, text: bytes) -> None:
        """Reads all of a text in the written form but its right-hand sides and ranges."""
        self.kinds: List[str] = []
        self.rows: List[bytes] = []
        self.objective = b""
        self.place_of_row: Dict[bytes, int] = {}
        self.columns: List[bytes] = []
        self.entry_counts: List[int] = []  # by column
        self.is_integer: List[bool] = []
        self.entry_rows = array("i")
        self.entry_numbers = array("i")
        # a number gets its place when it is first asked for
        self.place_of_number: defaultdict[bytes, int] = defaultdict()
        self.place_of_number.default_factory = self.place_of_number.__len__
        sense, rows, columns, self.rhs, self.ranges, bounds = _sections(text)
        self.maximise = list(sense.blocks()) == [MAXIMISED]
        self._read_rows(rows)
        self._read_columns(columns)
        self.lower: List[WrittenBound] = [None] * len(self.columns)
        self.upper: List[WrittenBound] = [None] * len(self.columns)
        self._read_bounds(bounds)

    def columns_read(self) -> MpsColumns:
        """What was read, with the column of each entry."""
        counts = enumerate(self.entry_counts)
        columns = (itertools.repeat(column, count) for column, count in counts)
        return MpsColumns(
            maximise=self.maximise,
            objective=self.objective,
            rows=self.rows,
            kinds=self.kinds,
            columns=self.columns,
            is_integer=self.is_integer,
            numbers=list(self.place_of_number),
            entry_rows=self.entry_rows,
            entry_columns=array("i", itertools.chain.from_iterable(columns)),
            entry_numbers=self.entry_numbers,
            rhs=self._by_row(self.rhs),
            ranges=self._by_row(self.ranges),
            lower=self.lower,
            upper=self.upper,
        )

    def _by_row(self, section: _Section) -> Dict[int, bytes]:
        """The values of lines `SET ROW VALUE`, by the row's place; the last of a row's lines
        counts.
        """
        found: Dict[int, bytes] = {}
        for words in section.words():
            found.update(zip(map(self.place_of_row.__getitem__, words[2::3]), words[3::3]))
        return found

    def _read_rows(self, section: _Section) -> None:
        """Reads lines `KIND ROW` into `kinds`, `rows`, `objective` and `place_of_row`."""
        objectives: List[bytes] = []
        for words in section.words():
            kinds, names = words[1::2], words[2::2]
            if b"N" in kinds:
                pairs = list(zip(kinds, names))
                objectives += [name for kind, name in pairs if kind == b"N"]
                kinds = [kind for kind in kinds if kind != b"N"]
                names = [name for kind, name in pairs if kind != b"N"]
            self.kinds += b" ".join(kinds).decode().split()
            self.rows += names
        self.place_of_row.update(zip(self.rows, itertools.count()))
        self.place_of_row.update(dict.fromkeys(objectives, EXTRA_OBJECTIVE))
        if objectives:
            self.objective = objectives[0]
            self.place_of_row[self.objective] = OBJECTIVE

    def _read_columns(self, section: _Section) -> None:
        """Reads lines `COLUMN ROW VALUE` by blocks, three words each.

        A marker `NAME 'MARKER' 'INTORG'` has as many words; between it and 'INTEND' columns are
        integer.
        """
        is_integer = False
        for block, words in zip(section.blocks(), section.words()):
            names, rows = words[1::3], words[2::3]
            values = words[3::3]
            start = 0
            for at in _markers(block, values):
                self._add_entries(
                    names[start:at], rows[start:at], values[start:at], is_integer=is_integer
                )
                is_integer = values[at] == INTEGERS_BEGIN
                start = at + 1
            self._add_entries(names[start:], rows[start:], values[start:], is_integer=is_integer)

    def _add_entries(
        self,
        names: Sequence[bytes],
        rows: Sequence[bytes],
        values: Sequence[bytes],
        *,
        is_integer: bool,
    ) -> None:
        """Adds entries, of columns that all are integer or all are not, behind those added before.

        Args:
            names: By entry its column. The entries of a column stand together; the first ones may
                go on the last column of the entries before.
            rows: By entry its row's name.
            values: By entry its number as it is written.
        """
        counts = Counter(names)
        if self.columns and self.columns[-1] in counts:
            self.entry_counts[-1] += counts.pop(self.columns[-1])
        self.columns += counts
        self.entry_counts += counts.values()
        self.is_integer += [is_integer] * len(counts)
        self.entry_rows.extend(array("i", list(map(self.place_of_row.__getitem__, rows))))
        self.entry_numbers.extend(array("i", list(map(self.place_of_number.__getitem__, values))))

    def _read_bounds(self, section: _Section) -> None:
        """Reads lines `KIND SET COLUMN VALUE` into `lower` and `upper`; some make a column integer.

        Each line sets one bound of its column, or both: of several lines the last counts.

        Raises:
            KeyError: No column has a name that stands there.
        """
        for block in section.blocks():
            words = _words_of_bounds(block)
            kinds = words[1::4]
            names = [third if set_name else last for set_name, third, last in _triples(words)]
            places = list(map(self._place_of_column.__getitem__, names))
            _set_bounds(self.lower, LOWER_BOUNDS, kinds, places, words[4::4])
            _set_bounds(self.upper, UPPER_BOUNDS, kinds, places, words[4::4])
            for kind, place in zip(kinds, places):
                if kind in INTEGER_BOUNDS:
                    self.is_integer[place] = True

    @cached_property
    def _place_of_column(self) -> Dict[bytes, int]:
        """The places of all columns by name."""
        return {name: place for place, name in enumerate(self.columns)}


def _triples(words: Sequence[bytes]) -> Iterator[Tuple[bytes, bytes, bytes]]:
    """What stands behind the kind of each line of bounds, as `_words_of_bounds` has it."""
    return zip(words[2::4], words[3::4], words[4::4])


def _set_bounds(
    bounds: List[WrittenBound],
    values_of_kinds: Mapping[bytes, WrittenBound],
    kinds: Sequence[bytes],
    places: Sequence[int],
    values: Sequence[bytes],
) -> None:
    """Sets bounds by column, as lines of BOUNDS say, in their order: of several the last one counts.

    Args:
        bounds: The lower or the upper ones, which are changed.
        values_of_kinds: What each kind of line sets there; None: the value of the line.
        kinds: By line.
        places: By line its column.
        values: By line, as it is written; not looked at for a kind without one.
    """
    for kind, place, value in zip(kinds, places, values):
        if kind in values_of_kinds:
            known = values_of_kinds[kind]
            bounds[place] = value if known is None else known


def _words_of_bounds(block: bytes) -> List[bytes]:
    """The words of lines of bounds, behind an empty one: four of each line, KIND SET COLUMN VALUE.

    Where there is no value, an empty word stands behind the kind: the set's name is then the third
    word of the line, and the column's name the fourth.
    """
    lines = b"\n" + block
    for kind in NO_VALUE:
        lines = lines.replace(b"\n %s " % kind, b"\n %s  " % kind)
    return lines.replace(b"\n", b"").split(b" ")


def _markers(block: bytes, values: Sequence[bytes]) -> List[int]:
    """The places, among the lines of a block of COLUMNS, of those that are markers.

    Args:
        values: The third word of each line: of a marker 'INTORG' or 'INTEND', else a number.
    """
    if b"'MARKER'" not in block:
        return []
    marks = (INTEGERS_BEGIN, INTEGERS_END)
    return [line for line, value in enumerate(values) if value in marks]


def canonical(read: MpsColumns) -> MpsColumns:
    """The same program as `bridge export` would write it, in its own numbering; for `write_mps`.

    Row i is ci, column j is xj and the objective is obj. Other N rows and a constant of 0 are left
    out, a row E with a range becomes G or L, and each column has both bounds set. Arrays that stay
    the same are shared with what was read.
    """
    own = copy.copy(read)
    own.objective = b"obj"
    own.rows = [b"c%d" % i for i in range(len(read.rows))]
    own.columns = [b"x%d" % j for j in range(len(read.columns))]
    lower, upper = read.bounds()
    own.lower, own.upper = list(lower), list(upper)
    own.rhs = {
        row: text
        for row, text in read.rhs.items()
        if row >= 0 or (row == OBJECTIVE and read_fraction(text))
    }
    own.kinds, own.ranges = _canonical_ranges(read)
    kept = [row != EXTRA_OBJECTIVE for row in read.entry_rows]
    own.entry_rows = array("i", itertools.compress(read.entry_rows, kept))
    own.entry_columns = array("i", itertools.compress(read.entry_columns, kept))
    own.entry_numbers = array("i", itertools.compress(read.entry_numbers, kept))
    return own


def _canonical_ranges(read: MpsColumns) -> Tuple[List[str], Dict[int, bytes]]:
    """Kinds of rows, and ranges by row without their sign, where no row E has a range any more.

    A range of a row E makes it L if it is negative, else G, and is left out where it is 0; ranges
    of N rows are left out, too.
    """
    kinds = list(read.kinds)
    ranges: Dict[int, bytes] = {}
    for row, text in read.ranges.items():
        if row < 0 or (kinds[row] == "E" and not read_fraction(text)):
            continue
        ranges[row] = text.lstrip(b"-")
        if kinds[row] == "E":
            kinds[row] = "L" if text.startswith(b"-") else "G"
    return kinds, ranges


def write_mps(own: MpsColumns) -> bytes:
    """The text of a program in the form of `canonical`, as `bridge export` writes it."""
    return b"\n".join(_lines(own)) + b"\n"


def _lines(own: MpsColumns) -> Iterator[bytes]:
    """All lines of a canonical text, without their ends."""
    rows = [*own.rows, own.objective]
    yield b"NAME nl"
    if own.maximise:
        yield from (b"OBJSENSE", b" MAX")
    yield from (b"ROWS", b" N obj")
    yield from (b" %s %s" % (kind.encode(), row) for kind, row in zip(own.kinds, rows))
    yield b"COLUMNS"
    yield from _column_lines(own, rows)
    yield b"RHS"
    yield from (b" RHS %s %s" % (rows[row], text) for row, text in own.rhs.items())
    if own.ranges:
        yield b"RANGES"
    yield from (b" RNG %s %s" % (rows[row], text) for row, text in own.ranges.items())
    if own.columns:
        yield b"BOUNDS"
    for column, lower, upper in zip(own.columns, own.lower, own.upper):
        yield from _bound_lines(column, lower, upper)
    yield b"ENDATA"


def _column_lines(own: MpsColumns, rows: List[bytes]) -> Iterator[bytes]:
    """The lines of COLUMNS, integer columns between markers; each column has a line at least.

    Args:
        rows: The names of all rows, and behind them that of the objective, whose place is -1.
    """
    entries: List[List[bytes]] = [[] for _ in own.columns]
    places = (own.entry_rows, own.entry_columns, own.entry_numbers)
    for row, column, number in zip(*places):
        line = b" %s %s %s" % (own.columns[column], rows[row], own.numbers[number])
        entries[column].append(line)
    markers = itertools.count()
    was_integer = False
    for name, is_integer, lines in zip(own.columns, own.is_integer, entries):
        if is_integer != was_integer:
            mark = INTEGERS_BEGIN if is_integer else INTEGERS_END
            yield b" M%d 'MARKER' %s" % (next(markers), mark)
            was_integer = is_integer
        yield from lines or [b" %s %s 0" % (name, own.objective)]
    if was_integer:
        yield b" M%d 'MARKER' %s" % (next(markers), INTEGERS_END)


def _bound_lines(column: bytes, lower: WrittenBound, upper: WrittenBound) -> Iterator[bytes]:
    """The line of a column in BOUNDS where it is fixed or free, else the two of both its bounds.

    Args:
        lower: As it is written; empty (or None) where there is none.
        upper: The same.
    """
    if lower and lower == upper:
        yield b" FX BND %s %s" % (column, lower)
    elif not lower and not upper:
        yield b" FR BND %s" % column
    else:
        yield b" LO BND %s %s" % (column, lower) if lower else b" MI BND %s" % column
        yield b" UP BND %s %s" % (column, upper) if upper else b" PL BND %s" % column
