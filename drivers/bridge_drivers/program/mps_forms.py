"""An MPS file over the proved program: in free form or in fixed columns, and as an .nl file."""

from __future__ import annotations

import contextlib
import itertools
from fractions import Fraction
from typing import List, Mapping, NamedTuple, Optional, Sequence, Tuple

from ..formats.file_kinds import kind_of_model
from ..formats.numbers import read_fraction, read_whole
from ..model.linear_program import LinearProgram
from ..formats.mps import MpsColumns, read_mps
from ..system.codes import ExitStatus
from ..system.errors import NotDecimal
from ..system.files import OutputFiles, write_new
from .bridge import Bridge, ModelForm
from .calls import Command, Reply
from .refusal import Refusal

FORMS = (ModelForm.FREE, ModelForm.FIXED)  # in the order in which they are tried
TRIAL_CERTIFICATE = b"certificate 1\nfeasible 0\npoint 0\n"  # any program can be asked about it
FIELDS_OF_NAMES = ((4, 12), (14, 22), (39, 47))  # places in a line of fixed columns
MOST_ROWS = 1 << 20  # that the proved program judges, and as many columns
MOST_ENTRIES = 1 << 23
SHORT_NUMBER = 18  # bytes of a number without an exponent that is surely small enough
SMALL = 1 << 60  # the sum of two fractions of such numbers fits the program's 127 bits


class MpsRefusal(Refusal):
    """A refusal of an MPS file, in which its own names are told.

    Attributes:
        place: What the program's line says of a place, such as `column 2`; may be empty.
        name: What stands there in the file.
        remark: What else there is to say, behind the line.
    """

    def __init__(
        self,
        command: str,
        reply: Reply,
        words: Sequence[str] = (),
        file_names: Optional[Mapping[str, str]] = None,
    ) -> None:
        """As of `Refusal`; whoever raises it sets place, name and remark where they are known."""
        super().__init__(command, reply, words, file_names)
        self.place = ""
        self.name = ""
        self.remark = ""

    def describe(self) -> str:
        """As of `Refusal`, with the name behind the place, and the remark at the end."""
        line = super().describe()
        if self.name:
            line = line.replace(f" {self.place}: ", f" {self.place} ({self.name}): ", 1)
        return line + self.remark


class MpsText(NamedTuple):
    """An MPS file as the proved program reads it.

    Attributes:
        form: In which it is read.
        text: The same in the one written form.
        notes: On other ways to read it.
    """

    form: ModelForm
    text: bytes
    notes: Tuple[str, ...] = ()


def read_mps_text(bridge: Bridge, path: str, form: Optional[ModelForm] = None) -> MpsText:
    """An MPS file in the form that is asked for; else in free form, or in fixed columns.

    A text may be two programs: where it is one in either form, it is read in free form, and a note
    says so where they differ.

    Raises:
        Refusal: It is no MPS text of the form, or of any.
    """
    if form is not None:
        return MpsText(form, bridge.text(form.reader, path))
    free, fixed = (bridge.call(form.reader.value, path) for form in FORMS)
    if free.status == ExitStatus.DONE == fixed.status and free.out != fixed.out:
        note = (
            "it is read in free form; in fixed columns it is another program, which "
            "format=fixed reads"
        )
        return MpsText(ModelForm.FREE, free.out, (note,))
    if free.status == ExitStatus.DONE:
        return MpsText(ModelForm.FREE, free.out)
    if fixed.status == ExitStatus.DONE:
        return MpsText(ModelForm.FIXED, fixed.out)
    raise _refusal_of_forms(bridge, path, free, fixed)


def _refusal_of_forms(bridge: Bridge, path: str, free: Reply, fixed: Reply) -> Refusal:
    """Of a file that is read in no form: the fault of the form that goes further."""
    for form, reply in zip(FORMS, (free, fixed)):
        if reply.status != ExitStatus.REFUSED:
            return bridge.refusal((form.reader.value, path), reply)
    is_fixed = _line_of(fixed.told) > _line_of(free.told)
    command = (ModelForm.FIXED if is_fixed else ModelForm.FREE).reader.value
    refusal = MpsRefusal(command, fixed if is_fixed else free, (command, path), bridge.file_names)
    if is_fixed:
        refusal.remark = " (in fixed columns)"
    if has_blank_name(path, _line_of(fixed.told)):
        refusal.remark += ": names with blanks are not read"
    return refusal


def _line_of(told: str) -> int:
    """The number at the place of a refusal; 0 where there is none."""
    words = told.partition(":")[0].split()
    with contextlib.suppress(NotDecimal, IndexError):
        return read_whole(words[-1])
    return 0


def has_blank_name(path: str, number: int) -> bool:
    """Whether a name in fixed columns has two words, at a line that is no head of a section."""
    with open(path, "rb") as file:
        line = next(itertools.islice(file, max(number - 1, 0), None), b"")
    is_head = line[:1] != b" "
    return not is_head and any(len(line[start:end].split()) > 1 for start, end in FIELDS_OF_NAMES)


def program_of_mps(bridge: Bridge, path: str, trial: str, read: MpsText) -> LinearProgram:
    """The program of an MPS file. From now on certificates are judged over it in its form.

    Args:
        bridge: Knows the form of the file from now on.
        path: Of the file.
        trial: Where a certificate may be written for a trial.
        read: The file as it was read.

    Raises:
        Refusal: The file has no linear program. That is asked only where it may be so.
    """
    program = LinearProgram.of_named(read.text)
    bridge.forms[path] = read.form
    if not is_surely_linear_program(program.written):
        _try_to_judge(bridge, path, write_new(trial, TRIAL_CERTIFICATE), program)
    return program


def _try_to_judge(bridge: Bridge, path: str, certificate: str, program: LinearProgram) -> None:
    """Refused where the program judges nothing over the file; the line has the file's names."""
    command = bridge.forms[path].judge.value
    reply = bridge.call(command, path, certificate)
    if reply.status in (ExitStatus.DONE, ExitStatus.FAILED):
        return
    refusal = MpsRefusal(command, reply, (command, path, certificate), bridge.file_names)
    refusal.place = reply.told.removeprefix("refused ").partition(":")[0]
    kind, _, number = refusal.place.partition(" ")
    if number.isdigit() and kind == "row":
        refusal.name = program.own_names.row(read_whole(number))
    elif number.isdigit() and kind == "column":
        refusal.name = program.own_names.column(read_whole(number))
    raise refusal


def is_surely_linear_program(read: MpsColumns) -> bool:
    """Whether a text has a linear program whose numbers the proved program holds.

    Where it has none, which `verify_mps` would say at each certificate, this is false. It is false
    of some others, too: it looks at sizes, at the bounds of columns, and at each number by itself.
    """
    if max(len(read.rows), len(read.columns)) > MOST_ROWS or len(read.entry_rows) > MOST_ENTRIES:
        return False
    low, high = read.bounds()
    for lower, upper in set(zip(low, high)):
        if lower and upper and read_fraction(lower) > read_fraction(upper):
            return False
    return all(map(_is_small, {*read.numbers, *read.rhs.values(), *read.ranges.values()}))


def _is_small(number: bytes) -> bool:
    """Whether a decimal is surely within 127 bits, and its sum with another one that is."""
    if len(number) <= SHORT_NUMBER and b"e" not in number.lower():
        return True
    value: Fraction = read_fraction(number)
    return abs(value.numerator) < SMALL and value.denominator < SMALL


class ImportedModel(NamedTuple):
    """An MPS file as an .nl file, with the lists of names that go beside it.

    Attributes:
        text: Of the .nl file.
        rows: Names of the constraints, then of the objective where there is one.
        columns: Names of the variables in the order of the .nl file.
    """

    text: bytes
    rows: List[bytes]
    columns: List[bytes]


def lists_of_names(text: bytes) -> Tuple[List[bytes], List[bytes]]:
    """The names of an MPS text in the order of the .nl file that `import` makes of it.

    The proved program does not write that order, so it is worked out again: variables are
    continuous ones, then binary ones, then integer ones, each in the order of the columns.

    Args:
        text: In the one written form.

    Returns:
        The names of constraints, then of the objective; those of variables.
    """
    read = read_mps(text)
    objective = [read.objective] if read.objective else []
    columns = [read.columns[column] for column in _in_nl_order(read)]
    return [*read.rows, *objective], columns


def _in_nl_order(read: MpsColumns) -> List[int]:
    """The columns of an MPS text, by their places, in the order of the .nl file."""
    low, high = read.bounds()

    def group(column: int) -> int:
        """Where a column stands: 0 continuous, 1 binary, 2 integer with other bounds."""
        lower, upper = low[column], high[column]
        if not read.is_integer[column]:
            return 0
        is_binary = lower and read_fraction(lower) >= 0 and upper and read_fraction(upper) <= 1
        return 1 if is_binary else 2

    return sorted(range(len(low)), key=group)


def imported_model(bridge: Bridge, path: str) -> ImportedModel:
    """What `import` makes of an MPS file in free form, with its names.

    Raises:
        Refusal: The program refuses the text.
    """
    text = bridge.text(Command.IMPORT, path)
    return ImportedModel(text, *lists_of_names(bridge.text(Command.MPS, path)))


def import_mps(bridge: Bridge, path: str, nl: str, *, overwrite: bool = False) -> str:
    """Makes an .nl file of an MPS file, and the lists of names beside it: all of them, or none.

    Args:
        bridge: Reads the file.
        path: Of the MPS file.
        nl: Where the .nl file is to be.
        overwrite: Whether files that stand there are replaced.

    Returns:
        A line on what is written.

    Raises:
        Refusal: The program refuses the text.
        FileFault: Something may not be written.
    """
    model = imported_model(bridge, path)
    stub = nl.removesuffix(".nl")
    texts = {
        stub + ".nl": model.text,
        stub + ".row": b"".join(name + b"\n" for name in model.rows),
        stub + ".col": b"".join(name + b"\n" for name in model.columns),
    }
    reads = [path, bridge.file_names.get(path, path)]
    outputs = OutputFiles(reads, kind_of_model, overwrite=overwrite)
    for target, data in texts.items():
        outputs.check(target, data)
    for target, data in texts.items():
        outputs.write(target, data)
    return (
        f"{stub}.nl is written, with the names of {len(model.rows) - 1} constraints and "
        f"{len(model.columns)} variables in {stub}.row and {stub}.col"
    )
