"""What a file is, by its first bytes and by its name, and what takes it.

`ModelKind` and `Packing` are what commands read, `FileKind` all else, with the help that a message
has for it. Each test of first bytes looks at each byte a bounded number of times: the file may be
anyone's.
"""

from __future__ import annotations

import bz2
import enum
import gzip
import lzma
import os
import re
import zlib
from typing import BinaryIO, Callable, Dict, List, Mapping, NamedTuple, Optional, Tuple, cast

LOOKED_AT = 1 << 16  # bytes of a file's start that tell what it is, behind comments too
BYTE_ORDER_MARK = b"\xef\xbb\xbf"  # of UTF-8, in front of a text
ELF_MARK = b"\x7fELF"
BYTE_ORDER_MARKS = (b"\xff\xfe", b"\xfe\xff")  # of UTF-16
MODEL_ENDS = (".nl", ".mps")
OTHER_MODEL_ENDS = (".nl.gz", ".mps", ".lp", ".mod", ".mzn")  # looked for beside a stub
MPS_FIRST_WORD = re.compile(rb"(?:NAME|OBJSENSE|ROWS)\b")  # of one line
NL_FIRST_LINE = re.compile(rb"[gb]\d[ \t0-9]*(?:#.*)?")
NL_SECOND_LINE = re.compile(rb"[ \t]*\d")  # how it begins
LP_FIRST_WORD = re.compile(rb"(?:min|max)(?:imi[sz]e|imum)?[:\s]", re.IGNORECASE)
LP_LINE_COMMENTS = (b"\\", b"//")


class ModelKind(enum.Enum):
    """What a text is that is a model."""

    NL = "an .nl file"
    MPS = "an MPS file"
    LP = "an LP file"
    AMPL = "a text of AMPL"
    MINIZINC = "a text of MiniZinc"


class Packing(enum.Enum):
    """How a file is packed: the end of its name, and its first bytes (`end` and `mark`)."""

    GZIP = ".gz", b"\x1f\x8b"
    BZIP2 = ".bz2", b"BZh"
    XZ = ".xz", b"\xfd7zXZ"

    @property
    def end(self) -> str:
        """The end of a packed file's name, with its dot."""
        return self.value[0]

    @property
    def mark(self) -> bytes:
        """The first bytes of a packed file."""
        return self.value[1]

    def unpack(self, packed: BinaryIO) -> BinaryIO:
        """The stream of what is packed in a stream, which unpacks as it is read.

        `start_of_file` looks at its first bytes, and `formats.source` copies all of it.

        A damaged stream raises when it is read: OSError, EOFError, ValueError, or the errors of
        zlib and lzma.
        """
        return cast(BinaryIO, _UNPACKERS[self](packed))


_UNPACKERS: Mapping[Packing, Callable[[BinaryIO], object]] = {
    Packing.GZIP: lambda packed: gzip.GzipFile(fileobj=packed),
    Packing.BZIP2: bz2.BZ2File,
    Packing.XZ: lzma.LZMAFile,
}


class FileKind(NamedTuple):
    """A kind of file that is no .nl file.

    Attributes:
        ends: Of names of such files.
        text: What it is.
        help: What takes it; `{path}` and `{stub}` stand for its name with and without its end.
        mark: What such a file begins with; nothing where that does not tell.
    """

    ends: Tuple[str, ...]
    text: str
    help: str
    mark: bytes = b""


MPS = FileKind(
    (".mps",),
    "an MPS file",
    "`bridge-certify {path}` and the drivers take it, `nl-bridge import {path} {stub}.nl` makes "
    "{stub}.nl of it",
)
LP = FileKind(
    (".lp",),
    "an LP file, which no command here reads",
    "save the model as .nl (AMPL `write g{stub}`, Pyomo, JuMP) or MPS (PuLP, JuMP, OR-Tools) where "
    "it was made; what turns LP files into MPS may round numbers and lose the sense",
)
CERTIFICATE = FileKind(
    (".certificate",),
    "a certificate",
    "`nl-bridge verify MODEL.nl {path}` judges it",
    b"certificate 1",
)
PROGRAM = FileKind((".elf",), "a program (ELF)", "no command takes it for a model", ELF_MARK)
UTF16 = FileKind((".utf16",), "a text in UTF-16", "save it in UTF-8")
ZIP = FileKind((".zip",), "a compressed file", "`unzip {path}` unpacks it", b"PK\x03\x04")
PACKED: Dict[Packing, FileKind] = {
    packing: FileKind(
        (packing.end,), "a compressed file", f"`{tool} -k {{path}}` unpacks it", packing.mark
    )
    for packing, tool in (
        (Packing.GZIP, "gunzip"),
        (Packing.BZIP2, "bunzip2"),
        (Packing.XZ, "unxz"),
    )
}
KINDS: List[FileKind] = [
    MPS,
    LP,
    FileKind(
        (".mod", ".dat", ".run"), "a text of AMPL", "in AMPL, `write g{stub};` writes {stub}.nl"
    ),
    FileKind(
        (".mzn", ".fzn", ".dzn"), "a text of MiniZinc", "`minizinc --solver bridge-cbc {path}`"
    ),
    *PACKED.values(),
    ZIP,
    FileKind((".sol",), "the answer to a model", "a driver takes the model"),
    CERTIFICATE,
    FileKind((".py",), "a text of Python", "`python3 {path}` runs it"),
    PROGRAM,
    UTF16,
]
KIND_OF_END: Dict[str, FileKind] = {end: kind for kind in KINDS for end in kind.ends}


def packing_of(start: bytes) -> Optional[Packing]:
    """How a file is packed, by its first bytes (six are enough); None where it is not."""
    return next((packing for packing in Packing if start.startswith(packing.mark)), None)


def is_mps_start(start: bytes) -> bool:
    """Whether a text's first line that is neither empty nor a comment is a head of MPS.

    Args:
        start: The first bytes, unpacked. A file that was cut before such a line is none.
    """
    at = len(BYTE_ORDER_MARK) if start.startswith(BYTE_ORDER_MARK) else 0
    while at < len(start):
        end = start.find(b"\n", at)
        if MPS_FIRST_WORD.match(start, at):
            return True
        if end < 0 or start[at : at + 1] != b"*" and start[at:end].strip():
            return False
        at = end + 1
    return False


def is_lp_start(start: bytes) -> bool:
    """Whether a text's first word behind comments and empty lines is a sense of LP.

    Args:
        start: The first bytes, unpacked; one that ends within a comment is none.
    """
    at = 0
    while at < len(start):
        if start.startswith(b"/*", at):
            closing = start.find(b"*/", at + 2)
            if closing < 0:
                return False
            at = closing + 2
            while start[at : at + 1] in (b" ", b"\t", b"\r"):
                at += 1
            continue
        end = start.find(b"\n", at)
        if end < 0 or start[at:end].strip() and not start.startswith(LP_LINE_COMMENTS, at):
            break
        at = end + 1
    return LP_FIRST_WORD.match(start, at) is not None


def is_nl_start(start: bytes) -> bool:
    """Whether a text begins with the first two lines of an .nl file, of text (g) or binary (b).

    Lines without words, and comments, may stand before them and between them.
    """
    rest = _behind_comments(start)
    first, _, rest = rest.partition(b"\n")
    rest = _behind_comments(rest)
    is_first = NL_FIRST_LINE.fullmatch(first.rstrip(b"\r")) is not None
    return is_first and NL_SECOND_LINE.match(rest) is not None


def _behind_comments(start: bytes) -> bytes:
    """A text of .nl without the lines in front that have no words, or a comment alone."""
    at = 0
    while at < len(start):
        end = start.find(b"\n", at)
        if end < 0 or start[at:end].split(b"#")[0].strip():
            break
        at = end + 1
    return start[at:]


MODELS_BY_END: Mapping[str, ModelKind] = {
    ".nl": ModelKind.NL,
    ".mps": ModelKind.MPS,
    ".lp": ModelKind.LP,
    **dict.fromkeys((".mod", ".dat", ".run"), ModelKind.AMPL),
    **dict.fromkeys((".mzn", ".dzn", ".fzn"), ModelKind.MINIZINC),
}  # what a name says that ends so, where the text does not tell


def kind_of_model(path: str, start: bytes) -> Optional[ModelKind]:
    """The kind of a model that stands at a path, packed or not; None where it is none.

    `OutputFiles` asks it of what stands at a place, and of what would be written there, which has
    no path. The text tells it; else the end of the name does, so that a model of another program is
    none the less one.

    Args:
        path: Of a plain file; "" where no file is meant.
        start: Its first bytes.
    """
    if path and packing_of(start) is not None:
        start = start_of_file(path)
    stub, end = os.path.splitext(path)
    if end.lower() in {packing.end for packing in Packing}:
        end = os.path.splitext(stub)[1]
    return model_kind_of_start(start) or MODELS_BY_END.get(end.lower())


def model_kind_of_start(start: bytes) -> Optional[ModelKind]:
    """The kind of a model by its first bytes, unpacked; None where they are of no model."""
    if is_nl_start(start):
        return ModelKind.NL
    if is_mps_start(start):
        return ModelKind.MPS
    return ModelKind.LP if is_lp_start(start) else None


def kind_of_start(start: bytes) -> Optional[FileKind]:
    """What a file is that is no .nl file, by its first bytes; None where they do not tell."""
    for kind in KINDS:
        if kind.mark and start.startswith(kind.mark):
            return kind
    if start.startswith(BYTE_ORDER_MARKS):
        return UTF16
    if is_mps_start(start):
        return MPS
    return LP if is_lp_start(start) else None


def start_of_file(path: str) -> bytes:
    """The first LOOKED_AT bytes of a plain file, unpacked.

    None of them where it cannot be read, or what is packed in it is damaged.
    """
    try:
        with open(path, "rb") as file:
            packing = packing_of(file.read(6))
            file.seek(0)
            return (packing.unpack(file) if packing else file).read(LOOKED_AT)
    except (OSError, EOFError, ValueError, lzma.LZMAError, zlib.error):
        return b""


def kind_of_file(path: str) -> Optional[FileKind]:
    """What a file is that is no .nl file: by what it begins with, else by the end of its name.

    None where neither tells, or it is no plain file that can be opened. A packed file is not
    unpacked: it is of its packing's kind.
    """
    if not os.path.isfile(path):  # what is taken from a pipe is gone
        return None
    try:
        with open(path, "rb") as file:
            start = file.read(LOOKED_AT)
    except OSError:
        return None
    return kind_of_start(start) or KIND_OF_END.get(os.path.splitext(path)[1].lower())


def is_packed_file(path: str) -> bool:
    """Whether it is a plain file that begins as a packed one.

    Raises:
        OSError: It is there, and cannot be read.
    """
    if not os.path.isfile(path):
        return False
    with open(path, "rb") as file:
        return packing_of(file.read(6)) is not None


def is_mps_file(path: str) -> bool:
    """Whether it is a plain file of MPS, packed or not, by its first bytes or its name.

    A program (ELF) whose name ends with .mps is none. `nl-bridge` asks it of the files in its
    words.

    Raises:
        zlib.error: As `start_of_file`.
    """
    if not os.path.isfile(path):
        return False
    start = start_of_file(path)
    return is_mps_start(start) or end_of(path) == ".mps" and not start.startswith(ELF_MARK)


def split_model_name(path: str) -> Tuple[str, str]:
    """The path of a model without its ends, and its own end in small letters, not its packing's.

    `model` and `.mps` of `model.mps.gz`; the whole path and "" where it has no end of a model.
    """
    stub, end = os.path.splitext(path)
    if end.lower() in {packing.end for packing in Packing}:
        stub, end = os.path.splitext(stub)
    return (stub, end.lower()) if end.lower() in MODEL_ENDS else (path, "")


def stub_of(path: str) -> str:
    """The path without the ends of a model: `model` of `model.mps.gz`; others stay as they are."""
    return split_model_name(path)[0]


def end_of(path: str) -> str:
    """`.nl` or `.mps`, also in front of the end of a packing; "" of other names."""
    return split_model_name(path)[1]


def describe(path: str, kind: FileKind, shown: str = "") -> str:
    """`is an MPS file: ..`, with what takes it, to stand behind the file's name in a message.

    Args:
        path: Where it stands.
        kind: As `kind_of_file` tells it.
        shown: What the user calls the file, where that is not its path.
    """
    shown = shown or path
    stub = stub_of(shown) if end_of(shown) else os.path.splitext(shown)[0]
    if kind is MPS and stub + ".nl" == shown:
        stub += "-2"  # a file is not written over itself
    return f"is {kind.text}: " + kind.help.format(path=shown, stub=stub)


def explain_missing_model(word: str) -> str:
    """Why there is no model where the word of a call says that there is one, in a whole sentence.

    It is a folder, a file of another kind, there is a model in another form beside it, or nothing.
    """
    path = word if end_of(word) else word + ".nl"
    for folder in (path, word):
        if os.path.isdir(folder):
            return f"{folder} is a folder"
    if os.path.isfile(word):
        kind = kind_of_file(word)
        return f"{word} {describe(word, kind)}" if kind else f"{word} is no .nl file by its name"
    for end in OTHER_MODEL_ENDS:
        beside = stub_of(word) + end
        kind = kind_of_file(beside)
        if kind is not None:
            return f"{path}: no such file; {beside} {describe(beside, kind)}"
    return f"{path}: no such file"
