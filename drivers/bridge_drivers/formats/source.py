"""A file that is read once, into a private copy with its SHA-256.

What the proved program judges, what the drivers look at, what a page shows and what a report's sums
are of, are the same bytes: each file of a call is opened once and copied as it is read, unpacked
where it is packed, up to a limit. Whoever writes to it later, or puts another one at its place,
changes nothing of what is told.

Each command and call reads its model by `read_model` and its certificate by `read_source` into a
`Source`, with the copy in a `Workspace`. Of a file that is given to one call of the proved program
alone no copy is needed (`commands.nl_bridge`).
"""

from __future__ import annotations

import contextlib
import errno
import hashlib
import io
import lzma
import os
import re
import select
import shutil
import stat
import zlib
from dataclasses import dataclass, field, replace
from typing import BinaryIO, Iterator, NamedTuple, Optional, Sequence, Set

from ..system.errors import Damaged, FileAction, FileFault, NoModel, TooLarge
from . import file_kinds
from ..system.files import new_file, private_folder, require_path
from .mps_repair import repair_mps

OPEN_FILE = re.compile(r"(?:/dev|/proc/self)/fd/(?P<number>\d{1,9})")
STANDARD_INPUT = ("-", "/dev/stdin")
STANDARD_NAME = "stdin"  # the stub of a model beside which no file can stand
PIECE = 1 << 20  # bytes that are copied at once
DAMAGES = (EOFError, ValueError, zlib.error, lzma.LZMAError)
NO_ROOM = (errno.EFBIG, errno.ENOSPC, errno.EDQUOT)  # what writing alone comes to


class Limits(NamedTuple):
    """How much is read of a source, and how long somebody is waited for who writes it.

    Attributes:
        most_bytes: In all. The proved program takes texts up to 2^31 bytes.
        most_ratio: How many times as large as what is packed the text may be that it unpacks to.
        free_bytes: Up to which that does not count.
        writer_seconds: That a named pipe has until somebody opens it for writing. Whoever has it
            open is waited for as long as it takes.
    """

    most_bytes: int = 2**31
    most_ratio: int = 200
    free_bytes: int = 1 << 28
    writer_seconds: float = 30.0

    def most_unpacked(self, packed: int) -> int:
        """The most bytes that may come out of a packed file of which `packed` bytes were read."""
        return min(self.most_bytes, max(self.free_bytes, self.most_ratio * packed))


@dataclass(frozen=True)
class Source:
    """One file of a call.

    Attributes:
        name: What the user calls it.
        path: The private copy of its text; of a model that could not be opened the user's own path.
        stub: The path of files beside it, without an end.
        start: The first bytes of the text.
        is_mps: Whether it is an MPS file, by its first bytes or its name.
        notes: What was done to it before it was read.
        digest: The SHA-256 of the copy in hexadecimal, taken as it was made; "" where there is none.
    """

    name: str
    path: str
    stub: str
    start: bytes = b""
    is_mps: bool = False
    notes: Sequence[str] = field(default_factory=tuple)
    digest: str = ""

    @property
    def reads(self) -> Sequence[str]:
        """The paths of what was read, for `OutputFiles`: the user's own file, and the copy."""
        return (self.name, self.path)

    def sha256(self) -> Optional[str]:
        """The SHA-256 of the text, for a report; None where nothing was read."""
        return self.digest or None


class Workspace:
    """A private folder of one call, made for the first path that is asked for.

    It is a context manager, which removes the folder at its end.

    Attributes:
        folder: Its path; "" as long as nobody asked for a path.
        count: How many paths were given.
        streams: What can be read once alone and was, by number or path.
    """

    def __init__(self) -> None:
        self.folder = ""
        self.count = 0
        self.streams: Set[str] = set()

    def __enter__(self) -> Workspace:
        return self

    def __exit__(self, *fault: object) -> None:
        """Removes the folder with all in it; what cannot be removed stays without a word."""
        if self.folder:
            shutil.rmtree(self.folder, ignore_errors=True)

    def new_path(self) -> str:
        """The path of a file in the folder that is not there yet; the caller makes it."""
        self.folder = self.folder or private_folder("nl-bridge-")
        self.count += 1
        return os.path.join(self.folder, f"given{self.count}")

    def link_to(self, path: str) -> str:
        """Makes a link to a path, and returns the link's own path, which is a text of UTF-8.

        The proved program takes no other paths, so a command calls this for a file with such a
        name.
        """
        link = self.new_path()
        os.symlink(os.path.abspath(path), link)
        return link


def is_stream(word: str) -> bool:
    """Whether a path can be read once alone: standard input, a pipe, a FIFO, a device.

    The names of open files are known by their form; another path is looked at, and is no stream
    where nothing is there.
    """
    if _number_of(word) is not None:
        return True
    return os.path.exists(word) and not (os.path.isfile(word) or os.path.isdir(word))


def _number_of(word: str) -> Optional[int]:
    """The number of the open file of this process that a path names; None where it names none."""
    if word in STANDARD_INPUT:
        return 0
    found = OPEN_FILE.fullmatch(word)
    return int(found["number"]) if found else None


def name_of_model(word: str) -> str:
    """The path that the word of a call means: WORD.nl where that is a file and the word has no end.

    Args:
        word: A path with the end of a model, or the stub of one, as in AMPL; `-` for standard
            input.

    Returns:
        `word` itself in all other cases, whether a file is there or not.
    """
    is_stub = not file_kinds.end_of(word) and not is_stream(word) and os.path.isfile(word + ".nl")
    return word + ".nl" if is_stub else word


def stub_of(name: str) -> str:
    """The path of files beside the model of this name, without an end; `stdin` for standard
    input.
    """
    return file_kinds.stub_of(name) if _number_of(name) is None else STANDARD_NAME


def missing_source(word: str) -> Source:
    """A source for a model that could not be opened, so that its refusal can name files beside it.

    Its path ends with .nl and need not be there. Nothing is read: it has no start and no sum.
    """
    path = word.removesuffix(".nl") + ".nl"
    is_mps = file_kinds.end_of(word) == ".mps"
    return Source(word, path, file_kinds.stub_of(word), is_mps=is_mps)


def read_source(name: str, workspace: Workspace, limits: Limits = Limits()) -> Source:
    """Opens a file once, and copies its text into the workspace; what is packed is unpacked.

    Args:
        name: A path, or `-` for standard input.
        workspace: Where the copy is made; it has to outlive the answer.
        limits: Of what is copied, and of the waiting for somebody who writes.

    Returns:
        The source with its start and kind; a note says where it was unpacked.

    Raises:
        OSError, FileFault: It cannot be read, nobody writes to it, or it was read before.
        Damaged: What is packed in it cannot be unpacked.
        TooLarge: It goes on past a limit.
    """
    require_path(name, FileAction.READ)
    with _opened(name, workspace, limits) as stream:
        _check_size(name, stream, limits)
        start = stream.read(file_kinds.LOOKED_AT)
        packing = file_kinds.packing_of(start)
        source = Source(name, name, stub_of(name))
        whole = _Rejoined(start, stream)
        if packing is None:
            return _with_kind(_copied(source, whole, workspace, None, limits))
        try:
            unpacked = packing.unpack(io.BufferedReader(whole))
            copy = _copied(source, unpacked, workspace, whole, limits)
        except DAMAGES as fault:
            reason = f"the packed file ends too soon or is damaged ({fault})"
            raise Damaged(name, reason) from None
        except OSError as fault:
            if fault.errno is None:  # of gzip and bz2
                raise Damaged(name, f"the packed file is damaged ({fault})") from None
            raise
    note = f"what is judged is the text that {os.path.basename(name)} unpacks to"
    return _with_kind(replace(copy, notes=(note,)))


def read_model(word: str, workspace: Workspace, limits: Limits = Limits()) -> Source:
    """The model that a word of a call names; an MPS file is repaired in a copy where need be.

    Args:
        word: A path, a stub, or `-`; see `name_of_model`.
        workspace: Where copies are made; it has to outlive the answer.
        limits: As of `read_source`.

    Returns:
        The source; its notes tell of unpacking and of repairs (`repair_mps`).

    Raises:
        NoModel: There is no such file.
        OSError, Damaged, TooLarge: As `read_source`.
    """
    require_path(word, FileAction.READ)
    name = name_of_model(word)
    if not is_stream(name) and not os.path.isfile(name):
        raise NoModel(word, file_kinds.explain_missing_model(word))
    source = read_source(name, workspace, limits)
    if not source.is_mps:
        return source
    with open(source.path, "rb") as file:
        repaired, notes = repair_mps(file.read())
    if not notes:
        return source
    copy = _copied(source, io.BytesIO(repaired), workspace, None, limits)
    os.unlink(source.path)
    return replace(copy, is_mps=True, notes=(*source.notes, *notes))


class _Rejoined(io.RawIOBase):
    """A stream of whose front some bytes were read already, and are given first.

    Attributes:
        front: Those of them that are still to be given.
        rest: The stream behind them.
        count: How many bytes it has given, for the limit on what they unpack to.
    """

    def __init__(self, front: bytes, rest: BinaryIO) -> None:
        """Of a stream from which the bytes `front` were read; `rest` is the stream behind them."""
        self.front = front
        self.rest = rest
        self.count = 0

    def readable(self) -> bool:
        """True, as `io.BufferedReader` asks."""
        return True

    def readinto(self, buffer: bytearray) -> int:  # type: ignore[override]
        """Fills a buffer, not always to its end; its count of bytes, 0 at the stream's end."""
        piece = self.front[: len(buffer)] or self.rest.read(len(buffer))
        self.front = self.front[len(buffer) :]
        buffer[: len(piece)] = piece
        self.count += len(piece)
        return len(piece)


def _opened(name: str, workspace: Workspace, limits: Limits) -> BinaryIO:
    """A stream of the bytes at a path, which the caller closes; an open file is read on where it is.

    Raises:
        OSError: It cannot be opened.
        FileFault: Nobody writes to it, or it can be read once alone and was.
    """
    number = _number_of(name)
    if number is not None:
        _read_once(str(number), name, workspace)
        return os.fdopen(os.dup(number), "rb")
    if not stat.S_ISFIFO(os.stat(name).st_mode):
        return open(name, "rb")
    _read_once(os.path.realpath(name), name, workspace)
    return _opened_fifo(name, limits)


def _read_once(key: str, name: str, workspace: Workspace) -> None:
    """Raises FileFault where what can be read once alone was read in this workspace."""
    if key in workspace.streams:
        raise FileFault(name, "it was read already, and gives nothing twice", FileAction.READ)
    workspace.streams.add(key)


def _opened_fifo(name: str, limits: Limits) -> BinaryIO:
    """A named pipe to be read, once somebody has opened it for writing.

    Args:
        name: Its path.
        limits: Say how long this is waited for.

    Raises:
        OSError: It cannot be opened.
        FileFault: Nobody writes to it.
    """
    number = os.open(name, os.O_RDONLY | os.O_NONBLOCK)
    waits = select.poll()
    waits.register(number, select.POLLIN)
    try:
        if not waits.poll(limits.writer_seconds * 1000):
            waited = f"{limits.writer_seconds:g} seconds"
            reason = f"it is a named pipe, and nobody wrote to it in {waited}"
            raise FileFault(name, reason, FileAction.READ)
        is_blocking = True
        os.set_blocking(number, is_blocking)
    except BaseException:  # a signal, too
        os.close(number)
        raise
    return os.fdopen(number, "rb")


def _check_size(name: str, stream: BinaryIO, limits: Limits) -> None:
    """Raises TooLarge where a file says that it is larger than is read, before it is."""
    size = os.fstat(stream.fileno()).st_size
    if size > limits.most_bytes:
        raise TooLarge(name, size)


def _copied(
    source: Source,
    text: "BinaryIO | io.RawIOBase",
    workspace: Workspace,
    packed: Optional[_Rejoined],
    limits: Limits,
) -> Source:
    """Copies a stream into a new file of the workspace, and takes its SHA-256 as it is written.

    Args:
        source: What the answer is made of: its name, stub and notes stay.
        text: What is copied, to its end.
        packed: The packed stream from which `text` comes, whose count of bytes limits its size;
            None where nothing is unpacked.

    Returns:
        The source at its new path, with start and digest of the copy.

    Raises:
        TooLarge: The text goes on past a limit. What was written stays in the workspace.
        FileFault: The copy cannot be written.
    """
    path = workspace.new_path()
    digest = hashlib.sha256()
    size = 0
    start = b""
    with _full_disk_told_of(path), new_file(path) as copy:
        for piece in iter(lambda: text.read(PIECE), b""):
            assert piece is not None
            size += len(piece)
            if size > (limits.most_unpacked(packed.count) if packed else limits.most_bytes):
                raise TooLarge(source.name, size)
            start += piece[: file_kinds.LOOKED_AT - len(start)]
            digest.update(piece)
            copy.write(piece)
    return replace(source, path=path, start=start, digest=digest.hexdigest())


@contextlib.contextmanager
def _full_disk_told_of(path: str) -> Iterator[None]:
    """A block that reads and writes a copy: that there is no room for more is told of the copy."""
    try:
        yield
    except OSError as fault:
        if fault.errno not in NO_ROOM:
            raise
        raise FileFault(path, str(fault.strerror), FileAction.WRITE) from None


def _with_kind(source: Source) -> Source:
    """The source with `is_mps` set: its name ends with .mps, packed or not, or it begins as MPS."""
    has_end = file_kinds.end_of(source.name) == ".mps"
    return replace(source, is_mps=has_end or file_kinds.is_mps_start(source.start))
