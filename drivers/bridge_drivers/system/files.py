"""Writes files whole or not at all, and decides what may be replaced.

No other module opens a file for writing. There are two kinds of files:

- An **output** is what the user asked for, at a place of the user's. `OutputFiles` writes it: under
another name beside its place, with its final permissions before its first byte, and then renamed.
What stands there is replaced only by the rules of `OutputFiles`.
- A file of **this run's own** stands in a private folder. `write_new` and the functions beside it
write it in its place.
"""

from __future__ import annotations

import contextlib
import enum
import errno
import itertools
import os
import re
import shutil
import stat
import sys
import tempfile
from pathlib import Path
from typing import BinaryIO, Callable, Iterator, Sequence, TextIO

from .errors import FileAction, FileFault, FileStays
from .signals import SIGNALS
from .text import one_line

ANYONE_MAY_WRITE = 0o222  # the bits of a mode that let someone write
MODE_OF_NEW_FILES = 0o666  # less the mask of the process
LOOKED_AT = 1 << 16  # bytes of a file's start that tell its kind
OPEN_FILE = re.compile(r"/dev/std(?P<name>out|err)|/(?:dev|proc/self)/fd/(?P<number>\d+)")

# of a file's path ("" where there is none) and first bytes; None where it is no model
KindOfModel = Callable[[str, bytes], object]


def require_path(path: str, action: FileAction) -> None:
    """Raises FileFault where a text is no path of this system: a byte 0, or a half of a letter.

    Args:
        path: As the user gave it.
        action: What was to be done with it.
    """
    try:
        is_path = b"\0" not in os.fsencode(path)
    except UnicodeEncodeError:
        is_path = False
    if not is_path:
        raise FileFault(one_line(path), "it is no path of this system", action)


class WhyItStays(enum.Enum):
    """Why what stands at a place is not replaced."""

    IS_READ = "it is what this command reads"
    STANDS = "it stands there, and this run did not make it; overwrite=1 replaces it"
    IS_MODEL = "it is a model, and what would be written is none of its kind"
    DANGLES = "it is a symbolic link to nothing"


class OutputFiles:
    """What one run may write.

    - What the run reads is never replaced, by whatever path.
    - A model is replaced only by a model of the same kind.
    - What else stands there is replaced with `overwrite` alone, unless nothing is lost: it is
    empty, or has the same bytes already.
    - Nothing is written through a symbolic link that leads nowhere.

    Attributes:
        reads: The paths of what the run reads.
        model_kind: The kind of a model by its path and first bytes; None where it is no model.
        overwrite: What stands at a place may be replaced.
    """

    def __init__(
        self, reads: Sequence[str], model_kind: KindOfModel, *, overwrite: bool = False
    ) -> None:
        """Nothing is looked at yet; the arguments are the attributes of the class."""
        self.reads = reads
        self.model_kind = model_kind
        self.overwrite = overwrite

    def check(self, target: str, data: bytes) -> None:
        """Raises where these bytes may not stand at a path, before any of a run's files is written.

        Raises:
            FileStays: What stands there stays.
            FileFault: It is no path.
        """
        require_path(target, FileAction.WRITE)
        why = self._why_it_stays(target, data)
        if why is not None:
            raise FileStays(target, why.value)

    def write(self, target: str, data: bytes) -> None:
        """Writes a file whole or not at all; what is no plain file is added to.

        Raises:
            FileStays: What stands there stays, or came to stand there just now.
            FileFault: It cannot be written.
        """
        self.check(target, data)
        with _as_file_fault(target):
            if is_stream(target):
                with open_to_append(target) as out:
                    out.write(data)
            else:
                _write_whole(target, data, may_replace=os.path.exists(target))

    def remove(self, target: str) -> None:
        """Removes an older output, such as a .sol of an earlier run, where there is one.

        Raises:
            FileStays: It is what this run reads, or a model.
            FileFault: It cannot be removed.
        """
        require_path(target, FileAction.WRITE)
        if self._is_read(target):
            raise FileStays(target, WhyItStays.IS_READ.value)
        if os.path.isfile(target) and self._kind_at(target) is not None:
            raise FileStays(target, WhyItStays.IS_MODEL.value)
        with _as_file_fault(target), contextlib.suppress(FileNotFoundError):
            os.unlink(target)

    def _is_read(self, target: str) -> bool:
        """Whether a path leads to a file that this run reads."""
        return os.path.exists(target) and any(
            os.path.exists(path) and os.path.samefile(path, target) for path in self.reads
        )

    def _kind_at(self, target: str) -> object:
        """The kind of the model that stands at a path, or where a link there leads; else None."""
        start = start_of(target)
        return self.model_kind(target, start) or self.model_kind(os.path.realpath(target), start)

    def _why_it_stays(self, target: str, data: bytes) -> WhyItStays | None:
        """Why these bytes may not stand at a path; None where they may."""
        if self._is_read(target):
            return WhyItStays.IS_READ
        if os.path.islink(target) and not os.path.exists(target):
            return WhyItStays.DANGLES
        if is_stream(target) or not os.path.isfile(target) or _holds(target, data):
            return None
        if not self.overwrite:
            return WhyItStays.STANDS
        kind = self._kind_at(target)
        is_other = kind is not None and kind != self.model_kind("", data[:LOOKED_AT])
        return WhyItStays.IS_MODEL if is_other else None


def start_of(path: str) -> bytes:
    """The first LOOKED_AT bytes of a file; none where it cannot be read."""
    try:
        with open(path, "rb") as file:
            return file.read(LOOKED_AT)
    except OSError:
        return b""


def is_stream(path: str) -> bool:
    """Whether what stands there is added to: a device, a pipe, or an open file of this process.

    `/dev/stdout` and its kin are streams also where they lead to a plain file. Where nothing stands
    there is no stream.
    """
    return os.path.exists(path) and (
        not os.path.isfile(path) or OPEN_FILE.fullmatch(os.path.abspath(path)) is not None
    )


def open_to_append(path: str) -> BinaryIO:
    """Opens a stream (`is_stream`) for writing behind what it has; the caller closes it.

    Where this process has it open, its own place in it goes on: what was printed before stands
    before, and what is printed later behind.

    Raises:
        OSError: It cannot be opened.
    """
    found = OPEN_FILE.fullmatch(os.path.abspath(path))
    if found is None:
        return open(path, "ab", opener=_open_without_terminal)
    sys.stdout.flush()
    number = found["number"] or {"out": 1, "err": 2}[found["name"]]
    return os.fdopen(os.dup(int(number)), "wb")


def _open_without_terminal(path: str, flags: int) -> int:
    """For `open`: a terminal that is written to does not become this process's own."""
    return os.open(path, flags | getattr(os, "O_NOCTTY", 0), MODE_OF_NEW_FILES)


def private_folder(prefix: str) -> str:
    """Makes a folder that only this user can look into; its path. Whoever calls removes it.

    Args:
        prefix: What its name begins with.

    Raises:
        FileFault: There is no room for it, where the system or TMPDIR say.
    """
    with _as_file_fault("a folder for files in between (TMPDIR)"):
        return tempfile.mkdtemp(prefix=prefix)


def new_folder_in(folder: str, name: str) -> str:
    """A folder that a run has to itself: this one where nothing is in it, else a new one below.

    Args:
        folder: Is made where it is missing.
        name: Of a new one, behind which stand a hyphen and the first number from 1 that is free.

    Raises:
        FileFault: It cannot be made, or looked into.
    """
    require_path(folder, FileAction.WRITE)
    with _as_file_fault(folder):
        os.makedirs(folder, exist_ok=True)
        if not os.listdir(folder):
            return folder
        for number in itertools.count(1):
            own = os.path.join(folder, f"{name}-{number}")
            with contextlib.suppress(FileExistsError):
                os.mkdir(own)
                return own
    raise AssertionError("numbers do not end")


def write_new(path: str, data: BinaryIO | bytes) -> str:
    """Writes a file of this run's own, over what stands there, and returns its path.

    Args:
        path: In a folder of this run's own.
        data: The bytes, or a stream that is copied from its place to its end.

    Raises:
        OSError: It cannot be written; it names the file.
    """
    with new_file(path) as out:
        if isinstance(data, bytes):
            out.write(data)
        else:
            shutil.copyfileobj(data, out)
    return path


@contextlib.contextmanager
def new_file(path: str, *, append: bool = False) -> Iterator[BinaryIO]:
    """A file of this run's own to be written, closed behind the block.

    Args:
        path: In a folder of this run's own; what stands there is lost, unless it is appended to.
        append: Writes behind what the file has.

    Raises:
        OSError: It cannot be written; it names the file. One of the block that names none gets this
            name, too.
    """
    with _named_fault(path), open(path, "ab" if append else "wb") as out:
        yield out


@contextlib.contextmanager
def new_text(path: str) -> Iterator[TextIO]:
    """A file of this run's own that holds ASCII, as `new_file` makes it from its start."""
    with _named_fault(path), open(path, "w", encoding="ascii") as out:
        yield out


def _holds(target: str, data: bytes) -> bool:
    """Whether nothing is lost where these bytes replace a file: it is empty, or has the same."""
    size = os.path.getsize(target)
    return size == 0 or size == len(data) and Path(target).read_bytes() == data


def _write_whole(target: str, data: bytes, *, may_replace: bool) -> None:
    """Puts a file at its place at once or not at all, its bytes on the disk; signals wait.

    A link stays a link: what it leads to is replaced. A file that nobody may write stays.

    Args:
        target: The path of an output.
        data: The whole file.
        may_replace: Something stood there when the run looked, and may be replaced, which keeps its
            mode. Else what came since is not replaced.

    Raises:
        FileExistsError: Something came to stand there.
        OSError: It cannot be written; it names the target.
    """
    if os.path.isdir(target):
        raise IsADirectoryError(errno.EISDIR, os.strerror(errno.EISDIR), target)
    place = os.path.realpath(target)
    mode = stat.S_IMODE(os.stat(place).st_mode) if may_replace else None
    if mode is not None and not (mode & ANYONE_MAY_WRITE and os.access(place, os.W_OK)):
        raise PermissionError(errno.EACCES, "it may not be written", target)
    with SIGNALS.deferred():
        part = ""
        try:
            with _new_part_file(place, mode) as out:
                part = out.name
                out.write(data)
                out.flush()
                os.fsync(out.fileno())
            if may_replace:
                os.replace(part, place)
            else:
                _put_where_nothing_stands(part, place)
        except OSError as fault:
            fault.filename = target
            fault.filename2 = None
            raise
        finally:
            with contextlib.suppress(OSError):
                os.unlink(part)


def _new_part_file(place: str, mode: int | None) -> BinaryIO:
    """Opens a new file `PLACE.NUMBER.part`, which was not there, with the mode that it will have.

    Args:
        place: The path beside which it stands, so that it can be renamed to it.
        mode: Of what it will replace; None where it replaces nothing.
    """
    bits = MODE_OF_NEW_FILES if mode is None else mode & MODE_OF_NEW_FILES

    def opener(path: str, flags: int) -> int:
        """Opens it with its final permissions, and not through a link."""
        return os.open(path, flags | getattr(os, "O_NOFOLLOW", 0), bits)

    for number in itertools.count(os.getpid()):
        with contextlib.suppress(FileExistsError):
            file = open(f"{place}.{number}.part", "xb", opener=opener)
            if mode is not None:
                os.chmod(file.fileno(), mode)
            return file
    raise AssertionError("numbers do not end")


def _put_where_nothing_stands(part: str, place: str) -> None:
    """Gives the file `part` the name `place`, unless another file has got it in the meantime.

    A hard link does both at once, and the old name is left to the caller; where the file system has
    no links it is looked for first, and renamed.

    Raises:
        FileExistsError: Something stands there.
    """
    try:
        os.link(part, place)
    except FileExistsError:
        raise
    except OSError:
        if os.path.lexists(place):
            raise FileExistsError(errno.EEXIST, WhyItStays.STANDS.value, place) from None
        os.rename(part, place)


@contextlib.contextmanager
def _named_fault(path: str) -> Iterator[None]:
    """A block whose OSErrors without a file of their own, such as of a full disk, get this one."""
    try:
        yield
    except OSError as fault:
        if fault.filename is None:
            fault.filename = path
        raise


@contextlib.contextmanager
def _as_file_fault(path: str) -> Iterator[None]:
    """A block of writing at a path, whose OSErrors become errors of the hierarchy.

    Raises:
        FileStays: Something stands there.
        FileFault: All other OSErrors.
    """
    try:
        yield
    except FileExistsError as fault:
        raise FileStays(path, WhyItStays.STANDS.value) from fault
    except OSError as fault:
        raise FileFault.of(fault, path, FileAction.WRITE) from fault
