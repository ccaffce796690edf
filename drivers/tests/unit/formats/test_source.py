"""Sources are read once, and their sums are of what was read."""

from __future__ import annotations

import bz2
import gzip
import hashlib
import lzma
import os
import subprocess
import sys
from pathlib import Path
from typing import Callable, Iterator

import pytest

from bridge_drivers.formats.source import (
    Limits,
    Source,
    Workspace,
    read_model,
    read_source,
)
from bridge_drivers.system.codes import ExitStatus
from bridge_drivers.system.errors import Damaged, FileFault, NoModel, TooLarge
from running.waiting import SECONDS

NL = b"g3 1 1 0\n 1 0 1 0 0\n"
MPS = b"NAME\nROWS\n N o\nCOLUMNS\nRHS\nENDATA\n"
INFINITE = b"NAME\nROWS\n N o\nCOLUMNS\n x o 1\nRHS\nBOUNDS\n UP BND x inf\nENDATA\n"
Pack = Callable[[bytes], bytes]


@pytest.fixture
def workspace() -> Iterator[Workspace]:
    with Workspace() as made:
        yield made
    assert not (made.folder and os.path.exists(made.folder))


def sum_of(data: bytes) -> str:
    return hashlib.sha256(data).hexdigest()


@pytest.mark.parametrize("data, end", [(NL, ".nl"), (MPS, ".mps")])
@pytest.mark.parametrize(
    "pack, packed_end", [(gzip.compress, ".gz"), (bz2.compress, ".bz2"), (lzma.compress, ".xz")]
)
def test_packed_models(
    tmp_path: Path, workspace: Workspace, data: bytes, end: str, pack: Pack, packed_end: str
) -> None:
    path = tmp_path / ("m" + end + packed_end)
    path.write_bytes(pack(data))
    source = read_model(str(path), workspace)
    assert Path(source.path).read_bytes() == data
    assert source.sha256() == sum_of(data)
    assert (source.stub, source.is_mps) == (str(tmp_path / "m"), end == ".mps")
    assert source.notes == (f"what is judged is the text that {path.name} unpacks to",)


def test_a_plain_file_is_copied(tmp_path: Path, workspace: Workspace) -> None:
    path = tmp_path / "m.nl"
    path.write_bytes(NL)
    source = read_model(str(tmp_path / "m"), workspace)
    assert Path(source.path).read_bytes() == NL
    assert source.path.startswith(workspace.folder)
    assert (source.reads, source.notes) == ((str(path), source.path), ())
    assert source.sha256() == sum_of(NL)


def rewritten(path: Path) -> None:
    path.write_bytes(NL + b"\n")


def replaced(path: Path) -> None:
    other = path.with_suffix(".other")
    other.write_bytes(NL + b"\n")
    os.replace(other, path)


def made_a_pipe(path: Path) -> None:
    path.unlink()
    os.mkfifo(path)


@pytest.mark.parametrize("change", [rewritten, replaced, made_a_pipe, Path.unlink])
@pytest.mark.parametrize("pack", [bytes, gzip.compress], ids=["plain", "packed"])
def test_what_comes_later_changes_nothing(
    tmp_path: Path, workspace: Workspace, change: Callable[[Path], None], pack: Pack
) -> None:
    """The text and its sum are those of the bytes that were read."""
    path = tmp_path / "m.nl"
    path.write_bytes(pack(NL))
    source = read_model(str(path), workspace)
    change(path)
    assert Path(source.path).read_bytes() == NL
    assert source.sha256() == sum_of(NL)


@pytest.mark.parametrize("read", [read_model, read_source])
def test_a_pipe_to_which_nobody_writes(
    tmp_path: Path, workspace: Workspace, read: Callable[..., Source]
) -> None:
    os.mkfifo(tmp_path / "m.nl")
    with pytest.raises(FileFault, match="m.nl: it is a named pipe, and nobody wrote to it"):
        read(str(tmp_path / "m.nl"), workspace, Limits(writer_seconds=0.05))


def test_a_pipe_gives_nothing_twice(tmp_path: Path, workspace: Workspace) -> None:
    fifo = tmp_path / "m.nl"
    os.mkfifo(fifo)
    with subprocess.Popen(["sh", "-c", f"echo text >{fifo}"]):
        read_source(str(fifo), workspace)
    with pytest.raises(FileFault, match="it was read already"):
        read_source(str(fifo), workspace)


@pytest.mark.parametrize("name", ["a\0b", "\ud800.nl", "\0"])
@pytest.mark.parametrize("read", [read_model, read_source])
def test_what_is_no_path(workspace: Workspace, read: Callable[..., Source], name: str) -> None:
    with pytest.raises(FileFault, match="it is no path of this system"):
        read(name, workspace)


def test_a_plain_file_has_a_limit(tmp_path: Path, workspace: Workspace) -> None:
    """Nothing of it is copied."""
    path = tmp_path / "m.nl"
    with open(path, "wb") as file:
        file.truncate(2**31 + 1)
    with pytest.raises(TooLarge):
        read_model(str(path), workspace)
    assert workspace.folder == ""


@pytest.mark.parametrize("pack", [bytes, gzip.compress], ids=["plain", "packed"])
def test_a_fifo_is_opened_once(tmp_path: Path, workspace: Workspace, pack: Pack) -> None:
    """Its one writer writes once: a second opening would wait for ever."""
    fifo = tmp_path / "m.mps"
    os.mkfifo(fifo)
    (tmp_path / "data").write_bytes(pack(MPS))
    writer = subprocess.Popen(["sh", "-c", f"cat {tmp_path}/data > {fifo}"])
    source = read_model(str(fifo), workspace)
    assert writer.wait(SECONDS) == 0
    assert Path(source.path).read_bytes() == MPS
    assert (source.is_mps, source.stub) == (True, str(tmp_path / "m"))
    assert source.sha256() == sum_of(MPS)


@pytest.mark.parametrize("word", ["-", "/dev/stdin", "/proc/self/fd/0"])
@pytest.mark.parametrize("pack", [bytes, gzip.compress], ids=["plain", "packed"])
def test_standard_input(word: str, pack: Pack) -> None:
    """A pipe that comes in pieces, in a process of its own."""
    code = (
        "import sys; from bridge_drivers.formats.source import *\n"
        "with Workspace() as w:\n"
        "    s = read_model(sys.argv[1], w)\n"
        "    data = open(s.path, 'rb').read().decode()\n"
        "    print(s.sha256(), s.is_mps, s.stub, data == sys.argv[2])"
    )
    environment = {**os.environ, "PYTHONPATH": os.pathsep.join(filter(None, sys.path))}
    with subprocess.Popen(
        [sys.executable, "-c", code, word, MPS.decode()],
        stdin=subprocess.PIPE,
        stdout=subprocess.PIPE,
        env=environment,
    ) as process:
        assert process.stdin is not None and process.stdout is not None
        for byte in pack(MPS):
            process.stdin.write(bytes([byte]))
            process.stdin.flush()
        process.stdin.close()
        assert process.stdout.read().decode().split() == [sum_of(MPS), "True", "stdin", "True"]


def test_a_bomb_ends_at_its_limit(tmp_path: Path, workspace: Workspace) -> None:
    """No more is written than the limit and a piece."""
    path = tmp_path / "bomb.nl.gz"
    path.write_bytes(gzip.compress(bytes(40_000_000)))
    assert path.stat().st_size < 50_000
    with pytest.raises(TooLarge, match="bomb.nl.gz: it is larger than is read"):
        read_source(str(path), workspace, Limits(free_bytes=1 << 20, most_ratio=100))
    written = sum(file.stat().st_size for file in Path(workspace.folder).iterdir())
    assert written <= 100 * 50_000 + (2 << 20)


def test_an_endless_device_ends_at_its_limit(workspace: Workspace) -> None:
    with pytest.raises(TooLarge):
        read_source("/dev/zero", workspace, Limits(most_bytes=3 << 20))


def test_a_model_that_compresses_well_is_read(tmp_path: Path, workspace: Workspace) -> None:
    path = tmp_path / "m.nl.gz"
    path.write_bytes(gzip.compress(NL * 100_000))
    assert os.path.getsize(read_source(str(path), workspace).path) == len(NL) * 100_000


@pytest.mark.parametrize("pack", [gzip.compress, bz2.compress, lzma.compress])
def test_what_is_cut_off_is_damaged(tmp_path: Path, workspace: Workspace, pack: Pack) -> None:
    path = tmp_path / "m.nl"
    path.write_bytes(pack(NL * 50)[:-8])
    with pytest.raises(Damaged, match="m.nl: the packed file"):
        read_source(str(path), workspace)


def test_what_is_repaired_is_a_copy(tmp_path: Path, workspace: Workspace) -> None:
    path = tmp_path / "m.mps"
    path.write_bytes(INFINITE)
    source = read_model(str(path), workspace)
    repaired = INFINITE.replace(b"UP BND x inf", b"PL BND x")
    assert Path(source.path).read_bytes() == repaired
    assert path.read_bytes() == INFINITE
    assert source.sha256() == sum_of(repaired)
    assert source.notes[0] == "a bound of infinity is read as none"


@pytest.mark.parametrize("word", ["missing", ".", "/nonexistent/m.nl"])
def test_what_is_no_model(tmp_path: Path, workspace: Workspace, word: str) -> None:
    with pytest.raises(NoModel) as caught:
        read_model(str(tmp_path / word), workspace)
    assert caught.value.status is ExitStatus.UNREAD
