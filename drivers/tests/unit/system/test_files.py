"""What is written where: what stays, links, permissions, races, streams, and faults that name their file."""

from __future__ import annotations

import bz2
import errno
import gzip
import lzma
import os
import subprocess
import sys
import tempfile
from pathlib import Path
from typing import Callable, Iterator
from unittest import mock

import pytest
from bridge_drivers.formats.file_kinds import kind_of_model
from bridge_drivers.system import files
from bridge_drivers.system.errors import FileFault, FileStays
from bridge_drivers.system.files import OutputFiles, WhyItStays
from bridge_drivers.system.signals import SIGNALS

OLD = b"letters\n"
NEW = b"new\n"
NL = b"g3 1 1 0\t# problem knap\n 3 1 1 0 0\t# vars\n"
MPS = b"* made by hand\nNAME knap\nROWS\n N obj\n"
OTHER_MPS = b"NAME knap FREE\nROWS\n N cost\n"
LP = b"max: 3x + 2y;\n"
CERTIFICATE = b"certificate 1\noptimal 0\n"
MASK = 0o027  # of the process while a test runs


@pytest.fixture(autouse=True)
def mask() -> Iterator[None]:
    before = os.umask(MASK)
    yield
    os.umask(before)


def outputs(*reads: Path, overwrite: bool = False) -> OutputFiles:
    return OutputFiles([str(path) for path in reads], kind_of_model, overwrite=overwrite)


def why(act: Callable[[], object]) -> WhyItStays:
    """Why the place that an act is about stays as it is."""
    with pytest.raises(FileStays) as caught:
        act()
    return WhyItStays(caught.value.reason)


@pytest.mark.parametrize("overwrite", [False, True])
@pytest.mark.parametrize("link", [None, os.symlink, os.link])
def test_what_is_read_is_never_replaced(
    tmp_path: Path, link: Callable[[Path, Path], None] | None, overwrite: bool
) -> None:
    """By whatever path, and not removed either."""
    model = tmp_path / "m.nl"
    model.write_bytes(b"model")
    target = model
    if link is not None:
        target = tmp_path / "link"
        link(model, target)
    places = outputs(model, tmp_path / "gone", overwrite=overwrite)
    assert why(lambda: places.write(str(target), NEW)) is WhyItStays.IS_READ
    assert why(lambda: places.remove(str(target))) is WhyItStays.IS_READ
    assert model.read_bytes() == b"model"


def test_what_stands_there_needs_overwrite(tmp_path: Path) -> None:
    target = tmp_path / "older"
    target.write_bytes(OLD)
    assert why(lambda: outputs().write(str(target), NEW)) is WhyItStays.STANDS
    assert target.read_bytes() == OLD
    outputs(overwrite=True).write(str(target), NEW)
    assert target.read_bytes() == NEW


@pytest.mark.parametrize("older", [None, b"", NEW])
def test_where_nothing_is_lost_it_is_written(tmp_path: Path, older: bytes | None) -> None:
    """Nothing stands there, or an empty file, or the same bytes."""
    target = tmp_path / "target"
    if older is not None:
        target.write_bytes(older)
    outputs().write(str(target), NEW)
    assert target.read_bytes() == NEW


@pytest.mark.parametrize("model", [NL, MPS, LP, NL.replace(b"g", b"b")])
@pytest.mark.parametrize("data", [CERTIFICATE, OLD, b"<svg>"])
def test_a_model_is_not_replaced_by_something_else(
    tmp_path: Path, model: bytes, data: bytes
) -> None:
    target = tmp_path / "mill.mps"
    target.write_bytes(model)
    places = outputs(overwrite=True)
    assert why(lambda: places.write(str(target), data)) is WhyItStays.IS_MODEL
    assert why(lambda: places.remove(str(target))) is WhyItStays.IS_MODEL
    assert target.read_bytes() == model


MODELS = {
    "text": (NL, ""),
    "binary": (NL.replace(b"g", b"b", 1), ""),
    "comments": (b"# made by hand\n\n" + NL, ""),
    "mps": (MPS, ""),
    "marked": (b"\xef\xbb\xbf" + MPS, ""),
    "long comments": (b"* by hand\n" * 5000 + MPS, ""),
    "lp": (b"/* by hand */\n" * 100 + LP, ""),
    "named mps": (b"what another program wrote", ".mps"),
    "named lp": (b"Minimize\n x\nEnd\n", ".lp"),
    "ampl": (b"var x;\n", ".mod"),
    "data": (b"param n := 3;\n", ".dat"),
    "minizinc": (b"var int: x;\n", ".mzn"),
}
PACKINGS: dict[str, Callable[[bytes], bytes]] = {
    "": bytes,
    ".gz": gzip.compress,
    ".bz2": bz2.compress,
    ".xz": lzma.compress,
}


@pytest.mark.parametrize("name", MODELS)
@pytest.mark.parametrize("packed_end", PACKINGS)
@pytest.mark.parametrize("data", [CERTIFICATE, OLD, b"<svg>", b""])
@pytest.mark.parametrize("link", [None, os.symlink, os.link])
def test_no_model_is_ever_lost(
    tmp_path: Path,
    name: str,
    packed_end: str,
    data: bytes,
    link: Callable[[Path, Path], None] | None,
) -> None:
    """Whatever its form, packing and path, and whatever is to be written there."""
    text, end = MODELS[name]
    model = tmp_path / f"model{end}{packed_end}"
    packed = PACKINGS[packed_end](text)
    model.write_bytes(packed)
    target = model
    if link is not None:
        target = tmp_path / ("linked" if link is os.symlink else f"linked{end}{packed_end}")
        link(model, target)
    places = outputs(overwrite=True)
    assert why(lambda: places.write(str(target), data)) is WhyItStays.IS_MODEL
    assert why(lambda: places.remove(str(target))) is WhyItStays.IS_MODEL
    assert model.read_bytes() == packed


@pytest.mark.parametrize("name", ["a\0b", "\ud800"])
def test_what_is_no_path(name: str) -> None:
    with pytest.raises(FileFault, match="it is no path of this system"):
        outputs().write(name, NEW)
    with pytest.raises(FileFault, match="it is no path of this system"):
        outputs().remove(name)


def test_without_a_folder_for_files_in_between(monkeypatch: pytest.MonkeyPatch) -> None:
    """It is told as a fault of files, whoever asks for one."""
    monkeypatch.setattr(tempfile, "tempdir", "/nonexistent")
    with pytest.raises(FileFault, match="TMPDIR|nonexistent"):
        files.private_folder("x-")


@pytest.mark.parametrize(
    "older, newer",
    [(MPS, OTHER_MPS), (NL, NL + b" more\n"), (CERTIFICATE, CERTIFICATE + b"point 0\n")],
)
def test_an_older_output_of_the_same_kind_is_replaced(
    tmp_path: Path, older: bytes, newer: bytes
) -> None:
    target = tmp_path / "target"
    target.write_bytes(older)
    outputs(overwrite=True).write(str(target), newer)
    assert target.read_bytes() == newer


@pytest.mark.parametrize("overwrite", [False, True])
def test_nothing_is_written_through_a_link_that_dangles(tmp_path: Path, overwrite: bool) -> None:
    link = tmp_path / "link"
    link.symlink_to(tmp_path / "none")
    places = outputs(overwrite=overwrite)
    assert why(lambda: places.write(str(link), NEW)) is WhyItStays.DANGLES
    assert sorted(os.listdir(tmp_path)) == ["link"]


def test_a_link_stays_a_link(tmp_path: Path) -> None:
    real, link = tmp_path / "real", tmp_path / "link"
    real.write_bytes(OLD)
    link.symlink_to(real)
    outputs(overwrite=True).write(str(link), NEW)
    assert link.is_symlink()
    assert real.read_bytes() == NEW


@pytest.mark.parametrize("mode", [0o600, 0o640, 0o644, 0o666, 0o755])
def test_a_file_keeps_its_permissions(tmp_path: Path, mode: int) -> None:
    """Also those that the mask of the process would take away."""
    target = tmp_path / "target"
    target.write_bytes(OLD)
    target.chmod(mode)
    outputs(overwrite=True).write(str(target), NEW)
    assert target.stat().st_mode & 0o777 == mode


@pytest.mark.parametrize("mode", [None, 0o600, 0o644])
def test_permissions_are_final_before_the_first_byte(tmp_path: Path, mode: int | None) -> None:
    """Nobody reads what is secret while it is written."""
    target = tmp_path / "target"
    if mode is not None:
        target.touch()
        target.chmod(mode)
    seen = []
    real = os.fsync

    def look(number: int) -> None:
        seen.append(os.fstat(number).st_mode & 0o777)
        real(number)

    opened = []
    part = files._new_part_file

    def looked(place: str, bits: int | None) -> object:
        file = part(place, bits)
        opened.append((os.fstat(file.fileno()).st_mode & 0o777, os.fstat(file.fileno()).st_size))
        return file

    with mock.patch.object(os, "fsync", look), mock.patch.object(files, "_new_part_file", looked):
        outputs().write(str(target), NEW)
    wanted = 0o666 & ~MASK if mode is None else mode
    assert (opened, seen) == ([(wanted, 0)], [wanted])
    assert target.stat().st_mode & 0o777 == wanted


def test_what_nobody_may_write_stays(tmp_path: Path) -> None:
    target = tmp_path / "target"
    target.write_bytes(OLD)
    target.chmod(0o444)
    with pytest.raises(FileFault, match="target: it may not be written"):
        outputs(overwrite=True).write(str(target), NEW)
    assert (target.read_bytes(), os.listdir(tmp_path)) == (OLD, ["target"])


@pytest.mark.parametrize("has_links", [True, False])
def test_a_file_that_comes_meanwhile_is_not_lost(tmp_path: Path, has_links: bool) -> None:
    """Another process writes the place between the look and the renaming; also without hard links."""
    target = tmp_path / "target"
    link = os.link

    def late(source: str, place: str) -> None:
        Path(place).write_bytes(OLD)
        if not has_links:
            raise OSError(errno.EPERM, "no hard links here")
        link(source, place)

    with mock.patch.object(os, "link", late):
        assert why(lambda: outputs().write(str(target), NEW)) is WhyItStays.STANDS
    assert (target.read_bytes(), os.listdir(tmp_path)) == (OLD, ["target"])


def test_a_file_system_without_hard_links(tmp_path: Path) -> None:
    target = tmp_path / "target"
    with mock.patch.object(os, "link", side_effect=OSError(errno.EPERM, "none")):
        outputs().write(str(target), NEW)
    assert (target.read_bytes(), os.listdir(tmp_path)) == (NEW, ["target"])


@pytest.mark.parametrize("is_link", [False, True])
def test_the_name_of_a_part_file_may_be_taken(tmp_path: Path, is_link: bool) -> None:
    """By a file, or by a link that somebody laid there: it is not followed."""
    target, taken = tmp_path / "x.sol", tmp_path / f"x.sol.{os.getpid()}.part"
    victim = tmp_path / "victim"
    victim.write_bytes(OLD)
    if is_link:
        taken.symlink_to(victim)
    else:
        taken.write_bytes(OLD)
    outputs().write(str(target), NEW)
    assert (target.read_bytes(), taken.read_bytes(), victim.read_bytes()) == (NEW, OLD, OLD)
    assert len(os.listdir(tmp_path)) == 3


@pytest.mark.parametrize(
    "target, reason",
    [
        ("/nonexistent/x", "No such file or directory"),
        ("/", "Is a directory"),
        ("/dev/full", "No space left on device"),
    ],
)
def test_what_cannot_be_written(target: str, reason: str) -> None:
    with pytest.raises(FileFault) as caught:
        outputs(overwrite=True).write(target, NEW)
    assert (caught.value.path, caught.value.reason) == (target, reason)


def test_a_full_disk_leaves_the_older_file(tmp_path: Path) -> None:
    target = tmp_path / "target"
    target.write_bytes(OLD)
    fault = OSError(errno.ENOSPC, "No space left on device")
    with mock.patch.object(os, "fsync", side_effect=fault), pytest.raises(FileFault) as caught:
        outputs(overwrite=True).write(str(target), NEW)
    assert str(caught.value) == f"{target}: No space left on device"
    assert (target.read_bytes(), os.listdir(tmp_path)) == (OLD, ["target"])


@pytest.mark.parametrize("name", ["replace", "link"])
def test_signals_wait_while_a_file_gets_its_name(tmp_path: Path, name: str) -> None:
    target = tmp_path / "target"
    if name == "replace":
        target.touch()
    seen = []
    with mock.patch.object(os, name, lambda *words: seen.append(SIGNALS.is_deferring)):
        outputs().write(str(target), NEW)
    assert seen == [True]


def test_a_device_is_written_to(tmp_path: Path) -> None:
    outputs().write(os.devnull, NEW)
    assert not os.path.isfile(os.devnull)


def test_a_named_pipe_is_written_to(tmp_path: Path) -> None:
    pipe = tmp_path / "pipe"
    os.mkfifo(pipe)
    with subprocess.Popen(["cat", str(pipe)], stdout=subprocess.PIPE) as reader:
        outputs().write(str(pipe), NEW)
        assert reader.stdout is not None
        assert reader.stdout.read() == NEW


@pytest.mark.parametrize("place", ["/dev/stdout", "/dev/fd/1", "/proc/self/fd/1"])
def test_standard_output_goes_on_where_it_is(tmp_path: Path, place: str) -> None:
    """What was printed stands before, what is printed later behind."""
    code = (
        "from bridge_drivers.system.files import OutputFiles; print('before'); "
        f"OutputFiles([], lambda path, start: None).write({place!r}, b'data\\n'); print('behind')"
    )
    target = tmp_path / "out"
    with open(target, "wb") as out:
        subprocess.run(
            [sys.executable, "-c", code],
            stdout=out,
            check=True,
            env={**os.environ, "PYTHONPATH": os.pathsep.join(sys.path)},
        )
    assert target.read_bytes() == b"before\ndata\nbehind\n"


def test_an_older_output_is_removed(tmp_path: Path) -> None:
    target = tmp_path / "x.sol"
    target.write_bytes(OLD)
    outputs().remove(str(target))
    outputs().remove(str(target))
    assert os.listdir(tmp_path) == []


def test_a_folder_of_a_runs_own(tmp_path: Path) -> None:
    """The one that is named where nothing is in it, else a new one below."""
    folder = tmp_path / "a" / "b"
    assert [files.new_folder_in(str(folder), "x") for _ in "12"] == [str(folder)] * 2
    for number in (1, 2):
        (folder / "file").write_bytes(OLD)
        assert files.new_folder_in(str(folder), "x") == str(folder / f"x-{number}")


def test_a_folder_that_cannot_be_made() -> None:
    with pytest.raises(FileFault, match="/dev/null/x: Not a directory"):
        files.new_folder_in("/dev/null/x", "x")


@pytest.mark.parametrize(
    "words, name", [(("the disk is full",), "the file"), (("the disk is full", "other"), "other")]
)
def test_a_fault_without_a_file_gets_one(words: tuple[str, ...], name: str) -> None:
    with pytest.raises(OSError) as caught, files._named_fault("the file"):
        raise OSError(errno.ENOSPC, *words)
    assert caught.value.filename == name


def test_files_of_this_run(tmp_path: Path) -> None:
    path = str(tmp_path / "own")
    assert files.write_new(path, OLD) == path
    with files.new_file(path, append=True) as out:
        out.write(NEW)
    assert Path(path).read_bytes() == OLD + NEW
    with open(path, "rb") as source:
        files.write_new(path + "2", source)
    assert Path(path + "2").read_bytes() == OLD + NEW
    with files.new_text(path) as text:
        text.write("line\n")
    assert Path(path).read_bytes() == b"line\n"
