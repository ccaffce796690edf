"""Where an accepted certificate is kept: what stands there stays, unless it says less."""

from __future__ import annotations

from pathlib import Path
from typing import Optional, Union

import pytest

from bridge_drivers.pipeline.stored_certificate import CertificateStore, StoredCertificate
from bridge_drivers.program.bridge import TEXT_LIMITS, Bridge
from bridge_drivers.program.calls import Reply
from bridge_drivers.program.verdict import statement_of
from bridge_drivers.system.deadline import Deadline
from bridge_drivers.system.processes import OutputLimits
from bridge_drivers.system.errors import DeadlineExceeded

NEW = b"certificate 1\noptimal 0\npoint 0\nduals 0\n"
OLDER = b"certificate 1\noptimal 0\npoint 1\n0 1\nduals 0\n"
LETTERS = b"letters\n"
STANDS = "it stands there, and this run did not make it; overwrite=1 replaces it"


class SayingBridge(Bridge):
    """Says one line of each older certificate; None: it says nothing in time."""

    def __init__(self, line: Optional[str]) -> None:
        super().__init__([])
        self.says = line

    def call(
        self,
        *words: str,
        deadline: Optional[Deadline] = None,
        limits: OutputLimits = TEXT_LIMITS,
    ) -> Reply:
        if self.says is None:
            raise DeadlineExceeded("verify")
        is_verdict = statement_of(self.says) is not None
        return Reply(0 if is_verdict else 1, f"{self.says}\n".encode(), "")


def store(
    folder: Path,
    line: str,
    says: Optional[str],
    target: Union[str, Path],
    *,
    overwrite: bool = False,
) -> StoredCertificate:
    """Keeps a new certificate of this line at the target."""
    model = folder / "m.nl"
    model.write_bytes(b"model")
    kept = CertificateStore(SayingBridge(says), str(model), maximise=True, overwrite=overwrite)
    return kept.store(NEW, line, str(target))


@pytest.mark.parametrize(
    ("line", "says", "proves"),
    [
        ("feasible 17", "optimal 17", True),
        ("feasible 17", "leaf 0 gap 16", False),
        ("optimal 17", "optimal 17", True),
        ("optimal 17", "within 18 17", False),
        ("within 19 17", "within 18 17", True),
    ],
)
def test_an_older_certificate_stays(tmp_path: Path, line: str, says: str, proves: bool) -> None:
    """Where it proves what this run says, that is no failure; else it is one, and is told."""
    target = tmp_path / "m.certificate"
    target.write_bytes(OLDER)
    kept = store(tmp_path, line, says, target)
    assert target.read_bytes() == OLDER
    if proves:
        told = f"{target} stays as it is: it proves `{says}`; overwrite=1 replaces it"
        assert kept == StoredCertificate(told, str(target))
    else:
        told = f"the certificate is not kept: {target}: {STANDS}"
        assert kept == StoredCertificate(told, has_failed=True)
    assert store(tmp_path, line, says, target, overwrite=True).path == str(target)
    assert target.read_bytes() == NEW


@pytest.mark.parametrize(
    ("content", "says"), [(LETTERS, ""), (NEW + b"\n", None)], ids=["letters", "not-in-time"]
)
def test_other_files_stay(tmp_path: Path, content: bytes, says: Optional[str]) -> None:
    """What is no certificate, or cannot be judged in time."""
    target = tmp_path / "m.certificate"
    target.write_bytes(content)
    kept = store(tmp_path, "optimal 17", says, target)
    assert kept.has_failed
    assert STANDS in kept.line
    assert target.read_bytes() == content


def test_an_empty_file_does_not_stay(tmp_path: Path) -> None:
    """It says nothing that could be lost."""
    target = tmp_path / "m.certificate"
    target.touch()
    kept = store(tmp_path, "optimal 17", "", target)
    assert not kept.has_failed
    assert f"{target} is written: the certificate of `optimal 17`, {len(NEW)} bytes" in kept.line
    assert target.read_bytes() == NEW


@pytest.mark.parametrize(
    ("target", "why"),
    [
        ("/nonexistent/x", "No such file or directory"),
        ("", "Is a directory"),
        ("/dev/full", "No space left on device"),
    ],
)
def test_what_cannot_be_written(tmp_path: Path, target: str, why: str) -> None:
    """No empty or partial file is left. An empty word stands for the folder itself."""
    path = target or str(tmp_path)
    kept = store(tmp_path, "optimal 17", "", path)
    told = f"the certificate is not kept: {path}: {why}"
    assert kept == StoredCertificate(told, has_failed=True)
    assert {item.name for item in tmp_path.iterdir()} == {"m.nl"}


def test_a_file_that_may_not_be_written(tmp_path: Path) -> None:
    """Its mode is kept to, also where overwrite=1 is said."""
    target = tmp_path / "m.certificate"
    target.write_bytes(NEW[:-8])
    target.chmod(0o444)
    kept = store(tmp_path, "optimal 17", "", target, overwrite=True)
    assert kept.has_failed
    assert "it may not be written" in kept.line
    assert target.read_bytes() == NEW[:-8]
