"""Where an accepted certificate is kept, and what is done about an older one that stands there.

`certification` makes one `CertificateStore` for a run, and asks it at the end where a certificate
is wanted.
"""

from __future__ import annotations

import os
from typing import NamedTuple

from ..formats.file_kinds import kind_of_model
from ..program.bridge import Bridge
from ..program.verdict import statement_of
from ..system.deadline import Deadline
from ..system.errors import DeadlineExceeded, FileFault, FileStays, ProgramFailed
from ..system.files import OutputFiles

OLDER_SECONDS = 60.0  # for the verdict on an older certificate


class StoredCertificate(NamedTuple):
    """What was done with the certificate of a run.

    Attributes:
        line: The same in a line of the message.
        path: Where a certificate of the claim stands; None where none does.
        has_failed: A certificate was accepted and could not be kept, and none of as much stands
            there.
    """

    line: str
    path: str | None = None
    has_failed: bool = False


class CertificateStore:
    """Keeps certificates of one model.

    Attributes:
        bridge: Judges older certificates.
        model: The path of the model as the proved program reads it.
        maximise: The sense of its objective, by which it is decided what proves as much.
        overwrite: Another certificate is replaced.
    """

    def __init__(self, bridge: Bridge, model: str, *, maximise: bool, overwrite: bool) -> None:
        self.bridge = bridge
        self.model = model
        self.maximise = maximise
        self.overwrite = overwrite

    def store(self, accepted: bytes, line: str, target: str) -> StoredCertificate:
        """Writes an accepted certificate, unless what stands at its place stays.

        What stays and proves of the model at least as much is as good: then nothing has failed.

        Args:
            accepted: The certificate's text.
            line: The verdict on it.
            target: The path where it is wanted.
        """
        reads = [self.model, self.bridge.file_names.get(self.model, self.model)]
        try:
            files = OutputFiles(reads, kind_of_model, overwrite=self.overwrite)
            files.write(target, accepted)
        except FileFault as fault:
            proves = self.still_proves(target, line) if isinstance(fault, FileStays) else ""
            if not proves:
                text = f"the certificate is not kept: {target}: {fault.reason}"
                return StoredCertificate(text, has_failed=True)
            stays = f"{target} stays as it is: it proves `{proves}`; overwrite=1 replaces it"
            return StoredCertificate(stays, target)
        told = f"{target} is written: the certificate of `{line}`, {len(accepted)} bytes"
        return StoredCertificate(told, target)

    def without_certificate(self, target: str) -> StoredCertificate:
        """What is told where nothing was accepted; what stands at the target is left as it is."""
        stays = f"; {target} stays as it was" if os.path.exists(target) else ""
        return StoredCertificate("no certificate is written" + stays)

    def still_proves(self, target: str, line: str) -> str:
        """What an older certificate proves of the model as it is now, if no less than a line.

        Args:
            target: The path of the older one, which has OLDER_SECONDS to be judged.
            line: A verdict on this model.

        Returns:
            The verdict on the older one; "" where it is refused, proves less, or takes too long.
        """
        try:
            older = self.bridge.verify(self.model, target, Deadline(OLDER_SECONDS))
        except (DeadlineExceeded, ProgramFailed):
            return ""
        proved, wanted = older.statement, statement_of(line)
        if proved is None or wanted is None or not proved.implies(wanted, maximise=self.maximise):
            return ""
        return older.line
