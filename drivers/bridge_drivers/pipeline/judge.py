"""The judge of certificates that the search is given: `bridge verify`, by files.

`certification` makes one `CertificateJudge` for each search, which calls it with each certificate
that it tries.
"""

from __future__ import annotations

from typing import Iterable, NamedTuple, Union

from ..exact.search_deadline import SearchDeadline
from ..program.bridge import Bridge
from ..program.verdict import Verdict
from ..system.deadline import Deadline
from ..system.errors import DeadlineExceeded, ProgramFailed
from ..system.files import new_text


class Unproved(NamedTuple):
    """Why a certificate proves nothing, in words for a message behind `not proved: `."""

    line: str
    is_proved: bool = False


class CertificateJudge:
    """Judges certificates of one model.

    Args:
        bridge: The proved program; its messages call the file at `path` `the certificate`.
        model: Its path, as the proved program reads it.
        path: Of the file that certificates are written to, one after the other.
        deadline: Says how long a verdict may take, and is told that one is waited for.
    """

    def __init__(self, bridge: Bridge, model: str, path: str, deadline: SearchDeadline) -> None:
        self.bridge = bridge
        self.model = model
        self.path = path
        self.deadline = deadline
        bridge.file_names[path] = "the certificate"

    def __call__(self, lines: Iterable[str]) -> Union[Verdict, Unproved]:
        """Writes a certificate and asks the proved program of it.

        The file stays until the next one.

        Args:
            lines: Of the certificate, without their ends. All are taken, though they may be made as
                they are written.

        Returns:
            The verdict where it is accepted; else why not: the program's line, its refusal, or that
            the time was over.
        """
        with new_text(self.path) as out:
            out.writelines(line + "\n" for line in lines)
        self.deadline.tell_step("bridge verify")
        try:
            deadline = Deadline.of_limit(self.deadline.left_to_judge() or 0.0)
            verdict = self.bridge.verify(self.model, self.path, deadline)
        except DeadlineExceeded:
            return Unproved("time: bridge verify was ended before its verdict")
        except ProgramFailed as fault:
            return Unproved(fault.text)
        if verdict.is_proved:
            return verdict
        return Unproved(f"bridge verify says `{verdict.line}`")
