"""The .sol that `bridge certified` writes of an accepted certificate, to be passed on as it is.

`AnsweredRun` asks for it in place of `bridge return` where nothing but what is proved is to reach
the modelling system (`Settings.certifies_sol`).
"""

from __future__ import annotations

from typing import NamedTuple, Optional

from ..exact.evidence import Evidence
from ..program.certified import CertifiedSol
from ..system.errors import DeadlineExceeded, ProgramFailed
from .certification import AnswerCertifier

IS_CERTIFIED = "the .sol is what `bridge certified` wrote of the certificate, byte for byte"
NO_VALUES = "the .sol has no values: "


class CertifiedAnswer(NamedTuple):
    """What `bridge certified` wrote, or why nothing could be certified.

    Attributes:
        sol: The text; None where there is none.
        reason: Why there is none, in words behind NO_VALUES; "" where there is one.
    """

    sol: Optional[CertifiedSol] = None
    reason: str = ""

    def line(self) -> str:
        """What a message says of the .sol."""
        return NO_VALUES + self.reason if self.sol is None else IS_CERTIFIED


def certified_answer(certifier: AnswerCertifier, evidence: Evidence) -> CertifiedAnswer:
    """Asks the proved program for the .sol of what was accepted.

    Args:
        certifier: Of the run, whose folder gets the certificate.
        evidence: What is proved; without a certificate nothing is asked.
    """
    if evidence.certificate is None:
        return CertifiedAnswer(reason="nothing is certified")
    path = certifier.run.write("certified.certificate", evidence.certificate)
    certifier.bridge.file_names[path] = "the certificate"
    try:
        with certifier.monitor.timing("certified"):
            deadline = certifier.shares.for_verdict()
            return CertifiedAnswer(certifier.bridge.certified(certifier.model, path, deadline))
    except DeadlineExceeded:
        return CertifiedAnswer(reason="the time was over before it was certified")
    except ProgramFailed as fault:
        return CertifiedAnswer(reason=fault.text)
