"""Certificates that are searched in this process, of a model's text, and judged by the proved program."""

from __future__ import annotations

from pathlib import Path

from bridge_drivers.exact.certifier import Certifier
from bridge_drivers.exact.evidence import AnswerByPlace, AnswerClaim, Evidence
from bridge_drivers.exact.evidence_store import EvidenceStore
from bridge_drivers.exact.search_deadline import SearchDeadline
from bridge_drivers.exact.task import CertificationTask, SearchOptions
from bridge_drivers.model.linear_program import LinearProgram
from bridge_drivers.pipeline.judge import CertificateJudge
from bridge_drivers.pipeline.row_factors import whole_form
from bridge_drivers.program.bridge import Bridge
from running.places import program

SECONDS = 300.0  # of one search, on a machine that has much else to do


class CertifiedModel:
    """One model, with all that its certificate is searched by."""

    def __init__(self, folder: Path, text: bytes, *, proves: bool = True) -> None:
        path = folder / "model.nl"
        path.write_bytes(text)
        bridge = Bridge(list(program()))
        given = LinearProgram.of(bridge.export(str(path)))
        self.program, _ = whole_form(bridge, str(path), given)
        deadline = SearchDeadline(SECONDS)
        judge = CertificateJudge(bridge, str(path), str(folder / "certificate"), deadline)
        self.store = EvidenceStore(self.program, judge, 0, deadline)
        options = SearchOptions(proves=proves)
        self.task = CertificationTask(self.program, self.store, deadline, options)
        self.certifier = Certifier(self.task)

    def certify(self, claim: AnswerClaim, answer: AnswerByPlace = AnswerByPlace()) -> Evidence:
        """What is proved of what a solver answered."""
        self.task.answer = answer
        return self.certifier.certify(claim)
