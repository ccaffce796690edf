"""All that is told of a certificate after its verdict: lines, an object for programs, a page, a picture."""

from __future__ import annotations

import os
from dataclasses import dataclass
from functools import cached_property
from typing import Dict, List, Mapping, NamedTuple, Optional, Sequence, Tuple

from ..exact.certificate import Certificate
from ..formats.file_kinds import kind_of_model
from ..formats.names import NameLists
from ..model.integer_form import IntegerProgram
from ..program.verdict import Verdict
from ..system.errors import FileFault
from ..system.files import OutputFiles
from .failure import Failure, failure_of
from ..exact.leaf_sums import LeafSums
from .page import PageFacts, html_page
from .tree_picture import TreePicture
from .wording import Wording, claim_in_words, headed


class ExplainedFile(NamedTuple):
    """A file that is told of.

    Attributes:
        name: What the user calls it.
        sha256: Of what was judged; None where it is not known.
    """

    name: str
    sha256: Optional[str]


class PagePaths(NamedTuple):
    """Where pages are written; an empty path where one is not wanted.

    Attributes:
        html: Of the page.
        svg: Of the picture of the tree.
        overwrite: Whether an older page there is replaced.
    """

    html: str = ""
    svg: str = ""
    overwrite: bool = False


class WrittenPages(NamedTuple):
    """What became of the pages that were wanted.

    Attributes:
        lines: One on each of them.
        are_all_written: Whether none is missing.
    """

    lines: List[str]
    are_all_written: bool


@dataclass
class Explanation:
    """What is told of one certificate of one model.

    Attributes:
        certificate: As it was read after the verdict.
        verdict: Of the proved program.
        names: Of the model's constraints and variables.
        constraints: How many the model has.
        program: The model in whole numbers; None where that is not to be had.
        note: Why it is not; may be empty.
        model_file: The file of the model.
        certificate_file: The file of the certificate.
    """

    certificate: Certificate
    verdict: Verdict
    names: NameLists
    constraints: int
    program: Optional[IntegerProgram]
    note: str
    model_file: ExplainedFile
    certificate_file: ExplainedFile

    @cached_property
    def wording(self) -> Wording:
        """The certificate in sentences."""
        sums = None if self.program is None else LeafSums(self.program, self.certificate)
        return Wording(self.certificate, self.names, sums, self.constraints)

    @cached_property
    def failure(self) -> Optional[Failure]:
        """Why the certificate does not hold; None where it does."""
        return None if self.verdict.is_proved else failure_of(self.verdict.line, self.wording)

    @cached_property
    def claim(self) -> str:
        """What it claims, in words."""
        return claim_in_words(self.certificate, self.verdict.statement, self.wording.sums)

    @property
    def told_claim(self) -> str:
        """The claim, so that it cannot be taken for one that holds where it does not."""
        return self.claim if self.verdict.is_proved else f"it claims: {self.claim}"

    @cached_property
    def picture(self) -> TreePicture:
        """Its tree, which may have no nodes."""
        failing = None if self.failure is None else self.failure.leaf
        return TreePicture(self.wording, failing, is_proved=self.verdict.is_proved)

    def lines(self) -> List[str]:
        """What `nl-bridge explain` prints."""
        holds = "holds of" if self.verdict.is_proved else "does not hold of"
        files = f"{self.certificate_file.name} {holds} {self.model_file.name}"
        lines = [f"{files}: {self.verdict.line}", headed("claim", self.told_claim)]
        if self.failure is not None:
            lines += self.failure.lines()
        lines += self.wording.lines()
        return [*lines, self.note] if self.note else lines

    def details(self) -> Dict[str, object]:
        """The same for programs, as `explained` of report.schema.json."""
        wording, failure = self.wording, self.failure
        leaf = None if failure is None or failure.leaf is None else failure.leaf
        node = None if leaf is None else self.certificate.nodes[leaf]
        return {
            "holds": self.verdict.is_proved,
            "claim": self.claim,
            "point": self._values(self.certificate.point),
            "ray": self._values(self.certificate.ray),
            "tree": wording.counts._asdict() if self.certificate.nodes else None,
            "uses": {wording.row(use.row): use.leaves for use in sorted(wording.used)},
            "failure": None if failure is None else failure.text,
            "leaf": None if node is None else node.leaf_number,
            "line": None if node is None else node.line,
            "path": [] if failure is None else failure.path,
        }

    def _values(self, point: Optional[Mapping[int, object]]) -> Optional[Dict[str, str]]:
        if point is None:
            return None
        return {self.wording.column(column): str(value) for column, value in point.items()}

    def svg_tree(self) -> str:
        """The tree as a file of its own."""
        return self.picture.svg(is_file=True)

    def html_page(self) -> str:
        """The whole page."""
        facts = PageFacts(
            model=os.path.basename(self.model_file.name),
            certificate=os.path.basename(self.certificate_file.name),
            verdict=self.verdict.line,
            is_proved=self.verdict.is_proved,
            claim=self.told_claim,
            failure=self.failure,
            sums=self._sums_of_files(),
        )
        return html_page(facts, self.wording, self.picture if self.certificate.nodes else None)

    def write(self, paths: PagePaths, reads: Sequence[str]) -> WrittenPages:
        """Writes the pages that are wanted, each as a whole or not at all.

        Args:
            paths: Where they go.
            reads: Files that are never replaced.
        """
        outputs = OutputFiles(reads, kind_of_model, overwrite=paths.overwrite)
        lines, are_all_written = [], True
        for path, text_of in ((paths.html, self.html_page), (paths.svg, self.svg_tree)):
            if not path:
                continue
            try:
                outputs.write(path, text_of().encode("utf-8", "backslashreplace"))
                lines.append(f"{path} is written")
            except FileFault as fault:
                are_all_written = False
                lines.append(f"{path} is not written: {fault.reason}")
        return WrittenPages(lines, are_all_written)

    def _sums_of_files(self) -> Sequence[Tuple[str, str]]:
        files = (("model's sum", self.model_file), ("certificate's sum", self.certificate_file))
        return [
            (
                head,
                f"SHA-256 {file.sha256}" if file.sha256 else "not known: another file stands there",
            )
            for head, file in files
        ]
