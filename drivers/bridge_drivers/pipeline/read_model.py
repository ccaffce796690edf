"""A model with the proved program's calls that are about it: an .nl file or an MPS file.

It is for all that does not solve: the commands of `nl-bridge` and the calls of the package that
convert, verify, explain and count.
"""

from __future__ import annotations

from typing import NamedTuple, Sequence

from ..formats.names import NameLists
from ..formats.nl import read_header, text_of_nl
from ..formats.source import Source, Workspace
from ..model.linear_program import LinearProgram
from ..program.bridge import Bridge
from ..program.calls import Reply
from ..program.mps_forms import program_of_mps, read_mps_text
from ..system.codes import ExitStatus


class ReadModel(NamedTuple):
    """A model that was read.

    Attributes:
        bridge: The proved program, whose `verify` takes `path`.
        source: The file.
        path: The text that the proved program reads: an .nl file as text, an MPS file as it stands.
        own: The program of an MPS file; None of an .nl file, which the proved program exports.
        notes: Lines on how it was read.
    """

    bridge: Bridge
    source: Source
    path: str
    own: LinearProgram | None = None
    notes: Sequence[str] = ()

    def constraints(self) -> int:
        """How many constraints the file has, also those that are not exported; objectives aside."""
        if self.own is not None:
            return len(self.own.names.rows)
        return read_header(self.path).constraints

    def names(self) -> NameLists:
        """The names that the user knows, by the file's numbers.

        They are those of an MPS file, or in lists beside an .nl file.
        """
        if self.own is not None:
            return self.own.own_names
        head = read_header(self.path)
        return NameLists(self.source.stub, head.variables, head.constraints)

    def program(self, objective: int = 0) -> LinearProgram:
        """The program with one of the file's objectives. An .nl file is exported anew by each call.

        Args:
            objective: Its number, from 0; an MPS file has one alone.

        Raises:
            Refusal: The proved program refuses the model, or it has no such objective.
        """
        if self.own is None:
            return LinearProgram.of(self.bridge.export(self.path, objective))
        if objective:
            told = f"refused objective {objective}: no such objective"
            reply = Reply(ExitStatus.REFUSED, b"", told)
            judge = self.bridge.forms[self.path].judge.value
            raise self.bridge.refusal((judge, self.path, ""), reply)
        return self.own


def read_program(bridge: Bridge, workspace: Workspace, source: Source) -> ReadModel:
    """A model whose file was opened, ready for calls of the proved program.

    Args:
        bridge: Is told what the user calls the file.
        workspace: Where a text of a binary .nl file, and trials, are written.
        source: The file.

    Raises:
        Refusal: An MPS file is none, or no linear program.
        Damaged: A binary .nl file cannot be read.
    """
    bridge.file_names[source.path] = source.name
    if not source.is_mps:
        path, notes = text_of_nl(source.path, workspace.new_path())
        bridge.file_names[path] = source.name
        return ReadModel(bridge, source, path, None, [*source.notes, *notes])
    text = read_mps_text(bridge, source.path)
    program = program_of_mps(bridge, source.path, workspace.new_path(), text)
    notes = [*source.notes, *text.notes, *program.notes]
    return ReadModel(bridge, source, source.path, program, notes)
