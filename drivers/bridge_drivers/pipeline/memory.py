"""Models that are given in memory, as the bytes of a file or as a program, and by a path.

The calls of the package take all three (`GivenModel`); commands have paths alone.
"""

from __future__ import annotations

import os
from dataclasses import replace
from typing import Union

from ..formats.source import Source, Workspace, read_model
from ..model.linear_program import LinearProgram
from ..system.files import write_new

Path = Union[str, "os.PathLike[str]"]
GivenModel = Union[Path, bytes, LinearProgram]  # a path, the bytes of a file, a program
NAME_IN_MEMORY = "the given model"


def read_given_model(model: GivenModel, workspace: Workspace) -> Source:
    """The source of a model, as `read_model` reads one of a path.

    Bytes and programs are read from a private file of the workspace, beside which nothing is
    written; what they are is told by their first bytes. Programs are judged as the MPS text that
    solvers get.

    Raises:
        NoModel: There is no such file.
        OSError, Damaged, TooLarge: It cannot be read.
    """
    if isinstance(model, LinearProgram):
        model = model.text
    if not isinstance(model, bytes):
        return read_model(os.fspath(model), workspace)
    source = read_model(write_new(workspace.new_path(), model), workspace)
    return replace(source, name=NAME_IN_MEMORY)


def is_in_memory(model: GivenModel) -> bool:
    """Whether a model is given without a path, so that no file can stand beside it."""
    return isinstance(model, (bytes, LinearProgram))
