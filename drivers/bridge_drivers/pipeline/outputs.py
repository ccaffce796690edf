"""The numbers of an outcome by the names of the file, and the files that are made of an outcome:
MODEL.sol and a table of the solution.

The drivers, MiniZinc's command and the calls of the package use it after `solve`, and
`remove_older_sol` before.
"""

from __future__ import annotations

import os
from typing import Callable, List, Sequence, Tuple

from ..formats.sol import failure_sol, solution_file, with_message
from ..formats.file_kinds import kind_of_model
from ..formats.names import different_names
from ..formats.source import Source
from ..program.verdict import set_apart
from ..system.files import OutputFiles, write_new
from ..system.signals import SIGNALS
from ..system.codes import ExitStatus
from .answer import Answer
from .settings import OutputSettings
from .answered_run import Outcome

NamedTexts = List[Tuple[str, str]]  # a name and a decimal each, in the order of the file


def named_values(answer: Answer | None) -> NamedTexts:
    """The values of the file's variables, as decimals; empty without a point."""
    return _by_column(answer, answer.values if answer else None)


def named_reduced_costs(answer: Answer | None) -> NamedTexts:
    """The reduced costs of the file's variables, as decimals in the objective's own sense.

    Empty where there are none.
    """
    return _by_column(answer, answer.reduced_cost_texts if answer else None)


def named_duals(answer: Answer | None) -> NamedTexts:
    """The duals of the file's constraints, as decimals in the objective's own sense.

    Only constraints that were exported have one; empty where there are none.

    The row of a nonlinear objective's value is left out. Where the user knows no name, it is that
    of the exported text, such as c3.
    """
    if answer is None or answer.duals is None:
        return []
    program = answer.program
    return _by_name(program.names.rows, answer.duals, program.own_names.row)


def _by_column(answer: Answer | None, texts: Sequence[str] | None) -> NamedTexts:
    """Texts by the names of the file's variables.

    The column of a nonlinear objective's value is left out.

    Args:
        answer: Whose program has the columns.
        texts: One for each column of the program; None for none.
    """
    if answer is None or texts is None:
        return []
    program = answer.program
    return _by_name(program.names.columns, texts, program.own_names.column)


def _by_name(
    exported: Sequence[str], texts: Sequence[str], name_of: Callable[[int], str]
) -> NamedTexts:
    """Texts by names that are all different; those of the file's own rows or columns alone.

    Args:
        exported: The names in the exported text: a letter and the file's number, or another word
            for what the file has not.
        texts: One for each of these.
        name_of: The name that the user knows, by the file's number; "" where there is none.
    """
    own = [(name, text) for name, text in zip(exported, texts) if name[1:].isdigit()]
    own_names = [name for name, _ in own]
    names = different_names([name_of(int(name[1:])) for name in own_names], own_names)
    return [(name, text) for name, (_, text) in zip(names, own)]


def write_outputs(
    outcome: Outcome, source: Source, outputs: OutputSettings, objective: int = 0
) -> None:
    """Writes the files that are asked for; each is written whole or not at all.

    A line on the solution's file goes into the message before the .sol, which has the message, is
    made. Where the files in between are kept, the .sol is written there, too.

    Args:
        outcome: What is written.
        source: The model; its .sol stands beside it.
        outputs: Which files are asked for.
        objective: Which objective the .sol is of, from 0.

    Raises:
        FileFault: A file cannot be written.
    """
    if outputs.solution:
        outcome.lines.insert(1, write_solution(outcome, source, outputs))
    if source.is_mps or not (outputs.sol or outcome.kept_folder):
        return
    data = sol_data(outcome, source, objective)
    if outputs.sol:
        write_sol(source, data)
    if outcome.kept_folder:
        write_new(os.path.join(outcome.kept_folder, "bridge.sol"), data)


def sol_data(outcome: Outcome, source: Source, objective: int) -> bytes:
    """The bytes of a .sol.

    It is that of `bridge certified` as it stands; else that of `bridge return` with the whole
    message; else one with the message and the code alone.

    Args:
        outcome: What is told.
        source: An .nl file.
        objective: The number of the objective, from 0.
    """
    if outcome.sol is not None and outcome.is_certified:
        return outcome.sol
    lines = [*map(set_apart, outcome.lines[:-1]), outcome.lines[-1]]
    if outcome.sol is not None:
        return with_message(outcome.sol, lines)
    return failure_sol(source.path, outcome.code, objective, lines)


def write_sol(source: Source, data: bytes) -> None:
    """Puts a .sol beside its model; an older one is replaced. A signal waits until it stands there.

    Raises:
        FileFault: It cannot be written.
    """
    with SIGNALS.deferred():
        files = OutputFiles(source.reads, kind_of_model, overwrite=True)
        files.write(source.stub + ".sol", data)


def remove_older_sol(source: Source) -> None:
    """Removes a .sol beside the model: it must not pass for that of a run that begins.

    A driver that is to write a .sol calls it before it solves. Where the model cannot be read it
    stays.

    Raises:
        FileFault: It cannot be removed.
    """
    if os.path.isfile(source.path) and os.access(source.path, os.R_OK):
        OutputFiles(source.reads, kind_of_model).remove(source.stub + ".sol")


def write_solution(outcome: Outcome, source: Source, outputs: OutputSettings) -> str:
    """Writes names and values, and duals where there are any, to the file that `outputs` names.

    Without values nothing is written.

    Returns:
        A line for the message on that.

    Raises:
        FileFault: It cannot be written, or what stands there is not replaced.
    """
    path, values = outputs.solution, named_values(outcome.answer)
    if not values:
        return f"{path} is not written: there are no values"
    data = solution_file(path, values, named_duals(outcome.answer))
    OutputFiles(source.reads, kind_of_model, overwrite=outputs.overwrite).write(path, data)
    return f"{path} is written"


def exit_status(outcome: Outcome) -> ExitStatus:
    """The exit status of a command that had this outcome.

    UNWRITTEN where its certificate was not kept, NOT_SETTLED where `strict` is not met, else DONE.
    """
    if outcome.stored is not None and outcome.stored.has_failed:
        return ExitStatus.UNWRITTEN
    return ExitStatus.DONE if outcome.is_final else ExitStatus.NOT_SETTLED
