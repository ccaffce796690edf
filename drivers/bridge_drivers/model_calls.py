"""The calls of this package that are about a model or a certificate, and start no solver.

Users call `verify`, `explain` and `figures`; `nl-bridge` uses the rest, too. As the calls of `api`
they answer a `Report`, or raise a `BridgeError` that has one.
"""

from __future__ import annotations

import contextlib
import os
from dataclasses import replace
from typing import Iterator, NamedTuple, Sequence

from .exact.certificate import read_certificate
from .formats.source import Source, Workspace, read_source
from .pages.explanation import ExplainedFile, Explanation, PagePaths
from .pipeline.memory import GivenModel, Path, is_in_memory, read_given_model
from .pipeline.option_values import objective_number
from .pipeline.read_model import ReadModel, read_program
from .pipeline.report import Report, ReportedCall
from .pipeline.row_factors import whole_form
from .pipeline.statistics import ModelStatistics
from .program.bridge import Bridge, find_program, sha256_of_file
from .program.calls import files_of_call
from .program.refusal import Refusal
from .system.codes import ExitStatus
from .system.errors import (
    BridgeError,
    DriverFault,
    FileAction,
    FileFault,
    ProgramFailed,
    UnsupportedModel,
)
from .system.text import one_line

FRONT = "nl-bridge"


def verify(model: GivenModel, certificate: Path, *, bridge: str = "") -> Report:
    """The verdict of the proved program on a certificate.

    The status of the report is 0 where the claim holds, else 1, with the reason in `text`.

    Args:
        model: A path, the bytes of a file, or a program.
        certificate: The path of the certificate, packed or not.
        bridge: The words that start the proved program, where it is elsewhere.

    Raises:
        BridgeError: The model or the certificate is refused, or a file cannot be read.
    """
    call = ReportedCall(FRONT)
    call.certificate = os.fspath(certificate)
    with _opened_model(call, model, bridge) as opened:
        source = opened.read_certificate(certificate)
        verdict = opened.model.bridge.verify(opened.model.path, source.path)
        status = ExitStatus.DONE if verdict.is_proved else ExitStatus.FAILED
        lines = [*opened.model.notes, verdict.line]
        return call.report(verdict.line, lines, verdict.statement, status=status)


def explain(
    model: GivenModel,
    certificate: Path | None = None,
    *,
    objective: int = 0,
    html: Path = "",
    svg: Path = "",
    overwrite: bool = False,
    bridge: str = "",
) -> Report:
    """What a certificate says, or where it fails; without one, whether the model is refused.

    The status of the report is 1 where the certificate does not show its claim, else 0.

    Args:
        model: A path, the bytes of a file, or a program.
        certificate: The path of the certificate, packed or not.
        objective: Without a certificate, which objective the model is asked for, from 0.
        html: Where a page on the certificate is written; "" for nowhere.
        svg: Where a picture of its tree is written; "" for nowhere.
        overwrite: What stands at those paths is replaced.
        bridge: The words that start the proved program, where it is elsewhere.

    Raises:
        ModelRefused: The model is refused: `report.refusal` says why and what helps.
        FileFault: A file cannot be read, or a page cannot be written.
        BridgeError: There is no answer for another reason.
    """
    report = explanation_report(
        model,
        certificate,
        objective=objective,
        html=html,
        svg=svg,
        overwrite=overwrite,
        bridge=bridge,
    )
    if report.status == ExitStatus.UNWRITTEN:
        fault = FileFault("", report.lines[-1], FileAction.WRITE)
        fault.report = replace(report, text=report.lines[-1])
        raise fault
    return report


def explanation_report(
    model: GivenModel,
    certificate: Path | None,
    *,
    objective: int = 0,
    html: Path = "",
    svg: Path = "",
    overwrite: bool = False,
    bridge: str = "",
) -> Report:
    """As `explain`, for `nl-bridge explain`, which prints what is known all the same.

    That a page cannot be written is no error: it is told in the last line, and by the status 5.
    """
    call = ReportedCall(FRONT)
    with _opened_model(call, model, bridge) as opened:
        read = opened.model
        if certificate is None:
            if read.own is None:
                read.bridge.export(read.path, objective_number(objective))
            text = f"{read.source.name}: is not refused"
            return call.report(text, [*read.notes, text])
        source = opened.read_certificate(certificate)
        explanation = _explanation(read, source)
        verdict = explanation.verdict
        status = ExitStatus.DONE if verdict.is_proved else ExitStatus.FAILED
        paths = PagePaths(os.fspath(html), os.fspath(svg), overwrite)
        reads = [*read.source.reads, *source.reads]
        written = explanation.write(paths, reads)
        return call.report(
            verdict.line,
            [*map(one_line, explanation.lines()), *read.notes, *written.lines],
            verdict.statement,
            status=status if written.are_all_written else ExitStatus.UNWRITTEN,
            explained=explanation.details(),
        )


def _explanation(model: ReadModel, source: Source) -> Explanation:
    """Has a certificate judged, and reads what there is to say of it.

    Where the program cannot be had in whole numbers, its note says why.
    """
    verdict = model.bridge.verify(model.path, source.path)
    try:
        with open(source.path, encoding="ascii") as lines:
            certificate = read_certificate(lines)
    except (ValueError, IndexError):
        told = "the program `bridge` is not the proved one: it judged a text that is no certificate"
        raise ProgramFailed(told) from None
    program, note = None, ""
    try:
        objective = certificate.objective or 0
        exported = model.program(objective)
        program = whole_form(model.bridge, model.path, exported, objective).program
    except (ProgramFailed, UnsupportedModel) as fault:
        note = f"without bounds: {fault}"
    return Explanation(
        certificate=certificate,
        verdict=verdict,
        names=model.names(),
        constraints=model.constraints(),
        program=program,
        note=note,
        model_file=ExplainedFile(model.source.name, _sum_of_judged(model)),
        certificate_file=ExplainedFile(source.name, source.sha256()),
    )


def _sum_of_judged(model: ReadModel) -> str | None:
    """The SHA-256 of the text that was judged: the file, or a text made of it.

    None where it is not known.
    """
    if model.path == model.source.path:
        return model.source.sha256()
    return sha256_of_file(model.path)


def figures(model: GivenModel, *, objective: int = 0, bridge: str = "") -> Report:
    """Sizes and kinds of a model, in `lines` and in `stats`.

    Args:
        model: A path, the bytes of a file, or a program.
        objective: The number of the objective that is looked at, from 0.
        bridge: The words that start the proved program, where it is elsewhere.

    Raises:
        BridgeError: The model is refused, or cannot be read.
    """
    call = ReportedCall(FRONT)
    with _opened_model(call, model, bridge) as opened:
        stats = ModelStatistics(opened.model, objective_number(objective))
        return call.report("stats", stats.lines(), stats=stats.values())


class OpenedModel(NamedTuple):
    """A model that was read, in one call.

    Attributes:
        call: The call, which is told what is read.
        model: The model with the proved program's calls that are about it.
        workspace: Room for files, while the block of `_opened_model` lasts.
    """

    call: ReportedCall
    model: ReadModel
    workspace: Workspace

    def read_certificate(self, certificate: Path) -> Source:
        """Opens a certificate, packed or a stream as a model may be, and has its name told."""
        source = read_source(os.fspath(certificate), self.workspace)
        self.call.read_certificate(source)
        self.model.bridge.file_names[source.path] = source.name
        return source


@contextlib.contextmanager
def opened_bridge(call: ReportedCall, bridge: str = "") -> Iterator[tuple[Bridge, Workspace]]:
    """A block with the proved program and room for files; its errors leave it with a report.

    A refusal becomes the error of its exit status, an OSError a `FileFault` of reading, and what is
    no error of the hierarchy a `DriverFault`.

    Args:
        call: The call; its `program` is set.
        bridge: The words that start the proved program; "" looks for it.
    """
    with Workspace() as workspace:
        try:
            call.program = place = find_program(bridge)
            yield Bridge(place), workspace
            return
        except Refusal as fault:
            error = call.failed(fault.as_error(), refusal=fault.details())
        except BridgeError as fault:
            error = call.failed(fault)
        except OSError as fault:
            error = call.failed(FileFault.of(fault, "", FileAction.READ))
        except Exception as fault:
            raise call.failed(DriverFault(repr(fault), "__cause__ says where")) from fault
    raise error from None


def refusal_report(call_words: Sequence[str], words: Sequence[str]) -> Report:
    """Whether a call of another command of the proved program is refused.

    Args:
        call_words: The command and its words, with paths that it can read.
        words: The same as the user knows them.

    Returns:
        That it is not; of a text that does not hold, its own line on that, with status 1.

    Raises:
        BridgeError: It is, and why.
    """
    call = ReportedCall(FRONT)
    shown = dict(zip(files_of_call(call_words), files_of_call(words)))
    with opened_bridge(call) as (bridge, _):
        reply = bridge.call(*call_words)
        if reply.status not in (ExitStatus.DONE, ExitStatus.FAILED):
            raise Refusal(call_words[0], reply, call_words, shown)
        said = "is not refused"
        if reply.status:
            said = reply.out.decode("utf-8", "replace").strip()
        text = f"{''.join([*shown.values()][:1])}: {said}"
        return call.report(text, [text], status=reply.status)


@contextlib.contextmanager
def _opened_model(call: ReportedCall, model: GivenModel, bridge: str) -> Iterator[OpenedModel]:
    """A block as that of `opened_bridge`, with a model that was read; the call is told of it."""
    if not is_in_memory(model):
        call.model = os.fspath(model)  # type: ignore[arg-type]
    with opened_bridge(call, bridge) as (program, workspace):
        source = read_given_model(model, workspace)
        call.read_model(source)
        yield OpenedModel(call, read_program(program, workspace, source), workspace)
