"""nl-bridge: what people type.

Help, version, explain and stats are made here; every other command is the proved program's own,
whose files may be what any command takes. `run_front` is one call.
"""

from __future__ import annotations

import contextlib
import os
import signal
import sys
from typing import Callable, List, Mapping, Sequence

from .. import model_calls
from ..formats.file_kinds import is_mps_file, is_packed_file, start_of_file
from ..formats.numbers import read_whole
from ..formats.source import Workspace, is_stream, name_of_model, read_source
from ..pipeline.report import Report, ReportedCall
from ..program.bridge import (
    PACKAGE,
    TEXT_LIMITS,
    VERDICT_LIMITS,
    build_facts,
    find_program,
    sha256_of_file,
)
from ..program.calls import Command, Reply, files_of_call, is_utf8
from ..program.mps_forms import import_mps
from ..program.reasons import listed_reasons
from ..program.refusal import read_fault, why_unreadable
from ..program.verdict import NoVerdict, Verdict, read_check, read_proof
from ..solvers import SOLVERS
from ..system import processes
from ..system.codes import ExitStatus
from ..system.deadline import Deadline
from ..system.errors import (
    BridgeError,
    FileAction,
    FileFault,
    NotStarted,
    ProgramFailed,
    WrongWords,
)
from ..system.processes import Streams
from ..system.version import VERSION
from . import forms
from .certify import CertifyCommand
from .completion import completion_text
from .console import Console, run_command
from .driver import DriverCommand
from .forms import NAME
from .front_words import (
    NUMBER_NAMES,
    FrontCall,
    is_number,
    parse_front_call,
    why_not_callable,
    wrong_words,
)
from .words import HelpKind

STUB_NAMES = ("NL", "FILE")  # words of the table that may be a stub
REFUSALS = "refusals"  # a topic of help


def run_front(words: Sequence[str], console: Console) -> int:
    """Runs one call of nl-bridge; an error of it is told in one line.

    Args:
        words: Those behind the command's name.
        console: Where it prints.

    Returns:
        The exit status.
    """
    try:
        call = parse_front_call(words)
        for note in call.notes:
            console.error(f"{NAME}: {note}")
        if call.wants_help or call.word == "help":
            return _print_help(call, console)
        if not call.word:
            console.error(forms.usage().rstrip("\n"))
            return ExitStatus.BAD_WORDS
        if call.word not in forms.COMMAND_WORDS:
            raise wrong_words(f"unknown command {call.word}", call.word, forms.COMMAND_WORDS)
        return _dispatch(call, console)
    except BridgeError as error:
        console.error(f"{NAME}: {error}")
        return error.status
    except OSError as fault:
        console.error(f"{NAME}: {FileFault.of(fault, '', FileAction.READ)}")
        return ExitStatus.UNREAD


def _dispatch(call: FrontCall, console: Console) -> int:
    """Runs a command of the table, here or by the proved program; the exit status.

    `verify` and `import` are made here where the proved program cannot do what is asked: another
    kind of file, JSON, a file that is written.

    Raises:
        BridgeError: The words do not fit the command, or it has no answer.
    """
    check_callable(call)
    if call.word == "completion":
        console.output(completion_text(call.rest[0]))
        return ExitStatus.DONE
    is_own = call.word in REPORTS
    if call.word == "verify":
        is_own = call.wants_json or _needs_reading(call.rest)
    elif call.word == "import":
        is_own = len(call.rest) == 2
    if is_own:
        return _print_report(call, console)
    return _pass_on(find_program(), [call.word, *call.rest], console)


def check_callable(call: FrontCall) -> None:
    """Raises WrongWords where the command takes no such words behind it."""
    reason = why_not_callable([call.word, *call.rest])
    if reason:
        is_proved = call.word in forms.PROVED_WORDS
        raise WrongWords(f"bad words: {reason}" if is_proved else reason)


def _needs_reading(rest: Sequence[str]) -> bool:
    """Whether `verify` is about what the proved program does not read itself as an .nl text.

    Args:
        rest: The words behind `verify`. It is so where the first is a stream, a packed file, an MPS
            file or a binary .nl file.
    """
    path = name_of_model(rest[0]) if len(rest) == 2 else ""
    if is_stream(path):
        return True
    if not os.path.isfile(path):
        return False
    return is_mps_file(path) or is_packed_file(path) or start_of_file(path)[:1] == b"b"


# help ---------------------------------------------------------------------------------------


def _print_help(call: FrontCall, console: Console) -> int:
    """Prints the help of a command, of an option of a driver, or of all; the exit status.

    Raises:
        WrongWords: There is no help on the word.
    """
    topic = call.word
    if call.word == "help":
        topic = call.rest[0] if call.rest else ""
    text = _help_on(topic)
    if not text:
        known = [*forms.COMMAND_WORDS, REFUSALS, *_any_driver().options.known]
        raise wrong_words(f"no help on {topic}", topic, known)
    console.output(text)
    return ExitStatus.DONE


def _help_on(topic: str) -> str:
    """The help on a command, a driver, an option or `refusals` as a text; "" where there is none."""
    if topic in ("", "help"):
        return forms.usage()
    if topic == REFUSALS:
        return listed_reasons()
    return forms.help_of(topic) or _driver_help_on(topic)


def _driver_help_on(topic: str) -> str:
    """The help of a driver, or on an option that `_any_driver` has; "" where it is neither."""
    name = topic.removeprefix("bridge-")
    if topic != name and name in SOLVERS:
        return DriverCommand(name).help_text(HelpKind.HELP)
    if topic == "bridge-certify":
        return _any_driver().help_text(HelpKind.HELP)
    option = _any_driver().options.known.get(topic)
    return option.line() + "\n" if option else ""


def _any_driver() -> DriverCommand:
    """A command of bridge-certify.

    It has the common options, its own, and those of the first solver.
    """
    return CertifyCommand(next(iter(SOLVERS)))


# reports ------------------------------------------------------------------------------------


def _print_report(call: FrontCall, console: Console) -> int:
    """Makes a report and prints it, as text or as JSON; the exit status.

    Raises:
        BridgeError: There is none, and the error has no report either.
    """
    try:
        report = REPORTS[call.word](call)
    except BridgeError as error:
        if error.report is None:
            raise
        return _print_failure(call, error.report, console)
    if call.wants_json:
        console.output(report.json() + "\n")
    elif call.word == "verify":
        for note in report.lines[:-1]:
            console.error(f"{NAME}: {note}")
        console.verdict(report.text)
    elif call.word == "explain" and report.explained is not None:
        console.verdict(report.lines[0], report.text)
        console.lines(report.lines[1:])
    else:
        console.lines(report.lines)
    return report.status


def _print_failure(call: FrontCall, report: Report, console: Console) -> int:
    """Prints why there is no report, on standard error, also beside JSON; the exit status.

    What explain is about, that a model is refused, is its answer: it stands on standard output.

    Args:
        call: What was asked.
        report: That of the error.
        console: Where it prints.
    """
    is_answer = call.word == "explain" and report.status == ExitStatus.REFUSED
    if call.wants_json or not is_answer:
        console.error(f"{NAME}: {report.text}")
    if call.wants_json:
        console.output(report.json() + "\n")
    elif is_answer:
        more = report.refusal["more"] if report.refusal else []
        console.lines([report.text, *(f"  {line}" for line in more)])
    return report.status


def _explained(call: FrontCall) -> Report:
    """The report of `explain` on a call of another command, on a model, or on a certificate.

    A model may stand with an objective's number, as `export` takes it.

    Raises:
        BridgeError: The call or the model is refused, or a file cannot be read.
    """
    rest = call.rest
    if len(rest) > 1 and rest[0] in forms.PROVED_WORDS:
        with Workspace() as workspace:
            files = _plain_files(workspace, rest, copies=True)
            return model_calls.refusal_report([rest[0], *files], rest)
    if len(rest) == 1:
        return model_calls.explain(rest[0])
    if is_number(rest[1]):
        return model_calls.explain(rest[0], objective=read_whole(rest[1]))
    return model_calls.explanation_report(
        rest[0],
        rest[1],
        html=call.pages.get("html", ""),
        svg=call.pages.get("svg", ""),
        overwrite=call.overwrites,
    )


def _version(call: FrontCall) -> Report:
    """The report of `version`: program, sum, toolchain and drivers, one a line.

    Raises:
        NotInstalled: The proved program is nowhere.
    """
    place = find_program()
    reported = ReportedCall(NAME)
    reported.program = place
    is_file = len(place) == 1
    digest = sha256_of_file(place[0]) if is_file else None
    facts = build_facts(place[0]) if is_file else {}
    text = f"{NAME} {VERSION}"
    lines = [
        text,
        f"program    {' '.join(map(os.path.normpath, place))}",
        f"sha256     {digest or 'cannot be read'}",
        f"toolchain  {_toolchain_words(facts)}",
        f"drivers    {VERSION} {PACKAGE}",
    ]
    more = {
        "program": list(place),
        "toolchain": facts.get("toolchain"),
        "proved": facts.get("proved") == "yes" if facts else None,
        "drivers": PACKAGE,
    }
    return reported.report(text, lines, more=more)


def _toolchain_words(facts: Mapping[str, str]) -> str:
    """By what the program was built and proved, in words.

    Args:
        facts: The note on its build; empty where there is none.
    """
    if not facts:
        return "not told: there is no note on this program, so that it may not be proved"
    toolchain = facts.get("toolchain") or "not told"
    if facts.get("proved") == "yes":
        return toolchain
    return toolchain + " (NOT PROVED: a build for trials)"


def _imported(call: FrontCall) -> Report:
    """The report of `import FILE NL`: an MPS text is written as an .nl file, names beside it.

    Raises:
        BridgeError: It is refused, or a file cannot be read or written.
    """
    reported = ReportedCall(NAME)
    reported.model = call.rest[0]
    with model_calls.opened_bridge(reported) as (bridge, workspace):
        path = _plain_file(workspace, "MPS", call.rest[0], copies=True)
        bridge.file_names[path] = call.rest[0]
        text = import_mps(bridge, path, call.rest[1], overwrite=call.overwrites)
        return reported.report(text, [text])


def _verified(call: FrontCall) -> Report:
    """The report of `verify` on a model of any kind."""
    return model_calls.verify(call.rest[0], call.rest[1])


def _statistics(call: FrontCall) -> Report:
    """The report of `stats`, of the first objective where no number (from 0) is said."""
    objective = read_whole(call.rest[1]) if len(call.rest) > 1 else 0
    return model_calls.figures(call.rest[0], objective=objective)


REPORTS: Mapping[str, Callable[[FrontCall], Report]] = {
    "explain": _explained,
    "version": _version,
    "import": _imported,
    "verify": _verified,
    "stats": _statistics,
}


# the proved program -------------------------------------------------------------------------


def _plain_files(workspace: Workspace, words: Sequence[str], *, copies: bool = False) -> List[str]:
    """The words behind a command of the proved program, files as plain ones that it can read.

    Args:
        workspace: Where copies are made; it has to outlive the call.
        copies: Each file is copied, since it is read more than once. Else the proved program reads
            a plain file where it stands, once.
        words: The command, and the words behind it; without a form of the table that fits, none are
            answered.
    """
    for form in forms.PROVED_COMMANDS:
        for names in form.names(len(words) - 1):
            if form.word == words[0]:
                return [
                    _plain_file(workspace, name, word, copies=copies)
                    for name, word in zip(names, words[1:])
                ]
    return []


def _plain_file(workspace: Workspace, name: str, word: str, *, copies: bool = False) -> str:
    """The path of a plain file with the text of a word, in UTF-8; a number stays as it is.

    What is packed, or a stream, is copied into the workspace, and a path that is not UTF-8 has a
    link there.

    Args:
        workspace: Where that is made.
        name: What the table calls the word: NL and FILE may be stubs.
        word: As the user has it.
        copies: A plain file is copied, too.

    Raises:
        OSError, BridgeError: It cannot be read.
    """
    if name in NUMBER_NAMES:
        return word
    path = name_of_model(word) if name in STUB_NAMES and not os.path.isfile(word) else word
    if is_stream(path) or is_packed_file(path) or copies and os.path.isfile(path):
        path = read_source(path, workspace).path
    return path if is_utf8(path) else workspace.link_to(path)


def _pass_on(place: Sequence[str], words: Sequence[str], console: Console) -> int:
    """Runs the proved program over these files, its texts as they are.

    Where it refuses one, a line says what tells more.

    A signal that ended the program ends this one.

    Args:
        place: The words that start the program.
        words: The command and its words as the user has them.
        console: Where it prints.

    Returns:
        The program's exit status.
    """
    with Workspace() as workspace:
        call = [words[0], *_plain_files(workspace, words)]
        status = _run_proved_program(place, call, words, console)
    if status < 0:
        with contextlib.suppress(OSError):  # of SIGKILL
            signal.signal(-status, signal.SIG_DFL)
        os.kill(os.getpid(), -status)
    if status == ExitStatus.REFUSED:
        explained = words[1:] if words[0] == "export" and len(words) < 4 else words
        console.error(f"{NAME}: `{NAME} explain {' '.join(explained)}` says more")
    return status


def _run_proved_program(
    place: Sequence[str], call: Sequence[str], words: Sequence[str], console: Console
) -> int:
    """Runs the proved program and passes on what it writes; its status, below 0 after a signal.

    A verdict is passed on where it is one of the status with which the program ends, and is in
    colour on a terminal. A file that cannot be read is told with its cause.

    Args:
        place: The words that start it.
        call: The words of the call, with paths that it can read.
        words: The same as the user knows them.
        console: Where it prints, unless the program's own streams are left to it.

    Raises:
        NotStarted: It cannot be run.
        NoVerdict: What it answers is no verdict.
        ProgramFailed: It writes more than a text.
    """
    files = files_of_call(call)
    has_fault = any(map(read_fault, files))
    has_verdict = words[0] in forms.VERDICT_WORDS
    streams = Streams.APART if has_verdict or has_fault else Streams.PASSED_ON
    limits = VERDICT_LIMITS if has_verdict else TEXT_LIMITS
    try:
        ended = processes.run([*place, *call], Deadline(), limits, streams=streams)
    except OSError as fault:
        raise NotStarted(place[0], str(fault.strerror)) from None
    if ended.dropped and has_verdict:
        raise NoVerdict(Reply(ended.status, ended.output, ""))
    if ended.dropped:
        raise ProgramFailed(f"`bridge {words[0]}` writes more than is read")
    if has_verdict and ended.status in (ExitStatus.DONE, ExitStatus.FAILED):
        reply = Reply(ended.status, ended.output, "")
        console.verdict(VERDICT_READERS.get(words[0], _line_of_certificate)(reply))
    elif ended.output:
        console.output(ended.output.decode("utf-8", "surrogateescape"))
    told = ended.errors.decode("utf-8", "surrogateescape").rstrip("\n")
    if ended.status == ExitStatus.UNREAD and has_fault:
        told = f"{NAME}: {why_unreadable(files, dict(zip(files, files_of_call(words))))}"
    if told:
        console.error(told)
    return ended.status


def _line_of_certificate(reply: Reply) -> str:
    """The line of a verdict on a certificate.

    Raises:
        NoVerdict: It is none.
    """
    return Verdict(reply).line


VERDICT_READERS: Mapping[str, Callable[[Reply], str]] = {
    Command.CHECK.value: read_check,
    Command.PROVE.value: read_proof,
}  # by the word of a command; of all others it is `_line_of_certificate`


def main() -> None:
    """The entry point of nl-bridge; it ends the process."""
    run_command(NAME, lambda console: run_front(sys.argv[1:], console))
