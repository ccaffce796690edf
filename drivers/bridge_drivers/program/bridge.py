"""The proved program: where it is found, what is known of its build, and each call of it."""

from __future__ import annotations

import enum
import hashlib
import json
import os
import shlex
import shutil
import tempfile
from typing import Callable, Dict, List, Mapping, Optional, Sequence

from ..system.codes import ExitStatus
from ..system.deadline import Deadline
from ..system.errors import DeadlineExceeded, NotFound, NotInstalled, NotStarted, ProgramFailed
from ..system.processes import OutputLimits, run
from .calls import TEXT_SHAPES, Command, Reply, is_utf8
from .certified import CertifiedSol, read_certified
from .refusal import Refusal
from .verdict import NoVerdict, Verdict, read_check

PACKAGE = os.path.dirname(os.path.dirname(os.path.abspath(__file__)))
DRIVERS = os.path.dirname(PACKAGE)
LOCATIONS = (
    os.path.join(PACKAGE, "bin", "bridge"),  # of a wheel
    os.path.join(
        DRIVERS, "..", "..", "..", "libexec", "nl-bridge", "bridge"
    ),  # of Debian's package
    os.path.join(DRIVERS, "bin", "bridge"),  # of drivers/install
    os.path.join(DRIVERS, "..", "crates", "bridge", "out", "bridge"),  # of a clone, proved
    os.path.join(DRIVERS, "..", "out", "try", "bridge"),  # of a clone, not proved
)  # beside the drivers; the first that is there counts
BUILD_NOTES = (
    "{program}.built",  # of a clone
    os.path.join(PACKAGE, "built.json"),  # of a package
)  # where a note on a build stands
LONGEST_TRIAL = 20  # seconds that a program called `bridge` has to say that it is the proved one
# a text is read back by the program, which takes 2^31 bytes; a verdict is a line
TEXT_LIMITS = OutputLimits(memory_bytes=1 << 31, ends_beyond=True)
VERDICT_LIMITS = OutputLimits(memory_bytes=1 << 16, ends_beyond=True)
PIECE = 1 << 20  # bytes of a file that are read at once


class ModelForm(enum.Enum):
    """What text a model is. That decides by which commands it is read, and judged."""

    NL = "nl"
    FREE = "free"  # MPS in free form
    FIXED = "fixed"  # MPS in fixed columns

    @property
    def reader(self) -> Command:
        """What writes the MPS text of such a model."""
        return _READERS[self]

    @property
    def judge(self) -> Command:
        """What judges certificates over such a model."""
        return _JUDGES[self]


_READERS = {
    ModelForm.NL: Command.EXPORT,
    ModelForm.FREE: Command.MPS,
    ModelForm.FIXED: Command.FIXED,
}
_JUDGES = {
    ModelForm.NL: Command.VERIFY,
    ModelForm.FREE: Command.VERIFY_MPS,
    ModelForm.FIXED: Command.VERIFY_FIXED,
}


def is_proved_program(path: str) -> bool:
    """Whether a program of the name `bridge` is the proved one: that answers no words with 3.

    Another program has the name, too: that of iproute2. `find_program` asks it of what it finds on
    the PATH, each of which has LONGEST_TRIAL seconds.
    """
    try:
        ended = run([path], Deadline(LONGEST_TRIAL))
    except OSError:
        return False
    return ended.status == ExitStatus.BAD_WORDS and ended.errors.strip() == b"bad words"


def find_program(named: str = "", locations: Sequence[str] = LOCATIONS) -> List[str]:
    """The words that start the proved program; each run and each call of `nl-bridge` asks for them.

    Args:
        named: By an option; then the variable BRIDGE is not looked at.
        locations: Where it is looked for before the PATH.

    Raises:
        NotInstalled: It is nowhere, or the words that name it are not closed.
    """
    words = named or os.environ.get("BRIDGE")
    if words:
        try:
            return shlex.split(words)
        except ValueError:
            raise NotInstalled(f"bridge={words}: a quote does not end") from None
    for path in locations:
        if os.access(path, os.X_OK) and not os.path.isdir(path):
            return [path]
    found = _programs_on_path("bridge")
    for path in found:
        if is_proved_program(path):
            return [path]
    raise NotFound("bridge", "give bridge=PATH or set BRIDGE", found[0] if found else "")


def _programs_on_path(name: str) -> List[str]:
    """All programs of a name, in the order of the folders."""
    folders = os.environ.get("PATH", "").split(os.pathsep)
    found = [shutil.which(name, path=folder) for folder in folders if folder]
    return [path for path in found if path]


def sha256_of_file(path: Optional[str]) -> Optional[str]:
    """The SHA-256 of a plain file in hexadecimal; None where there is none that can be read.

    For the sums of a report, of what is no `Source`: the program, and a certificate that was written.
    """
    digest = hashlib.sha256()
    if not os.path.isfile(path or ""):  # a device may have no end
        return None
    try:
        with open(path or "", "rb") as file:
            for piece in iter(lambda: file.read(PIECE), b""):
                digest.update(piece)
    except OSError:
        return None
    return digest.hexdigest()


def build_facts(program: str) -> Mapping[str, str]:
    """What is noted on the build of exactly this program: whether the gate proved it, and by what.

    Args:
        program: Its path.

    Returns:
        The facts of the note by their keys; empty where there is none on these bytes.
    """
    digest = sha256_of_file(program)
    for path in BUILD_NOTES:
        try:
            with open(path.format(program=program), encoding="utf-8") as file:
                facts = {str(key): str(value) for key, value in json.load(file).items()}
        except (OSError, ValueError, AttributeError):
            continue
        if digest is not None and digest in (facts.get("sha256"), facts.get("program")):
            return facts
    return {}


def _note_nothing(argv: Sequence[str]) -> None:
    """Takes the words of a call where nobody wants to know them: the default of `Bridge.note`."""


class Bridge:
    """Calls of the proved program in one run.

    `pipeline.solve.SolveRun` makes one for a run, and `api.opened_bridge` for each other call.

    Attributes:
        argv: The words that start it.
        note: Is told the words of each call before it is made.
        file_names: What the user calls a file, by the path that the program is given.
        forms: What text the model at a path is, where that is no .nl file.
        deadline: Ends the calls that read a model, and those of verdicts that have no deadline of
            their own: that of the whole run, where it has one.
    """

    def __init__(
        self, argv: Sequence[str], note: Callable[[Sequence[str]], None] = _note_nothing
    ) -> None:
        """Of the words that start the program, as `find_program` finds them; nothing is started.

        Args:
            argv: These words.
            note: Is told the words of each call before it is made.
        """
        self.argv = list(argv)
        self.note = note
        self.file_names: Dict[str, str] = {}
        self.forms: Dict[str, ModelForm] = {}
        self.deadline = Deadline()
        self._links: Optional[tempfile.TemporaryDirectory[str]] = None

    def call(
        self,
        *words: str,
        deadline: Optional[Deadline] = None,
        limits: OutputLimits = TEXT_LIMITS,
    ) -> Reply:
        """One call, however it ends.

        Args:
            words: The command and its files.
            deadline: When the program is ended; None: by the deadline of all calls.
            limits: Of what it may write.

        Raises:
            NotStarted: The program cannot be run.
            DeadlineExceeded: It was ended at the deadline.
            ProgramFailed: It wrote more than the limits, and was ended; of a verdict it is a
                NoVerdict.
        """
        argv = self.argv + [self._reachable(word) for word in words]
        self.note(argv)
        try:
            ended = run(argv, deadline or self.deadline, limits)
        except OSError as fault:
            raise NotStarted(argv[0], str(fault.strerror)) from None
        if ended.is_late:
            raise DeadlineExceeded(words[0])
        told = ended.errors.decode("utf-8", "replace").strip()
        reply = Reply(ended.status, ended.output, told)
        if ended.dropped and limits is VERDICT_LIMITS:
            raise NoVerdict(reply)
        if ended.dropped:
            raise ProgramFailed(f"`bridge {words[0]}` writes more than is read")
        return reply

    def _reachable(self, word: str) -> str:
        """The program takes words of UTF-8 alone: a path of other bytes is given as a link to it."""
        if is_utf8(word):
            return word
        if self._links is None:
            self._links = tempfile.TemporaryDirectory(prefix="bridge-links-")
        name = hashlib.sha256(os.fsencode(word)).hexdigest()
        link = os.path.join(self._links.name, name)
        if not os.path.lexists(link):
            os.symlink(os.path.abspath(word), link)
        return link

    def refusal(self, words: Sequence[str], reply: Reply) -> Refusal:
        """The error of a call that ended without what was asked for; whoever made the call raises it.

        Args:
            words: Those of the call; the first is the command.
            reply: How it ended.
        """
        return Refusal(words[0], reply, words, self.file_names)

    def text(self, command: Command, *files: str, deadline: Optional[Deadline] = None) -> bytes:
        """What a command prints that writes a text.

        Args:
            command: The command, of TEXT_SHAPES.
            files: Its words.
            deadline: As of `call`.

        Raises:
            Refusal: It ended with another status than 0.
            DeadlineExceeded: It was ended at the deadline.
            ProgramFailed: It ended with 0, and wrote what the proved program does not.
        """
        reply = self.call(command.value, *files, deadline=deadline)
        if reply.status != ExitStatus.DONE:
            raise self.refusal((command.value, *files), reply)
        shape = TEXT_SHAPES[command]
        if not shape.is_of(reply.out):
            wrong = f"`bridge {command.value}` wrote no {shape.name} text"
            raise ProgramFailed(f"the program `bridge` is not the proved one: {wrong}")
        return reply.out

    def export(self, model: str, objective: int = 0) -> bytes:
        """The MPS text of an .nl file, which solvers read and `LinearProgram.of` takes.

        Args:
            model: The path of an .nl file.
            objective: The number of one of its objectives, from 0.

        Raises:
            Refusal: The file is refused, or it has no such objective.
        """
        return self.text(Command.EXPORT, model, *([str(objective)] if objective else []))

    def return_(self, model: str, answer: str) -> bytes:
        """The .sol text of a solver's answer to what `export` wrote.

        No deadline ends it: without it there is no answer to pass on.

        Args:
            model: The path of the .nl file.
            answer: The path of a file with the answer, as `pipeline.answer` writes it.

        Raises:
            Refusal: The model or the answer is refused.
        """
        return self.text(Command.RETURN, model, answer, deadline=Deadline())

    def verify(self, model: str, certificate: str, deadline: Optional[Deadline] = None) -> Verdict:
        """The verdict on a certificate, over the model's own text.

        Args:
            model: The path of an .nl file, or of an MPS file whose form is in `forms`.
            certificate: The path of a file.
            deadline: As of `call`.

        Raises:
            Refusal: The program refuses the model or the certificate.
            NoVerdict: What it answers is no verdict.
            DeadlineExceeded: It was ended at the deadline.
        """
        command = self.forms.get(model, ModelForm.NL).judge
        return Verdict(self._judged(command, model, certificate, deadline))

    def certified(
        self, model: str, certificate: str, deadline: Optional[Deadline] = None
    ) -> CertifiedSol:
        """The .sol text of the claim of a certificate that holds over an .nl file.

        Its message is the verdict, its values are those of the certificate's point.

        Args:
            model: The path of the .nl file.
            certificate: The path of a file.
            deadline: As of `call`.

        Raises:
            Refusal: A file is refused, or a value of the point has no decimal.
            NoVerdict: The certificate does not hold, or what is answered is no such text.
            DeadlineExceeded: It was ended at the deadline.
        """
        reply = self._judged(Command.CERTIFIED, model, certificate, deadline, limits=TEXT_LIMITS)
        return read_certified(reply)

    def check(self, model: str, sol: str, deadline: Optional[Deadline] = None) -> str:
        """The line on the point and the duals of a .sol file over an .nl file.

        Args:
            model: The path of the .nl file.
            sol: That of the .sol.
            deadline: As of `call`.

        Raises:
            Refusal: The program refuses one of the files.
            NoVerdict: What it answers is no verdict.
            DeadlineExceeded: It was ended at the deadline.
        """
        return read_check(self._judged(Command.CHECK, model, sol, deadline))

    def _judged(
        self,
        command: Command,
        model: str,
        other: str,
        deadline: Optional[Deadline],
        limits: OutputLimits = VERDICT_LIMITS,
    ) -> Reply:
        """A reply with one of the two statuses that go with a verdict."""
        reply = self.call(command.value, model, other, deadline=deadline, limits=limits)
        if reply.status not in (ExitStatus.DONE, ExitStatus.FAILED):
            raise self.refusal((command.value, model, other), reply)
        return reply
