"""One case of fuzzing: a seed chooses a model, what is changed, and the call; what is wrong is found.

A finding is an exception that is none of the package's, code 599 or a line on a fault of the driver,
a claim that the proved program does not confirm on the certificate that was kept, or a second line
that reads as a verdict.
"""

from __future__ import annotations

import contextlib
import io
import os
import random
import re
import shlex
import subprocess
import traceback
from pathlib import Path
from typing import Callable, List, Mapping, NamedTuple, Optional, Sequence

import bridge_drivers
from bridge_drivers.commands.console import Console
from bridge_drivers.commands.driver import DriverCommand
from bridge_drivers.commands.nl_bridge import run_front
from bridge_drivers.formats.file_kinds import start_of_file
from bridge_drivers.pipeline.report import Report
from bridge_drivers.system.errors import BridgeError

from builders.small_models import MODELS
from fuzzing.mutations import gently_mutated, mutated, names, packed
from running.places import EXAMPLES, program
from running.stored_runs import StoredRun, stored_runs

FAULT = 599
HEAD_LINES = 10  # of an .nl file
FAULT_WORDS = "a fault of the driver"
SECONDS = 2.0  # of a solver and of a search: timelim
VERDICT = re.compile(
    r"(?:optimal|feasible|within|bound|infeasible|unbounded|yes|proved|not proved)\b"
)
CERTIFICATES = sorted(EXAMPLES.glob("*.certificate"))
TEXTS: Mapping[str, bytes] = {
    **{f"{name}.nl": model.text for name, model in sorted(MODELS.items())},
    **{path.name: path.read_bytes() for path in sorted(EXAMPLES.glob("*.nl"))},
    **{path.name: path.read_bytes() for path in sorted(EXAMPLES.glob("*.mps"))},
}
COMMANDS = ("export", "verify", "return", "check", "mps", "fixed", "verify_mps", "verify_fixed")
# what a false program prints for one of its commands: lines of a shell
FALSE_ANSWERS = (
    "",
    "echo",
    "echo hello",
    "printf 'NAME x\\nROWS\\n N obj\\nCOLUMNS\\n x obj 1\\nRHS\\nENDATA\\n'",
    "echo optimal 99",
    "echo optimal 1/0",
    "echo optimal 17; echo optimal 17",
    "echo leaf 0 gap 3",
    "echo refused line 99999999999: nonlinear >&2",
    "echo refused row 7: nonlinear >&2",
    "head -c 100000 /dev/zero",
    "kill -9 $$",
    "printf '\\377\\376\\n'",
)


class Finding(NamedTuple):
    """What is wrong with a case.

    Attributes:
        seed: Of the case, by which it is made again.
        what: In a line.
        trace: Where it was; "" where no exception tells.
    """

    seed: int
    what: str
    trace: str = ""


class Case:
    """A case in a folder of its own, which is the current one while it runs.

    Attributes:
        seed: By which all is chosen.
        chance: The generator of numbers of it.
        folder: Of its files.
        told: Its parts in words.
        is_program_false: What answers is not the proved program, so that no claim is compared.
    """

    def __init__(self, seed: int, folder: Path) -> None:
        self.seed = seed
        self.chance = random.Random(seed)
        self.folder = folder
        self.told: List[str] = []
        self.is_program_false = False

    def run(self) -> Optional[Finding]:
        """Makes the files and the call; None where nothing is wrong."""
        model = self._model()
        words = shlex.join(program())
        if self.chance.random() < 0.1:
            words = self._false_program()
        os.environ["BRIDGE"] = words
        call = self.chance.choice(self._calls())
        self.told.append(call.__name__)
        try:
            what = call(model)
        except BridgeError as error:
            what = self._fault_of(error.report) or self._fault_in(str(error))
        except Exception as fault:
            return Finding(self.seed, f"{self._words()}: {fault!r}", traceback.format_exc())
        return Finding(self.seed, f"{self._words()}: {what}") if what else None

    def _words(self) -> str:
        return ", ".join(self.told)

    # the files ------------------------------------------------------------------------------

    def _model(self) -> str:
        """Writes a model, its lists of names and a certificate; the name of the model."""
        name = self.chance.choice(sorted(TEXTS))
        text = TEXTS[name]
        stub, end = os.path.splitext(name)
        if end == ".nl" and self.chance.random() < 0.3:
            text, end = _exported(text, self.folder) or text, ".mps"
        self.told.append(stub + end)
        way = self.chance.random()
        if way < 0.2:
            text = mutated(self.chance, text)
            self.told.append("changed")
        elif way < 0.6:
            text = gently_mutated(self.chance, text, HEAD_LINES if end == ".nl" else 0)
            self.told.append("with other values")
        if self.chance.random() < 0.15:
            text = packed(self.chance, text)
            self.told.append("packed")
        path = self.folder / f"m{end}"
        path.write_bytes(text)
        for ending in (".col", ".row"):
            if self.chance.random() < 0.5:
                (self.folder / f"m{ending}").write_bytes(names(self.chance, 6))
        self._write_certificate(stub)
        return path.name

    def _write_certificate(self, stub: str) -> None:
        """Writes m.certificate: the one of the model, or another one, often changed."""
        own = EXAMPLES / f"{stub}.certificate"
        path = own if own.exists() else self.chance.choice(CERTIFICATES)
        text = path.read_bytes()
        if self.chance.random() < 0.6:
            text = mutated(self.chance, text)
        if self.chance.random() < 0.1:
            text = packed(self.chance, text)
        (self.folder / "m.certificate").write_bytes(text)

    def _false_program(self) -> str:
        """Writes a program that answers one command falsely; the words that start it."""
        self.is_program_false = True
        command, answer = self.chance.choice(COMMANDS), self.chance.choice(FALSE_ANSWERS)
        status = self.chance.choice((0, 0, 1, 2, 3, 5, 77))
        self.told.append(f"`{command}` answers `{answer}` with {status}")
        path = self.folder / "false-bridge"
        path.write_text(
            f'#!/bin/sh\nif [ "$1" = {command} ]; then {answer or ":"}; exit {status}; fi\n'
            f'exec {shlex.join(program())} "$@"\n'
        )
        path.chmod(0o755)
        return shlex.quote(str(path))

    def _false_solver(self, driver: str) -> str:
        """Writes a solver that answers by a stored run, changed; its path."""
        runs = stored_runs(driver)
        run = runs[self.chance.choice(sorted(runs))]
        files = {name: mutated(self.chance, run.file_bytes(name)) for name in run.files}
        log = mutated(self.chance, run.log().encode())
        folder = self.folder / "solver"
        path = StoredRun().write_false_solver(folder, driver)
        for name, data in files.items():
            (folder / "answer" / name).write_bytes(data)
        (folder / "log").write_bytes(log)
        return str(path)

    # the calls ------------------------------------------------------------------------------

    def _calls(self) -> Sequence[Callable[[str], str]]:
        return (
            self.verify,
            self.explain,
            self.figures,
            self.solve,
            self.certify,
            self.answer,
            self.front,
            self.driver,
        )

    def verify(self, model: str) -> str:
        """A certificate is judged as by the proved program itself."""
        report = bridge_drivers.verify(model, "m.certificate")
        return self._fault_of(report) or self._unconfirmed(report, model, "m.certificate")

    def explain(self, model: str) -> str:
        """A certificate is explained, with a page and a picture."""
        report = bridge_drivers.explain(model, "m.certificate", html="m.html", svg="m.svg")
        return self._fault_of(report) or self._unconfirmed(report, model, "m.certificate")

    def figures(self, model: str) -> str:
        """Figures of a model."""
        return self._fault_of(bridge_drivers.figures(model))

    def solve(self, model: str) -> str:
        """A run of a solver, whose certificate is judged once more."""
        report = bridge_drivers.solve(
            model, certificate="own.certificate", timelim=SECONDS, jobs=1, solution="m.json"
        )
        return self._fault_of(report) or self._unconfirmed(report, model, "own.certificate")

    def certify(self, model: str) -> str:
        """The same with a search."""
        report = bridge_drivers.certify(
            model, certificate="own.certificate", timelim=SECONDS, jobs=1
        )
        return self._fault_of(report) or self._unconfirmed(report, model, "own.certificate")

    def answer(self, model: str) -> str:
        """A run whose solver answers something."""
        driver = self.chance.choice(("cbc", "clp", "glpsol", "esolver", "lp_solve"))
        report = bridge_drivers.solve(
            model,
            driver,
            program=self._false_solver(driver),
            certificate="own.certificate",
            timelim=SECONDS,
            jobs=1,
        )
        return self._fault_of(report) or self._unconfirmed(report, model, "own.certificate")

    def front(self, model: str) -> str:
        """A command of nl-bridge."""
        words = self.chance.choice(
            (
                ["explain", model],
                ["explain", model, "m.certificate"],
                ["stats", model],
                ["verify", model, "m.certificate"],
                ["verify", model, "m.certificate", "json=1"],
                ["import", model, "new.nl"],
                ["explain", "verify", model, "m.certificate"],
            )
        )
        console = Console(io.StringIO(), io.StringIO())
        run_front(words, console)
        return self._printed_fault(console)

    def driver(self, model: str) -> str:
        """A command of a driver, by hand or as a modelling system calls it."""
        choices: Sequence[List[str]] = ([], ["-AMPL"], ["wantsol=6"])
        words = [model, f"timelim={SECONDS}", *self.chance.choice(choices)]
        console = Console(io.StringIO(), io.StringIO())
        DriverCommand("cbc", console).main(words)
        return self._printed_fault(console)

    # what is wrong --------------------------------------------------------------------------

    def _fault_in(self, text: str) -> str:
        return text if FAULT_WORDS in text else ""

    def _fault_of(self, report: Optional[Report]) -> str:
        """What a report says of a fault of the driver; "" where it says nothing."""
        if report is None:
            return ""
        told = next((line for line in report.lines if FAULT_WORDS in line), "")
        return told or ("code 599" if report.code == FAULT else "")

    def _printed_fault(self, console: Console) -> str:
        """What was printed of a fault, or more than one line that reads as a verdict."""
        parts = vars(console)
        printed = str(parts["_output"].getvalue())
        errors = str(parts["_errors"].getvalue())
        for line in (printed + errors).split("\n"):
            if FAULT_WORDS in line or line.startswith("Traceback"):
                return line
        verdicts = [line for line in printed.split("\n") if VERDICT.match(line)]
        return f"several verdicts: {verdicts}" if len(verdicts) > 1 else ""

    def _unconfirmed(self, report: Report, model: str, certificate: str) -> str:
        """What is claimed and not confirmed by the proved program, on files as they stand."""
        is_plain = start_of_file(model) == (self.folder / model).read_bytes()[: 1 << 16]
        if self.is_program_false or report.claim is None or not is_plain:
            return ""
        if report.text.startswith("infeasible") and not os.path.exists(certificate):
            return ""
        command = {".nl": "verify"}.get(os.path.splitext(model)[1], "verify_mps")
        path = self.folder / certificate
        if not path.exists() or path.read_bytes()[:1] != b"c" or report.lines[:-1] != []:
            return self._unconfirmed_run(report, command, model, certificate)
        said = _said(command, model, certificate)
        return "" if said == report.text else f"`{report.text}` is told, `{said}` is proved"

    def _unconfirmed_run(self, report: Report, command: str, model: str, certificate: str) -> str:
        """The same of a run that made the certificate, or read the model in another way."""
        is_read_otherwise = any("judged" in line or "read as" in line for line in report.lines)
        if is_read_otherwise or "read in" in "".join(report.lines):
            return ""
        if not os.path.exists(certificate) or (self.folder / model).read_bytes()[:1] == b"b":
            return ""
        said = [_said(command, model, certificate)]
        if command == "verify_mps":
            said.append(_said("verify_fixed", model, certificate))
        return "" if report.text in said else f"`{report.text}` is told, {said} are proved"


def _exported(text: bytes, folder: Path) -> bytes:
    """The MPS text of an .nl text; nothing where that is refused."""
    path = folder / "exported.nl"
    path.write_bytes(text)
    done = subprocess.run([*program(), "export", str(path)], capture_output=True)
    path.unlink()
    return done.stdout


def _said(command: str, model: str, certificate: str) -> str:
    """The line of the proved program on a certificate, which may be packed."""
    plain = f"{certificate}.plain"
    Path(plain).write_bytes(start_of_file(certificate))
    words = [*program(), command, model, plain]
    done = subprocess.run(words, capture_output=True)
    return done.stdout.decode("latin-1").rstrip("\n")


def run_case(seed: int, folder: Path) -> Optional[Finding]:
    """One case in an empty folder, which is the current one from now on; what is wrong with it."""
    os.chdir(folder)
    case = Case(seed, folder)
    with contextlib.redirect_stdout(io.StringIO()), contextlib.redirect_stderr(io.StringIO()):
        return case.run()
