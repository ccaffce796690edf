"""`bridge-certify MODEL [option=value ..]`: a certificate of what is true of a model.

It takes the options of its driver. `CertifyCommand` is that driver's command with other options and
another end; nl-bridge asks it for help on options.
"""

from __future__ import annotations

import contextlib
import os
import sys
import time
from pathlib import Path
from typing import List, Optional, Sequence

from ..pipeline.answered_run import Outcome
from ..pipeline.option_values import RunSettings, certify_settings
from ..system.codes import ExitStatus
from ..system.errors import BridgeError, WrongOption
from .console import Console, Destination, run_command
from .driver import DriverCommand
from .options import CERTIFY_OPTIONS, COMMON_OPTIONS, SOLVER_OPTIONS, OptionValues
from .words import parse_driver_call

NAME = "bridge-certify"
STANDARD_OUTPUT = "-"  # where the certificate goes by this word
NOT_PROVED = "not proved"  # how a last line begins that is no verdict
USAGE = """usage: {name} MODEL [option=value ..]

  finds what is true of MODEL by a solver and a search, writes a certificate of it, and tells the
  verdict of `bridge verify`. No .sol is written. {model}
  -=      list the options                      -v  versions
  --      what follows is no option             -h  this text; help OPTION: one option
  Options may also stand in the variable {variable}.
"""
EXAMPLE = "\nexample: {name} mix timelim=60 certificate=mix.certificate\n"


class CertifyCommand(DriverCommand):
    """A call whose answer is certified; its .sol, with -s or by `wantsol`, is a certified one.

    Args:
        solver: The name of the solver, which finds a point.
        console: Where it prints; None for the standard streams at the time of the call.

    Attributes:
        prints_certificate: The certificate goes to standard output, and all that is told to
            standard error.
    """

    usage_text = USAGE
    example_text = EXAMPLE
    further_options = CERTIFY_OPTIONS
    shows_short_table = False
    certifies_sol = True

    def __init__(self, solver: str, console: Optional[Console] = None) -> None:
        super().__init__(solver, console)
        self.name = NAME
        self.monitor.name = NAME
        self.prints_certificate = False

    def take_options(self) -> None:
        """Reads the options.

        The certificate is written to MODEL.certificate unless another place is said.

        For `certificate=-` it is written into the workspace, and messages go to standard error.

        Raises:
            WrongOption: Something is wrong with them, -AMPL stands among them, or json=1 beside
                `certificate=-`.
        """
        if self.call.is_ampl:
            raise WrongOption(f"{NAME} is not called with -AMPL: a driver is, with strict=1")
        self.call.echoes = False
        super().take_options()
        given = self.options.text("certificate")
        self.prints_certificate = given == STANDARD_OUTPUT
        if not self.prints_certificate:
            self.options.put("certificate", given or self.source.stub + ".certificate")
            return
        if self.options.flag("json"):
            raise WrongOption("json=1 and certificate=- both want standard output")
        self.console.destination = Destination.ERRORS
        self.options.put("certificate", self.workspace.new_path())

    def _run_settings(self) -> RunSettings:
        """As of a driver, but for a limit of the solver where nothing is said of `timelim`."""
        found = super()._run_settings()
        return found if self.options.is_given("timelim") else certify_settings(found)

    def message_of(self, outcome: Outcome) -> List[str]:
        """The lines that are told; where the certificate is printed, without that on its file."""
        stored = outcome.stored.line if outcome.stored and self.prints_certificate else None
        return [line for line in outcome.lines if line != stored]

    def deliver(self, outcome: Outcome) -> int:
        """Writes and tells what is asked for, as a driver does.

        Behind that stand figures with stats=1, and the certificate where it is to be printed.

        Returns:
            The exit status; where nothing is proved it is FAILED.
        """
        status = super().deliver(outcome)
        if self.options.flag("stats") and outcome.figures:
            seconds = time.process_time()
            self.console.line(f"{outcome.figures}; {seconds:.2f} s of the search")
        path = Path(self.options.text("certificate"))
        if self.prints_certificate and path.exists():
            self.console.output(path.read_text(encoding="ascii"))
        is_settled = status in (ExitStatus.DONE, ExitStatus.NOT_SETTLED)
        if is_settled and outcome.lines[-1].startswith(NOT_PROVED):
            return ExitStatus.FAILED
        return status

    def failed(self, error: BridgeError) -> int:
        """Tells why there is no outcome, and that an older certificate stays; the exit status."""
        status = super().failed(error)
        path = self.options.text("certificate")
        if os.path.isfile(path) and not self.prints_certificate:
            self.console.error(f"{NAME}: {path} stays as it was")
        return status


def run_certify(argv: Sequence[str], console: Console) -> int:
    """The exit status of a call: finds the solver, and runs its command.

    Args:
        argv: The words behind the command's name.
        console: Where it prints.
    """
    return CertifyCommand(named_driver(argv), console).main(argv)


def named_driver(argv: Sequence[str]) -> str:
    """The solver that the option `driver` names, in any of its spellings, also in the variable.

    It decides which other options there are, so that it is looked for among those of all solvers. A
    word that is wrong is left to the command, which tells so.
    """
    said = OptionValues((*COMMON_OPTIONS, *SOLVER_OPTIONS.values(), *CERTIFY_OPTIONS))
    with contextlib.suppress(WrongOption):
        said.take_environment(NAME)
        said.take(parse_driver_call(argv).options)
    return said.text("driver")


def main() -> None:
    """The entry point of bridge-certify; it ends the process."""
    run_command(NAME, lambda console: run_certify(sys.argv[1:], console))
