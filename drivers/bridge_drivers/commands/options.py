"""The options of the drivers as words: what each may be, its default, and its help.

`driver` and `certify` read their words by an `OptionValues`, whose settings
`pipeline.option_values` makes; `completion` and the help of nl-bridge have the tables.
"""

from __future__ import annotations

import math
import os
import shlex
import textwrap
from dataclasses import dataclass, replace
from typing import Dict, Iterable, List, Mapping, Sequence, Union

from ..pipeline.option_values import (
    CERTIFY_SOLVER_SECONDS,
    MOST_OBJECTIVES,
    MOST_PROCESSES,
    RunSettings,
    run_settings,
)
from ..solvers import SOLVERS
from ..solvers.settings import SolverOption
from ..system.errors import WrongOption
from ..system.text import alternatives, did_you_mean, shortened

Value = Union[int, float, str]

WRITE_SOL = 1  # of the sum in `wantsol`
PRINT_VALUES = 2
PRINT_DUALS = 4
NO_MESSAGE = 8
HELP_COLUMNS = 96  # of a line of help
MOST_LISTED = 3  # whole numbers of a range that are listed one by one
# what other programs call an option, or an option with a value, by what it is called here
OTHER_NAMES: Mapping[str, str] = {
    other: ours
    for ours, others in {
        "mipgap": ("gap", "gaprel", "ratio", "tolerance"),
        "timelim": ("timeout", "time", "seconds", "limit"),
        "wantsol=8": ("quiet", "silent"),
        "outlev=1": ("verbose", "log"),
        "certificate": ("o", "out", "output"),
        "wantsol=2": ("print", "values", "solution"),
        "prove": ("optimal", "certify"),
        "objno": ("objective",),
        "keep": ("tmp",),
    }.items()
    for other in others
}


@dataclass(frozen=True)
class AnyText:
    """Any text, or one of a few.

    Attributes:
        title: What it is, in front of `is wanted`.
        known: All that it may be, where they are few; empty for anything.
    """

    title: str = "a text"
    known: Sequence[str] = ()

    def read(self, word: str) -> Value:
        """The value of a word; ValueError where it is none of this kind."""
        if self.known and word not in self.known:
            raise ValueError(word)
        return word


@dataclass(frozen=True)
class NumberRange(AnyText):
    """Numbers from one to another, both included; infinite ones are none.

    Attributes:
        number: The kind, int or float.
        low: The least of them.
        high: The greatest of them; infinite where there is none.
    """

    number: type = int
    low: int = 0
    high: float = math.inf

    def read(self, word: str) -> Value:
        """The number that a word writes; ValueError where it is none of these."""
        value: Union[int, float] = self.number(word)
        if not self.low <= value <= self.high or math.isinf(value):
            raise ValueError(word)
        return value


def choice(*known: str) -> AnyText:
    """The kind of one of a few words."""
    return AnyText(alternatives(known), known)


def whole_numbers(low: int, high: float = math.inf) -> NumberRange:
    """The kind of whole numbers from one to another, both included.

    Up to MOST_LISTED of them are listed one by one.
    """
    if high - low < MOST_LISTED:
        known = [str(number) for number in range(low, int(high) + 1)]
        return NumberRange(alternatives(known), known, int, low, high)
    end = "on" if math.isinf(high) else f"to {high}"
    return NumberRange(f"a whole number from {low} {end}", (), int, low, high)


def numbers(low: int, high: float = math.inf) -> NumberRange:
    """The kind of numbers from one to another, both included."""
    end = "on" if math.isinf(high) else f"to {high}"
    return NumberRange(f"a number from {low} {end}", (), float, low, high)


SWITCH = whole_numbers(0, 1)
COUNT = whole_numbers(0, MOST_PROCESSES)
AMOUNT = numbers(0)
SHARE = numbers(0, 1)
FILE = AnyText("a file")
FOLDER = AnyText("a folder")
TEXT = AnyText()


@dataclass(frozen=True)
class Option:
    """One option.

    Attributes:
        name: What it is called.
        default: What it is where nothing is said.
        kind: What it may be.
        text: What `-=` tells of it.
    """

    name: str
    default: Value
    kind: AnyText
    text: str

    def read(self, word: str) -> Value:
        """The value of a word.

        Raises:
            WrongOption: It is none of the option's kind.
        """
        try:
            return self.kind.read(word)
        except ValueError:
            told = f"{self.name}={shortened(word)}"
            raise WrongOption(f"{told}: {self.kind.title} is wanted") from None

    def values(self) -> str:
        """Its values, and what it is where nothing is said: `(0 or 1; 0)`.

        A default of "" is not told.
        """
        default = f"{self.default:g}" if isinstance(self.default, (int, float)) else self.default
        return f"({self.kind.title}; {default})" if default else f"({self.kind.title})"

    def line(self) -> str:
        """It in a line without an end, for `-=`."""
        return f"{self.name:<11} {self.text} {self.values()}"

    def paragraph(self) -> str:
        """The same for people, in lines of at most HELP_COLUMNS with their ends."""
        text = textwrap.fill(
            self.line(),
            HELP_COLUMNS,
            initial_indent="  ",
            subsequent_indent=" " * 14,
            break_on_hyphens=False,
        )
        return text + "\n"


COMMON_OPTIONS: Sequence[Option] = (
    Option(
        "bound", 1, SWITCH, "0: for integer programs no proved bound is looked for without prove=1"
    ),
    Option("bridge", "", AnyText("words"), "what starts the proved program (also $BRIDGE)"),
    Option("certificate", "", FILE, "where an accepted certificate is kept"),
    Option("check", 1, SWITCH, "1: ask bridge what it can prove of the answer; 0: do not"),
    Option(
        "cluster",
        "",
        AnyText("an address"),
        "a scheduler of Dask, whose workers search (prove=1)",
    ),
    Option("extra", "", TEXT, "further words for the solver, in quotes"),
    Option(
        "failexit",
        0,
        SWITCH,
        "1: where there is no answer, write no .sol and end with another status than 0 (MiniZinc)",
    ),
    Option(
        "format",
        "",
        choice("free", "fixed"),
        "how the lines of an MPS file are read, where both can be",
    ),
    Option(
        "jobs", 0, COUNT, "processes that search (prove=1); 0: as many as processors may be used"
    ),
    Option("json", 0, SWITCH, "1: standard output gets one object of JSON, and nothing else"),
    Option("keep", "", FOLDER, "where the files in between are kept"),
    Option("objno", 1, whole_numbers(1, MOST_OBJECTIVES), "which objective"),
    Option(
        "only",
        "",
        choice("mps"),
        "mps: write the MPS text that this solver reads beside the model, and stop",
    ),
    Option("outlev", 0, whole_numbers(0, 2), "1: the solver's log, 2: also the commands and times"),
    Option(
        "overwrite",
        0,
        SWITCH,
        "1: a certificate, and the text of only=mps, replaces what stands at its place",
    ),
    Option(
        "prove",
        0,
        SWITCH,
        "1: search a certificate that the answer is optimal (what is left of timelim; 60 seconds "
        "where there is none)",
    ),
    Option("relax", 0, SWITCH, "1: integer variables as continuous ones"),
    Option(
        "round",
        1,
        SWITCH,
        "1: values of integer variables within 1e-5 of a whole number are written as that number",
    ),
    Option(
        "shortest",
        0,
        SWITCH,
        "1: numbers of the .nl with 16 digits or more become the shortest ones with the same "
        "double",
    ),
    Option(
        "shorten",
        0,
        SWITCH,
        "1: after a certificate, a shorter one is looked for in the time that is left (prove=1)",
    ),
    Option(
        "solution",
        "",
        FILE,
        "where names and values are written; as JSON where it ends with .json",
    ),
    Option("solver", "", FILE, "the solver's program, where it is not on the PATH"),
    Option(
        "start",
        "",
        FILE,
        "values that solver and search begin with: a .sol, lines NAME VALUE, or JSON (the guess in "
        "the model)",
    ),
    Option(
        "strict",
        0,
        SWITCH,
        "1: the .sol is what `bridge certified` writes of the certificate, byte for byte; what is not "
        "proved optimal, infeasible or unbounded is not solved (exit status 7); sets prove=1",
    ),
    Option(
        "timelim",
        0.0,
        AMOUNT,
        "seconds of the whole run, of which prove=1 keeps one half for the certificate; "
        "0: no limit, but the certificate has 60 seconds of the processor",
    ),
    Option(
        "wantsol",
        0,
        whole_numbers(0, 15),
        "without -AMPL, a sum of 1 write .sol, 2 print values, 4 print duals, 8 no message",
    ),
)
# options that some solvers have beside the common ones
SOLVER_OPTIONS: Mapping[SolverOption, Option] = {
    SolverOption.MIP_GAP: Option("mipgap", 0.0, SHARE, "relative gap at which the search stops"),
    SolverOption.THREADS: Option("threads", 0, COUNT, "threads of the search"),
    SolverOption.EXACT_CHECK: Option(
        "xcheck", 0, SWITCH, "1: glpsol checks its final basis in exact arithmetic"
    ),
}
# those of bridge-certify, which stand in the place of common ones
CERTIFY_OPTIONS: Sequence[Option] = (
    Option(
        "certificate",
        "",
        FILE,
        "where the certificate is written; - is standard output (MODEL.certificate)",
    ),
    Option("driver", "cbc", choice(*SOLVERS), "the driver that finds a point"),
    Option("prove", 1, SWITCH, "0: as a driver without prove=1"),
    Option("stats", 0, SWITCH, "1: a line of figures"),
    Option(
        "timelim",
        0.0,
        AMOUNT,
        "seconds of the whole run, of which one half is kept for the certificate; 0: no limit, but "
        "the certificate has 60 seconds of the processor (so it is without this option, too, but "
        f"that the solver has {CERTIFY_SOLVER_SECONDS:g} of the clock)",
    ),
)


def own_options(solver: str) -> List[Option]:
    """The options of a driver that not all others have.

    Args:
        solver: The name of the solver.
    """
    return [SOLVER_OPTIONS[option] for option in SOLVERS[solver].options]


class OptionValues:
    """The options of one call, and what was said of them. `values[name]` is what an option is.

    Args:
        options: Of two with the same name the later one counts.

    Attributes:
        known: The options by name, in the order of the names.
        echo: What was said, as `name=value`, in the order in which it was.
    """

    def __init__(self, options: Iterable[Option]) -> None:
        by_name = {option.name: option for option in options}
        self.known: Mapping[str, Option] = {name: by_name[name] for name in sorted(by_name)}
        self.echo: List[str] = []
        self._given: Dict[str, Value] = {}

    def find(self, name: str) -> Option:
        """The option of a name, in capitals or not, with `-` before it or not.

        Raises:
            WrongOption: There is none.
        """
        name = name.lstrip("-").lower()
        if name not in self.known:
            meant = did_you_mean(name, self.known, OTHER_NAMES)
            raise WrongOption(f"unknown option {shortened(name)};{meant} -= lists the options")
        return self.known[name]

    def take(self, words: Iterable[str]) -> None:
        """Takes what words say: `a=1`, `a = 1`, `a =1` and `a 1`. What is said later counts.

        Raises:
            WrongOption: A word is no option, or a value is none. What stands before it is taken.
        """
        left = list(words)[::-1]
        while left:
            name, equals, text = left.pop().partition("=")
            if not text and not equals and left and left[-1].startswith("="):
                text = left.pop()[1:]
            option = self.find(name)  # an unknown one is told as that, whatever follows
            if not text and not left:
                raise WrongOption(f"no value for {name}")
            text = text or left.pop()
            self._given[option.name] = option.read(text)
            self.echo.append(f"{option.name}={text}")

    def take_environment(self, command: str) -> None:
        """Takes the variable of a command: bridge_cbc_options, or bridge-cbc_options as of Pyomo.

        Raises:
            WrongOption: As `take`.
        """
        for name in (command.replace("-", "_") + "_options", command + "_options"):
            try:
                words = shlex.split(os.environ.get(name, ""))
            except ValueError:
                raise WrongOption(f"{name}: a quote does not end") from None
            self.take(words)

    def put(self, name: str, value: Value) -> None:
        """Sets what an option is from now on.

        It counts as given, and is not told.
        """
        self._given[name] = value

    def is_given(self, name: str) -> bool:
        """Whether something was said of an option, also what it is anyway."""
        return name in self._given

    def __getitem__(self, name: str) -> Value:
        """What an option is: what was said last, else its default. KeyError of an unknown one."""
        return self._given.get(name, self.known[name].default)

    def flag(self, name: str) -> bool:
        """Whether an option that is on or off is on."""
        return bool(self[name])

    def number(self, name: str) -> int:
        """What an option is that is a whole number."""
        return int(self[name])

    def text(self, name: str) -> str:
        """What an option is that is a text."""
        return str(self[name])

    def run_settings(
        self, solver: str, *, writes_sol: bool, certifies_sol: bool = False
    ) -> RunSettings:
        """How the model is solved and what is written, by the options of the call.

        Args:
            solver: The name of the solver.
            writes_sol: The .sol is written, whatever `wantsol` says.
            certifies_sol: It is what `bridge certified` writes, also without strict=1.

        Raises:
            WrongOption: A quote of `extra` does not end, or two values do not go together.
        """
        values: Dict[str, object] = {name: self[name] for name in self.known}
        try:
            values["extra"] = shlex.split(self.text("extra"))
        except ValueError:
            raise WrongOption("extra: a quote does not end") from None
        is_short = self.flag("shortest") if self.is_given("shortest") else None
        values["shortest"] = is_short
        values["wantsol"] = self.number("wantsol") & ~WRITE_SOL | int(writes_sol)
        found = run_settings(solver, values)
        if not certifies_sol:
            return found
        return found._replace(settings=replace(found.settings, certifies_sol=True))
