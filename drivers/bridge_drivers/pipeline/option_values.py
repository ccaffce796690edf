"""Options by the names that commands have, with values of Python, and the settings that they make.

The calls of the package make their settings here of keyword arguments, or of words `name=value`.
The drivers read their words by `commands.options`, and use `run_settings` alone.
"""

from __future__ import annotations

import math
import os
import shlex
from dataclasses import replace
from fractions import Fraction
from typing import Any, Callable, Dict, List, Mapping, NamedTuple, Sequence

from ..solvers import SOLVERS
from ..solvers.settings import SolverOption, SolverSettings
from ..system.errors import WrongOption
from ..system.text import did_you_mean, shortened
from .settings import CertificateSettings, OutputSettings, Settings
from .start_point import Start

WRITTEN_SOL = 1  # parts of `wantsol`
PRINTED_VALUES = 2
PRINTED_DUALS = 4
MOST_OBJECTIVES = 1 << 32  # that the proved program counts
MOST_PROCESSES = 1024  # and threads: what a word asks for by mistake is not started
LONGEST_LIMIT = 1e9  # seconds, of 31 years: a longer limit is this one
CERTIFY_SOLVER_SECONDS = 60.0  # of the solver of bridge-certify, where nothing is said of a limit


class Kind(NamedTuple):
    """What the value of an option may be.

    Attributes:
        title: The same in words, in front of `is wanted`.
        take: Makes the value that settings have of a value of Python; ValueError or TypeError where
            it is of another kind.
        read: Makes such a value of Python of the text behind `name=`; ValueError where it cannot.
            What it makes goes to `take`.
    """

    title: str
    take: Callable[[Any], object]
    read: Callable[[str], object]


class RunSettings(NamedTuple):
    """What the options of one run make.

    Attributes:
        settings: How the model is solved and judged.
        outputs: Which files are written.
        wants_values: The values are wanted in the report.
        wants_duals: Duals and reduced costs are wanted in the report.
        writes_input_alone: Nothing is solved; the text that the solver reads is written.
    """

    settings: Settings
    outputs: OutputSettings
    wants_values: bool
    wants_duals: bool
    writes_input_alone: bool


def _switch(value: Any) -> bool:
    """The truth value of True, False, 0 or 1; ValueError of anything else, of 0.0 and 1.0 too."""
    if value not in (0, 1) or isinstance(value, float):
        raise ValueError(value)
    return bool(value)


def _whole(low: int, high: float = math.inf) -> Callable[[Any], int]:
    """Takes whole numbers from `low` to `high`, both included; whole floats too, no truth value."""

    def take(value: Any) -> int:
        """The number as an int; ValueError or TypeError where it is none of these."""
        if isinstance(value, bool) or value != int(value) or not low <= value <= high:
            raise ValueError(value)
        return int(value)

    return take


def _amount(high: float = math.inf) -> Callable[[Any], float]:
    """Takes finite numbers from 0 to `high`, both included, as a float; no text, no truth value."""

    def take(value: Any) -> float:
        """The number; ValueError or TypeError where it is none of these."""
        number = float(value)
        if isinstance(value, (str, bool)) or not (0 <= number < math.inf and number <= high):
            raise ValueError(value)
        return number

    return take


def _path(value: Any) -> str:
    """A path (str, bytes or os.PathLike) as a str; TypeError of anything else."""
    return os.fsdecode(os.fspath(value))


def _text(value: Any) -> str:
    """A str as it is; TypeError of anything else."""
    if not isinstance(value, str):
        raise TypeError(value)
    return value


def _choice(*known: str) -> Callable[[Any], str]:
    """Takes exactly the texts that are given."""

    def take(value: Any) -> str:
        """The text as it is; ValueError where it is none of these."""
        if value not in known:
            raise ValueError(value)
        return str(value)

    return take


def _start(value: Any) -> Start:
    """A path as a str, or a mapping of names to numbers as fractions; TypeError of anything else.

    Doubles are taken as their shortest decimals; ValueError of what is infinite or no number.
    """
    if not isinstance(value, Mapping):
        return _path(value)
    return {_text(name): Fraction(str(number)) for name, number in value.items()}


def _words(value: Any) -> List[str]:
    """A list of words: those of a sequence of texts, or those that a shell splits one text into."""
    if isinstance(value, str):
        return shlex.split(value)
    return [_text(word) for word in value]


def _kind(title: str, take: Callable[[Any], object], read: Callable[[str], object] = str) -> Kind:
    """A kind whose `read`, unless it is given, leaves the text as it is."""
    return Kind(title, take, read)


SWITCH = _kind("0 or 1", _switch, int)
COUNT = _kind(f"a whole number from 0 to {MOST_PROCESSES}", _whole(0, MOST_PROCESSES), int)
FILE = _kind("a path", _path)
TEXT = _kind("a text", _text)
COMMON: Mapping[str, Kind] = {
    "bound": SWITCH,
    "bridge": TEXT,
    "certificate": FILE,
    "check": SWITCH,
    "cluster": TEXT,
    "extra": _kind("a list of words", _words),
    "failexit": SWITCH,
    "format": _kind("free or fixed", _choice("", "free", "fixed")),
    "jobs": COUNT,
    "keep": FILE,
    "objno": _kind(f"a whole number from 1 to {MOST_OBJECTIVES}", _whole(1, MOST_OBJECTIVES), int),
    "only": _kind("mps", _choice("", "mps")),
    "outlev": _kind("0, 1 or 2", _whole(0, 2), int),
    "overwrite": SWITCH,
    "prove": SWITCH,
    "relax": SWITCH,
    "round": SWITCH,
    "shortest": SWITCH,
    "shorten": SWITCH,
    "solution": FILE,
    "solver": FILE,
    "start": _kind("a path, or numbers by name", _start),
    "strict": SWITCH,
    "timelim": _kind("a number of seconds from 0 on", _amount(), float),
    "wantsol": _kind("a whole number from 0 to 15", _whole(0, 15), int),
}
OF_SOLVERS: Mapping[str, SolverOption] = {
    "mipgap": SolverOption.MIP_GAP,
    "threads": SolverOption.THREADS,
    "xcheck": SolverOption.EXACT_CHECK,
}
KINDS_OF_SOLVERS: Mapping[SolverOption, Kind] = {
    SolverOption.MIP_GAP: _kind("a number from 0 to 1", _amount(1.0), float),
    SolverOption.THREADS: COUNT,
    SolverOption.EXACT_CHECK: SWITCH,
}


def kinds_of(solver: str) -> Dict[str, Kind]:
    """What each option of a solver's driver may be, by its name.

    Args:
        solver: The name of the solver, a key of `SOLVERS`. Options that it does not take are left
            out.
    """
    taken = SOLVERS[solver].options
    own = {name: KINDS_OF_SOLVERS[option] for name, option in OF_SOLVERS.items() if option in taken}
    return {**COMMON, **own}


def checked_values(solver: str, given: Mapping[str, object]) -> Dict[str, Any]:
    """The values of options by name, as settings have them.

    None counts as not given, and is left out.

    Args:
        solver: The name of the solver.
        given: Values of Python by the names of options.

    Raises:
        WrongOption: An option is unknown, or its value is of another kind.
    """
    kinds = kinds_of(solver)
    values: Dict[str, Any] = {}
    for name, value in given.items():
        if name not in kinds:
            raise WrongOption(f"unknown option {name};{did_you_mean(name, kinds)}".rstrip(";"))
        if value is None:
            continue
        try:
            values[name] = kinds[name].take(value)
        except (TypeError, ValueError, OverflowError):
            told = f"{name}={_shown(value)}"
            raise WrongOption(f"{told}: {kinds[name].title} is wanted") from None
    return values


def _shown(value: object) -> str:
    """A value of Python as a message shows it; a number of very many digits in words."""
    try:
        return shortened(repr(value))
    except ValueError:  # Python writes no integer of more than 4,300 digits
        return "a number of very many digits"


def objective_number(value: object) -> int:
    """The number of an objective, from 0, as the calls take it.

    Raises:
        WrongOption: It is none that the proved program counts.
    """
    try:
        return _whole(0, MOST_OBJECTIVES - 1)(value)
    except (TypeError, ValueError, OverflowError):
        told = f"objective={_shown(value)}"
        raise WrongOption(f"{told}: a whole number from 0 is wanted") from None


def values_of_words(solver: str, words: Sequence[str]) -> Dict[str, object]:
    """Values of Python by name, of options that are given as words `name=value`.

    The last word of a name counts.

    What they may be is not checked beyond that: `checked_values` follows.

    Raises:
        WrongOption: A word has no `=` or an unknown name, or its text cannot be read as a number
            is.
    """
    kinds = kinds_of(solver)
    values: Dict[str, object] = {}
    for word in words:
        name, equals, text = word.partition("=")
        kind = kinds.get(name)
        if not equals or kind is None:
            told = f"unknown option {shortened(word)};{did_you_mean(name, kinds)}"
            raise WrongOption(told.rstrip(";"))
        try:
            values[name] = kind.read(text)
        except ValueError:
            raise WrongOption(f"{shortened(word)}: {kind.title} is wanted") from None
    return values


def run_settings(solver: str, values: Mapping[str, Any]) -> RunSettings:
    """The settings that checked values make; what is not given is as the commands have it.

    Args:
        solver: The name of the solver.
        values: What `checked_values` made, by the names of options; `objno` counts from 1.

    Raises:
        WrongOption: check=0 stands beside prove=1 or strict=1.
    """
    get = values.get
    wanted = get("wantsol", PRINTED_VALUES + PRINTED_DUALS)
    writes_sol = bool(wanted & WRITTEN_SOL)
    settings = Settings(
        solver=solver,
        solver_path=get("solver", ""),
        bridge=get("bridge", ""),
        solver_settings=_solver_settings(values),
        time_limit=min(get("timelim", 0.0), LONGEST_LIMIT),
        certificate=_certificate_settings(values),
        objective=get("objno", 1) - 1,
        round_integers=bool(get("round", True)),
        shortest_numbers=get("shortest"),
        mps_form=get("format", ""),
        start=get("start", ""),
        keep_folder=get("keep", ""),
        makes_sol=writes_sol,
        certifies_sol=bool(get("strict")),
        refuses_unclear=bool(get("failexit")),
        shows_faults=get("outlev", 0) >= 2,
    )
    outputs = OutputSettings(writes_sol, get("solution", ""), bool(get("overwrite")))
    has_values, has_duals = bool(wanted & PRINTED_VALUES), bool(wanted & PRINTED_DUALS)
    return RunSettings(settings, outputs, has_values, has_duals, bool(get("only")))


def certify_settings(wanted: RunSettings) -> RunSettings:
    """The settings of bridge-certify where nothing is said of a limit: only the solver has one by
    the clock, so that what is proved does not depend on what else the machine does.

    Args:
        wanted: Those without a limit of the run.
    """
    settings = replace(wanted.settings, solver_seconds=CERTIFY_SOLVER_SECONDS)
    return wanted._replace(settings=settings)


def _certificate_settings(values: Mapping[str, Any]) -> CertificateSettings:
    """What is asked of the search for a certificate, by checked values of options.

    Raises:
        WrongOption: check=0 stands beside prove=1 or strict=1.
    """
    get = values.get
    strict = bool(get("strict"))
    proves = bool(get("prove")) or strict
    check = bool(get("check", True))
    if proves and not check:
        raise WrongOption("check=0 proves nothing: it does not go with prove=1 or strict=1")
    return CertificateSettings(
        check=check,
        prove=proves,
        strict=strict,
        bound=bool(get("bound", True)),
        shorten=bool(get("shorten")),
        processes=get("jobs", 0),
        cluster=get("cluster", ""),
        path=get("certificate", ""),
        overwrite=bool(get("overwrite")),
    )


def _solver_settings(values: Mapping[str, Any]) -> SolverSettings:
    """What the solver itself is asked, by checked values of options, but for its time limit."""
    get = values.get
    return SolverSettings(
        relax=bool(get("relax")),
        mip_gap=get("mipgap", 0.0),
        threads=get("threads", 0),
        exact_check=bool(get("xcheck")),
        arguments=get("extra", ()),
    )
