"""The words that a driver is called with.

`driver.DriverCommand` makes a `DriverCall` of them, before it knows the options.
"""

from __future__ import annotations

import enum
import os
import re
from dataclasses import dataclass, field
from typing import List, Optional, Sequence

from ..system.text import shortened

ASSIGNMENT = re.compile(r"[A-Za-z]\w*=")
STARTING = ("bridge", "solver", "extra")  # options that start programs


class HelpKind(enum.Enum):
    """What is told instead of a run."""

    VERSIONS = "-v"
    OPTIONS = "-="
    HELP = "-?"


HELP_WORDS = {
    "-v": HelpKind.VERSIONS,
    "--version": HelpKind.VERSIONS,
    "-=": HelpKind.OPTIONS,
    "-?": HelpKind.HELP,
    "-h": HelpKind.HELP,
    "--help": HelpKind.HELP,
}


@dataclass
class DriverCall:
    """What the words of a call say.

    Attributes:
        model: The word that names the model; None where there is none.
        is_ampl: A modelling system calls: MODEL.sol is written, the outcome in it.
        saves: MODEL.sol is written for whoever else calls.
        echoes: The options are told.
        help_kind: What is told instead of a run; None where the model is solved.
        help_topic: The option that help is wanted of; "" for all.
        options: The words that say options, in order, as `OptionValues.take` reads them.
        notes: On words that could be taken for options and are none, for standard error.
        fault: Why the words cannot be taken; "" where they can.
    """

    model: Optional[str] = None
    is_ampl: bool = False
    saves: bool = False
    echoes: bool = True
    help_kind: Optional[HelpKind] = None
    help_topic: str = ""
    options: List[str] = field(default_factory=list)
    notes: List[str] = field(default_factory=list)
    fault: str = ""


def parse_driver_call(argv: Sequence[str]) -> DriverCall:
    """What the words of a call say, in any order.

    What is `name=value`, or begins with `-`, is an option, the first other word the model, and what
    follows it options of the form `name value`. What names a file that is there is never an option:
    a shell may have made it of a pattern. After `--` nothing begins with `-`, the first word is the
    model unless there is one, and no option starts a program. `help` alone in front is a call for
    help, unless a file has that name.

    Args:
        argv: The words behind the command's name.
    """
    call = DriverCall()
    if argv[:1] == ["help"] and not any(map(os.path.exists, ("help", "help.nl"))):
        call.help_kind = HelpKind.HELP
        call.help_topic = argv[1] if len(argv) > 1 else ""
        return call
    left = list(argv)[::-1]
    while left:
        word = left.pop()
        if word == "--":
            _take_plain_words(call, left)
        elif names_file(word):
            _take_file(call, word)
        elif word in HELP_WORDS:
            call.help_kind = call.help_kind or HELP_WORDS[word]
        elif not _take_flag(call, word):
            _take_word(call, word, left)
    return call


def names_file(word: str) -> bool:
    """Whether a word of a call is the name of a file that is there."""
    try:
        return os.path.isfile(word)
    except ValueError:  # a byte 0
        return False


def no_option_note(word: str) -> str:
    """A line on a word that could be an option, and is the name of a file; "" of other words."""
    if not (ASSIGNMENT.match(word) or word.startswith("-")):
        return ""
    return f"`{shortened(word)}` is the name of a file here, and is not taken for an option"


def _take_file(call: DriverCall, word: str) -> None:
    """Takes a word that names a file: the model, where there is none yet, else it is one too many.

    Args:
        call: Is told of it.
        word: The word.
    """
    note = no_option_note(word)
    call.notes += [note] if note else []
    if call.model is None:
        call.model = word
    else:
        call.fault = call.fault or f"one model is taken, and `{shortened(word)}` is a further file"


def _take_plain_words(call: DriverCall, left: List[str]) -> None:
    """Takes all words that are left, in which nothing begins with `-`.

    The first is the model, where there is none yet, the others say options.

    Args:
        call: Is told of them.
        left: The words in reverse order; it is empty then.
    """
    while left:
        word = left.pop()
        if names_file(word):
            _take_file(call, word)
        elif call.model is None:
            call.model = word
        elif word.partition("=")[0].lstrip("-").lower() in STARTING:
            call.fault = call.fault or f"`{shortened(word)}` starts a program: it stands before --"
        else:
            call.options += [word, *_words_of_value(word, left)]


def _take_flag(call: DriverCall, word: str) -> bool:
    """Whether a word is one of modelling systems' three (-AMPL, -s, -e); it is noted in `call`."""
    if word == "-AMPL":
        call.is_ampl = True
    elif word == "-s":
        call.saves = True
    elif word == "-e":
        call.echoes = False
    else:
        return False
    return True


def _take_word(call: DriverCall, word: str, left: List[str]) -> None:
    """Takes an option with the words of its value, or the model.

    Args:
        call: Is told of it.
        word: The word.
        left: The words behind it, in reverse order; those of a value are taken.
    """
    has_dash = word.startswith("-") and word != "-"
    has_value_behind = bool(left) and left[-1].startswith("=")
    if has_dash or ASSIGNMENT.match(word) or has_value_behind:
        call.options += [word, *_words_of_value(word, left)]
    elif call.model is None:
        call.model = word
    else:
        call.options += [word, *_words_of_value(word, left)]


def _words_of_value(word: str, left: List[str]) -> List[str]:
    """The words of an option's value, `=` among them, where that is not in the word itself.

    Args:
        word: That begins the option.
        left: The words behind it, in reverse order; these are taken from it.
    """
    _, equals, value = word.partition("=")
    if value or not left:
        return []
    stands_apart = not equals and left[-1] == "="
    count = 2 if stands_apart else 1
    return [left.pop() for _ in range(min(count, len(left)))]
