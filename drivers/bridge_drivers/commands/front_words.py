"""The words that nl-bridge is called with.

`parse_front_call` makes a `FrontCall` of them, and `why_not_callable` compares it with the table in
`forms`; `nl_bridge` uses both.
"""

from __future__ import annotations

import re
from dataclasses import dataclass, field
from typing import Dict, Iterable, List, Sequence

from ..formats.numbers import read_whole
from ..formats.source import is_stream
from ..system.errors import WrongWords
from ..system.text import did_you_mean, shortened
from . import forms
from .options import OTHER_NAMES
from .words import names_file, no_option_note

HELP_WORDS = ("-h", "-?", "-=", "--help")
VERSION_WORDS = ("-v", "--version")
PAGE_OPTIONS = ("--html", "--svg")
NUMBER_NAMES = ("K", "SEED", "SIZE")  # words of the table that are no files
NUMBER = re.compile("0|[1-9][0-9]*")
LARGEST_NUMBER = 4294967295  # that the proved program takes
DIGITS = len(str(LARGEST_NUMBER))


@dataclass
class FrontCall:
    """What the words of a call say.

    Attributes:
        word: The command; "" where there is none.
        rest: Its files and numbers, in order.
        wants_help: Help is wanted, and no run.
        wants_json: One object of JSON is wanted.
        pages: Where pages are written, by `html` and `svg`.
        overwrites: What stands where a file is to be written is replaced.
        notes: On words that could be taken for options and are none.
    """

    word: str = ""
    rest: Sequence[str] = ()
    wants_help: bool = False
    wants_json: bool = False
    pages: Dict[str, str] = field(default_factory=dict)
    overwrites: bool = False
    notes: List[str] = field(default_factory=list)


def wrong_words(reason: str, word: str, known: Iterable[str]) -> WrongWords:
    """The error of a word that is not known, with what was probably meant.

    Args:
        reason: What is wrong with it.
        word: The word.
        known: What could stand there.
    """
    names = {**OTHER_NAMES, **forms.OTHER_COMMAND_NAMES}
    return WrongWords(reason, did_you_mean(word, known, names))


def parse_front_call(words: Sequence[str]) -> FrontCall:
    """What the words of a call say.

    Options may stand anywhere before `--`, and -v alone is the command `version`. What names a file
    that is there is no option, once the command was said.

    Args:
        words: Those behind the command's name.

    Raises:
        WrongWords: An option is unknown or has no value, or the command takes it not.
    """
    call = FrontCall()
    plain: List[str] = []
    left = list(words)[::-1]
    while left:
        word = left.pop()
        if word == "--":
            plain += left[::-1]
            break
        if plain and names_file(word):
            call.notes += filter(None, [no_option_note(word)])
            plain.append(word)
        elif word in VERSION_WORDS:
            plain = plain or ["version"]
        elif not _take_option(call, word, left):
            plain.append(word)
    call.word = plain[0] if plain else ""
    call.rest = plain[1:]
    _check_options(call)
    return call


def _take_option(call: FrontCall, word: str, left: List[str]) -> bool:
    """Whether a word is an option.

    It is noted in `call`, and the word of its value taken from the end of `left`.

    Raises:
        WrongWords: It begins as an option and is none, or its value is missing.
    """
    if word in HELP_WORDS:
        call.wants_help = True
    elif word == forms.JSON.words:
        call.wants_json = True
    elif word == forms.OVERWRITE.words:
        call.overwrites = True
    elif word.partition("=")[0] in PAGE_OPTIONS:
        _take_page(call, word, left)
    elif word.startswith("-") and not is_stream(word):
        raise wrong_words(f"unknown option {word}", word, (*PAGE_OPTIONS, "--help"))
    else:
        return False
    return True


def _take_page(call: FrontCall, word: str, left: List[str]) -> None:
    """Takes the place of a page: `--html FILE` or `--html=FILE`.

    The next word stands at the end of `left`.

    Raises:
        WrongWords: There is no next word.
    """
    name, equals, path = word.partition("=")
    if not equals:
        if not left:
            raise WrongWords(f"{name} takes a FILE")
        path = left.pop()
    call.pages[name[2:]] = path


def _check_options(call: FrontCall) -> None:
    """Raises WrongWords where the command does not take an option that was said.

    With help any will do.
    """
    said = [forms.JSON.words] if call.wants_json else []
    if call.overwrites:
        said.append(forms.OVERWRITE.words)
    said += [f"--{name}" for name in call.pages]
    taken = forms.options_of(call.word)
    unfit = [option for option in said if option not in taken]
    if unfit and not call.wants_help:
        raise WrongWords(f"{call.word or forms.NAME} takes no {unfit[0]}")


def is_number(word: str) -> bool:
    """Whether a word is a number as the proved program takes it, at most LARGEST_NUMBER."""
    is_short = NUMBER.fullmatch(word) is not None and len(word) <= DIGITS
    return is_short and read_whole(word) <= LARGEST_NUMBER


def why_not_callable(words: Sequence[str]) -> str:
    """Why no command takes these words, by the table; "" where one does.

    Args:
        words: The command, which is in the table, and what stands behind it, options aside.
    """
    rows = forms.forms_of(words[0])
    takes = f"{words[0]} takes " + (" or ".join(row.rest for row in rows) or "no more")
    found = [
        _why_not_these(names, words[1:], takes)
        for row in rows
        for names in row.names(len(words) - 1)
    ]
    return min(found, key=bool, default=takes)


def _why_not_these(names: Sequence[str], words: Sequence[str], takes: str) -> str:
    """Why words are not what the table calls them; "" where they are.

    Args:
        names: What the table calls each of them.
        words: As many words.
        takes: What the command takes, in words: the reason where one is none of those that are
            listed.
    """
    for name, word in zip(names, words):
        if name in NUMBER_NAMES and not is_number(word):
            return f"{name} is a plain number up to {LARGEST_NUMBER}, not {shortened(word)}"
        if name == "COMMAND" and word not in forms.PROVED_WORDS:
            return takes
        if "|" in name and word not in name.split("|"):
            return takes
    return ""
