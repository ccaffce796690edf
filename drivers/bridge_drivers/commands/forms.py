"""The words of nl-bridge: one table, of which help, completions and the man page are made.

A `CommandForm` is one way to call one command. `nl_bridge` and `front_words` read calls by the
table.
"""

from __future__ import annotations

import re
import textwrap
from typing import Iterable, List, Mapping, NamedTuple, Sequence

from ..system.codes import ExitStatus

NAME = "nl-bridge"
MODEL = (
    "a MODEL is a stub (knap for knap.nl), an .nl file or an MPS file; what is read may be "
    "packed (.gz, .bz2, .xz), a pipe, or - for standard input"
)
SHELLS = ("bash", "fish", "zsh")
HELP_COLUMNS = 96  # of a line of help
FORM_COLUMNS = 33  # of a call, before what is said of it
USAGE_COLUMNS = 47  # the same in the help of one command
OPTION_COLUMNS = 16  # of an option, before what is said of it
# what other programs call a command
OTHER_COMMAND_NAMES: Mapping[str, str] = {
    "solve": "explain",
    "convert": "export",
    "judge": "verify",
}


class FrontOption(NamedTuple):
    """What may stand behind a command beside files.

    Attributes:
        words: As they are typed, the value of an option behind a blank.
        text: What they do.
    """

    words: str
    text: str

    @property
    def first_word(self) -> str:
        """What is typed first, which stands for the option elsewhere: `--html` of `--html FILE`."""
        return self.words.split()[0]


JSON = FrontOption("json=1", "one object of JSON on standard output, and nothing else")
OVERWRITE = FrontOption("overwrite=1", "what stands where a file is to be written is replaced")
HTML = FrontOption("--html FILE", "a page with the tree as a picture")
SVG = FrontOption("--svg FILE", "the picture alone")


class CommandForm(NamedTuple):
    """One way to call one command.

    Attributes:
        word: The command.
        rest: What the words behind it are called: those in brackets may be missing, `..` are more
            of the last one, and `a|b` is one of these words.
        text: What it writes.
        more: More of that, for the help of the command alone; "" for nothing.
        options: What may stand there beside files.
        example: The words of a call, behind `nl-bridge`; "" for none.
    """

    word: str
    rest: str
    text: str
    more: str = ""
    options: Sequence[FrontOption] = ()
    example: str = ""

    def names(self, count: int) -> List[List[str]]:
        """What so many words behind the command are called.

        There may be no way, one, or two; each is a list of `count` names.

        Args:
            count: Of the words, options aside.
        """
        found = []
        for pattern in (r"\[.*?\]", r"[][]"):  # without what may be missing, and with it
            names = re.sub(pattern, "", self.rest).split()
            if names[-1:] == [".."]:
                names = [*names[:-1], *names[-2:-1] * (count - len(names) + 1)]
            if len(names) == count:
                found.append(names)
        return found

    def call(self) -> str:
        """The command with what the words behind it are called."""
        return f"{self.word} {self.rest}".strip()

    def sentence(self) -> str:
        """What it writes, and more of that, for the help of the command and the man page."""
        return f"{self.text}: {self.more}" if self.more else self.text


# in the order of docs/user/commands.md
PROVED_COMMANDS: Sequence[CommandForm] = (
    CommandForm(
        "export",
        "FILE [K]",
        "the MPS text of an .nl file, with objective K (from 0)",
        example="export knap.nl",
    ),
    CommandForm(
        "export",
        "FILE K ROWS COLS",
        "the same with the names of two lists",
        "as AMPL writes them beside a file (.row, .col)",
    ),
    CommandForm(
        "return",
        "NL ANSWER [ROWS COLS]",
        "the .sol text of a solver's answer",
        "to what `export` wrote",
        example="return knap.nl answer.txt",
    ),
    CommandForm(
        "check",
        "NL SOL",
        "one verdict on a point and duals",
        "`yes V`: the point is best in the relaxed program, with the value V",
        example="check knap.nl knap.sol",
    ),
    CommandForm("prove", "NL PROOF", "one verdict on a proof by branches"),
    CommandForm(
        "verify",
        "NL CERTIFICATE",
        "one verdict on a certificate",
        example="verify knap.nl knap.certificate",
    ),
    CommandForm(
        "certified",
        "NL CERTIFICATE",
        "the .sol text of a claim that holds",
        "its verdict and the point of the certificate; where the claim does not hold nothing is "
        "written, and the status is 1",
        example="certified knap.nl knap.certificate",
    ),
    CommandForm(
        "verify_mps",
        "MPS CERTIFICATE",
        "the same over an MPS text in free form",
        "rows (without those that are N) and columns by number, from 0",
        example="verify_mps mill.mps mill.certificate",
    ),
    CommandForm("verify_fixed", "MPS CERTIFICATE", "the same over one in fixed columns"),
    CommandForm("nl", "FILE", "an .nl text in its one written form", example="nl knap.nl"),
    CommandForm("mps", "FILE", "an MPS text in its one written form", example="mps mill.mps"),
    CommandForm("fixed", "FILE", "an MPS text of fixed columns, in free ones"),
    CommandForm("sol", "FILE", "a .sol text in its one written form", example="sol knap.sol"),
    CommandForm("import", "FILE", "the .nl text of an MPS text", example="import mill.mps"),
    CommandForm(
        "make",
        "SEED SIZE",
        "one line on an instance that is made",
        "it is written, read, folded and scaled, too",
        example="make 1 5",
    ),
)
FRONT_COMMANDS: Sequence[CommandForm] = (
    CommandForm(
        "explain",
        "MODEL [K]",
        "what a refusal is about: the expression, the lines, names",
        "its place, the expression in words with the fault between >> and <<, what helps",
        (JSON,),
        "explain product.nl",
    ),
    CommandForm(
        "explain",
        "MODEL CERTIFICATE",
        "what a certificate says, or where it fails",
        "its claim, what its tree is made of, which rows its leaves use; where it does not hold the "
        "leaf, the splits that lead there, and by how much it fails. The status is that of `verify`",
        (HTML, SVG, OVERWRITE, JSON),
        "explain knap.nl knap.certificate --html knap.html",
    ),
    CommandForm("explain", "COMMAND FILE ..", "the same for a call of another command"),
    CommandForm(
        "import",
        "FILE NL",
        "the .nl text in NL, the names beside it in .row and .col",
        options=(OVERWRITE,),
    ),
    CommandForm(
        "stats",
        "MODEL [K]",
        "sizes and kinds, numbers that are no doubles, scaled rows",
        options=(JSON,),
        example="stats knap.nl",
    ),
    CommandForm(
        "verify",
        "MODEL CERTIFICATE",
        "one verdict, over what any command takes as a model",
        "an MPS file is judged as it stands, in either form",
        (JSON,),
        "verify mill.mps mill.certificate",
    ),
    CommandForm("completion", "|".join(SHELLS), "completion of all commands for a shell"),
    CommandForm(
        "version", "", "the program with its sum, the toolchain, the drivers", options=(JSON,)
    ),
    CommandForm("help", "[WORD]", "this text, or that of a command, an option, or of refusals"),
)
FORMS: Sequence[CommandForm] = (*PROVED_COMMANDS, *FRONT_COMMANDS)
COMMAND_WORDS = sorted({form.word for form in FORMS})
PROVED_WORDS = {form.word for form in PROVED_COMMANDS}
# what writes one line, a verdict; `certified` writes a text, or nothing
VERDICT_WORDS = ("verify", "verify_mps", "verify_fixed", "check", "prove")
# what help, and README.md, say of each exit status
STATUS_TEXTS: Mapping[ExitStatus, str] = {
    ExitStatus.DONE: "done: a text, an answer, a verdict that is yes",
    ExitStatus.FAILED: "another verdict; nothing is proved; no answer, or a fault",
    ExitStatus.REFUSED: "the model, or another text, is refused",
    ExitStatus.BAD_WORDS: "bad words or options",
    ExitStatus.UNREAD: "a file could not be read",
    ExitStatus.UNWRITTEN: "a file or standard output could not be written",
    ExitStatus.NO_MEMORY: "want of memory",
    ExitStatus.NOT_SETTLED: "strict=1 is not met",
    ExitStatus.NOT_THERE: "the proved program or the solver is not there",
    ExitStatus.HUNG_UP: "its terminal was closed (SIGHUP)",
    ExitStatus.INTERRUPTED: "interrupted (SIGINT)",
    ExitStatus.QUIT: "ended (SIGQUIT)",
    ExitStatus.TERMINATED: "ended (SIGTERM)",
}
FRONT_STATUSES = (  # those that nl-bridge ends with
    ExitStatus.DONE,
    ExitStatus.FAILED,
    ExitStatus.REFUSED,
    ExitStatus.BAD_WORDS,
    ExitStatus.UNREAD,
    ExitStatus.UNWRITTEN,
    ExitStatus.NO_MEMORY,
    ExitStatus.NOT_THERE,
)


def forms_of(word: str) -> List[CommandForm]:
    """The ways to call one command, in the order of the table; empty of an unknown one."""
    return [form for form in FORMS if form.word == word]


def options_of(word: str) -> List[str]:
    """What may stand behind a command beside files, in any form: options' first words, sorted."""
    return sorted({option.first_word for form in forms_of(word) for option in form.options})


def usage() -> str:
    """The help of nl-bridge as a text: all commands, what a MODEL is, and the exit statuses."""
    return (
        f"usage: {NAME} COMMAND ..\n\nof the proved program:\n{_list_of(PROVED_COMMANDS)}\n"
        f"around it:\n{_list_of(FRONT_COMMANDS)}\n{_wrapped(MODEL, '', 0)}{_status_lines()}"
        f"{NAME} help COMMAND says more of one; words and options in any order, -- ends "
        f"options\nexample: {NAME} verify knap.nl knap.certificate\n"
        f"Solvers are run by bridge-cbc and kin. More: man {NAME}\n"
    )


def help_of(word: str) -> str:
    """The help of one command as a text; "" where there is none."""
    forms = forms_of(word)
    if not forms:
        return ""
    text = ""
    for number, form in enumerate(forms):
        head = "usage: " if number == 0 else " " * len("usage: ")
        text += _wrapped(form.sentence(), f"{head}{NAME} {form.call()}  ", USAGE_COLUMNS)
    text += _options_text(forms) + "\n"
    if any("MODEL" in form.rest for form in forms):
        text += _wrapped(MODEL, "", 0)
    examples = "".join(f"example: {NAME} {form.example}\n" for form in forms if form.example)
    return text + _status_lines() + examples


def _options_text(forms: Iterable[CommandForm]) -> str:
    """The part of a command's help on what may stand behind it; "" where it takes no options."""
    options = {option.words: option.text for form in forms for option in form.options}
    lines = "".join(_wrapped(text, f"  {word}", OPTION_COLUMNS) for word, text in options.items())
    return "\noptions:\n" + lines if lines else ""


def _list_of(forms: Iterable[CommandForm]) -> str:
    """Lines of the help of nl-bridge: each form with what it writes."""
    return "".join(_wrapped(form.text, f"  {form.call()}", FORM_COLUMNS) for form in forms)


def _status_lines() -> str:
    """The part of a help on the exit statuses of nl-bridge."""
    text = "; ".join(f"{int(status)} {STATUS_TEXTS[status]}" for status in FRONT_STATUSES)
    return _wrapped(text, "status: ", len("status: "))


def _wrapped(text: str, first: str, indent: int) -> str:
    """A text behind what it is about, in lines of at most HELP_COLUMNS, with their ends.

    Args:
        text: What is said.
        first: What it is about, in front of the first line.
        indent: The column at which all lines begin; the first one behind `first`, where that is
            longer.
    """
    lines = textwrap.fill(
        text,
        HELP_COLUMNS,
        initial_indent=f"{first:{indent}}",
        subsequent_indent=" " * indent,
        break_on_hyphens=False,
        break_long_words=False,
    )
    return lines + "\n"
