"""Completion of all commands for bash, fish and zsh, made of their tables of words.

`nl-bridge completion SHELL` prints it; drivers/install and the packages put it where shells look.
"""

from __future__ import annotations

import os
from typing import Dict, Mapping

from ..solvers import SOLVERS
from . import forms
from .options import (
    CERTIFY_OPTIONS,
    COMMON_OPTIONS,
    FILE,
    FOLDER,
    Option,
    OptionValues,
    own_options,
)

TEMPLATES = os.path.join(os.path.dirname(os.path.dirname(os.path.abspath(__file__))), "texts")
DASHED_OPTIONS = {
    "-AMPL": "called by a modelling system",
    "-s": "write the .sol",
    "-e": "no echo of options",
    "-=": "list the options",
    "-v": "versions",
    "-h": "help",
}
# ends of models that are offered
MODEL_ENDS = [end + packed for end in (".nl", ".mps") for packed in ("", ".gz", ".bz2", ".xz")]


def completion_text(shell: str) -> str:
    """The script of one shell that completes the words of all commands.

    Args:
        shell: One of `forms.SHELLS`. Its template stands in the folder `texts`, with places for the
            parts that are made here.
    """
    tables = CompletionTables()
    made = {"bash": _bash_parts, "fish": _fish_parts, "zsh": _zsh_parts}[shell](tables)
    with open(os.path.join(TEMPLATES, f"completion.{shell}"), encoding="utf-8") as file:
        template = file.read()
    return template % {**made, "all": " ".join(["nl-bridge", *tables.options])}


def completion_path(shell: str, prefix: str, command: str, zsh_folder: str = "") -> str:
    """Where a shell looks for the completion of a command below a prefix.

    Args:
        shell: One of `forms.SHELLS`.
        prefix: As /usr.
        command: Its name.
        zsh_folder: That below share/zsh; "" for site-functions.
    """
    path = {
        "bash": f"bash-completion/completions/{command}",
        "fish": f"fish/vendor_completions.d/{command}.fish",
        "zsh": f"zsh/{zsh_folder or 'site-functions'}/_{command}",
    }[shell]
    return os.path.join(prefix, "share", path)


class CompletionTables:
    """What is completed.

    Attributes:
        options: The options of each driver by name, by the driver's command.
        dashed: What else each of these commands takes, with what it is.
        known: All options of drivers by name.
        commands: The commands of nl-bridge, with what each writes.
        behind: The words that may follow each of them, files aside.
    """

    def __init__(self) -> None:
        """Collects the tables of all commands."""
        self.options = _options_by_command()
        self.dashed = {
            command: DASHED_OPTIONS if command != "bridge-certify" else {}
            for command in self.options
        }
        known = {name: o for options in self.options.values() for name, o in options.items()}
        known.update((option.name, option) for option in COMMON_OPTIONS)
        self.known = {name: known[name] for name in sorted(known)}
        self.commands: Dict[str, str] = {}
        for form in forms.FORMS:
            self.commands.setdefault(form.word, form.text)
        self.behind = {word: forms.options_of(word) for word in self.commands}
        self.behind["completion"] = list(forms.SHELLS)
        self.behind["help"] = sorted([*self.commands, *self.options, "refusals"])
        self.behind["explain"] += sorted(forms.PROVED_WORDS)

    def value_lines(self, line: str, files: str, folders: str, words: str) -> str:
        """Lines of a script, one for each option that has files, folders or known words.

        Args:
            line: Has the option and what completes it, each at a `%s`.
            files: What completes files.
            folders: What completes folders.
            words: What completes known words, which stand at its `%s`.
        """
        made = []
        for name, option in self.known.items():
            if option.kind is FILE:
                made.append(line % (name, files))
            elif option.kind is FOLDER:
                made.append(line % (name, folders))
            elif option.kind.known:
                made.append(line % (name, words % " ".join(option.kind.known)))
        return "\n".join(made)

    def behind_lines(self, line: str) -> str:
        """Lines of a script, one for each command of nl-bridge that known words may follow.

        Args:
            line: Has the command and these words, each at a `%s`.
        """
        return "\n".join(
            line % (word, " ".join(words)) for word, words in self.behind.items() if words
        )


def _options_by_command() -> Dict[str, Mapping[str, Option]]:
    """The options by name of each driver, and of bridge-certify, which has those of all."""
    found = {
        f"bridge-{name}": OptionValues((*COMMON_OPTIONS, *own_options(name))).known
        for name in SOLVERS
    }
    every = [option for options in found.values() for option in options.values()]
    found["bridge-certify"] = OptionValues((*every, *CERTIFY_OPTIONS)).known
    return {command: found[command] for command in sorted(found)}


def _bash_parts(tables: CompletionTables) -> Dict[str, str]:
    """What stands at the places of bash's template, by their names."""
    made = "_nl_bridge_add %s"
    files = "compopt -o filenames 2>/dev/null; " + made
    words = made % "-W '%s'"
    options = []
    for command, known in tables.options.items():
        offered = [*(f"{name}=" for name in known), *tables.dashed[command]]
        options.append(f"    {command}) echo '{' '.join(offered)}' ;;")
    return {
        "values": tables.value_lines("    %s) %s ;;", files % "-f", files % "-d", words),
        "options": "\n".join(options),
        "commands": " ".join(sorted(tables.commands)),
        "behind": tables.behind_lines(f"        %s) {words} ;;"),
        "ends": " ".join(MODEL_ENDS),
    }


def _zsh_parts(tables: CompletionTables) -> Dict[str, str]:
    """What stands at the places of zsh's template, by their names."""
    options = []
    for command, known in tables.options.items():
        listed = _zsh_list({name: option.text for name, option in known.items()}, " " * 12)
        options.append(f"        {command}) words_of=(\n{listed}\n            ) ;;")
    return {
        "values": tables.value_lines(
            " " * 12 + "%s) %s ;;", "_files", "_files -/", "compadd -- %s"
        ),
        "options": "\n".join(options),
        "commands": _zsh_list(tables.commands, " " * 16),
        "behind": tables.behind_lines(" " * 12 + "%s) compadd -- %s ;;"),
        "dashed": _zsh_list(DASHED_OPTIONS, " " * 8),
    }


def _zsh_list(words: Mapping[str, str], indent: str) -> str:
    """Lines of zsh's lists, `'word:what it is'`.

    Args:
        words: What each word is.
        indent: The blanks in front of a line.
    """
    lines = []
    for word, text in words.items():
        item = (word.replace(":", "\\:") + ":" + text).replace("'", "'\\''")
        lines.append(f"{indent}'{item}'")
    return "\n".join(lines)


def _fish_parts(tables: CompletionTables) -> Dict[str, str]:
    """What stands at the places of fish's template, by their names."""
    lines = []
    for command, known in tables.options.items():
        offered = {}
        for name, option in known.items():
            values = option.kind.known or [""]
            offered[" ".join(f"{name}={value}" for value in values)] = option.text
        offered.update(tables.dashed[command])
        lines += [
            f"complete -c {command} -a {fish_quoted(word)} -d {fish_quoted(text)}"
            for word, text in offered.items()
        ]
    own = [
        f"complete -c nl-bridge -n __fish_use_subcommand -f -a {word} -d {fish_quoted(text)}"
        for word, text in tables.commands.items()
    ]
    behind = "complete -c nl-bridge -n '__fish_seen_subcommand_from %s' -a '%s'"
    return {
        "commands": "\n".join(own),
        "options": "\n".join(lines),
        "behind": tables.behind_lines(behind),
    }


def fish_quoted(text: str) -> str:
    """A word of fish: within single quotes, where they and the backslash are escaped."""
    return "'" + text.replace("\\", "\\\\").replace("'", "\\'") + "'"
