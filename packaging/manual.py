"""What the man pages say of commands, options and statuses, made of the tables that their help is made of."""

from __future__ import annotations

import time
from pathlib import Path
from typing import Iterable, Sequence

from bridge_drivers.commands import forms
from bridge_drivers.commands.completion import DASHED_OPTIONS
from bridge_drivers.commands.forms import STATUS_TEXTS, CommandForm
from bridge_drivers.commands.options import (
    CERTIFY_OPTIONS,
    COMMON_OPTIONS,
    Option,
    own_options,
)
from bridge_drivers.solvers import SOLVERS

TEMPLATES = Path(__file__).resolve().parent / "man"  # pages with marks `@WORD@`


def roff(text: str) -> str:
    """A text as it is to be read."""
    escaped = text.replace("\\", "\\e").replace("-", "\\-")
    return "\\&" + escaped if escaped[:1] in (".", "'") else escaped


def item(head: str, text: str) -> str:
    """A paragraph with a head in bold type."""
    return f".TP\n.B {roff(head)}\n{roff(text[:1].upper() + text[1:])}."


def of_commands(rows: Iterable[CommandForm]) -> str:
    parts = []
    for row in rows:
        parts.append(item(row.call(), row.sentence()))
        parts += [f".RS\n{item(option.words, option.text)}\n.RE" for option in row.options]
    return "\n".join(parts)


def of_options(options: Iterable[Option]) -> str:
    return "\n".join(item(option.name, f"{option.text} {option.values()}") for option in options)


def drivers_options() -> list[Option]:
    """The common ones, and those of some drivers, with whose they are."""
    own: dict[str, list[str]] = {}
    found = {option.name: option for option in COMMON_OPTIONS}
    for name in SOLVERS:
        for option in own_options(name):
            own.setdefault(option.name, []).append("bridge-" + name)
            found[option.name] = Option(
                option.name,
                option.default,
                option.kind,
                f"{', '.join(own[option.name])}: {option.text}",
            )
    return [found[name] for name in sorted(found)]


def parts() -> dict[str, str]:
    """What stands for each mark of a page."""
    return {
        "COMMANDS": of_commands(forms.PROVED_COMMANDS),
        "OWN": of_commands(forms.FRONT_COMMANDS),
        "MODEL": roff(forms.MODEL[:1].upper() + forms.MODEL[1:]) + ".",
        "STATUS": "\n".join(item(str(int(status)), text) for status, text in STATUS_TEXTS.items()),
        "OPTIONS": of_options(drivers_options()),
        "CERTIFY": of_options(CERTIFY_OPTIONS),
        "DASHED": "\n".join(item(word, text) for word, text in DASHED_OPTIONS.items()),
    }


def own_pages(drivers: Sequence[str], version: str, epoch: int) -> dict[str, bytes]:
    """The man pages that have a text of their own, by their names, with their marks filled in.

    Args:
        drivers: The commands that share the page of bridge-cbc.
        version: The version that the pages name.
        epoch: The time that they name, in seconds since 1970.
    """
    words = {
        "VERSION": version,
        "DRIVERS": ", ".join(drivers).replace("-", "\\-"),
        "DATE": time.strftime("%Y-%m-%d", time.gmtime(epoch)),
        **parts(),
    }
    found = {}
    for path in sorted(TEMPLATES.iterdir()):
        text = path.read_text(encoding="ascii")
        for word, value in words.items():
            text = text.replace(f"@{word}@", value)
        found[path.name] = text.encode()
    return found
