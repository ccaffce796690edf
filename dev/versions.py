"""The version of bridge: where it stands, and whether every other place agrees.

It is said once, in drivers/bridge_drivers/system/version.py; packages, man pages and `nl-bridge version` take it from
there. Three texts repeat it for their readers and are compared: CITATION.cff, the name of the package in README.md, and the
first heading of CHANGELOG.md. `dev/lint versions` and `dev/release` ask.
"""

from __future__ import annotations

import re
from collections.abc import Iterator
from pathlib import Path

TOP = Path(__file__).resolve().parent.parent
PLACE = TOP / "drivers" / "bridge_drivers" / "system" / "version.py"
SAID = re.compile(r'^VERSION = "(\d+\.\d+\.\d+)"$', re.M)
CITED = re.compile(r"^version: (\S+)$", re.M)
PACKAGE = re.compile(r"nl-bridge_(\d+\.\d+\.\d+)_amd64\.deb")
HEADING = re.compile(r"^## (?P<title>.+)$", re.M)
UNRELEASED = "Not released yet ({version})"
RELEASED = re.compile(r"(?P<version>\d+\.\d+\.\d+), (?P<date>\d{4}-\d{2}-\d{2})")


class NoVersion(Exception):
    """A file does not say its version where it should."""


def version() -> str:
    """The version of the sources, as MAJOR.MINOR.PATCH.

    Raises:
        NoVersion: version.py does not say one.
    """
    found = SAID.search(PLACE.read_text())
    if found is None:
        raise NoVersion(f'{PLACE.relative_to(TOP)} has no line VERSION = "MAJOR.MINOR.PATCH"')
    return found.group(1)


def changes(of: str) -> tuple[str, str]:
    """The heading and the text of a version's section of CHANGELOG.md.

    Args:
        of: The version.

    Raises:
        NoVersion: No section is of this version.
    """
    text = (TOP / "CHANGELOG.md").read_text()
    heads = list(HEADING.finditer(text))
    ends = [head.start() for head in heads[1:]] + [len(text)]
    for head, end in zip(heads, ends):
        title = head["title"]
        released = RELEASED.fullmatch(title)
        if title == UNRELEASED.format(version=of) or (released and released["version"] == of):
            return title, text[head.end() : end].strip()
    raise NoVersion(f"CHANGELOG.md has no section of {of}")


def disagreements() -> Iterator[str]:
    """A line for each text that says another version than the sources."""
    own = version()
    for path, pattern in (("CITATION.cff", CITED), ("README.md", PACKAGE)):
        found = sorted(set(pattern.findall((TOP / path).read_text())))
        if found != [own]:
            yield f"{path}: {', '.join(found) or 'no version'}, but the sources are of {own}"
    try:
        changes(own)
    except NoVersion as fault:
        yield str(fault)
