"""What the packages are made of, as SPDX 2.3 wants it: the project, the kit's library, and its crates.

`contents` puts the text beside the documents. The same is said in words by packaging/debian/copyright.
"""

from __future__ import annotations

import hashlib
import json
import re
import time
from typing import NamedTuple, Sequence

NAMESPACE = "https://spdx.org/spdxdocs"
NOT_SAID = "NOASSERTION"  # SPDX's word for what nobody states


class Part(NamedTuple):
    """A work of which code is in the program.

    Attributes:
        name: What it is called.
        version: Of it, as its own description says.
        licence: As SPDX writes licences.
        copyright_text: Whose it is, as its notice says; NOT_SAID where it says nothing.
        comment: What it is here.
    """

    name: str
    version: str
    licence: str
    copyright_text: str
    comment: str

    @property
    def identifier(self) -> str:
        """Its name as SPDX names parts."""
        return "SPDXRef-" + re.sub(r"[^A-Za-z0-9.]+", "-", self.name)


def parts_of_program(toolchain: str) -> Sequence[Part]:
    """What is compiled into the program beside the project's own crates.

    Args:
        toolchain: The identity of the kit, as `rt version` prints it.
    """
    return (
        Part(
            "Rattle library",
            toolchain or NOT_SAID,
            NOT_SAID,
            NOT_SAID,
            "the standard library of the kit that compiled the program; the kit states no licence",
        ),
        Part("itoa", "1.0.18", "MIT OR Apache-2.0", NOT_SAID, "the kit's port of the Rust crate"),
        Part(
            "indexmap",
            "2.14.2",
            "Apache-2.0 OR MIT",
            "Copyright (c) 2016--2017",
            "the kit's port of the Rust crate",
        ),
    )


def sbom(name: str, version: str, toolchain: str, program: bytes, epoch: int) -> bytes:
    """The text of NAME.spdx.json.

    Args:
        name: Of the project.
        version: Of the project.
        toolchain: As of `parts_of_program`.
        program: The bytes of the program, whose SHA-256 is in the text.
        epoch: The time of the package, in seconds since 1970.
    """
    digest = hashlib.sha256(program).hexdigest()
    own = Part(name, version, "MIT", NOT_SAID, "the program and its drivers")
    parts = parts_of_program(toolchain)
    document = {
        "spdxVersion": "SPDX-2.3",
        "dataLicense": "CC0-1.0",
        "SPDXID": "SPDXRef-DOCUMENT",
        "name": f"{name}-{version}",
        "documentNamespace": f"{NAMESPACE}/{name}-{version}-{digest[:16]}",
        "creationInfo": {
            "created": time.strftime("%Y-%m-%dT%H:%M:%SZ", time.gmtime(epoch)),
            "creators": ["Tool: packaging/sbom.py"],
        },
        "packages": [_package(part) for part in (own, *parts)],
        "files": [
            {
                "SPDXID": "SPDXRef-program",
                "fileName": "./bridge",
                "checksums": [{"algorithm": "SHA256", "checksumValue": digest}],
            }
        ],
        "relationships": [
            _relationship("SPDXRef-DOCUMENT", "DESCRIBES", own.identifier),
            _relationship(own.identifier, "CONTAINS", "SPDXRef-program"),
            *(_relationship("SPDXRef-program", "STATIC_LINK", part.identifier) for part in parts),
        ],
    }
    return (json.dumps(document, indent=1) + "\n").encode()


def _package(part: Part) -> dict[str, object]:
    """A part as SPDX describes packages."""
    return {
        "SPDXID": part.identifier,
        "name": part.name,
        "versionInfo": part.version,
        "downloadLocation": NOT_SAID,
        "filesAnalyzed": False,
        "licenseConcluded": part.licence,
        "licenseDeclared": part.licence,
        "copyrightText": part.copyright_text,
        "comment": part.comment,
    }


def _relationship(one: str, kind: str, other: str) -> dict[str, str]:
    return {"spdxElementId": one, "relationshipType": kind, "relatedSpdxElement": other}
