"""What is known of one call of the package: its answer, and what commands print with json=1.

A `ReportedCall` goes along with a call and makes its `Report` at the end, or that of the error by
which it ends.
"""

from __future__ import annotations

import json
import time
from dataclasses import dataclass, field
from fractions import Fraction
from typing import Any, Dict, Iterator, Mapping, Sequence, Tuple

from ..formats.numbers import nearest_double
from ..formats.source import Source
from ..formats.told_numbers import IN_REPORTS, told_number
from ..program.bridge import sha256_of_file
from ..program.verdict import Statement
from ..system.errors import BridgeError
from ..system.version import VERSION

JsonObject = Dict[str, Any]
HIDDEN = ("more", "program")  # fields that are no keys of the object
OPTIONAL = ("values", "duals", "costs", "stats", "explained", "refusal")  # keys that may be missing
SUMMED = ("program", "model", "certificate")


class ExactNumbers(Mapping[str, Fraction]):
    """Numbers by name, in the order of the file. Each is made of its decimal when it is asked for.

    Attributes:
        texts: The decimals by name, as they are in a .sol.
    """

    def __init__(self, texts: Sequence[Tuple[str, str]]) -> None:
        """Of names and decimals in the order of the file; of two of one name the later counts."""
        self.texts: Mapping[str, str] = dict(texts)

    def __getitem__(self, name: str) -> Fraction:
        """The number of a name, exactly; KeyError where there is none."""
        return Fraction(self.texts[name])

    def __iter__(self) -> Iterator[str]:
        return iter(self.texts)

    def __len__(self) -> int:
        return len(self.texts)

    def __repr__(self) -> str:
        return f"ExactNumbers({list(self.texts.items())!r})"

    def doubles(self) -> Dict[str, float]:
        """The nearest doubles by name."""
        return {name: float(text) for name, text in self.texts.items()}


@dataclass(frozen=True)
class Report:
    """What is known of one call.

    Attributes:
        command: The command that the call is of.
        version: Of the drivers.
        status: The exit status of that command.
        code: AMPL's code; None of `nl-bridge`, and after a signal.
        claim: What is proved of the model, in a word; None where nothing is.
        objective: The objective that the claim speaks of, from 0; None where nothing is proved.
        value: The objective at the certified point, in its own sense; None where no point is.
        bound: What no feasible point is better than, in that sense; that of an optimum is its
            value. None where none is proved.
        text: The verdict word for word, or why there is none.
        lines: All lines of the message, without ends.
        seconds: Of the whole call, by the wall.
        model: What the user calls the model.
        certificate: The path of the certificate that was written, or that was judged.
        sums: The SHA-256 of the program, the model and the certificate; None where there is none.
        values: Of the variables by name; None where they are not wanted.
        duals: Of the constraints by name; None where they are not wanted.
        costs: The reduced costs of the variables by name; None where they are not wanted.
        stats: Sizes and kinds of the model, as report.schema.json says.
        explained: What a certificate says.
        refusal: Why the model is refused.
        more: Further keys of the object.
        program: The words that start the proved program.
    """

    command: str
    version: str = VERSION
    status: int = 0
    code: int | None = None
    claim: str | None = None
    objective: int | None = None
    value: Fraction | None = None
    bound: Fraction | None = None
    text: str = ""
    lines: Sequence[str] = ()
    seconds: float = 0.0
    model: str | None = None
    certificate: str | None = None
    sums: Mapping[str, str | None] = field(default_factory=lambda: dict.fromkeys(SUMMED))
    values: ExactNumbers | None = None
    duals: ExactNumbers | None = None
    costs: ExactNumbers | None = None
    stats: JsonObject | None = None
    explained: JsonObject | None = None
    refusal: JsonObject | None = None
    more: JsonObject = field(default_factory=dict)
    program: Sequence[str] = ()

    def object(self) -> JsonObject:
        """The report as report.schema.json says.

        Keys of OPTIONAL that have nothing are missing, numbers are as `number_object` makes them,
        and the keys of `more` stand beside the others.
        """
        left_out = {*HIDDEN, *(key for key in OPTIONAL if getattr(self, key) is None)}
        found = {key: value for key, value in vars(self).items() if key not in left_out}
        for key in ("values", "duals", "costs"):
            if key in found:
                found[key] = dict(found[key].texts)
        return {
            **found,
            "status": int(self.status),
            "lines": list(self.lines),
            "sums": dict(self.sums),
            "value": number_object(self.value),
            "bound": number_object(self.bound),
            **self.more,
        }

    def json(self) -> str:
        """The same as a text of ASCII, over several lines and without an end of the last."""
        return json.dumps(self.object(), ensure_ascii=True, indent=1)


def number_object(value: Fraction | None) -> JsonObject | None:
    """A number exactly as a text, as the nearest double, and as a decimal; None where there is none.

    `error` is by how much the number is off its decimal at most: "0" where the decimal is exact.
    """
    if value is None:
        return None
    told = told_number(value, IN_REPORTS)
    return {
        "exact": str(value),
        "double": nearest_double(value),
        "decimal": told.text,
        "error": told_number(told.error, IN_REPORTS).text,
    }


class ReportedCall:
    """One call, while it goes on: what it has read, of which the report tells.

    Its seconds count from when it is made.

    Attributes:
        command: The command that the call is of.
        program: The words that start the proved program, once it was found.
        model: What the user calls the model.
        certificate: The path of a certificate.
        sources: What was read, by its name in the report's sums: `model` or `certificate`.
    """

    def __init__(self, command: str) -> None:
        self.command = command
        self.program: Sequence[str] = ()
        self.model: str | None = None
        self.certificate: str | None = None
        self.sources: Dict[str, Source] = {}
        self._began = time.monotonic()

    def read_model(self, source: Source) -> None:
        """Tells that the model was read: its name and its sum stand in the report."""
        self.model = source.name
        self.sources["model"] = source

    def read_certificate(self, source: Source) -> None:
        """Tells that a certificate was read: its name and its sum stand in the report."""
        self.certificate = source.name
        self.sources["certificate"] = source

    def report(
        self, text: str, lines: Sequence[str], said: Statement | None = None, **fields: Any
    ) -> Report:
        """The report at the end of the call; the sums are taken now.

        Args:
            text: The verdict, or why there is none.
            lines: The message.
            said: What is proved; None where nothing is.
            fields: Other fields of `Report`.
        """
        if said is not None:
            fields.update(
                claim=said.claim.value, objective=said.objective, value=said.value, bound=said.bound
            )
        return Report(
            self.command,
            text=text,
            lines=lines,
            seconds=round(time.monotonic() - self._began, 3),
            model=self.model,
            certificate=self.certificate,
            sums=self._sums(),
            program=self.program,
            **fields,
        )

    def failed(self, error: BridgeError, *, prefix: str = "", **fields: Any) -> BridgeError:
        """The error, for the call to raise it, with a report that says it in one line.

        Args:
            error: Why there is no answer; its `report` is set.
            prefix: Stands before the error in the report.
            fields: Other fields of `Report`, such as `code`; the status is the error's unless it is
                among them.
        """
        text = prefix + error.text
        fields.setdefault("status", error.status)
        error.report = self.report(text, [text], **fields)
        return error

    def _sums(self) -> Dict[str, str | None]:
        """The SHA-256 of what the call read and wrote, by the names in SUMMED, or None.

        A source is not opened again: it may be a pipe, and its sum is that of the bytes that were
        read. Of a proved program that is started by several words there is none.
        """
        paths = {
            "program": self.program[0] if len(self.program) == 1 else None,
            "model": None,
            "certificate": self.certificate,
        }
        return {
            name: self.sources[name].sha256()
            if name in self.sources
            else sha256_of_file(paths[name])
            for name in SUMMED
        }
