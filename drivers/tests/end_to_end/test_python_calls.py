"""The calls of Python: what they answer, what they raise, and that they write nothing unasked."""

from __future__ import annotations

from fractions import Fraction
from typing import Mapping, NamedTuple, Optional, Sequence, Type

import pytest

import bridge_drivers
from bridge_drivers import BridgeError, Report
from running.places import EXAMPLES
from running.report_schema import report_faults
from running.workspace import Workspace

pytestmark = pytest.mark.needs("program")


@pytest.fixture
def examples(in_folder: Workspace) -> Workspace:
    """The current folder, with the examples."""
    in_folder.copy_files(EXAMPLES)
    return in_folder


def checked(report: Optional[Report]) -> Report:
    """A report that is as its schema wants it."""
    assert report is not None
    assert report_faults(report.object()) == []
    return report


@pytest.mark.needs("cbc")
def test_nothing_is_written_or_printed(
    examples: Workspace, capfd: pytest.CaptureFixture[str]
) -> None:
    """Calls without the name of a file write none, and print nothing."""
    before = examples.names()
    solved = checked(bridge_drivers.solve("knap", "cbc"))
    checked(bridge_drivers.certify("knap"))
    checked(bridge_drivers.verify("knap.nl", "knap.certificate"))
    checked(bridge_drivers.explain("knap", "knap.certificate"))
    checked(bridge_drivers.figures("knap"))
    assert examples.names() == before
    assert capfd.readouterr() == ("", "")
    assert (solved.code, solved.value) == (0, Fraction(17))
    assert solved.values is not None
    assert dict(solved.values) == {"a": Fraction(1), "b": Fraction(1), "z": Fraction(0)}


@pytest.mark.needs("cbc")
def test_an_answer_that_is_asked_for(examples: Workspace) -> None:
    """wantsol=1 writes a .sol."""
    before = examples.names()
    bridge_drivers.solve("knap", "cbc", wantsol=1)
    assert examples.names() == before | {"knap.sol"}


def test_what_is_not_proved(examples: Workspace) -> None:
    """A certificate that does not hold is no error."""
    examples.write("wrong", "certificate 1\nbound 0 16\nduals 0\n")
    told = checked(bridge_drivers.verify("knap", "wrong"))
    assert (told.status, told.claim, told.text) == (1, None, "leaf 0 gap 29")
    explained = bridge_drivers.explain("knap", "wrong").explained
    assert explained is not None
    assert (explained["holds"], explained["leaf"]) == (False, 0)


class Raised(NamedTuple):
    """A call, what it raises, and the status and the code of the report in it."""

    call: str
    words: Sequence[str]
    options: Mapping[str, object]
    error: Type[BridgeError]
    status: int
    code: Optional[int] = None

    def __str__(self) -> str:
        options = [f"{name}={value}" for name, value in self.options.items()]
        return " ".join([self.call, *self.words, *options])


RAISED = [
    Raised("explain", ["product"], {}, bridge_drivers.ModelRefused, 2),
    Raised("verify", ["product", "knap.certificate"], {}, bridge_drivers.ModelRefused, 2),
    Raised("verify", ["knap", "menu.py"], {}, bridge_drivers.ModelRefused, 2),
    Raised("verify", ["nosuch", "knap.certificate"], {}, bridge_drivers.FileFault, 4),
    Raised("verify", ["knap", "nosuch"], {}, bridge_drivers.FileFault, 4),
    Raised("figures", ["knap"], {"bridge": "/nonexistent"}, bridge_drivers.NotInstalled, 127),
    Raised("solve", ["knap", "cbc"], {"prove": "2"}, bridge_drivers.WrongOption, 3, 502),
    Raised("solve", ["knap", "cbc"], {"gap": "1"}, bridge_drivers.WrongOption, 3, 502),
    Raised("solve", ["knap", "nosuch"], {}, bridge_drivers.WrongOption, 3, 502),
    Raised("solve", ["nosuch", "cbc"], {}, bridge_drivers.FileFault, 4, 504),
    Raised(
        "solve", ["knap", "cbc"], {"program": "/nonexistent"}, bridge_drivers.NotInstalled, 127, 503
    ),
    Raised(
        "solve", ["product", "cbc"], {"program": "/bin/true"}, bridge_drivers.ModelRefused, 2, 501
    ),
    Raised("solve", ["knap", "cbc"], {"program": "/bin/true"}, bridge_drivers.BridgeError, 1, 506),
]


@pytest.mark.parametrize("case", RAISED, ids=str)
def test_what_is_raised(examples: Workspace, case: Raised) -> None:
    """The report in it is that of the command."""
    with pytest.raises(case.error) as caught:
        getattr(bridge_drivers, case.call)(*case.words, **case.options)
    assert (caught.value.status, caught.value.code or None) == (case.status, case.code)
    checked(caught.value.report)


def test_names_of_the_package() -> None:
    """All that it promises is there, and no folder of modules has the name of a call."""
    for name in bridge_drivers.__all__:
        assert hasattr(bridge_drivers, name)
    for name in ("solve", "certify", "verify", "explain", "figures"):
        assert callable(getattr(bridge_drivers, name))
