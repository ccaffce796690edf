"""Errors carry their values, know their status, and each kind has one code."""

from __future__ import annotations

import errno
import pickle

import pytest
from bridge_drivers.pipeline.outcome import CODES_OF_ERRORS, code_of_error
from bridge_drivers.system import errors
from bridge_drivers.system.codes import Code, ExitStatus

CASES = [
    (errors.ModelRefused("x.nl line 3: wrong"), "x.nl line 3: wrong", 501, 2),
    (errors.Damaged("x.gz", "it ends"), "x.gz: it ends", 501, 2),
    (errors.TooLarge("x", 7), "x: it is larger than is read, 7 bytes or more", 501, 2),
    (
        errors.TakesNoIntegers("CLP", 3),
        "CLP takes no integer variables, and the model has 3; relax=1 drops that they are whole",
        505,
        2,
    ),
    (errors.WrongOption("no value for x"), "no value for x", 502, 3),
    (
        errors.FileFault("x", "it is not there", errors.FileAction.READ),
        "x: it is not there",
        504,
        4,
    ),
    (errors.FileFault("x", "full", errors.FileAction.WRITE), "x: full", 504, 5),
    (errors.NoModel("x", "x is a folder"), "x is a folder", 504, 4),
    (errors.NotInstalled("x: a quote does not end"), "x: a quote does not end", 503, 127),
    (errors.NotFound("cbc", "install it"), "cbc was not found: install it", 503, 127),
    (
        errors.NotFound("bridge", "set BRIDGE", "/sbin/bridge"),
        "bridge was not found (/sbin/bridge is another program): set BRIDGE",
        503,
        127,
    ),
    (errors.NotStarted("cbc", "denied"), "cbc could not be run: denied", 503, 127),
    (errors.SolverFailed("CBC", "undecided"), "CBC: undecided", 506, 1),
    (
        errors.UnusableAnswer("CBC", "none", "SIGSEGV"),
        "CBC gave no usable answer: none; it was ended by SIGSEGV",
        506,
        1,
    ),
    (errors.ProgramFailed("ended with 9"), "ended with 9", 501, 1),
    (errors.NotReturned("line 3: wrong"), "return: line 3: wrong", 507, 1),
    (
        errors.DriverFault("KeyError(1)"),
        "a fault of the driver: KeyError(1) (outlev=2 shows where)",
        599,
        1,
    ),
    (errors.RunInterrupted(2), "interrupted", 600, 130),
    (errors.RunInterrupted(15), "interrupted", 600, 143),
    (errors.NodeLimit(5), "more than 5 nodes", 599, 1),
    (errors.DeadlineExceeded("time"), "time", 599, 1),
]


@pytest.mark.parametrize("error, text, code, status", CASES)
def test_text_code_and_status(error: errors.BridgeError, text: str, code: int, status: int) -> None:
    assert (str(error), int(code_of_error(error)), int(error.status)) == (text, code, status)


@pytest.mark.parametrize("error", [case[0] for case in CASES])
def test_errors_come_whole_from_another_process(error: errors.BridgeError) -> None:
    copy = pickle.loads(pickle.dumps(error))
    assert (type(copy), vars(copy), str(copy)) == (type(error), vars(error), str(error))


def test_a_text_has_one_line() -> None:
    assert str(errors.ModelRefused("a\nb")) == "a b"


def test_a_fault_of_the_system_names_its_file() -> None:
    named = errors.FileFault.of(OSError(errno.ENOENT, "gone", "a"), "b", errors.FileAction.READ)
    unnamed = errors.FileFault.of(OSError(errno.ENOSPC, "full"), "b", errors.FileAction.WRITE)
    assert (str(named), named.status) == ("a: gone", ExitStatus.UNREAD)
    assert (str(unnamed), unnamed.status) == ("b: full", ExitStatus.UNWRITTEN)


def test_each_kind_of_error_is_reached_in_the_table() -> None:
    """No row stands behind one of a class above it."""
    kinds = [kind for kind, _ in CODES_OF_ERRORS]
    assert not any(
        issubclass(late, early) for i, early in enumerate(kinds) for late in kinds[i + 1 :]
    )
    assert {code for _, code in CODES_OF_ERRORS} == {code for code in Code if code > 500}
