"""Every reader of a text takes time in proportion to its length, whatever stands in it.

One table has all of them: a reader is given a front that it takes, many pieces, and an end. What it
raises of its own, since the text is none, does not matter here.
"""

from __future__ import annotations

import contextlib
import io
from pathlib import Path
from typing import Callable, Dict, List, Mapping, Sequence

import pytest
from bridge_drivers.exact.certificate import read_certificate
from bridge_drivers.formats import file_kinds
from bridge_drivers.formats.binary_nl import text_of_binary
from bridge_drivers.formats.mps import read_mps
from bridge_drivers.formats.mps_repair import repair_mps
from bridge_drivers.formats.names import NameLists, comment_of, different_names
from bridge_drivers.formats.nl import printed_doubles_note, read_header, with_shortest_decimals
from bridge_drivers.formats.nl_expressions import expression_in_words
from bridge_drivers.formats.numbers import read_fraction, read_whole
from bridge_drivers.formats.sol import read_sol
from bridge_drivers.model.linear_program import LinearProgram
from bridge_drivers.program.calls import Reply
from bridge_drivers.program.mps_faults import word_at_fault
from bridge_drivers.program.refusal import RefusalText, context_lines, parse_refusal, segment_at
from bridge_drivers.program.verdict import Verdict, read_check, read_proof, set_apart, statement_of
from bridge_drivers.solvers import SOLVERS
from bridge_drivers.solvers.run import Finished, SolverRun
from bridge_drivers.solvers.settings import SolverSettings
from bridge_drivers.system.errors import BridgeError
from bridge_drivers.system.text import did_you_mean, one_line, printable
from running.places import DATA
from running.stored_runs import LOG, StoredRun, stored_runs
from timing import assert_linear

Read = Callable[[bytes], object]
COUNT = 2000  # pieces of the shorter text
OWN_FAULTS = (BridgeError, ValueError, LookupError, EOFError, OSError)
# blank lines, long lines, many rows, many names, many digits, and what marks something
PIECES: Mapping[str, bytes] = {
    "blank lines": b"\n",
    "blanks": b" ",
    "tabs": b"\t",
    "returns": b"\r\n",
    "long line": b"x",
    "digits": b"7",
    "points": b"1.",
    "exponents": b"1e",
    "signs": b"-",
    "rows": b" x c 1\n",
    "comments": b"# said\n",
    "stars": b"* said\n",
    "marks": b"#",
    "openings": b"/*",
    "closed": b"/**/",
    "nodes": b"o2\n",
    "words": b"a ",
    "equals": b"a = 1\n",
    "bounds": b" UP BND x inf\n",
    "optimal": b"optimal ",
}


def on_lines(read: Callable[[Sequence[bytes]], object]) -> Read:
    """A reader of lines with their ends, given a whole text."""
    return lambda text: read(text.splitlines(keepends=True))


def on_text(read: Callable[[str], object]) -> Read:
    """A reader of a text of letters, given bytes."""
    return lambda text: read(text.decode("latin-1"))


def _words(text: bytes) -> object:
    """What was meant by a word, among many names, as a message about an MPS file has it."""
    names = text.decode("latin-1").split()
    return did_you_mean("rox000001", names), did_you_mean(text.decode("latin-1"), ["row"])


def _names(text: bytes) -> object:
    lines = text.decode("latin-1").split("\n")
    return different_names(lines, [f"x{place}" for place in range(len(lines))])


IN_MEMORY: Mapping[str, Read] = {
    "repair_mps": repair_mps,
    "read_mps": read_mps,
    "is_mps_start": file_kinds.is_mps_start,
    "is_lp_start": file_kinds.is_lp_start,
    "is_nl_start": file_kinds.is_nl_start,
    "kind_of_start": file_kinds.kind_of_start,
    "kind_of_model": lambda text: file_kinds.kind_of_model("", text),
    "text_of_binary": text_of_binary,
    "with_shortest_decimals": with_shortest_decimals,
    "printed_doubles_note": printed_doubles_note,
    "expression_in_words": on_lines(lambda lines: expression_in_words(lines, NameLists(""))),
    "comment_of": comment_of,
    "different_names": _names,
    "read_sol": read_sol,
    "read_certificate": lambda text: read_certificate(io.StringIO(text.decode("latin-1"))),
    "read_fraction": read_fraction.__wrapped__,
    "read_whole": read_whole,
    "Verdict": lambda text: Verdict(Reply(0, text, "")),
    "read_check": lambda text: read_check(Reply(1, text, "")),
    "read_proof": lambda text: read_proof(Reply(1, text, "")),
    "statement_of": on_text(statement_of),
    "parse_refusal": on_text(parse_refusal),
    "set_apart": on_text(set_apart),
    "printable": on_text(printable),
    "one_line": on_text(one_line),
    "did_you_mean": _words,
}
FRONTS: Mapping[str, bytes] = {
    "repair_mps": b"NAME\nROWS\n N o\nCOLUMNS\n x o 1\nBOUNDS\n",
    "read_mps": b"NAME nl\nROWS\n N obj\n L c\nCOLUMNS\n x obj 1\n",
    "text_of_binary": b"b3 1 1 0\n 1 1 1 0 0\n" + b" 0\n" * 8,
    "read_certificate": b"certificate 1\noptimal 0\n",
    "read_sol": b"m\n\nOptions\n3\n1\n1\n0\n",
    "parse_refusal": b"refused line 1: ",
    "expression_in_words": b"o54\n9\n",
}
ON_FILES: Mapping[str, Callable[[str], object]] = {
    "read_header": read_header,
    "word_at_fault": lambda path: word_at_fault(path, 10**6, "unknown row"),
    "segment_at": lambda path: segment_at(path, 10**6),
    "context_lines": lambda path: context_lines(path, 3),
    "kind_of_file": file_kinds.kind_of_file,
    "start_of_file": file_kinds.start_of_file,
    "RefusalText": lambda path: RefusalText(
        ["export", path], "refused line 14: nonlinear", {}
    ).more(),
    "NameLists": lambda path: NameLists(path.removesuffix(".col")).column(1),
}


def assert_reads_linearly(read: Read, front: bytes, piece: bytes, end: bytes = b"") -> None:
    def guarded(text: bytes) -> None:
        with contextlib.suppress(*OWN_FAULTS):
            read(text)

    assert_linear(lambda count: front + piece * count + end, guarded, COUNT)


@pytest.mark.parametrize("piece", PIECES.values(), ids=list(PIECES))
@pytest.mark.parametrize("name", IN_MEMORY)
def test_a_reader_of_bytes(name: str, piece: bytes) -> None:
    for front in {b"", FRONTS.get(name, b"")}:
        assert_reads_linearly(IN_MEMORY[name], front, piece)
        assert_reads_linearly(IN_MEMORY[name], front, piece, b"x!\n")


@pytest.mark.parametrize("piece", PIECES.values(), ids=list(PIECES))
@pytest.mark.parametrize("name", ON_FILES)
def test_a_reader_of_a_file(tmp_path: Path, name: str, piece: bytes) -> None:
    path = tmp_path / "m.col"

    def read(text: bytes) -> object:
        path.write_bytes(text)
        return ON_FILES[name](str(path))

    head = b"g3 1 1 0\n 3 1 1 0 0\n" + b" 0 0\n" * 8 + b"C0\no54\n3\n"
    for front in (b"", head, b"NAME\nROWS\n"):
        assert_reads_linearly(read, front, piece)


class ChangedRun(SolverRun):
    """A run in which the solver answers by the stored run `stored`, and tells `log`."""

    stored = StoredRun()
    files: Dict[str, bytes] = {}
    told = ""

    def run_process(self, argv: Sequence[str]) -> Finished:
        for name, data in self.files.items():
            Path(self.folder, name).write_bytes(data)
        was_killed = False
        return Finished(0, self.told, was_killed)


@pytest.mark.parametrize("piece", PIECES.values(), ids=list(PIECES))
@pytest.mark.parametrize("solver", list(SOLVERS))
def test_a_reader_of_answers(tmp_path: Path, solver: str, piece: bytes) -> None:
    """Pieces in the middle of each file that the solver writes, and of its log."""
    stored = stored_runs(solver)["diet"]
    program = LinearProgram.of((DATA / "mps" / "diet.mps").read_bytes())
    files = {name: stored.file_bytes(name) for name in stored.files}
    for changed in [*files, LOG]:
        old = files.get(changed, stored.log().encode())
        middle = old.find(b"\n", len(old) // 2) + 1

        def read(text: bytes) -> None:
            ChangedRun.files = {**files, changed: text}
            ChangedRun.told = stored.log() if changed in files else text.decode("latin-1")
            run = ChangedRun(program, SolverSettings(), str(tmp_path), "/stored/" + solver)
            SOLVERS[solver].solve(run)

        assert_reads_linearly(read, old[:middle], piece, old[middle:])


@pytest.mark.parametrize("piece", PIECES.values(), ids=list(PIECES))
@pytest.mark.parametrize("solver", list(SOLVERS))
def test_a_reader_of_lines_of_a_log(solver: str, piece: bytes) -> None:
    program = LinearProgram.of((DATA / "mps" / "diet.mps").read_bytes())
    read = on_text(lambda line: SOLVERS[solver].progress_of_line(line, program))
    fronts: List[bytes] = [b"", b"Cbc0010I After ", b"+ 1: mip = ", b"Improved solution"]
    for front in fronts:
        assert_reads_linearly(read, front, piece, b"\n")
