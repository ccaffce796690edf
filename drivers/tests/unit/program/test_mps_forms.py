"""In which form an MPS file is read, where it has no linear program, and its names as an .nl file."""

from __future__ import annotations

from pathlib import Path
from typing import Dict, List, Optional, Sequence

import pytest

from bridge_drivers.formats.mps import read_mps
from bridge_drivers.program.bridge import TEXT_LIMITS, Bridge, ModelForm
from bridge_drivers.program.calls import Reply
from bridge_drivers.program.mps_forms import (
    MpsText,
    has_blank_name,
    import_mps,
    is_surely_linear_program,
    lists_of_names,
    program_of_mps,
    read_mps_text,
)
from bridge_drivers.program.refusal import Refusal
from bridge_drivers.system.deadline import Deadline
from bridge_drivers.system.processes import OutputLimits
from bridge_drivers.system.errors import FileFault

MODEL = (
    b"NAME\nROWS\n N cost\n L cap\n E both\nCOLUMNS\n a cost 1\n a cap 2\n b both 3\nRHS\n"
    b" RHS cap 4\nRANGES\n RNG cap 1\nBOUNDS\n LO BND a 0\n UP BND a 9\nENDATA\n"
)
KINDS = (
    b"NAME\nROWS\n L both\n N cost\n G cap\nCOLUMNS\n M0 'MARKER' 'INTORG'\n b cost 1\n i cost 1\n"
    b" v cost 1\n M1 'MARKER' 'INTEND'\n c cap 1\n M2 'MARKER' 'INTORG'\n low both 1\n"
    b" M3 'MARKER' 'INTEND'\n 'MARKER' cap 1\nRHS\nBOUNDS\n BV BND b\n UP BND i 9\n UP BND v 1\n"
    b" LO BND low -1\n UP BND low 1\nENDATA\n"
)
READ = Reply(0, MODEL, "")
OTHER = Reply(0, MODEL.replace(b"cap 2", b"cap 3"), "")


def refused(line: int) -> Reply:
    return Reply(2, b"", f"refused line {line}: bad line")


class Answering(Bridge):
    """Gives a reply for each command; `calls` are the words of all calls."""

    def __init__(self, replies: Dict[str, Reply]) -> None:
        super().__init__([])
        self.replies = replies
        self.calls: List[Sequence[str]] = []

    def call(
        self,
        *words: str,
        deadline: Optional[Deadline] = None,
        limits: OutputLimits = TEXT_LIMITS,
    ) -> Reply:
        self.calls.append(words)
        return self.replies[words[0]]


NOTE = (
    "it is read in free form; in fixed columns it is another program, which format=fixed reads",
)


@pytest.mark.parametrize(
    "free, fixed, read",
    [
        (READ, READ, MpsText(ModelForm.FREE, READ.out)),
        (READ, OTHER, MpsText(ModelForm.FREE, READ.out, NOTE)),
        (READ, refused(3), MpsText(ModelForm.FREE, READ.out)),
        (refused(3), OTHER, MpsText(ModelForm.FIXED, OTHER.out)),
    ],
)
def test_both_forms_are_read(free: Reply, fixed: Reply, read: MpsText) -> None:
    assert read_mps_text(Answering({"mps": free, "fixed": fixed}), "m.mps") == read


def test_one_form_alone_is_read_where_it_is_named() -> None:
    bridge = Answering({"fixed": OTHER})
    assert read_mps_text(bridge, "m.mps", ModelForm.FIXED).text == OTHER.out
    assert bridge.calls == [("fixed", "m.mps")]


@pytest.mark.parametrize(
    "free, fixed, line",
    [
        (5, 3, "line 5: bad line of 3 words: `a cost 1`"),
        (3, 5, "line 5: bad line of 3 words: `a cost 1` (in fixed columns)"),
        (5, 5, "line 5: bad line of 3 words: `a cost 1`"),
    ],
)
def test_the_form_that_goes_further_is_told(
    tmp_path: Path, free: int, fixed: int, line: str
) -> None:
    path = tmp_path / "m.mps"
    path.write_text("NAME\nROWS\n N cost\nCOLUMNS\n    a         cost      1\n")
    bridge = Answering({"mps": refused(free), "fixed": refused(fixed)})
    bridge.file_names[str(path)] = "m.mps"
    with pytest.raises(Refusal) as caught:
        read_mps_text(bridge, str(path))
    assert caught.value.text == "m.mps " + line


def test_another_fault_than_a_refusal_is_told_first() -> None:
    bridge = Answering({"mps": refused(9), "fixed": Reply(6, b"", "")})
    with pytest.raises(Refusal) as caught:
        read_mps_text(bridge, "m.mps")
    assert (caught.value.command, caught.value.text) == ("fixed", "want of memory")


@pytest.mark.parametrize(
    "line, has_blank",
    [
        ("    MY ONE    COST      1", True),
        ("    ONE       COST      1", False),
        ("COLUMNS OF A HEAD", False),
        ("", False),
    ],
)
def test_names_with_blanks(tmp_path: Path, line: str, has_blank: bool) -> None:
    path = tmp_path / "m.mps"
    path.write_text(f"NAME\n{line}\n")
    assert has_blank_name(str(path), 2) is has_blank
    assert not has_blank_name(str(path), 1000)


@pytest.mark.parametrize(
    "old, new, is_sure",
    [
        (b"", b"", True),
        (b"a 9\n", b"a -1\n", False),  # below the lower bound of a
        (b"a 9\n", b"a 0\n", True),
        (b"cap 2", b"cap 1e200", False),
        (b"cap 2", b"cap 1e5", True),
        (b"cap 2", b"cap 1e-200", False),
        (b"cap 2", b"cap 0.30000000000000004", True),
        (b"cap 2", b"cap " + b"9" * 19, False),
        (b"cost 1", b"cost 1e60", False),
        (b"RHS cap 4", b"RHS cap 4e300", False),
        (b"RNG cap 1", b"RNG cap 1e300", False),
    ],
)
def test_what_is_surely_a_linear_program(old: bytes, new: bytes, is_sure: bool) -> None:
    assert is_surely_linear_program(read_mps(MODEL.replace(old, new))) is is_sure


def test_a_file_is_judged_in_its_form(tmp_path: Path) -> None:
    """No certificate is tried where the file surely has a linear program."""
    bridge = Answering({})
    read = MpsText(ModelForm.FIXED, MODEL)
    program = program_of_mps(bridge, "m.mps", str(tmp_path / "trial"), read)
    assert program.names.columns == ["x0", "x1"]
    assert bridge.forms == {"m.mps": ModelForm.FIXED}
    assert bridge.calls == [] and not (tmp_path / "trial").exists()


EMPTY = MODEL.replace(b"a 9\n", b"a -1\n")


@pytest.mark.parametrize("reply", [Reply(0, b"feasible 0\n", ""), Reply(1, b"row 0 broken\n", "")])
def test_a_trial_that_is_judged(tmp_path: Path, reply: Reply) -> None:
    bridge = Answering({"verify_mps": reply})
    trial = tmp_path / "trial"
    program_of_mps(bridge, "m.mps", str(trial), MpsText(ModelForm.FREE, EMPTY))
    assert bridge.calls == [("verify_mps", "m.mps", str(trial))]
    assert trial.read_bytes() == b"certificate 1\nfeasible 0\npoint 0\n"


@pytest.mark.parametrize(
    "told, line",
    [
        (
            "refused column 0: empty interval",
            "m.mps: column 0 (a): empty interval (a lower bound is above its upper bound, so "
            "nothing satisfies the model)",
        ),
        (
            "refused row 1: too wide",
            "m.mps: row 1 (both): too wide (an exact value does not fit 128 bits)",
        ),
        ("refused program: too large", "m.mps: too large (more than the file may hold)"),
    ],
)
def test_no_linear_program(tmp_path: Path, told: str, line: str) -> None:
    """The line has the file's own names."""
    bridge = Answering({"verify_mps": Reply(2, b"", told)})
    with pytest.raises(Refusal) as caught:
        trial = str(tmp_path / "trial")
        program_of_mps(bridge, "m.mps", trial, MpsText(ModelForm.FREE, EMPTY))
    assert (caught.value.text, caught.value.status) == (line, 2)


def test_the_order_of_an_nl_file() -> None:
    """Continuous, binary, integer, each in the order of the columns; constraints, then the objective."""
    assert lists_of_names(KINDS) == (
        [b"both", b"cap", b"cost"],
        [b"c", b"'MARKER'", b"b", b"v", b"i", b"low"],
    )


def test_an_import_writes_all_or_nothing(tmp_path: Path) -> None:
    bridge = Answering({"import": Reply(0, b"g3\n", ""), "mps": Reply(0, KINDS, "")})
    stub = tmp_path / "m"
    line = import_mps(bridge, "m.mps", f"{stub}.nl")
    assert line == (
        f"{stub}.nl is written, with the names of 2 constraints and 6 variables in {stub}.row and "
        f"{stub}.col"
    )
    assert (tmp_path / "m.row").read_bytes() == b"both\ncap\ncost\n"
    assert (tmp_path / "m.col").read_bytes() == b"c\n'MARKER'\nb\nv\ni\nlow\n"
    (tmp_path / "m.nl").unlink()
    (tmp_path / "m.row").unlink()
    (tmp_path / "m.col").write_bytes(b"mine\n")
    with pytest.raises(FileFault):
        import_mps(bridge, "m.mps", f"{stub}.nl")
    assert [path.name for path in tmp_path.iterdir()] == ["m.col"]
    import_mps(bridge, "m.mps", f"{stub}.nl", overwrite=True)
    assert (tmp_path / "m.nl").read_bytes() == b"g3\n"
