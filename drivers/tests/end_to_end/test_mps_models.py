"""MPS files as models: how the proved program reads them, what is told of faults, what is proved."""

from __future__ import annotations

import re
from fractions import Fraction
from typing import Iterator, NamedTuple

import pytest

from bridge_drivers.model.linear_program import LinearProgram
from bridge_drivers.program.bridge import Bridge, ModelForm
from bridge_drivers.program.calls import Command
from bridge_drivers.program.mps_forms import lists_of_names, read_mps_text
from bridge_drivers.program.refusal import Refusal
from builders.mps_models import MPS_MODELS, READ_IN_BOTH_FORMS
from builders.plain_mps import Plain, random_text
from running.places import DATA, SOLVERS, program
from running.workspace import Workspace

FIXED = MPS_MODELS["fixed"].text
WITH_BLANK_NAME = FIXED.replace("    ONE       COST", "    MY ONE    COST")
PAIR = "    RHS       COST              -5.5   CAP                 10"
REFUSED = 2  # the exit status
CODES = {"infeasible": 200, "unbounded": 300}  # by verdict; others are 0
TAKES_NO_INTEGERS = 505


@pytest.mark.needs("mps")
@pytest.mark.parametrize("name", MPS_MODELS)
def test_forms(in_folder: Workspace, name: str) -> None:
    """Free form is tried first; a note says where fixed columns would be another program."""
    in_folder.write("m.mps", MPS_MODELS[name].text)
    bridge = Bridge(program())
    for asked in (None, ModelForm.FREE):
        read = read_mps_text(bridge, "m.mps", asked)
        assert read.form == ModelForm.FREE
        assert bool(read.notes) == (name == "cut_off" and asked is None)
    if name in READ_IN_BOTH_FORMS:
        assert read_mps_text(bridge, "m.mps", ModelForm.FIXED).form == ModelForm.FIXED
    else:
        with pytest.raises(Refusal):
            read_mps_text(bridge, "m.mps", ModelForm.FIXED)


@pytest.mark.needs("mps")
@pytest.mark.parametrize(
    ("old", "new", "form"),
    [
        ("    RHS       COST", "              COST", ModelForm.FREE),
        (" BV BND       TWO", " FR BND       TWO                  3 ", ModelForm.FREE),
        (PAIR, PAIR + "   a remark", ModelForm.FIXED),
    ],
    ids=["no-name-of-a-set", "a-number-that-is-not-read", "a-remark"],
)
def test_forms_of_odd_texts(in_folder: Workspace, old: str, new: str, form: ModelForm) -> None:
    """Where one form alone can be read, or both say the same, nothing is told."""
    in_folder.write("m.mps", FIXED.replace(old, new))
    read = read_mps_text(Bridge(program()), "m.mps", None)
    assert (read.form, list(read.notes)) == (form, [])


class Fault(NamedTuple):
    """What is at fault in a text where one part is replaced by another, and what is said."""

    old: str
    new: str
    told: str


SMALL = (
    "NAME t\nROWS\n N o\n L cap\nCOLUMNS\n x o 1\n x cap 2\nRHS\n RHS cap 9\nBOUNDS\n UP b x 4\n"
    "ENDATA\n"
)
FAULTS = [
    Fault("ROWS", "ROW", "2: bad section `ROW`: no section that is known; did you mean `ROWS`?"),
    Fault("ROWS", "OBJSENSE\n most\nROWS", "3: bad line `most`: no sense, which are MAX and MIN"),
    Fault(" L cap", " M cap", "4: bad line `M`: no kind of a row, which are N, L, G and E"),
    Fault(
        "x cap 2", "x capp 2", "7: unknown row `capp`: no line before has it; did you mean `cap`?"
    ),
    Fault("x cap 2", "x cap two", "7: bad number `two`: no decimal number"),
    Fault(
        "x cap 2",
        "x cap 2,5",
        "7: bad number `2,5`: no decimal number; a point stands before decimals",
    ),
    Fault(
        "BOUNDS",
        "BOUND of all x",
        "10: bad section `BOUND`: no section that is known; did you mean " "`BOUNDS`?",
    ),
    Fault("BOUNDS", "ROWS", "10: bad section `ROWS`: out of its order, or twice"),
    Fault(" UP b x", " SC b x", "11: bad bound kind `SC`: semi-continuous columns are not read"),
    Fault(" UP b x 4", " FR b y", "11: unknown column `y`: no line before has it"),
    Fault("ENDATA", "QUADOBJ", "12: bad section `QUADOBJ`: quadratic objectives are not read"),
]


@pytest.mark.needs("mps")
@pytest.mark.parametrize("fault", FAULTS, ids=lambda fault: str(fault.new.split("\n")[0].strip()))
def test_faults(workspace: Workspace, fault: Fault) -> None:
    """The word that is at fault, and what helps with it alone."""
    workspace.write("m.mps", SMALL.replace(fault.old, fault.new))
    ended = workspace.run("nl-bridge", "stats", "m.mps")
    assert ended.status == REFUSED
    assert ended.err == f"nl-bridge: m.mps line {fault.told}\n"


@pytest.mark.needs("mps")
@pytest.mark.parametrize(
    ("text", "told"),
    [
        (WITH_BLANK_NAME, "m.mps line 8: bad line of .*: names with blanks are not read"),
        (
            FIXED.replace("ENDATA", "SOS"),
            "m.mps line 18: bad section `SOS`: special ordered sets are not read",
        ),
    ],
    ids=["blank-in-a-name", "special-ordered-sets"],
)
def test_what_is_not_read(workspace: Workspace, text: str, told: str) -> None:
    """Said in words of MPS files."""
    workspace.write("m.mps", text)
    ended = workspace.run("nl-bridge", "stats", "m.mps")
    assert ended.status == REFUSED
    assert re.fullmatch(f"nl-bridge: {told}\n", ended.err), ended.err


@pytest.mark.needs("mps")
@pytest.mark.parametrize("seed", range(40))
def test_as_import_has_it(in_folder: Workspace, seed: int) -> None:
    """A random program as it is read, against what `import` and `export` make of it."""
    text, bridge = random_text(seed), Bridge(program())
    in_folder.write("m.mps", text)
    made = bridge.call(Command.IMPORT.value, "m.mps")
    if made.status:
        pytest.skip("it is refused, such as one with an empty interval")
    in_folder.write("m.nl", made.out)
    read = LinearProgram.of_named(text)
    names = read.own_names
    assert names is not None
    own, other = Plain(read.text), Plain(bridge.export("m.nl"))
    at = {names.column(j): f"x{j}" for j in range(len(own.ends))}
    place = {f"x{k}": at[name.decode()] for k, name in enumerate(lists_of_names(text)[1])}
    assert {place[x]: bounds for x, bounds in other.bounds().items()} == own.bounds()
    assert {place[x]: is_whole for x, is_whole in other.whole.items()} == own.whole
    entries = {(row, place[x]): a for (row, x), a in other.entries.items() if a}
    assert entries == {key: a for key, a in own.entries.items() if a}
    assert (other.maximise, other.sides()) == (own.maximise, own.sides())
    assert other.rhs.get("obj", 0) == own.rhs.get("obj", 0)


def _two_drivers_each() -> Iterator[object]:
    """Each model with two drivers, in turn."""
    for number, name in enumerate(MPS_MODELS):
        for driver in [SOLVERS[(number + by) % len(SOLVERS)] for by in (0, 3)]:
            yield pytest.param(name, driver, marks=pytest.mark.needs(driver))


@pytest.mark.needs("mps", "clp_library")
@pytest.mark.parametrize(("name", "driver"), _two_drivers_each())
def test_solved(workspace: Workspace, name: str, driver: str) -> None:
    """The verdict, the code, and the values in the names of the file."""
    model = MPS_MODELS[name]
    workspace.write("m.mps", model.text)
    ended = workspace.run("bridge-" + driver, "m.mps", "json=1", "wantsol=6", "prove=1")
    told = workspace.report(ended, "bridge-" + driver)
    if told["code"] == TAKES_NO_INTEGERS:
        assert driver in ("clp", "esolver")
        return
    assert (told["text"], told["code"]) == (model.verdict, CODES.get(model.verdict, 0))
    values = {column: Fraction(told["values"][column]) for column in model.values}
    assert values == model.values


OLDER_BRIDGE = """#!/bin/sh
case $1 in verify_*) echo 'bad words' >&2; exit 3;; esac
exec {program} "$@"
"""


@pytest.mark.needs("mps")
def test_one_that_judges_no_mps_files(workspace: Workspace) -> None:
    """An older program is told by the command that it lacks."""
    bridge = workspace.write("bridge", OLDER_BRIDGE.format(program=" ".join(program())))
    workspace.write("m.mps", FIXED)
    workspace.write("m.certificate", "certificate 1\nfeasible 0\npoint 0\n")
    ended = workspace.run(
        "nl-bridge", "verify", "m.mps", "m.certificate", environment={"BRIDGE": str(bridge)}
    )
    assert "this bridge does not know the command `verify_mps` (bad words)" in ended.err


@pytest.mark.needs("mps")
def test_import_against_the_program(workspace: Workspace) -> None:
    """The kinds of columns of the .nl are those of the names beside it, and so are the bounds."""
    workspace.write("m.mps", (DATA / "mps" / "kinds.mps").read_bytes())
    ended = workspace.run("nl-bridge", "import", "m.mps", "m.nl")
    told = "m.nl is written, with the names of 2 constraints and 6 variables in m.row and m.col\n"
    assert (ended.status, ended.text) == (0, told)
    lines = workspace.read("m.nl").decode().split("\n")
    assert lines[6].split()[:2] == ["2", "2"]
    at = lines.index("b") + 1
    assert lines[at : at + 6] == ["2 0", "2 0", "0 0 1", "0 0 1", "0 0 9", "1 -1"]
    names = workspace.read("m.col").decode().split()
    assert names == ["c", "'MARKER'", "b", "v", "i", "low"]


UNBOUNDED_MARKED = """NAME m
ROWS
 N cost
 {sense} cap
COLUMNS
 M1 'MARKER' 'INTORG'
 x cost {cost} cap 1
 M2 'MARKER' 'INTEND'
RHS
 RHS cap {side}
ENDATA
"""


@pytest.mark.needs("program", "cbc")
@pytest.mark.parametrize(
    "sense, cost, side, optimum",
    [("L", -1, "5.5", "-5"), ("G", 1, "2.5", "3"), ("L", -2, 9, "-18")],
)
def test_whole_columns_without_bounds(
    workspace: Workspace, sense: str, cost: int, side: object, optimum: str
) -> None:
    """They have no upper end here; the message says that they end at 1 for cbc and glpsol."""
    workspace.write("m.mps", UNBOUNDED_MARKED.format(sense=sense, cost=cost, side=side))
    told = workspace.run("bridge-cbc", "m.mps").out
    assert f"\noptimal {optimum}\n" in told
    assert "\nwhole columns without bounds go from 0 on: x; cbc and glpsol, where they" in told
    own = workspace.run_process(["cbc", "m.mps", "-solve", "-quit"]).out
    assert f"Objective value:  {float(optimum):15.8f}" not in own
