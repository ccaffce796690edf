"""strict=1: what reaches the modelling system is what `bridge certified` wrote, and nothing else."""

from __future__ import annotations

import json
import shlex
import subprocess
import sys
from typing import Sequence, Tuple

import pytest

from builders.nl_text import least, nl_text, real, row, whole
from running.places import BIN, DRIVERS, EXAMPLES, TESTS, program
from running.stored_runs import stored_runs
from running.workspace import Call, Reply, SolContent, Workspace

pytestmark = pytest.mark.needs("program", "clp_library")

NO_SOLUTION = nl_text([whole()] * 2, [row(3, 3, 2, 4)], [least(1, 1)])  # 2 x + 4 y = 3
ENDLESS = nl_text([real(0, None)] * 2, [row(None, 1, 1, -1)], [least(-1, 0)])
THIRD = nl_text([real(None, None)], [row(1, None, 3)], [least(1)])  # the least x with 3 x >= 1


def certified_text(workspace: Workspace, model: str, certificate: str) -> bytes:
    """What `nl-bridge certified` writes."""
    ended = workspace.run("nl-bridge", "certified", model, certificate)
    assert ended.status == 0, ended.text
    return ended.out.encode()


@pytest.mark.needs("cbc")
@pytest.mark.parametrize(
    "words",
    ["-AMPL strict=1", "-s strict=1", "wantsol=1 strict=1", "-AMPL strict=1 relax=1"],
)
@pytest.mark.parametrize("model", ["knap", "mix", "cents", "diet"])
def test_the_sol_is_copied(workspace: Workspace, model: str, words: str) -> None:
    """Byte for byte, of points, trees, refutations and duals."""
    workspace.copy_files(EXAMPLES)
    workspace.run("bridge-cbc", model, *words.split(), f"certificate={model}.kept")
    text = certified_text(workspace, f"{model}.nl", f"{model}.kept")
    assert workspace.path(f"{model}.sol").read_bytes() == text


@pytest.mark.needs("cbc")
@pytest.mark.parametrize(
    ("text", "first_line", "code", "values"),
    [(NO_SOLUTION, "infeasible", 200, []), (ENDLESS, "unbounded", 300, [1.0, 0.0])],
    ids=["infeasible", "unbounded"],
)
def test_claims_without_an_optimum(
    workspace: Workspace, text: bytes, first_line: str, code: int, values: Sequence[float]
) -> None:
    """The code is that of the claim; a point stands there where the claim has one."""
    workspace.write("m.nl", text)
    workspace.run("bridge-cbc", "m", "-AMPL", "strict=1")
    sol = workspace.sol()
    assert (sol.message, sol.code, len(sol.values)) == ([first_line], code, len(values))


@pytest.mark.needs("clp")
def test_a_value_without_a_decimal(workspace: Workspace) -> None:
    """The .sol has no values and says why; the certificate holds all the same."""
    workspace.write("m.nl", THIRD)
    workspace.check(
        Call(
            "bridge-clp m strict=1 -s",
            7,
            prints=["the .sol has no values: ", "has no decimal", "optimal 1/3"],
            sol=SolContent(code=100, values=[], last_line="optimal 1/3"),
        )
    )


@pytest.mark.parametrize("words", ["-AMPL strict=1", "-s strict=1"])
def test_nothing_is_certified(workspace: Workspace, words: str) -> None:
    """No value of the solver reaches the modelling system."""
    workspace.write_model("knap")
    workspace.check(
        Call(
            f"bridge-cbc m {words}",
            0 if "-AMPL" in words else 7,
            stored="knap",
            bridge_says={"verify": Reply(1, "leaf 0 gap 20")},
            sol=SolContent(code=100, values=[], duals=[], matches=["nothing is certified"]),
        )
    )


def test_a_point_alone(workspace: Workspace) -> None:
    """It is certified as feasible, which does not settle the question."""
    workspace.write_model("knap")
    run = stored_runs("cbc")["knap"]
    ended = workspace.replay("cbc", run, "m", "-s", "strict=1", without=["clp", "fractions"])
    sol = workspace.sol()
    assert (ended.status, sol.code, sol.message) == (7, 100, ["feasible 17"])
    assert sol.values == [1, 1, 0]


@pytest.mark.needs("cbc")
def test_a_false_program(workspace: Workspace) -> None:
    """A text that is no certified one is not passed on."""
    workspace.copy_files(EXAMPLES)
    own = shlex.join(program())
    workspace.script(
        "other",
        f'if [ "$1" = certified ]; then printf "optimal 99\\n\\nOptions\\n0\\n1\\n0\\n3\\n0\\n'
        f'objno 0 100\\n"; else exec {own} "$@"; fi',
    )
    workspace.run(
        "bridge-cbc", "knap", "-AMPL", "strict=1", "bridge=" + str(workspace.path("other"))
    )
    sol = workspace.sol("knap.sol")
    assert (sol.code, sol.values) == (100, [])
    assert any("is no verdict" in line for line in sol.message)


@pytest.mark.needs("cbc")
def test_of_bridge_certify(workspace: Workspace) -> None:
    """With -s, of the certificate that it wrote."""
    workspace.copy_files(EXAMPLES)
    ended = workspace.run("bridge-certify", "mix", "-s", "certificate=kept")
    assert ended.status == 0, ended.text
    assert workspace.path("mix.sol").read_bytes() == certified_text(workspace, "mix.nl", "kept")


@pytest.mark.needs("cbc")
@pytest.mark.parametrize(("model", "agrees"), [("knap", True), ("mix", True)])
def test_without_strict_the_message_says_when_both_agree(
    workspace: Workspace, model: str, agrees: bool
) -> None:
    """With prove=1, where the .sol has the values of the certificate's point."""
    workspace.copy_files(EXAMPLES)
    workspace.run("bridge-cbc", model, "-AMPL", "prove=1")
    message = "\n".join(workspace.sol(f"{model}.sol").message)
    assert ("; its values are the certificate's point" in message) == agrees


@pytest.mark.needs("cbc")
@pytest.mark.parametrize("way", ["packed", "pipe", "dash"])
def test_the_command_takes_what_others_take(workspace: Workspace, way: str) -> None:
    """Packed files, pipes and `-`, as everywhere."""
    workspace.copy_files(EXAMPLES)
    wanted = certified_text(workspace, "knap.nl", "knap.certificate")
    calls = {
        "packed": "gzip knap.certificate; nl-bridge certified knap.nl knap.certificate.gz",
        "pipe": "nl-bridge certified knap.nl <(cat knap.certificate)",
        "dash": "nl-bridge certified knap.nl - < knap.certificate",
    }
    ended = workspace.check(Call(calls[way], is_shell=True))
    assert ended.out.encode() == wanted


@pytest.mark.needs("cbc")
def test_a_large_answer(workspace: Workspace) -> None:
    """A .sol text of more bytes than a verdict may have."""
    columns = [real(0, 123456789 + place) for place in range(30000)]
    rows = [row(None, 123456789, 1, *[0] * 29999)]
    workspace.write("m.nl", nl_text(columns, rows, [least(*[-1] * 30000)]))
    workspace.run("bridge-cbc", "m", "-AMPL", "strict=1", "certificate=kept")
    sol = workspace.read("m.sol")
    assert len(sol) > 300000
    assert sol == certified_text(workspace, "m.nl", "kept")


# How MiniZinc calls a driver, with what it reads and what comes back kept beside the test.
KEEPING = """
{driver} "$@" strict=1 certificate={folder}/kept overwrite=1
status=$?
cp "$1" {folder}/kept.nl
cp "${{1%.nl}}.sol" {folder}/kept.sol
exit $status
"""


def minizinc_with_strict(workspace: Workspace, model: str) -> Tuple[str, bytes]:
    """What MiniZinc prints of a model of tests/mzn by cbc with strict=1, and the .sol it read."""
    settings = json.loads((DRIVERS / "minizinc" / "bridge-cbc.msc").read_text())
    driver = shlex.join([sys.executable, str(BIN / "bridge-cbc")])
    script = KEEPING.format(driver=driver, folder=shlex.quote(str(workspace.folder)))
    changes = {
        "id": "org.bridge.strict",
        "name": "bridge-strict",
        "executable": [str(workspace.script("keeping", script)), *settings["executable"][1:]],
    }
    workspace.write("strict.msc", json.dumps({**settings, **changes}))
    done = subprocess.run(
        ["minizinc", "--solver", "bridge-strict", str(TESTS / "mzn" / f"{model}.mzn")],
        env=workspace.environment(MZN_SOLVER_PATH=str(workspace.folder)),
        capture_output=True,
        text=True,
        cwd=workspace.folder,
    )
    return done.stdout, workspace.read("kept.sol")


@pytest.mark.needs("cbc", "minizinc")
@pytest.mark.parametrize(
    ("model", "printed", "verdict"),
    [
        ("mix", "----------\n==========\n", "optimal 173/4"),
        ("assign", "----------\n==========\n", "optimal"),
        ("knapsack30", "----------\n==========\n", "optimal"),
        ("infeasible", "=====UNSATISFIABLE=====\n", "infeasible"),
        ("unbounded", "=====UNBOUNDED=====\n", "unbounded"),
    ],
)
def test_minizinc_reads_what_is_certified(
    workspace: Workspace, model: str, printed: str, verdict: str
) -> None:
    """The .sol that MiniZinc reads is what `certified` writes of the model's own .nl file."""
    told, sol = minizinc_with_strict(workspace, model)
    assert printed in told
    assert sol == certified_text(workspace, "kept.nl", "kept")
    assert sol.startswith(verdict.encode())


@pytest.mark.needs("cbc", "minizinc")
def test_minizinc_gets_no_value_without_a_decimal(workspace: Workspace) -> None:
    """The optimum of this program is at multiples of 1/17: no .sol can hold them."""
    told, sol = minizinc_with_strict(workspace, "thirds")
    assert "=====UNKNOWN=====" in told
    assert b"has no decimal" in sol
