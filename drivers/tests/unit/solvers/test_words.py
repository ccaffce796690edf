"""What solvers are called with, and the texts that they read."""

from __future__ import annotations

from pathlib import Path
from typing import Dict, List, Tuple

import pytest

from bridge_drivers.model.linear_program import LinearProgram
from bridge_drivers.solvers import SOLVERS
from bridge_drivers.solvers.coin import MOST_DIGITS
from bridge_drivers.solvers.run import SolverRun
from bridge_drivers.solvers.settings import SolverSettings

PROGRAMS = Path(__file__).parents[2] / "data" / "mps"
ALL = SolverSettings(
    time_limit=8.5,
    relax=True,
    mip_gap=0.1,
    threads=2,
    exact_check=True,
    arguments=["-own", "words"],
)


@pytest.mark.parametrize(
    "solver, words",
    [
        ("cbc", "-timeMode elapsed -sec 8.5 -ratio 0.1 -threads 2 -own words"),
        ("clp", "-sec 8.5 -own words"),
        ("glpsol", "--nomip --tmlim 9 --mipgap 0.1 --xcheck -own words"),
        ("lp_solve", "-noint -gr 0.1 -timeout 9 -own words"),
        ("esolver", "-R 8.5 -own words"),
        ("highs", "-own words"),
    ],
)
def test_arguments(solver: str, words: str) -> None:
    assert " ".join(SOLVERS[solver].arguments(ALL)) == words


@pytest.mark.parametrize(
    "solver, words",
    [
        ("cbc", ["-preprocess", "off", "-presolve", "off"]),
        ("clp", ["-presolve", "off"]),
        ("glpsol", ["--nopresol"]),
        ("lp_solve", ["-s0"]),
    ],
)
def test_a_second_question(solver: str, words: List[str]) -> None:
    assert SOLVERS[solver].arguments(SolverSettings(), is_retry=True) == words
    assert SOLVERS[solver].arguments(SolverSettings()) == []
    assert SOLVERS[solver].retry_words


def program_with(objective_side: str = "", number: str = "10") -> LinearProgram:
    text = (PROGRAMS / "knap.mps").read_text()
    if objective_side:
        text = text.replace("RHS\n", f"RHS\n RHS obj {objective_side}\n")
    return LinearProgram.of(text.replace("x0 obj 10", f"x0 obj {number}").encode())


@pytest.mark.parametrize("side, negated", [("5", "-5"), ("-5", "5"), ("0", "0")])
def test_glpk_adds_the_side_of_the_objective(side: str, negated: str) -> None:
    text = SOLVERS["glpsol"].mps_text(program_with(side))
    assert f"\n RHS obj {negated}\n".encode() in text
    assert b"OBJSENSE" not in text


def test_coin_takes_free_form() -> None:
    text = SOLVERS["cbc"].mps_text(program_with())
    assert text.startswith(b"NAME nl FREE\nOBJSENSE\n MAX\nROWS\n")


LONG = "0.1" + "0" * (MOST_DIGITS - 3)


@pytest.mark.parametrize(
    "number, written",
    [(LONG, LONG), (LONG + "15", "0.1"), (f"-{LONG}15e-9", "-1e-10"), ("x" * 30, "x" * 30)],
)
def test_coin_gets_no_more_digits_than_it_reads(number: str, written: str) -> None:
    text = SOLVERS["cbc"].mps_text(
        _Text(program_with().text.replace(b"obj 10", b"obj " + number.encode()))
    )
    assert f" x0 obj {written}\n".encode() in text


class _Text(LinearProgram):
    """A program of which the text alone is looked at."""

    def __init__(self, text: bytes) -> None:
        self.text = text


def test_esolver_takes_no_empty_program() -> None:
    empty = LinearProgram.of(b"NAME nl\nROWS\n N obj\nCOLUMNS\nRHS\nENDATA\n")
    text = SOLVERS["esolver"].mps_text(empty)
    assert b"\n L none\nCOLUMNS\n none obj 0\n" in text


@pytest.mark.parametrize("solver", list(SOLVERS))
def test_progress(solver: str) -> None:
    """What a log tells, in the objective's own sense; what is no number is left out."""
    lines: Dict[str, Tuple[str, Dict[str, float]]] = {
        "cbc": (
            "Cbc0010I After 3 nodes, 2 on tree, -17 best solution, best possible -18.5 (1 s)",
            {"nodes": 3.0, "open": 2.0, "incumbent": 17.0, "bound": 18.5},
        ),
        "clp": ("Clp0006I 7  Obj 4.5 Primal inf 0", {"iterations": 7.0, "objective": 4.5}),
        "glpsol": (
            "+    10: mip =     not found yet <=   1.5e+01        (3; 0)",
            {"iterations": 10.0, "bound": 15.0, "open": 3.0},
        ),
    }
    line, known = lines.get(solver, ("nothing of that", {}))
    assert SOLVERS[solver].progress_of_line(line, program_with()) == known
    assert SOLVERS[solver].progress_of_line("a line of no number", program_with()) == {}


def test_a_run_writes_into_its_folder(tmp_path: Path) -> None:
    """Paths in the folder are told by their names alone, and an older answer is no answer."""
    run = SolverRun(program_with(), SolverSettings(time_limit=60), str(tmp_path), "/bin/echo")
    Path(run.write("answer.txt", b"old"))
    run.remove_answers()
    assert not (tmp_path / "answer.txt").exists()
    finished = run.start(["/bin/echo", run.path("coin.mps"), "-quit"])
    assert (finished.status, finished.log, finished.is_killed) == (0, "coin.mps -quit\n", False)
    assert (tmp_path / "solver.log").read_text() == finished.log == run.log
