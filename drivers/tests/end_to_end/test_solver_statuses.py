"""Each status that a solver can tell, through its driver, and runs that really stopped.

The tables say what is wanted of each status; they have all that the installed solvers can print.
"""

from __future__ import annotations

import copy
import glob
import json
import re
import subprocess
from pathlib import Path
from typing import Iterator, List, Mapping, NamedTuple, Sequence, Set

import pytest

from builders.stopped_runs import STOPPED_RUNS
from running.places import HIGHS_PYTHON, MIXED_INTEGER_SOLVERS
from running.sol_file import SolFile
from running.stored_runs import StoredRun, stored_runs
from running.workspace import Workspace

SOLVED, UNSURE = 0, 100
INFEASIBLE, UNBOUNDED = 200, 300
INFEASIBLE_OR_UNBOUNDED = 290
LIMIT_WITH_POINT, LIMIT = 400, 450
NO_ANSWER = 506
INTERRUPTED = 130  # the exit status


class StatusCase(NamedTuple):
    """A status in the solver's words, and the codes where there is a point and where there is none."""

    words: str
    with_point: int
    without_point: int


COIN = (
    StatusCase("Optimal", SOLVED, SOLVED),
    StatusCase("Optimal (within gap tolerance)", UNSURE, NO_ANSWER),
    StatusCase("Infeasible", INFEASIBLE, INFEASIBLE),
    StatusCase("Integer infeasible", INFEASIBLE, INFEASIBLE),
    StatusCase("Unbounded", UNBOUNDED, UNBOUNDED),
    StatusCase("Stopped on time", LIMIT_WITH_POINT, LIMIT),
    StatusCase("Stopped on iterations", LIMIT_WITH_POINT, LIMIT),
    StatusCase("Stopped on iterations or time", LIMIT_WITH_POINT, LIMIT),
    StatusCase("Stopped on difficulties", UNSURE, NO_ANSWER),
    StatusCase("Stopped on ctrl-c", LIMIT_WITH_POINT, LIMIT),
    StatusCase("Status unknown", UNSURE, NO_ANSWER),
)
LP_SOLVE = (
    StatusCase("This problem is infeasible", INFEASIBLE, INFEASIBLE),
    StatusCase("This problem is unbounded", UNBOUNDED, UNBOUNDED),
    StatusCase("Suboptimal solution", UNSURE, NO_ANSWER),
    StatusCase("Presolved solution", UNSURE, NO_ANSWER),
    StatusCase("Timeout", LIMIT_WITH_POINT, LIMIT),
    StatusCase("User aborted", LIMIT_WITH_POINT, LIMIT),
    StatusCase("Accuracy error", UNSURE, NO_ANSWER),
    StatusCase("Out of memory", UNSURE, NO_ANSWER),
    StatusCase("The B&B routine failed", UNSURE, NO_ANSWER),
    StatusCase("lp_solve failed", UNSURE, NO_ANSWER),
)
GLPK = (
    StatusCase("LP HAS NO PRIMAL FEASIBLE SOLUTION", INFEASIBLE, INFEASIBLE),
    StatusCase("PROBLEM HAS NO PRIMAL FEASIBLE SOLUTION", INFEASIBLE, INFEASIBLE),
    StatusCase("PROBLEM HAS NO FEASIBLE SOLUTION", INFEASIBLE, INFEASIBLE),
    StatusCase("PROBLEM HAS NO INTEGER FEASIBLE SOLUTION", INFEASIBLE, INFEASIBLE),
    StatusCase("LP HAS UNBOUNDED PRIMAL SOLUTION", UNBOUNDED, UNBOUNDED),
    StatusCase("PROBLEM HAS UNBOUNDED SOLUTION", UNBOUNDED, UNBOUNDED),
    StatusCase(
        "LP HAS NO DUAL FEASIBLE SOLUTION", INFEASIBLE_OR_UNBOUNDED, INFEASIBLE_OR_UNBOUNDED
    ),
    StatusCase(
        "PROBLEM HAS NO DUAL FEASIBLE SOLUTION", INFEASIBLE_OR_UNBOUNDED, INFEASIBLE_OR_UNBOUNDED
    ),
    StatusCase(
        "LP RELAXATION HAS NO DUAL FEASIBLE SOLUTION",
        INFEASIBLE_OR_UNBOUNDED,
        INFEASIBLE_OR_UNBOUNDED,
    ),
    StatusCase("RELATIVE MIP GAP TOLERANCE REACHED; SEARCH TERMINATED", UNSURE, NO_ANSWER),
    StatusCase("TIME LIMIT EXCEEDED; SEARCH TERMINATED", LIMIT_WITH_POINT, LIMIT),
    StatusCase("ITERATION LIMIT EXCEEDED; SEARCH TERMINATED", LIMIT_WITH_POINT, LIMIT),
    StatusCase("ITERATIONS LIMIT EXCEEDED; SEARCH TERMINATED", LIMIT_WITH_POINT, LIMIT),
    StatusCase("SEARCH TERMINATED BY APPLICATION", LIMIT_WITH_POINT, LIMIT),
    StatusCase("NO CONVERGENCE; SEARCH TERMINATED", UNSURE, NO_ANSWER),
    StatusCase("NUMERIC INSTABILITY; SEARCH TERMINATED", UNSURE, NO_ANSWER),
)
HIGHS = (
    StatusCase("0", UNSURE, NO_ANSWER),
    StatusCase("1", UNSURE, NO_ANSWER),
    StatusCase("3", UNSURE, NO_ANSWER),
    StatusCase("4", UNSURE, NO_ANSWER),
    StatusCase("5", UNSURE, NO_ANSWER),
    StatusCase("6", UNSURE, NO_ANSWER),
    StatusCase("15", UNSURE, NO_ANSWER),
    StatusCase("7", SOLVED, SOLVED),
    StatusCase("2", INFEASIBLE, INFEASIBLE),
    StatusCase("8", INFEASIBLE, INFEASIBLE),
    StatusCase("9", INFEASIBLE_OR_UNBOUNDED, INFEASIBLE_OR_UNBOUNDED),
    StatusCase("10", UNBOUNDED, UNBOUNDED),
    StatusCase("11", LIMIT_WITH_POINT, LIMIT),
    StatusCase("12", LIMIT_WITH_POINT, LIMIT),
    StatusCase("13", LIMIT_WITH_POINT, LIMIT),
    StatusCase("14", LIMIT_WITH_POINT, LIMIT),
    StatusCase("16", LIMIT_WITH_POINT, LIMIT),
    StatusCase("17", LIMIT_WITH_POINT, LIMIT),
)
ESOLVER = (
    StatusCase("OPTIMAL", SOLVED, SOLVED),
    StatusCase("INFEASIBLE", INFEASIBLE, INFEASIBLE),
    StatusCase("UNBOUNDED", UNBOUNDED, UNBOUNDED),
    StatusCase("UNDEFINED", NO_ANSWER, NO_ANSWER),
    StatusCase("NOT_SOLVED", NO_ANSWER, NO_ANSWER),
    StatusCase("TIME_LIMIT_REACHED", LIMIT, LIMIT),
    StatusCase("MEMORY_LIMIT_REACHED", LIMIT, LIMIT),
    StatusCase("USER_INTERRUPT", LIMIT, LIMIT),
)
GLPK_LETTERS = (
    ("ff", SOLVED),
    ("o", SOLVED),
    ("f", LIMIT_WITH_POINT),
    ("n", INFEASIBLE),
    ("nf", INFEASIBLE),
    ("nu", INFEASIBLE),
    ("nn", INFEASIBLE),
    ("ni", INFEASIBLE),
    ("fn", UNBOUNDED),
    ("fu", UNSURE),
    ("fi", UNSURE),
    ("iu", UNSURE),
    ("if", UNSURE),
    ("ii", UNSURE),
    ("in", UNSURE),
    ("u", NO_ANSWER),
    ("uu", NO_ANSWER),
    ("uf", NO_ANSWER),
    ("ui", NO_ANSWER),
    ("un", NO_ANSWER),
)


STATUSES: Mapping[str, Sequence[StatusCase]] = {
    "cbc": COIN,
    "clp": COIN,
    "lp_solve": LP_SOLVE,
    "glpsol": GLPK,
    "highs": HIGHS,
    "esolver": ESOLVER,
}
NO_POINT = " (no integer solution - continuous used)"  # behind a status of COIN
LP_SOLVE_VALUES = "Actual values of the variables:"
UNKNOWN_STATUS = "Quite done"


def run_with_status(driver: str, words: str, *, has_point: bool) -> StoredRun:
    """The stored run of a model, with another status, by the solver's format."""
    run = copy.deepcopy(stored_runs(driver)[model_of(driver)])
    log = run.logs["solver.log"]
    if driver in ("cbc", "clp"):
        end = "" if has_point else NO_POINT
        _text(run, "answer.txt")[0] = f"{words}{end} - objective value 17.0"
    elif driver == "lp_solve":
        kept = log if has_point else log[: log.index(LP_SOLVE_VALUES) - 1]
        run.logs["solver.log"] = ["", words, *kept]
    elif driver == "highs":
        answer = json.loads(_text(run, "answer.json")[0])
        answer["status"] = 4
        answer["message"] = f"told (HiGHS Status {words}: told)"
        answer["values"] = answer["values"] if has_point else None
        run.files["answer.json"] = [json.dumps(answer)]
    elif driver == "glpsol":
        log.append(words)
        set_glpk_letters(run, " o ", " f " if has_point else " u ")
    else:
        _text(run, "answer.sol")[0] = f"status = {words}"
    return run


def set_glpk_letters(run: StoredRun, old: str, new: str) -> None:
    """Changes the letters in the status line of GLPK's answer."""
    run.files["answer.txt"] = [
        line.replace(old, new) if line.startswith("s ") else line
        for line in _text(run, "answer.txt")
    ]


def _text(run: StoredRun, name: str) -> List[str]:
    lines = run.files[name]
    assert isinstance(lines, list)
    return lines


def model_of(driver: str) -> str:
    """The model whose run is changed: an integer one where the solver takes it."""
    return "knap" if driver in MIXED_INTEGER_SOLVERS else "diet"


def answer_without_checks(workspace: Workspace, driver: str, model: str, run: StoredRun) -> SolFile:
    """What a driver answers where it believes its solver: `check=0`."""
    workspace.write_model(model)
    ended = workspace.replay(driver, run, "m", "-AMPL", "-e", "check=0")
    assert ended.status == 0, ended.text
    return workspace.sol()


def _all_statuses() -> Iterator[object]:
    for driver, cases in STATUSES.items():
        for case in cases:
            yield pytest.param(driver, case, id=f"{driver}-{case.words}")


@pytest.mark.needs("program")
@pytest.mark.parametrize("has_point", [True, False], ids=["point", "no-point"])
@pytest.mark.parametrize(("driver", "case"), _all_statuses())
def test_status(workspace: Workspace, driver: str, case: StatusCase, has_point: bool) -> None:
    """A point is a point, whatever the status; without one little is an answer."""
    run = run_with_status(driver, case.words, has_point=has_point)
    sol = answer_without_checks(workspace, driver, model_of(driver), run)
    assert sol.code == (case.with_point if has_point else case.without_point), sol.text


@pytest.mark.needs("program")
@pytest.mark.parametrize(
    ("driver", "told"),
    [
        ("cbc", UNKNOWN_STATUS),
        ("clp", UNKNOWN_STATUS),
        ("lp_solve", UNKNOWN_STATUS),
        ("highs", f"told (HiGHS Status {UNKNOWN_STATUS}: told)"),
        ("glpsol", "q"),
    ],
)
def test_unknown_status(workspace: Workspace, driver: str, told: str) -> None:
    """A status of no table, with a point: judged, and told in its own words."""
    run = run_with_status(driver, UNKNOWN_STATUS, has_point=True)
    if driver == "glpsol":
        set_glpk_letters(run, " f ", " q ")
    sol = answer_without_checks(workspace, driver, model_of(driver), run)
    assert sol.code == UNSURE
    assert f"a point, and it ended with `{told}`" in sol.message[0]


@pytest.mark.needs("program")
@pytest.mark.parametrize(("letters", "code"), GLPK_LETTERS)
def test_letters_of_glpk(workspace: Workspace, letters: str, code: int) -> None:
    """One letter of an integer program's answer, two of a linear one's."""
    model, old = ("knap", " o ") if len(letters) == 1 else ("diet", " f f ")
    run = copy.deepcopy(stored_runs("glpsol")[model])
    set_glpk_letters(run, old, f" {' '.join(letters)} ")
    sol = answer_without_checks(workspace, "glpsol", model, run)
    assert sol.code == code, sol.text


@pytest.mark.needs("program")
@pytest.mark.parametrize("name", STOPPED_RUNS)
def test_stopped_run(workspace: Workspace, name: str) -> None:
    """Runs that were really made, which a limit, a gap or an interrupt ended.

    Where the time of the search is enough to prove the optimum, the code is 0.
    """
    stopped, run = STOPPED_RUNS[name], stored_runs("statuses")[name]
    workspace.write("m.nl", stopped.text())
    words = ["m", "-AMPL", "-e", *stopped.options]
    if run.interrupted:
        ended = workspace.replay_interrupted(stopped.driver, run, *words)
    else:
        ended = workspace.replay(stopped.driver, run, *words)
    if not stopped.codes:
        assert ended.status == INTERRUPTED
        assert stopped.message in ended.err
        assert not workspace.path("m.sol").exists()
        return
    assert ended.status == 0, ended.text
    sol = workspace.sol()
    is_proved = sol.last_line.startswith("optimal ")
    assert sol.code in ([SOLVED] if is_proved else stopped.codes), sol.text
    assert stopped.message in sol.text


def test_all_stopped_runs_are_stored() -> None:
    """`tools/store_runs.py statuses` makes them."""
    assert set(stored_runs("statuses")) == set(STOPPED_RUNS)


LIBRARIES = "/usr/lib/x86_64-linux-gnu/"
# Sentences of GLPK that say no status of an answer.
GLPK_REPORTS = {
    "OPTIMAL LP SOLUTION FOUND",
    "OPTIMAL SOLUTION FOUND",
    "INTEGER OPTIMAL SOLUTION FOUND",
    "INTEGER OPTIMAL SOLUTION FOUND BY MIP PREPROCESSOR",
    "OPTIMAL SOLUTION FOUND BY LP PREPROCESSOR",
}
GLPK_STATUS = r"[A-Z][A-Z ;]+(SOLUTION|TERMINATED|APPLICATION|FOUND|PREPROCESSOR)"
WITHIN_GAP = "(within gap tolerance)"
HIGHS_CONSTANTS = """
import json, scipy.optimize._highs._highs_constants as constants
names = [name for name in dir(constants) if name.startswith("MODEL_STATUS")]
print(json.dumps({name: int(getattr(constants, name)) for name in names}))
"""
HIGHS_CODES = {
    "INFEASIBLE": INFEASIBLE,
    "OPTIMAL": SOLVED,
    "UNBOUNDED": UNBOUNDED,
    "REACHED_TIME_LIMIT": LIMIT,
    "UNBOUNDED_OR_INFEASIBLE": INFEASIBLE_OR_UNBOUNDED,
    "REACHED_ITERATION_LIMIT": LIMIT,
}


def words_of(cases: Sequence[StatusCase]) -> Set[str]:
    """The statuses of a table."""
    return {case.words for case in cases}


def texts_in(*patterns: str) -> List[str]:
    """The texts that end with a 0 in the first file of each pattern."""
    paths = [path for pattern in patterns for path in sorted(glob.glob(pattern))[:1]]
    if not paths:
        pytest.skip("a solver's library is not there")
    return [
        text.decode("ascii").strip()
        for path in paths
        for text in re.findall(rb"[\x20-\x7e\n]{2,}(?=\x00)", Path(path).read_bytes())
    ]


def texts_between(path: str, first: str, last: str) -> Set[str]:
    """The sentences of one block of texts."""
    texts = texts_in(path)
    start = texts.index(first)
    block = texts[start : texts.index(last, start) + 1]
    return {text for text in block if text[0].isalpha() or text[0] == "("}


@pytest.mark.parametrize("library", ["libCbcSolver.so.3", "libClpSolver.so.1"])
def test_statuses_of_coin(library: str) -> None:
    """The table has all from the first status to the last, which are one block of texts."""
    texts = texts_between(LIBRARIES + library, "Optimal", "Status unknown")
    assert texts - {WITHIN_GAP} <= words_of(COIN)
    assert WITHIN_GAP not in texts or f"Optimal {WITHIN_GAP}" in words_of(COIN)


def test_statuses_of_lp_solve() -> None:
    """The table has what stands after a run, in the order of its codes."""
    texts = texts_between("/usr/bin/lp_solve", "Suboptimal solution", "lp_solve failed")
    assert texts == words_of(LP_SOLVE)


def test_statuses_of_glpk() -> None:
    """The table has all sentences of the library that say a status."""
    texts = {
        text for text in texts_in(LIBRARIES + "libglpk.so.*") if re.fullmatch(GLPK_STATUS, text)
    }
    assert texts - GLPK_REPORTS == words_of(GLPK)


@pytest.mark.needs("highs")
def test_statuses_of_highs() -> None:
    """The table has all numbers of SciPy's HiGHS, with the codes of their names."""
    done = subprocess.run([HIGHS_PYTHON, "-c", HIGHS_CONSTANTS], capture_output=True, text=True)
    if done.returncode:
        pytest.skip("no SciPy that tells HiGHS's statuses")
    known = {case.words: case.without_point for case in HIGHS}
    for name, number in json.loads(done.stdout).items():
        assert str(number) in known, name
        status = name.replace("MODEL_STATUS_", "")
        if status in HIGHS_CODES:
            assert known[str(number)] == HIGHS_CODES[status], name


def test_statuses_of_esolver() -> None:
    """The table has all that the program and its library print."""
    texts = texts_in("/usr/bin/esolver", LIBRARIES + "libqsopt_ex.so.*")
    found = [re.fullmatch(r"status =? ?([A-Z_]+)|([A-Z_]+) \(ending now\)", text) for text in texts]
    assert {match[1] or match[2] for match in found if match} == words_of(ESOLVER)
