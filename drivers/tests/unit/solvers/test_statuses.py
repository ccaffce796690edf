"""The tables of statuses have each status that is in the programs themselves, and no other."""

from __future__ import annotations

import glob
import json
import re
import subprocess
from pathlib import Path
from typing import List, Sequence, Set

import pytest

from bridge_drivers.solvers import coin, esolver, glpsol, highs, lp_solve
from bridge_drivers.solvers.base import (
    SolverStatus,
    ToldStatus,
    answer_of_status,
    status_in_log,
    status_of,
)
from bridge_drivers.system.errors import UnclearAnswer

LIBRARIES = "/usr/lib/x86_64-linux-gnu/"
REPORTS = {  # sentences of GLPK that say no status of an answer
    "OPTIMAL LP SOLUTION FOUND",
    "OPTIMAL SOLUTION FOUND",
    "INTEGER OPTIMAL SOLUTION FOUND",
    "INTEGER OPTIMAL SOLUTION FOUND BY MIP PREPROCESSOR",
    "OPTIMAL SOLUTION FOUND BY LP PREPROCESSOR",
}
TABLES = (
    coin.STATUSES,
    esolver.STATUSES,
    glpsol.LOG_STATUSES,
    glpsol.FILE_STATUSES,
    highs.STATUSES,
    lp_solve.STATUSES,
)


def words_of(table: Sequence[ToldStatus]) -> Set[str]:
    return {told.words for told in table}


def strings(*patterns: str) -> List[str]:
    """The texts of programs that end with a 0."""
    found = [path for pattern in patterns for path in sorted(glob.glob(pattern))[:1]]
    if not found:
        pytest.skip("a solver's library is not there")
    return [
        text.decode("ascii").strip()
        for path in found
        for text in re.findall(rb"[\x20-\x7e\n]{2,}(?=\x00)", Path(path).read_bytes())
    ]


def strings_between(path: str, first: str, last: str) -> Set[str]:
    texts = strings(path)
    start = texts.index(first)
    block = texts[start : texts.index(last, start) + 1]
    return {text for text in block if text[0].isalpha() or text[0] == "("}


@pytest.mark.parametrize("name", ["libCbcSolver.so.3", "libClpSolver.so.1"])
def test_coin(name: str) -> None:
    """One block of texts, from the first status to the last."""
    known, gap = words_of(coin.STATUSES), "(within gap tolerance)"
    texts = strings_between(LIBRARIES + name, "Optimal", "Status unknown")
    assert texts - {gap} <= known
    assert gap not in texts or f"Optimal {gap}" in known


def test_lp_solve() -> None:
    """What stands after a run, in the order of its codes."""
    texts = strings_between("/usr/bin/lp_solve", "Suboptimal solution", "lp_solve failed")
    assert texts == words_of(lp_solve.STATUSES)


def test_glpk() -> None:
    pattern = r"[A-Z][A-Z ;]+(SOLUTION|TERMINATED|APPLICATION|FOUND|PREPROCESSOR)"
    texts = {text for text in strings(LIBRARIES + "libglpk.so.*") if re.fullmatch(pattern, text)}
    assert texts - REPORTS == words_of(glpsol.LOG_STATUSES)


def test_highs() -> None:
    code = (
        "import json, scipy.optimize._highs._highs_constants as c; print(json.dumps({k: "
        "int(getattr(c, k)) for k in dir(c) if k.startswith('MODEL_STATUS')}))"
    )
    done = subprocess.run(["/usr/bin/python3", "-c", code], capture_output=True, check=False)
    if done.returncode:
        pytest.skip("no SciPy that tells HiGHS's statuses")
    meant = {
        "INFEASIBLE": SolverStatus.INFEASIBLE,
        "OPTIMAL": SolverStatus.OPTIMAL,
        "UNBOUNDED": SolverStatus.UNBOUNDED,
        "REACHED_TIME_LIMIT": SolverStatus.LIMIT,
        "UNBOUNDED_OR_INFEASIBLE": SolverStatus.INFEASIBLE_OR_UNBOUNDED,
        "REACHED_ITERATION_LIMIT": SolverStatus.LIMIT,
    }
    for name, number in json.loads(done.stdout).items():
        told = status_of(highs.STATUSES, str(number))
        assert told is not None, name
        short = name[len("MODEL_STATUS_") :]
        assert told.status is meant.get(short, told.status), name


def test_esolver() -> None:
    found = [
        re.fullmatch(r"status =? ?([A-Z_]+)|([A-Z_]+) \(ending now\)", text)
        for text in strings("/usr/bin/esolver", LIBRARIES + "libqsopt_ex.so.*")
    ]
    assert {at[1] or at[2] for at in found if at} == words_of(esolver.STATUSES)


def test_no_words_stand_twice() -> None:
    for table in TABLES:
        assert len(words_of(table)) == len(table)


@pytest.mark.parametrize("words", ["Optimal", "optimal", " OPTIMAL\n"])
def test_capitals_do_not_count(words: str) -> None:
    told = status_of(coin.STATUSES, words)
    assert told is not None and told.status is SolverStatus.OPTIMAL


def test_words_in_a_log() -> None:
    log = "a line\nPROBLEM HAS NO FEASIBLE SOLUTION\n"
    told = status_in_log(glpsol.LOG_STATUSES, log)
    assert told is not None and told.status is SolverStatus.INFEASIBLE
    assert status_in_log(glpsol.LOG_STATUSES, "nothing of that") is None


@pytest.mark.parametrize("table", TABLES)
def test_each_with_and_without_a_point(table: Sequence[ToldStatus]) -> None:
    """A limit is one with or without a point; a status that says little is a point, or no answer."""
    little = (SolverStatus.FEASIBLE, SolverStatus.NO_ANSWER)
    for told in table:
        found = answer_of_status(told, told.words, has_point=True)
        if told.status is SolverStatus.LIMIT:
            assert found.status is SolverStatus.LIMIT_WITH_POINT
            without = answer_of_status(told, told.words, has_point=False)
            assert without.status is SolverStatus.LIMIT
        elif told.status in little:
            assert found.status in little and found.is_gap == told.is_gap
            with pytest.raises(UnclearAnswer, match="it ended with"):
                answer_of_status(told, told.words, has_point=False)
        else:
            assert (found.status, found.text) == (told.status, told.text)


def test_an_unknown_status() -> None:
    found = answer_of_status(None, "Quite done", has_point=True)
    assert found.status is SolverStatus.FEASIBLE
    assert found.text == "a point, and it ended with `Quite done`"
    with pytest.raises(UnclearAnswer):
        answer_of_status(None, "Quite done", has_point=False)
