"""Runs of solvers that stop at a limit, a gap or an interrupt, as they are stored."""

from __future__ import annotations

import random
from dataclasses import dataclass
from typing import Mapping, Sequence

from builders.nl_text import BINARY, Row, nl_text, Objective, real


@dataclass(frozen=True)
class StoppedRun:
    """A run that is stopped.

    Attributes:
        driver: whose solver it is.
        columns, rows: of the model.
        options: of the driver.
        codes: those that the answer may have; none where there is no answer.
        message: stands in the message.
        interrupt_after: seconds after which it is interrupted when it is stored; 0: it is not.
    """

    driver: str
    columns: int
    rows: int
    options: Sequence[str]
    codes: Sequence[int]
    message: str
    interrupt_after: float = 0.0

    def text(self) -> bytes:
        """Knapsacks over binary columns; for clp, which takes no integer ones, relaxed."""
        rng = random.Random(f"{self.columns} {self.rows}")
        weights = [_drawn(rng, self.columns) for _ in range(self.rows)]
        rows = [Row(None, sum(item) // 3, dict(enumerate(item))) for item in weights]
        column = real(0, 1) if self.driver == "clp" else BINARY
        costs = dict(enumerate(_drawn(rng, self.columns)))
        return nl_text([column] * self.columns, rows, [Objective("max", 0, costs)])


def _drawn(rng: random.Random, count: int) -> Sequence[int]:
    return [rng.randint(10, 99) for _ in range(count)]


AT_THE_GAP = "stopped at the gap of 40.00 % that was asked for"
AT_THE_TIME = "the time limit with a feasible"
STOPPED_RUNS: Mapping[str, StoppedRun] = {
    "cbc gap": StoppedRun("cbc", 20, 5, ["mipgap=0.4"], [0, 100], AT_THE_GAP),
    "cbc time": StoppedRun("cbc", 60, 20, ["timelim=1"], [400], AT_THE_TIME),
    "cbc nodes": StoppedRun(
        "cbc",
        60,
        20,
        ["extra=-maxN 1"],
        [400],
        "the limit of iterations, nodes or solutions with a feasible",
    ),
    "glpsol gap": StoppedRun("glpsol", 20, 5, ["mipgap=0.4"], [0, 100], AT_THE_GAP),
    "glpsol time": StoppedRun("glpsol", 100, 30, ["timelim=1"], [400], AT_THE_TIME),
    "highs gap": StoppedRun("highs", 20, 5, ["mipgap=0.4"], [0, 100], AT_THE_GAP),
    "highs time": StoppedRun("highs", 60, 20, ["timelim=1"], [400], AT_THE_TIME),
    "lp_solve gap": StoppedRun("lp_solve", 20, 5, ["mipgap=0.4"], [0, 100], AT_THE_GAP),
    "lp_solve time": StoppedRun("lp_solve", 100, 30, ["timelim=1"], [400], AT_THE_TIME),
    "clp iterations": StoppedRun("clp", 60, 20, ["extra=-maxIt 1"], [0, 100, 400, 450], ""),
    "cbc interrupt": StoppedRun(
        "cbc", 150, 40, [], [400], "interrupted with a feasible solution", interrupt_after=6.0
    ),
    "glpsol interrupt": StoppedRun("glpsol", 150, 40, [], [], "interrupted", interrupt_after=6.0),
    "lp_solve interrupt": StoppedRun(
        "lp_solve", 150, 40, [], [], "interrupted", interrupt_after=6.0
    ),
    "highs interrupt": StoppedRun("highs", 150, 40, [], [], "interrupted", interrupt_after=6.0),
}
