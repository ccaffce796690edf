"""A search that takes long, by two processes, as a command makes it: for tests of what ends it.

It prints the numbers of its workers, and at last what was proved or the signal that ended it.
"""

from __future__ import annotations

import random
import sys
from concurrent.futures import Future, ProcessPoolExecutor
from pathlib import Path

TESTS = Path(__file__).resolve().parent
sys.path[:0] = [str(TESTS), str(TESTS.parent), str(TESTS.parent.parent)]

from bridge_drivers.exact import parallel  # noqa: E402
from bridge_drivers.exact.certifier import certify  # noqa: E402
from bridge_drivers.exact.evidence import AnswerClaim  # noqa: E402
from bridge_drivers.exact.search_deadline import SearchDeadline  # noqa: E402
from bridge_drivers.exact.worker_pools import ProcessPool, UnitResult, WorkUnit  # noqa: E402
from bridge_drivers.model.integer_form import IntegerProgram  # noqa: E402
from bridge_drivers.system.errors import Interrupted  # noqa: E402
from bridge_drivers.system.signals import SIGNALS, interrupts_to  # noqa: E402
from judging import Judge  # noqa: E402
from programs import Column, Row, program  # noqa: E402


def market_split(equations: int) -> IntegerProgram:
    """Halves of many sums at once: that there are none takes a tree without end."""
    rng, count = random.Random(equations), 10 * (equations - 1)
    rows = []
    for _ in range(equations):
        sizes = [rng.randint(0, 99) for _ in range(count)]
        rows.append(Row(sum(sizes) // 2, sum(sizes) // 2, {j: a for j, a in enumerate(sizes) if a}))
    return program([Column(0, 1, is_integer=True) for _ in range(count)], rows)


class TellingPool(ProcessPool):
    """Prints the numbers of its workers once, when both work."""

    has_told = False

    def submit(self, unit: WorkUnit) -> Future[UnitResult]:
        future = super().submit(unit)
        executor = self.executor()
        assert isinstance(executor, ProcessPoolExecutor)
        workers = list(executor._processes)
        if len(workers) == self.workers and not self.has_told:
            self.has_told = True
            print(*workers, flush=True)
        return future


def main() -> None:
    SIGNALS.install()
    parallel.NODES_BEFORE_PARALLEL = 3
    pool = TellingPool(2)
    deadline = SearchDeadline(3600.0)
    hard = market_split(6)
    try:
        with interrupts_to(deadline.interrupt):
            claim = AnswerClaim.INFEASIBLE
            print(certify(hard, Judge(hard), claim=claim, deadline=deadline, pool=pool).line)
    except Interrupted as ended:
        print("signal", ended.number)
    finally:
        pool.close()


if __name__ == "__main__":
    main()
