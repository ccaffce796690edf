"""The two numbers by which a command tells other programs how it ended.

`pipeline.outcome` decides AMPL's code; each class of `system.errors` has its exit status.
"""

from __future__ import annotations

import enum


class Code(enum.IntEnum):
    """AMPL's code of an outcome (`solve_result_num`).

    AMPL reads 0-99 as solved, 100-199 solved?, 200-299 infeasible, 300-399 unbounded, 400-499
    limit, 500-599 failure.
    """

    SOLVED = 0
    UNSURE = 100  # the solver says optimal, and its point misses the model
    INFEASIBLE = 200
    INFEASIBLE_OR_UNBOUNDED = 290
    UNBOUNDED = 300
    LIMIT_WITH_POINT = 400
    LIMIT = 450
    SAID_INFEASIBLE = 460  # the solver says 200, and nothing proves it
    SAID_INFEASIBLE_OR_UNBOUNDED = 465  # it says 290: which of both is not known
    SAID_UNBOUNDED = 470  # it says 300, and nothing proves it
    REFUSED = 501  # the proved program takes no such model
    BAD_OPTION = 502
    NOT_FOUND = 503  # the proved program or the solver
    FILE = 504  # a file cannot be read or written
    TAKES_NO_INTEGERS = 505  # the solver, where the model has integer variables
    NO_ANSWER = 506  # the solver's answer is missing or not usable
    NOT_RETURNED = 507  # `bridge return` refuses the answer
    FAULT = 599  # of the driver itself
    STOPPED = 600  # by a signal; no .sol says so


class ExitStatus(enum.IntEnum):
    """How a command ends. A driver that is called with -AMPL has 0 wherever a .sol stands.

    From 129 on it is 128 and the number of the signal that ended it.
    """

    DONE = 0
    FAILED = 1
    REFUSED = 2
    BAD_WORDS = 3
    UNREAD = 4
    UNWRITTEN = 5
    NO_MEMORY = 6
    NOT_SETTLED = 7
    NOT_THERE = 127
    HUNG_UP = 129
    INTERRUPTED = 130
    QUIT = 131
    TERMINATED = 143
