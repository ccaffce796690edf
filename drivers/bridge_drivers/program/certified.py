"""The .sol texts that `bridge certified` writes of certificates that hold: read, and never changed."""

from __future__ import annotations

import re
from typing import Mapping, NamedTuple

from ..system.codes import Code
from .calls import Reply
from .verdict import Claim, NoVerdict, Statement, statement_of

# the solver's code of each claim, as the proved program writes it
CODES: Mapping[Claim, Code] = {
    Claim.OPTIMAL: Code.SOLVED,
    Claim.WITHIN: Code.UNSURE,
    Claim.FEASIBLE: Code.UNSURE,
    Claim.BOUND: Code.LIMIT,
    Claim.INFEASIBLE: Code.INFEASIBLE,
    Claim.UNBOUNDED: Code.UNBOUNDED,
}
END = re.compile(rb"objno [0-9]{1,10} (?P<code>[0-9]{1,3})")
MESSAGE_END = b"\n\nOptions\n"


class CertifiedSol(NamedTuple):
    """A .sol text of a certificate that holds.

    Attributes:
        text: Its bytes, as the proved program wrote them.
        statement: What its message says: the verdict.
        code: AMPL's code in its last line, which is the one of that claim.
    """

    text: bytes
    statement: Statement
    code: Code


def read_certified(reply: Reply) -> CertifiedSol:
    """The text of a reply with status 0.

    Raises:
        NoVerdict: It is none that the proved program writes: its message is no verdict, or its last
            line has another code.
    """
    message, end, rest = reply.out.partition(MESSAGE_END)
    statement = statement_of(message.decode("latin-1"))
    last = END.fullmatch(rest.rstrip(b"\n").rpartition(b"\n")[2])
    if reply.status != 0 or not end or statement is None or last is None:
        raise NoVerdict(reply)
    code = CODES[statement.claim]
    if int(last["code"]) != code:
        raise NoVerdict(reply)
    return CertifiedSol(reply.out, statement, code)
