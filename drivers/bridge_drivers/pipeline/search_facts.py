"""What a message tells of the search for a certificate, beside what it proved.

`certification` keeps it, `certificate_search` fills it in, `answered_run` tells it. It stands alone
so that a run without a certificate loads nothing of the search.
"""

from __future__ import annotations

from dataclasses import dataclass
from typing import NamedTuple


@dataclass
class SearchFacts:
    """What became of the last search; the defaults are those of no search.

    Attributes:
        is_interrupted: It was ended by the user.
        is_out_of_time: It was a long one, and had all its time.
        pool_note: A line on the processes that searched; "" where there is nothing to say.
        start_note: A line on a start that took the answer's place; "" where none did.
        contradiction: A line with the rows and bounds that contradict each other; "" unless the
            model is proved infeasible.
        lacks_library: A long search was asked for, and CLP's library is not installed.
    """

    is_interrupted: bool = False
    is_out_of_time: bool = False
    pool_note: str = ""
    start_note: str = ""
    contradiction: str = ""
    lacks_library: bool = False


class WrittenNumbers(NamedTuple):
    """Values and duals as decimals, in the order of the file's variables and constraints.

    The duals are empty unless the program is continuous.
    """

    values: list[str]
    duals: list[str]
