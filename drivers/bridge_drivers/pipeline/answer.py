"""A solver's answer in decimals, and the text of it that `bridge return` takes.

The type is `Answer`: `answered_run` makes it of what a solver found, `resolution` moves it to what
was proved, `certification` judges it, and `outputs` names its numbers.
"""

from __future__ import annotations

import copy
from dataclasses import replace
from fractions import Fraction
from functools import cached_property
from itertools import islice
from typing import Iterable, Iterator, Mapping, Sequence

from ..system.codes import Code
from ..model.analysis import NO_RESIDUAL, Residual, residual_of, worst_residual
from ..model.linear_program import LinearProgram, ObjectiveTerms
from ..solvers.base import SolverAnswer, SolverStatus
from ..formats.numbers import Number, decimals, nearest_double, read_fraction, require_finite
from .settings import Settings

NEAR_WHOLE = 1e-5  # from a whole number: so near, a value of an integer column is meant to be it
NEAR_DUAL = 1e-7  # of a dual or of 1: so near, a proved dual is the solver's
LONGEST_FRACTION = 40  # characters of an objective that is told as a fraction
LINES_AT_ONCE = 1 << 14  # lines of numbers that are joined in one piece

CODE_OF_STATUS: Mapping[SolverStatus, Code] = {
    SolverStatus.OPTIMAL: Code.SOLVED,
    SolverStatus.FEASIBLE: Code.UNSURE,
    SolverStatus.INFEASIBLE: Code.INFEASIBLE,
    SolverStatus.INFEASIBLE_OR_UNBOUNDED: Code.INFEASIBLE_OR_UNBOUNDED,
    SolverStatus.UNBOUNDED: Code.UNBOUNDED,
    SolverStatus.LIMIT_WITH_POINT: Code.LIMIT_WITH_POINT,
    SolverStatus.LIMIT: Code.LIMIT,
    SolverStatus.NO_ANSWER: Code.NO_ANSWER,
}  # the code of a status where nothing else is known


class Answer:
    """An answer in decimals, with the code that it is passed on with.

    Its methods that answer another `Answer` leave this one as it is.

    Attributes:
        program: The program that it answers.
        found: What the solver answered, or what is passed on in its place: numbers by column and by
            row.
        settings: Those of the run.
        code: At first that of the solver's status.
        values: A decimal for each column of the program; None without a point.
        duals: A decimal for each row of the program, rates of change of the objective in its own
            sense; None where there are none.
        reduced_costs: A number for each column, in the same sense; None where there are none.
        rounded_values: How many of `values` are only the nearest decimals of fractions.
        rounded_duals: How many of `duals` are.
        distances: How far values of integer columns are from a whole number, of those that are
            farther than NEAR_WHOLE.
        rounds_integers: Whether values of integer columns are meant to be whole numbers: there are
            such columns, they are not relaxed, and round=0 was not given.
    """

    def __init__(self, program: LinearProgram, found: SolverAnswer, settings: Settings) -> None:
        """Makes decimals of what a solver found, integer columns at the whole numbers near them.

        Raises:
            NotDecimal: A number is infinite or not a number, or no decimal stands for it.
            LookupError: There are fewer values than columns.
        """
        self.program = program
        self.found = found
        self.settings = settings
        self.code = CODE_OF_STATUS[found.status]
        self.values: Sequence[str] | None = None
        self.duals: Sequence[str] | None = None
        self.reduced_costs: Sequence[Number] | None = None
        self.rounded_values = 0
        self.rounded_duals = 0
        self.distances: list[float] = []
        rounds = settings.round_integers and not settings.solver_settings.relax
        self.rounds_integers = rounds and program.integer_count > 0
        if found.values is not None:
            self.values, self.rounded_values = decimals(self._with_integers(found.values))
        if found.duals is not None:
            self.duals, self.rounded_duals = decimals(found.duals)
        if found.reduced_costs is not None:
            self.reduced_costs = require_finite(found.reduced_costs)

    @property
    def is_continuous(self) -> bool:
        """Whether the program has no integer columns, or they were relaxed (relax=1)."""
        return not self.program.integer_count or self.settings.solver_settings.relax

    @property
    def reduced_cost_texts(self) -> Sequence[str] | None:
        """A decimal of each reduced cost, by column; None where there are none.

        Fractions without a decimal have the nearest one. That is not counted: nothing checks
        reduced costs.
        """
        costs = self.reduced_costs
        return None if costs is None else decimals(costs)[0]

    def rounded_parts(self) -> str:
        """What of it is only the nearest decimals of fractions, in words.

        `values`, `duals` or both; "" where nothing is.
        """
        counts = {"values": self.rounded_values, "duals": self.rounded_duals}
        return " and ".join(name for name, count in counts.items() if count)

    @cached_property
    def doubles(self) -> list[float]:
        """The nearest double of each of `values`, by column; empty without a point."""
        texts = self.values or []
        known = {text: float(text) for text in set(texts)}
        return list(map(known.__getitem__, texts))

    @cached_property
    def objective_terms(self) -> ObjectiveTerms:
        """The objective's terms in doubles, in its own sense, at the values that are written.

        Only with a point.
        """
        return self.program.objective_terms(self.doubles)

    @cached_property
    def residual(self) -> Residual:
        """By how much the values that are written miss the row or bound that they miss most.

        Where values of integer columns are far from whole numbers, it is the largest of these
        distances; without a point it is NO_RESIDUAL.
        """
        if self.distances:
            return residual_of(max(self.distances), "a whole number")
        if self.values is None:
            return NO_RESIDUAL
        return worst_residual(self.program, self.values, wants_integers=self.rounds_integers)

    def is_usable(self) -> bool:
        """Whether the solver need not be asked once more for it.

        That is: its code is not that of `infeasible or unbounded`, and its point, where it has one,
        misses the program by no more than is tolerated.
        """
        is_clear = self.code != Code.INFEASIBLE_OR_UNBOUNDED
        return is_clear and not self.residual.is_significant()

    def notes(self) -> list[str]:
        """Lines for the message on the values that are written.

        They tell of integer columns that are not near whole numbers, and of fractions that are
        rounded to decimals.
        """
        notes = []
        if self.distances:
            count = len(self.distances)
            notes.append(
                f"{count} integer variables are not within {NEAR_WHOLE:g} of a whole number"
            )
        rounded = self.rounded_values + self.rounded_duals
        if rounded:
            notes.append(
                f"{rounded} exact values have no decimal of at most 38 digits; "
                "the nearest ones are written"
            )
        return notes

    def objective_text(self) -> str | None:
        """The objective in its own sense, for a message; None without a point.

        It is the solver's own where that is a fraction (of more than LONGEST_FRACTION characters
        its nearest double); else ten digits of the double at the values that are written.
        """
        if self.values is None:
            return None
        objective = self.found.objective
        if not isinstance(objective, Fraction):
            return f"{self.objective_terms.value:.10g}"
        text = str(objective)
        if len(text) <= LONGEST_FRACTION:
            return text
        double = nearest_double(objective)
        near = "beyond doubles" if double is None else f"{double:.17g}"
        return f"{near} (a fraction of {len(text)} digits)"

    def with_code(self, code: Code) -> Answer:
        """The same answer with another code."""
        other = copy.copy(self)
        other.code = code
        return other

    def without_point(self, code: Code) -> Answer:
        """An answer with this code, the solver's status and its words, and no numbers at all."""
        other = Answer(
            self.program, SolverAnswer(self.found.status, self.found.text), self.settings
        )
        other.code = code
        return other

    def without_duals(self) -> Answer:
        """The same values without duals and reduced costs.

        The basis is then not written either: it stands beside reduced costs alone.
        """
        return self.with_duals(None)

    def with_duals(self, duals: Sequence[str] | None) -> Answer:
        """The same values with other duals, and without reduced costs.

        The duals are a decimal for each row, none of them counted as rounded; None for none.
        """
        other = copy.copy(self)
        other.__dict__.pop("_body", None)
        other.duals = duals
        other.reduced_costs = None
        other.rounded_duals = 0
        return other

    def moved_near(
        self, values: Sequence[Number], duals: Mapping[int, Fraction], code: Code
    ) -> Answer:
        """The answer at a proved point that is its own but for digits.

        Reduced costs and basis still stand there.

        Args:
            values: Of the proved point, by column, that of a nonlinear objective's column too.
            duals: Those of the certificate, by row of the program. They take the place of its own
                where each is near its own (`_are_near`); rows that have none keep theirs.
            code: That it is passed on with.

        Returns:
            Without duals where it has none itself.
        """
        found = replace(self.found, values=values, objective=None)
        own = found.duals
        if duals and own is not None and _are_near(duals, own):
            found.duals = [duals.get(row, dual) for row, dual in enumerate(own)]
        other = Answer(self.program, replace(found, reduced_costs=None), self.settings)
        other.found = found
        other.reduced_costs = self.reduced_costs
        other.code = code
        return other if self.duals is not None else other.without_duals()

    def moved_to(
        self, values: Sequence[Number], duals: Mapping[int, Fraction], code: Code
    ) -> Answer:
        """The answer at another point, without its own duals, reduced costs and basis.

        Args:
            values: By column, that of a nonlinear objective's column too.
            duals: Those of the certificate, by row of the program. They are taken, with the reduced
                costs that they leave, where each row has one and the program is continuous; else
                there are none.
            code: That it is passed on with.
        """
        has_duals = len(duals) == len(self.program.names.rows) and self.is_continuous
        given = [duals[row] for row in sorted(duals)] if has_duals else None
        found = replace(
            self.found,
            values=values,
            duals=given,
            reduced_costs=None if given is None else exact_reduced_costs(self.program, given),
            objective=None,
            column_basis=None,
            row_basis=None,
        )
        return Answer(self.program, found, self.settings).with_code(code)

    def text(self, message: Sequence[str]) -> bytes:
        """The text that `bridge return` makes a .sol of, in bytes.

        It has the code, the objective's number from 0, the message, and the numbers.

        Args:
            message: Its lines, without their ends.
        """
        lines = [
            "answer 1",
            f"status {int(self.code)}",
            f"objno {self.settings.objective}",
            *(f"message {line}" for line in message),
        ]
        return ("\n".join(lines) + "\n").encode() + self._body

    def _with_integers(self, values: Sequence[Number]) -> Sequence[Number]:
        """The values by column, integer ones within NEAR_WHOLE of a whole number made that number.

        Adds to `distances` how far the others are; infinite ones stay as they are. Nothing is done
        unless `rounds_integers`.
        """
        if not self.rounds_integers:
            return values
        found = list(values)
        for column, is_whole in enumerate(self.program.written.is_integer):
            value = values[column]
            if is_whole and abs(float(value)) < float("inf"):
                nearest = round(value)
                distance = abs(float(nearest - value))
                if distance <= NEAR_WHOLE:
                    found[column] = nearest
                else:
                    self.distances.append(distance)
        return found

    @cached_property
    def _body(self) -> bytes:
        """The lines of the numbers for `bridge return`: `col NAME V`, `row NAME V` and suffixes."""
        columns, rows = self.program.names.columns, self.program.names.rows
        parts: list[Iterator[bytes]] = []
        if self.values is not None:
            parts.append(_lines("col", zip(columns, self.values)))
        if self.duals is not None:
            parts.append(_lines("row", zip(rows, self.duals)))
        parts += self._suffixes()
        return b"".join(piece for part in parts for piece in part)

    def _suffixes(self) -> Iterator[Iterator[bytes]]:
        """The lines of the suffixes `rc` (reduced costs) and `sstatus` (the basis).

        Without reduced costs there are none.

        Reduced costs of 0 are left out, but where all are 0 the first is written, so that the
        suffix is there.
        """
        columns, rows = self.program.names.columns, self.program.names.rows
        costs = self.reduced_cost_texts
        if costs is None:
            return
        if costs:
            known = [pair for pair in zip(columns, costs) if pair[1] != "0"]
            yield _lines("suffix 4 rc", known or [(columns[0], costs[0])])
        of_columns, of_rows = self.found.column_basis, self.found.row_basis
        if of_columns and of_rows is not None:
            yield _lines("suffix 0 sstatus", zip(columns, map(int, of_columns)))
            yield _lines("suffix 1 sstatus", zip(rows, map(int, of_rows)))


def exact_reduced_costs(program: LinearProgram, duals: Sequence[Fraction]) -> list[Fraction]:
    """What duals leave of the costs, c - A'y, one for each column, in the objective's own sense.

    Args:
        program: Its rows as they are exported.
        duals: y, one for each row, in the objective's own sense.
    """
    numbers = list(map(read_fraction, program.written.numbers))
    costs = [Fraction(0)] * len(program.names.columns)
    for column, text in program.cost_texts.items():
        costs[column] = read_fraction(text)
    written = program.written
    places = (written.entry_rows, written.entry_columns, written.entry_numbers)
    for row, column, number in zip(*places):
        if row >= 0 and duals[row]:
            costs[column] -= duals[row] * numbers[number]
    return costs


def is_point(values: Sequence[str], point: Sequence[Fraction] | None) -> bool:
    """Whether decimals, one for each variable of the file, are this point exactly.

    False without a point.
    """
    if point is None or len(point) != len(values):
        return False
    known = {text: Fraction(text) for text in set(values)}
    return all(known[text] == value for text, value in zip(values, point))


def _are_near(duals: Mapping[int, Fraction], own: Sequence[Number]) -> bool:
    """Whether each proved dual is the solver's own but for rounding.

    That is |y - own| <= NEAR_DUAL * max(1, |y|).

    Args:
        duals: The proved ones, by row; not each row need have one.
        own: The solver's, one for each row.
    """
    pairs = ((float(dual), float(own[row])) for row, dual in duals.items())
    return all(abs(proved - told) <= NEAR_DUAL * max(1.0, abs(proved)) for proved, told in pairs)


def _lines(head: str, pairs: Iterable[tuple[str, object]]) -> Iterator[bytes]:
    """The bytes of lines `HEAD NAME VALUE`, joined by LINES_AT_ONCE.

    Args:
        head: The words before the name.
        pairs: Names with their values, mostly decimals.
    """
    left = iter(pairs)
    while part := list(islice(left, LINES_AT_ONCE)):
        yield "".join([f"{head} {name} {value}\n" for name, value in part]).encode()
