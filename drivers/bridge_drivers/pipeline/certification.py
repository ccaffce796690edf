"""What is claimed and proved of an answer, and what is told of that.

The last line of a message is the verdict of `bridge verify`, word for word, or `not proved: ..`.
Nothing in it rests on this package: the certificate is a text about the model's file.
`answered_run` asks an `AnswerCertifier` for all of this.
"""

from __future__ import annotations

from fractions import Fraction
from typing import TYPE_CHECKING, NamedTuple, Optional, Sequence

from ..exact.evidence import NOT_PROVED, Evidence
from ..formats.sol import read_sol
from ..model.analysis import TOLERANCE_OF_INTEGERS, worst_residual
from ..model.linear_program import EPIGRAPH_COLUMN, EPIGRAPH_ROW
from ..program.bridge import Bridge
from ..program.refusal import Refusal
from ..program.verdict import Claim, Statement, objective_lattice, sentence, statement_of
from ..solvers.run import SolverRun
from ..system.deadline import Deadline
from ..system.errors import DeadlineExceeded
from ..system.late import late_module
from .answer import Answer, is_point
from .check_words import feasible_words, has_rounded_value, shown_words, tells_value
from .monitor import Monitor
from .search_facts import SearchFacts, WrittenNumbers
from .settings import Settings
from .start_point import StartPoint
from .stored_certificate import CertificateStore, StoredCertificate
from .time_shares import TimeShares

if TYPE_CHECKING:
    from . import certificate_search
else:
    certificate_search = late_module(".certificate_search", __package__)

LEAST_SHARE = 1e-15  # of the largest term: less is not told by doubles
OUT_OF_TIME = "no verdict, since the time was over"
NO_SEARCH = (
    "prove=1 needs the library of CLP, which is not there (Debian: apt install coinor-libclp1)"
)


class Returned(NamedTuple):
    """An answer as `bridge return` took it, perhaps without its duals, and its .sol.

    The .sol is empty where none is made.
    """

    answer: Answer
    sol: bytes


class AnswerCertifier:
    """Asks the proved program about answers to one model.

    Attributes:
        bridge: The proved program.
        model: The path of the model as the proved program reads it.
        run: The solver's run, with the program and a folder for files.
        settings: Those of the whole run.
        monitor: Is told what goes on, and the seconds of each part.
        shares: Of the time of the whole run.
        program: That of the run.
        is_mps: The model is an MPS file, of which no .sol is made: values are judged by a
            certificate.
        is_relaxed: The program has integer variables, and they are relaxed.
        facts: What is told of the last search for a certificate.
        store: Keeps the certificate that is accepted.
        start: Values that the search may begin with; None where there are none.
    """

    def __init__(
        self,
        bridge: Bridge,
        model: str,
        run: SolverRun,
        settings: Settings,
        monitor: Monitor,
        shares: Optional[TimeShares] = None,
    ) -> None:
        """For one run of a solver, whose program decides what is judged how.

        Args:
            bridge: The proved program.
            model: The path of the model as the proved program reads it.
            run: The solver's run, which need not have begun.
            settings: Those of the whole run.
            monitor: Is told what goes on.
            shares: Of the time of the whole run; None for no limit.
        """
        self.bridge = bridge
        self.model = model
        self.run = run
        self.settings = settings
        self.monitor = monitor
        self.shares = shares or TimeShares(Deadline())
        self.program = run.program
        self.is_mps = not run.program.is_exported
        self.is_relaxed = bool(run.program.integer_count) and run.settings.relax
        self.facts = SearchFacts()
        self.start: Optional[StartPoint] = None
        self.store = CertificateStore(
            bridge,
            model,
            maximise=run.program.maximise,
            overwrite=settings.certificate.overwrite,
        )

    def returned(
        self, answer: Answer, lines: list[str], name: str = "bridge", place: int = 0
    ) -> Returned:
        """An answer and its .sol by `bridge return`.

        That is asked where a .sol is wanted or there are duals, but of an MPS file never.

        Where its duals are too wide it is returned without them, and a line says so. The text and
        the .sol are written into the run's folder.

        Args:
            answer: What is passed on.
            lines: The message so far, which the .sol has.
            name: Of both files, without their ends.
            place: Where in `lines` a line on duals that are left out is inserted.

        Raises:
            Refusal: The proved program does not take it.
        """
        wants_sol = self.settings.makes_sol or bool(self.settings.keep_folder)
        if self.is_mps or (answer.duals is None and not wants_sol):
            return Returned(answer, b"")
        text = self.run.write(name + ".txt", answer.text(lines))
        try:
            with self.monitor.timing("return"):
                sol = self.bridge.return_(self.model, text)
        except Refusal as fault:
            if answer.duals is None or not fault.told.endswith("dual too wide"):
                raise
            lines.insert(place, f"duals are left out: {fault.text}")
            return self.returned(answer.without_duals(), lines, name, place)
        self.run.write(name + ".sol", sol)
        return Returned(answer, sol)

    def checked(self, returned: Returned, verdict: Evidence) -> str:
        """What the proved program says of the values and duals that are passed on, in words.

        A .sol with the duals of a linear program is judged as it is, by `bridge check`. Values
        alone are judged by a certificate: the accepted one where its point is these values, else
        one that claims that they are feasible, and no more.

        Args:
            returned: What `returned` made last, whose .sol stands in the run's folder as
                bridge.sol.
            verdict: What is proved.

        Returns:
            As `check_words` and `feasible_words`; or why the proved program refuses it, or that the
                time was over.
        """
        try:
            return self._checked_in_time(returned, verdict)
        except DeadlineExceeded:
            return OUT_OF_TIME

    def _checked_in_time(self, returned: Returned, verdict: Evidence) -> str:
        """As `checked`; raises DeadlineExceeded where the verdict takes too long."""
        answer, sol = returned
        if not self.is_mps and answer.duals is not None and self.run.is_continuous():
            path = self.run.path("bridge.sol")
            try:
                with self.monitor.timing("check"):
                    deadline = self.shares.for_verdict()
                    return self.check_words(self.bridge.check(self.model, path, deadline))
            except Refusal as fault:
                return fault.text.removeprefix(path + ": ")
        values = read_sol(sol)[1] if sol else self._values_of_file(answer)
        known = statement_of(verdict.line) if verdict.is_proved else None
        if known is not None and known.value is not None and is_point(values, verdict.point):
            return feasible_words(known.value)
        return self._judged_values(values)

    def _values_of_file(self, answer: Answer) -> list[str]:
        """The decimals of an answer's values by the file's variable; empty without a point.

        The column of a nonlinear objective's value is left out.
        """
        values = list(answer.values or ())
        return values[:-1] if self.program.names.columns[-1:] == [EPIGRAPH_COLUMN] else values

    def _judged_values(self, values: Sequence[str]) -> str:
        """What the proved program says of a certificate that has values alone, in words.

        Args:
            values: A decimal for each of the file's variables.

        Raises:
            DeadlineExceeded: The verdict takes too long.
        """
        objective = 0 if self.is_mps else self.settings.objective
        text = certificate_search.certificate_of_values(values, objective)
        path = self.run.write("values.certificate", text)
        try:
            with self.monitor.timing("check"):
                judged = self.bridge.verify(self.model, path, self.shares.for_verdict())
        except Refusal as fault:
            return fault.text.removeprefix(path + ": ")
        if judged.statement is not None and judged.statement.value is not None:
            return feasible_words(judged.statement.value)
        word, *rest = judged.line.split()
        if word == "variable":
            return f"{self.named_part('column', int(rest[0]))} is not whole"
        return self.check_words(judged.line)

    def certify(self, answer: Answer) -> Evidence:
        """What is proved of an answer by a search (`CertificateSearch`), at its end; sets `facts`.

        The search is loaded when this is first called.
        """
        self.facts = SearchFacts()
        search = certificate_search.CertificateSearch(
            bridge=self.bridge,
            model=self.model,
            run=self.run,
            settings=self.settings,
            monitor=self.monitor,
            shares=self.shares,
            start=self.start,
            numbers=self.numbers,
            facts=self.facts,
        )
        return search.evidence(answer)

    def numbers(self, answer: Answer) -> WrittenNumbers:
        """The values and duals of an answer as they are written, in its .sol where one is made.

        Raises:
            Refusal: The proved program does not take the answer back.
        """
        sol = self.returned(answer, [], "numbers").sol
        if sol:
            duals, values = read_sol(sol)
        else:
            values, duals = self._values_of_file(answer), list(answer.duals or ())
        return WrittenNumbers(values, duals if self.run.is_continuous() else [])

    def closing_lines(
        self, verdict: Evidence, said: Statement | None, stored: StoredCertificate | None
    ) -> list[str]:
        """The last lines of a message, the verdict behind all.

        Before it stand the claim in words, what became of processes and certificate, and why no
        more is proved.

        A search that was asked for and cannot be made is told as `not proved`, with what is proved
        without it.

        Args:
            verdict: What is proved, or why nothing is.
            said: The same as a claim with its numbers; None where nothing is proved.
            stored: What was done with the certificate; None where none is wanted.
        """
        lines = [
            *self.claim_words(said, verdict.note),
            self.facts.contradiction,
            self.facts.pool_note,
        ]
        last = verdict.line
        is_settled = said is not None and said.claim.is_final
        if self.facts.lacks_library and not is_settled:
            lines.append(NO_SEARCH)
            if said is not None:
                last = f"{NOT_PROVED}there was no search; without it: {last}"
        if stored is not None:
            lines.append(stored.line)
        return [line for line in (*lines, verdict.note, last) if line]

    def stored(self, verdict: Evidence) -> StoredCertificate | None:
        """Keeps the accepted certificate, and says what was done; None where none is wanted."""
        target = self.settings.certificate.path
        if not target:
            return None
        if verdict.certificate is None:
            return self.store.without_certificate(target)
        return self.store.store(verdict.certificate, verdict.line, target)

    def check_line(self, answer: Answer, verdict: Evidence, told: str) -> str:
        """The line on what the proved program says of the values that are passed on.

        Where the values round a proved point, what they miss is told as rounding, and so is why
        they say another thing than an exact optimum.

        Args:
            answer: What is passed on.
            verdict: What is proved.
            told: The words of `checked`.
        """
        if told.endswith(" is broken"):
            told = self.broken_words(answer, verdict, told)
        said = statement_of(verdict.line)
        rounded = answer.rounded_parts()
        if said is not None and said.claim is Claim.OPTIMAL and rounded:
            if not tells_value(told, said.value):
                told += f"; the exact {rounded} are rounded to decimals in it"
        is_sol = self.settings.makes_sol and not self.is_mps
        return f"bridge check of the {'.sol' if is_sol else 'values'}: {told}"

    def broken_words(self, answer: Answer, verdict: Evidence, told: str) -> str:
        """By how much the values miss what they break, in place of words that end with `is broken`.

        It is told as a share of a row's largest term, at least LEAST_SHARE. Up to
        TOLERANCE_OF_INTEGERS, and where the exact point is proved, it is called rounding.

        Args:
            answer: What is passed on.
            verdict: What is proved.
            told: The words of `checked`.
        """
        share = max(worst_residual(self.program, answer.values or []).relative, LEAST_SHARE)
        by = f"missed by more than {share:.2g} of its largest term"
        if verdict.is_proved and verdict.point is not None and answer.rounded_values:
            return f"it has the exact point in decimals; no row or bound is {by}"
        if share <= TOLERANCE_OF_INTEGERS:
            return f"no row or bound is {by}, which is rounding"
        return f"{told}; no row or bound is {by}"

    def claim_words(self, said: Statement | None, note: str = "") -> list[str]:
        """A line with the claim in words, where that says more than the verdict.

        There is none of a final claim, but of an optimum that no short decimal is.

        Args:
            said: What is proved; None where nothing is.
            note: Why no more is proved; "" where that is not known.
        """
        if said is None or said.claim.is_final and not has_rounded_value(said):
            return []
        lattice = None if self.is_relaxed else objective_lattice(self.program)
        text = sentence(said, maximise=self.program.maximise, lattice=lattice)
        if said.claim is Claim.FEASIBLE and self.run.is_continuous():
            text += "" if note else "; no bound was found that says how good it is"
        elif said.claim is Claim.FEASIBLE:
            text += "; the search for a better one did not end"
            if not self.settings.certificate.prove:
                text += ": prove=1 goes on"
        return ["in words: " + text]

    def check_words(self, line: str) -> str:
        """A line of `bridge check` in words, with the user's names and decimals.

        It may also be one of `bridge verify` that accepts no point.
        """
        words = line.split()
        if words[0] in ("yes", "gap"):
            return shown_words(*map(Fraction, words[1:]))
        if words[0] not in ("row", "bound"):
            return f"exact values do not fit 128 bits ({line})"
        part = self.named_part(words[0], int(words[1]))
        if words[-1] == "broken":
            return f"{part if words[0] == 'row' else f'a bound of {part}'} is broken"
        if words[0] == "row":
            return f"the dual of {part} has the wrong sign"
        return f"the reduced cost of {part} has no bound to rest on"

    def named_part(self, kind: str, number: int) -> str:
        """A constraint (of the kind `row`) or variable (of any other), by number and by name.

        The number is the file's, from 0; the name is told where there is one.
        """
        names = self.program.own_names
        return names.constraint(number) if kind == "row" else names.variable(number)

    def named_place(self, exported: str) -> str:
        """A row or column by its name in the exported text: c and x with the file's number.

        The column and the row of a nonlinear objective's value are told as the objective's row, and
        what is no name of the text as it is: `a whole number`.
        """
        if exported in (EPIGRAPH_COLUMN, EPIGRAPH_ROW):
            return "the objective's row"
        kind, digits = "row" if exported.startswith("c") else "column", exported[1:]
        return self.named_part(kind, int(digits)) if digits.isdigit() else exported
