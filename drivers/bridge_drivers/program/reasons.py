"""The reasons that the proved program gives for a refusal: what each means, and what helps.

`nl-bridge help refusals` lists them; `nl-bridge explain` says of one refusal what is here, too.
"""

from __future__ import annotations

import re
import textwrap
from typing import Dict, List, Mapping, NamedTuple, Tuple

LISTED_WIDTH = 96  # columns of the list of all reasons
OPCODE = re.compile(r"refused opcode \d+", re.ASCII)


class Reason(NamedTuple):
    """One reason, or some that mean the same.

    Attributes:
        words: As the program tells each; an operator's number is left out.
        text: What it means; empty where the words say it.
        more: What the list of all reasons adds to that; may be empty.
        remedy: What helps; may be empty.
    """

    words: Tuple[str, ...]
    text: str = ""
    more: str = ""
    remedy: str = ""


REASONS: Mapping[str, Tuple[Reason, ...]] = {
    "models": (
        Reason(
            ("nonlinear",),
            "the model is not linear there",
            more="a product of two expressions that depend on variables, a quotient by one, or"
            " a power, least, greatest, floor, ceiling or absolute value of one; a "
            "product with an expression that is constant by value, x*(y-y), is taken",
            remedy="linearise it: a product with a whole variable by bounds (big M), abs, min "
            "and max by rows and one more variable",
        ),
        Reason(
            ("refused opcode",),
            more="a function that no linear file has, by its number in the .nl format: sin 41,"
            " if 35, exp 44",
            remedy="leave it out, or tabulate it as a piecewise-linear function written with "
            "linear rows",
        ),
        Reason(
            ("refused leaf",),
            "an imported function or a string",
            remedy="leave it out, or tabulate it as a piecewise-linear function written with "
            "linear rows",
        ),
        Reason(
            ("refused count",),
            "logical constraints, complementarity, networks or functions",
            more="by the header's counts",
            remedy="write them as linear rows",
        ),
        Reason(
            ("complementarity",),
            "complementarity conditions are not taken",
            remedy="two rows and a whole variable",
        ),
        Reason(
            ("refused segment",),
            "logical constraints or imported functions",
            more="a piece F, L or K, which is the other form of k",
            remedy="write them as linear rows; write the file with k",
        ),
        Reason(
            ("special ordered sets",),
            "sets declared by the suffix sosno are not taken",
            remedy="write the sets as rows with whole variables",
        ),
        Reason(
            ("binary file",),
            "only text .nl files are read: in AMPL, write gNAME",
            remedy="the drivers (bridge-cbc and kin) read binary files too",
        ),
        Reason(
            ("division by zero",),
            "a divisor is 0",
            more="by value",
            remedy="mend the data",
        ),
        Reason(
            ("refused power",),
            "a power's exponent must be a whole number from 0 to 127",
            remedy="compute it in the data",
        ),
        Reason(
            ("too wide",),
            "an exact value does not fit 128 bits",
            more="most often many divisors, or numbers of 17 digits from binary arithmetic",
            remedy="round the data to the digits that are meant",
        ),
        Reason(
            ("row too wide",),
            "the row's exact values do not fit 128 bits",
            more="times the least whole number that makes them decimals, as of x/3 + y/7 + ..",
            remedy="multiply the row out by hand, or round its data",
        ),
        Reason(
            ("objective too wide",),
            "the objective's exact values do not fit 128 bits",
            remedy="multiply it out by hand, or round its data",
        ),
        Reason(
            ("fold too large",),
            "the linear forms of the model have too many terms",
            more="coefficients of defined variables that use each other, above 2^23",
            remedy="make some defined variables true ones, with an equation",
        ),
        Reason(
            ("no such objective",),
            "the file has fewer objectives; they count from 0 here",
        ),
        Reason(
            ("too large",),
            "more than the file may hold",
            more="docs/user/formats.md has the limits",
            remedy="split the model",
        ),
        Reason(
            ("empty interval",),
            "a lower bound is above its upper bound, so nothing satisfies the model",
        ),
        Reason(
            ("missing segment",),
            "no O of an objective, no r of constraints or no b of variables; MiniZinc writes "
            "no b for a model of bounds alone: add a constraint on two variables",
            remedy="MiniZinc: add a constraint on two variables",
        ),
    ),
    ".nl files that were cut, edited or made by a program with a fault": (
        Reason(
            ("bad first line",),
            "this is no text .nl file",
            more="it does not begin with g and a number",
        ),
        Reason(
            ("refused options",),
            "the first line's options are not taken",
            more="more than four, fewer than it says, or 3 as the second, which announces a "
            "further line",
            remedy="write the file anew by AMPL",
        ),
        Reason(
            ("bad header number", "counts disagree"),
            more="lines 2 to 10: no whole number; groups of variables larger than what they "
            "are part of (all groups at line 7)",
        ),
        Reason(
            ("end in header",),
            "an .nl file begins with ten lines",
        ),
        Reason(
            ("unknown segment", "bad segment head"),
            more="a letter that the format has not; a wrong number of words, or a wrong word",
        ),
        Reason(
            ("index out of range", "repeated segment", "repeated index"),
            more="what the header's counts do not allow; the same thing twice",
        ),
        Reason(
            ("short segment", "extra line"),
            more="fewer or more lines than the head says",
        ),
        Reason(
            ("bad line",),
            more="words that are not of this kind of line",
        ),
        Reason(
            ("bad number",),
            "not a decimal number, or beyond 38 digits (MiniZinc: without --hexafloat)",
            more="or not whole where it must be",
        ),
        Reason(
            ("binary bounds",),
            more="a binary variable whose bounds are not within 0 and 1",
        ),
        Reason(
            ("undefined",),
            "a defined variable that is used before its piece",
        ),
        Reason(
            ("nonzero count", "column count"),
            more="terms that are not as many as line 8, or the counts of k, say",
        ),
        Reason(
            ("line too long", "input too long"),
            more="more than 65,536 bytes on a line, more than 2^31 in a text",
        ),
    ),
    "MPS texts": (
        Reason(
            ("bad section",),
            "a section of another kind of model (SOS, QUADOBJ, CSECTION), or one out of its "
            "order",
            more="or twice",
            remedy="what is no linear integer program cannot be read",
        ),
        Reason(
            ("bad line",),
            more="a wrong number of words: often fixed columns with more behind them, or "
            "blanks in names",
            remedy="fixed FILE for the one; names with blanks are not read",
        ),
        Reason(
            ("bad bound kind",),
            "not LO, UP, FX, FR, MI, PL, BV, LI or UI",
        ),
        Reason(
            ("bad marker",),
            more="neither INTORG nor INTEND",
        ),
        Reason(
            ("unknown row",),
            "no line of ROWS has it",
        ),
        Reason(
            ("unknown column",),
            "no line of COLUMNS has it",
        ),
        Reason(
            ("column again",),
            "the lines of a column must stand together",
            remedy="sort them by columns",
        ),
        Reason(
            ("repeated row", "repeated entry", "repeated bound"),
            more="a name that was given before",
        ),
        Reason(
            ("second set",),
            "two right sides, ranges or sets of bounds",
            remedy="keep one",
        ),
        Reason(
            ("range on free row",),
            "a range for an N row",
            remedy="leave it out",
        ),
        Reason(
            ("no objective",),
            "no N row",
            remedy="add one",
        ),
        Reason(
            ("no end",),
            "the text ends before ENDATA",
            remedy="it was cut",
        ),
    ),
    "answers, .sol files and lists of names": (
        Reason(
            ("unknown name",),
            "no column, or no row that was exported, has it",
            remedy="the names that export wrote",
        ),
        Reason(
            ("partial answer",),
            "values for some columns or duals for some rows, and not for all",
            remedy="all, or none",
        ),
        Reason(
            ("repeated",),
            more="a value that an earlier line has given",
        ),
        Reason(
            ("dual too wide",),
            "a dual value does not fit 128 bits",
            more="times its row's factor",
            remedy="round the dual",
        ),
        Reason(
            ("other counts",),
            "it is of another model",
        ),
        Reason(
            ("no dual values",),
            "the answer has none, and bridge checks none without them",
            remedy="a solver that gives duals; for a whole program prove",
        ),
        Reason(
            ("no primal values",),
            "the answer has none",
        ),
        Reason(
            ("other count",),
            "names that are not as many as the model has",
            remedy="the lists written with this file",
        ),
        Reason(
            ("bad name",),
            "not one word of 1 to 255 bytes",
        ),
        Reason(
            ("repeated name",),
            "an earlier line has it",
        ),
        Reason(
            ("reserved name",),
            "it begins with @, or is 'MARKER'",
        ),
    ),
    "certificates": (
        Reason(
            ("bad line",),
            more="another first word than the claim and the nodes before ask for, or a wrong "
            "number of words; duals under infeasible outside the proof of a lemma",
            remedy="docs/user/formats.md has the order",
        ),
        Reason(
            ("bad number",),
            more="no number, or not whole in a split or plane; a whole T above 2^127 - 2; a "
            "plane or lemma without lines; another line where one of a list is awaited",
            remedy="the N of a list is its number of lines",
        ),
        Reason(
            ("index out of range",),
            more="a variable that the file has not; a row that is neither a constraint nor was"
            " added above this leaf",
            remedy="the proof of a lemma has not the lemma's own row",
        ),
        Reason(
            ("not whole",),
            more="a split or plane on a continuous variable",
            remedy="a lemma may have any variables",
        ),
        Reason(
            ("index out of order",),
            more="not above the one before in its list",
            remedy="sort it, and add what stands twice",
        ),
        Reason(
            ("extra line", "short file"),
            more="more or less than the claim asks for",
            remedy="a split, a plane and a lemma have two trees behind them",
        ),
        Reason(
            ("too large",),
            more="more nodes, lines of lists or added rows than docs/user/formats.md allows",
        ),
        Reason(
            ("value not decimal",),
            "a value of the certificate's point, such as 1/3, has no decimal, and a .sol file has "
            "no other numbers",
            more="the certificate holds",
            remedy="another point with the same claim; `verify` takes it as it stands",
        ),
    ),
}  # by the kind of text that is refused; of some words the first kind that has them counts


def _by_words() -> Dict[str, Reason]:
    """Each reason by each of its words; of words that stand twice the first kind counts."""
    found: Dict[str, Reason] = {}
    for reasons in REASONS.values():
        for reason in reasons:
            for words in reason.words:
                found.setdefault(words, reason)
    return found


REASON_OF_WORDS: Mapping[str, Reason] = _by_words()


def is_opcode(words: str) -> bool:
    """Whether a reason is that of an operator which no linear model has, with its number."""
    return OPCODE.fullmatch(words) is not None


def reason_of(words: str) -> Reason:
    """What there is to say of a reason, which may be one that is not listed."""
    key = "refused opcode" if is_opcode(words) else words
    return REASON_OF_WORDS.get(key, Reason((words,)))


def listed_reasons() -> str:
    """All reasons, by the kind of text that is refused, as `nl-bridge help refusals` prints them."""
    lines: List[str] = []
    for title, reasons in REASONS.items():
        lines.append(f"{title}:")
        lines += map(_paragraph, reasons)
    return "".join(line + "\n" for line in lines)


def _paragraph(reason: Reason) -> str:
    """A reason in lines of LISTED_WIDTH: its words, what they mean, and what helps."""
    text = "; ".join(filter(None, (reason.text, reason.more)))
    if reason.remedy:
        text += f" => {reason.remedy}"
    first = f"  {', '.join(reason.words)}:  "
    return textwrap.fill(text, LISTED_WIDTH, initial_indent=first, subsequent_indent=" " * 6)
