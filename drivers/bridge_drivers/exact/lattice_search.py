"""Small integer programs with equations, solved exactly over the lattice of the equations' solutions.

The integer solutions of equations A x = b are p + K z with z whole (by the Hermite normal form;
Schrijver 1986, corollary 5.3b), and there are fewer z than x. Where K is reduced (LLL), a search that
branches on the z, which are integer forms of x, ends soon where one on the columns does not (Aardal,
Hurkens and Lenstra 2000): `1000000007 x - 998244353 y = 1` needs one branch. Doubles do not hold the
numbers of such programs, so that each relaxation is solved in fractions.

Small programs whose rows have numbers that are too wide for doubles are searched in the same way, by
their integer columns.

`Refuter` asks for it before a solver's `infeasible` is believed, and `IntegerCertifier` before the
searches by CLP. What is found is a point, and mostly a tree that there is no better one.
"""

from __future__ import annotations

import copy
from fractions import Fraction
from math import floor
from typing import Callable, Dict, List, NamedTuple, Optional, Sequence

from ..model.integer_form import Bounds, IntegerProgram, Point, Row
from ..system.errors import SearchEnded
from .certificate import RowNumbering, tree_lines
from .clp import LpStatus
from .dual_bound import MultiplierKind
from .hermite import LARGEST_NUMBER, Equation, integer_equations
from .lattice import LLLReduction, column_widths, reduced_modulo
from .leaf_proofs import from_fractions
from .strategies import TreeText
from .rational_simplex import RationalSimplex, SimplexResult
from .tree import Split, Tree, leaf_of, node_count
from .work_limit import check_work

MOST_COLUMNS = 45  # integer ones
MOST_FORMS = 12  # dimensions of the lattice
MOST_ROWS = 60
MOST_NUMBERS = 600  # coefficients and columns
MOST_NODES = 200
WIDEST_RATIO = 2**50  # of coefficients of a row
LEAST_PRECISION = 1000  # numbers of the lattice are at least as large
LATTICE = "lattice"  # the strategy, as it is told

Form = Dict[int, int]  # coefficients by column, those that are not 0


class LatticeOptimum(NamedTuple):
    """What a search over a lattice found.

    Attributes:
        point: The best; None where there is none.
        tree: That no point is better, or that there is none; None where the search did not end, or
            a certificate does not hold its numbers.
    """

    point: Optional[Point]
    tree: Optional[TreeText]


def is_small_lattice(program: IntegerProgram) -> bool:
    """Whether a program is small enough for a search over a lattice, before its equations are
    looked at."""
    return (
        0 < sum(program.is_integer) <= MOST_COLUMNS
        and program.m <= MOST_ROWS
        and program.matrix.count + program.n <= MOST_NUMBERS
    )


def lattice_forms(program: IntegerProgram) -> Optional[List[Form]]:
    """Integer forms of the integer columns, in which the solutions of the equations are a lattice.

    At a point that satisfies the equations all integer columns are whole where all forms are.

    Returns:
        The thinnest first, none where the equations have one solution; None where the program has
        no equation of integer columns, or none that is solved in whole numbers, or the lattice has
        more than MOST_FORMS dimensions, or takes too long.
    """
    equations = integer_equations(program)
    columns = _integer_columns(program)
    if not equations:
        return None
    solved = HermiteForm(equations, columns)
    if not solved.has_whole_solution() or len(columns) - solved.rank > MOST_FORMS:
        return None
    vectors = solved.unimodular[solved.rank :]
    forms = _reduced_forms(program, columns, vectors, solved.inverse[solved.rank :])
    if forms is None:
        return None
    sides = [equation.coefficients for equation in equations]
    return [reduced_modulo(_by_column(columns, form), sides) for form in forms]


def _integer_columns(program: IntegerProgram) -> List[int]:
    """The places of a program's integer columns, in their order."""
    return [j for j, is_integer in enumerate(program.is_integer) if is_integer]


def _by_column(columns: Sequence[int], coefficients: Sequence[int]) -> Form:
    """A form by the program's columns, of which it has these coefficients in their order."""
    return {j: a for j, a in zip(columns, coefficients) if a}


def _reduced_forms(
    program: IntegerProgram,
    columns: Sequence[int],
    vectors: List[List[int]],
    forms: List[List[int]],
) -> Optional[List[List[int]]]:
    """The forms of a reduced basis of a lattice, those along its longest orthogonal parts first.

    Columns count by their widths, so that a vector is long where it takes few steps.

    Args:
        columns: The program's integer ones.
        vectors: A basis of the lattice, each by place in `columns`.
        forms: By vector, the form that is its coordinate, by place in `columns`.

    Returns:
        None where the reduction takes too long.
    """
    if not vectors:
        return []
    widths = [width.width for width in column_widths(program, columns)]
    unit = LEAST_PRECISION * max(widths)
    reduction = LLLReduction([[int(v * unit / w) for v, w in zip(k, widths)] for k in vectors])
    if not reduction.run():
        return None
    d = reduction.determinants
    order = sorted(range(len(vectors)), key=lambda k: -Fraction(d[k + 1], d[k]))
    return [
        [
            sum(a * form[j] for a, form in zip(reduction.coordinates[k], forms))
            for j in range(len(columns))
        ]
        for k in order
    ]


class HermiteForm:
    """Equations A x = b of integer columns, with a unimodular U for which A U is a lower triangle.

    Attributes:
        rank: Columns of the triangle; those of U behind them are a basis of the integer solutions
            of A x = 0.
        unimodular: The columns of U, each by place of a column.
        inverse: The rows of its inverse: the form k has the value of coordinate k.
    """

    def __init__(self, equations: Sequence[Equation], columns: Sequence[int]) -> None:
        """Nothing is reduced yet.

        Args:
            equations: Of these columns.
            columns: Of the program, in their order.
        """
        every = range(len(columns))
        self.rank = 0
        self.unimodular = [[int(i == j) for i in every] for j in every]
        self.inverse = [[int(i == j) for i in every] for j in every]
        self._sides = [equation.side for equation in equations]
        self._matrix = [[e.coefficients.get(j, 0) for e in equations] for j in columns]

    def has_whole_solution(self) -> bool:
        """Reduces the matrix; whether the equations have an integer solution.

        Called once. False also where numbers become longer than LARGEST_NUMBER.

        Raises:
            TimeOver: The time of exact work is over.
        """
        values: List[Fraction] = []  # of the triangle's unknowns
        for row, side in enumerate(self._sides):
            if not self._eliminate(row):
                return False
            rest = side - sum(self._matrix[k][row] * v for k, v in enumerate(values))
            pivot = self._matrix[self.rank][row] if self.rank < len(self._matrix) else 0
            if not pivot and rest:
                return False
            if pivot:
                values.append(Fraction(rest) / pivot)
                self.rank += 1
                if values[-1].denominator != 1:
                    return False
        return True

    def _eliminate(self, row: int) -> bool:
        """Makes the row's entries 0 behind column `rank`, by Euclid's algorithm on the columns.

        Returns:
            False where numbers become too long.
        """
        while True:
            check_work()
            left = [j for j in range(self.rank, len(self._matrix)) if self._matrix[j][row]]
            least = min(left, key=lambda j: abs(self._matrix[j][row]), default=self.rank)
            if len(left) < 2:
                self._exchange(self.rank, least)
                return True
            for j in left:
                if j != least:
                    self._subtract(j, least, self._matrix[j][row] // self._matrix[least][row])
            if max(abs(v) for v in self.unimodular[least]) > LARGEST_NUMBER:
                return False

    def _exchange(self, column: int, other: int) -> None:
        """Exchanges two columns of A U, and of U."""
        if column != other:
            for lists in (self._matrix, self.unimodular, self.inverse):
                lists[column], lists[other] = lists[other], lists[column]

    def _subtract(self, column: int, other: int, factor: int) -> None:
        """Takes `factor` times the other column away from a column of A U, and of U."""
        for lists in (self._matrix, self.unimodular):
            lists[column] = [x - factor * y for x, y in zip(lists[column], lists[other])]
        pairs = zip(self.inverse[other], self.inverse[column])
        self.inverse[other] = [x + factor * y for x, y in pairs]


class LatticeSearch:
    """Branch and bound on integer forms, with relaxations in fractions; depth first.

    Attributes:
        program: With a row without bounds for each form, behind its own.
        incumbent: The best point so far.
        value: Its objective, minimised.
        nodes: That were visited.
    """

    def __init__(
        self, program: IntegerProgram, forms: Sequence[Form], check: Callable[[], None]
    ) -> None:
        """
        Args:
            program: Without added rows.
            forms: As `lattice_forms` has them; those before others are branched on first.
            check: Is called at each step of the simplex method, and raises SearchEnded to end it.
        """
        self.own_rows = program.m
        self.forms = forms
        self.program = program.with_rows(Row(form) for form in forms)
        self.check = check
        self.incumbent: Optional[Point] = None
        self.value: Optional[Fraction] = None
        self.nodes = 0

    def run(self) -> LatticeOptimum:
        """Searches to the end, or until it is ended: then it has the best point so far."""
        none: Bounds = [None for _ in self.forms]
        try:
            tree = self._visited(none, none)
        except SearchEnded:
            return LatticeOptimum(self.incumbent, None)
        return LatticeOptimum(self.incumbent, self._text(tree))

    def _visited(self, lower: Bounds, upper: Bounds) -> Tree:
        """The tree of a node, whose leaves prove that nothing there is better than the incumbent.

        Args:
            lower: By form, whole; None: there is no such bound.
            upper: The same from above.

        Raises:
            SearchEnded: After MOST_NODES, where a relaxation has no end, and as `check` says.
        """
        self.nodes += 1
        node = self._node(lower, upper)
        relaxed = self._relaxation(node)
        if self.nodes > MOST_NODES or relaxed.status is LpStatus.UNBOUNDED:
            raise SearchEnded("the lattice")
        if relaxed.status is LpStatus.INFEASIBLE or relaxed.point is None:
            return self._leaf(node, relaxed, MultiplierKind.FARKAS)
        value = self.program.value(relaxed.point)
        if self.value is not None and value >= self.value:
            return self._leaf(node, relaxed, MultiplierKind.DUAL)
        fraction = self._fractional(relaxed.point)
        if fraction is None:
            self.incumbent, self.value = relaxed.point, value
            return self._leaf(node, relaxed, MultiplierKind.DUAL)
        form, at = fraction
        below, above = floor(at), floor(at) + 1
        branches = [
            (lower, _with_item(upper, form, below)),
            (_with_item(lower, form, above), upper),
        ]
        first = int(at - below > Fraction(1, 2))
        trees = {first: self._visited(*branches[first])}
        trees[1 - first] = self._visited(*branches[1 - first])
        column = self.program.n + self.own_rows + form
        return [Split(column, below), *trees[0], *trees[1]]

    def _node(self, lower: Bounds, upper: Bounds) -> IntegerProgram:
        """The program of a node, whose forms have these bounds."""
        scale, own = self.program.bound_scale, self.own_rows
        node = copy.copy(self.program)
        node.row_lower = node.row_lower[:own] + [None if b is None else b * scale for b in lower]
        node.row_upper = node.row_upper[:own] + [None if b is None else b * scale for b in upper]
        return node

    def _relaxation(self, node: IntegerProgram) -> SimplexResult:
        """The relaxation of a node, solved in fractions."""
        simplex = RationalSimplex(node, self.check)
        simplex.install_basis([], [0.0] * node.n)
        return simplex.run()

    def _fractional(self, point: Point) -> Optional[tuple[int, Fraction]]:
        """The first form that is not whole at a point, by its place, with its value; None: all are."""
        for place, form in enumerate(self.forms):
            value = sum((a * point[j] for j, a in form.items()), Fraction(0))
            if value.denominator != 1:
                return place, value
        return None

    def _leaf(self, node: IntegerProgram, relaxed: SimplexResult, kind: MultiplierKind) -> Tree:
        """A node that its relaxation's multipliers prove.

        Raises:
            SearchEnded: A certificate does not hold them.
        """
        multipliers = from_fractions(node, relaxed.multipliers, kind)
        if not multipliers.fits_certificate():
            raise SearchEnded("numbers of a leaf are too wide")
        added = [row for row in multipliers.numerators if row >= self.own_rows]
        return [leaf_of(multipliers, added)]

    def _text(self, tree: Tree) -> TreeText:
        """A whole tree as a certificate has it."""
        numbering = RowNumbering({}, self.own_rows, self.program.sign)
        text = "".join(line + "\n" for line in tree_lines(self.program, tree, numbering))
        return TreeText(text, node_count(tree), 0, LATTICE)


def _with_item(bounds: Bounds, place: int, value: int) -> Bounds:
    """The bounds with another one at a place."""
    return [*bounds[:place], value, *bounds[place + 1 :]]


def lattice_optimum(program: IntegerProgram, check: Callable[[], None]) -> Optional[LatticeOptimum]:
    """What a search over the lattice of a small program's equations finds, or where numbers of a row
    are too wide for doubles one on its few integer columns.

    Args:
        program: With integer columns, and without added rows.
        check: Raises SearchEnded to end the search.

    Returns:
        None where the program is none of these, or has more than MOST_FORMS forms.
    """
    if not is_small_lattice(program):
        return None
    forms = lattice_forms(program)
    if forms is None and has_wide_numbers(program):
        forms = [{j: 1} for j in _integer_columns(program)]
    if forms is None or len(forms) > MOST_FORMS:
        return None
    return LatticeSearch(program, forms, check).run()


def has_wide_numbers(program: IntegerProgram) -> bool:
    """Whether a row has coefficients that are so far apart that doubles lose the least beside the
    largest: more than WIDEST_RATIO times."""
    sizes = ([abs(a) for _, a in row] for row in program.rows if row)
    return any(max(row) > WIDEST_RATIO * min(row) for row in sizes)
