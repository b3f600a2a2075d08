"""Prices of the rows of a linear model, worked out by the rules of docs/MODEL.md and docs/SIMPLEX.md and of nothing else.

`prices` makes the run of the model's standard program and reads the prices and ranges off its last dictionary. `Corners` finds best values
in another way, by trying every choice of rows and bounds that meet in a point; no dictionary is made there.
"""
from dataclasses import dataclass
from fractions import Fraction
from itertools import combinations

MOST_DIGITS = 2**127 - 1


@dataclass
class Row:
    coefficients: list
    relation: str
    right: Fraction


@dataclass
class Model:
    """A greatest (or least) objective, its constant, the rows, and the least and the greatest number of each decision or None."""
    greatest: bool
    objective: list
    constant: Fraction
    rows: list
    lows: list
    highs: list


def dot(xs, ys):
    return sum(x * y for x, y in zip(xs, ys))


def printed(x):
    """A number as it is printed."""
    if x.denominator == 1:
        return str(x.numerator)
    places = next((k for k in range(1, 19) if 10**k % x.denominator == 0), None)
    digits = None if places is None else abs(x.numerator) * 10**places // x.denominator
    if digits is None or digits > MOST_DIGITS:
        return f"{x.numerator}/{x.denominator}"
    text = str(digits).rjust(places + 1, "0")
    return f"{'-' if x < 0 else ''}{text[:-places]}.{text[-places:]}"


# ---- the standard program

@dataclass
class Program:
    """Rows `combination <= bound`, the objective that is to be greatest, and of each model's row the standard rows with their signs."""
    rows: list
    bounds: list
    objective: list
    parts: list


def standard(model):
    """The standard program of a model in its own bounds."""
    columns = [(place, sign) for place, low in enumerate(model.lows) for sign in ([1] if low is not None and low >= 0 else [1, -1])]

    def across(coefficients, sign):
        return [sign * s * coefficients[place] for place, s in columns]

    program = Program([], [], across(model.objective, 1 if model.greatest else -1), [])

    def add(coefficients, sign, bound):
        program.rows.append(across(coefficients, sign))
        program.bounds.append(sign * bound)

    for row in model.rows:
        signs = {"<=": [1], ">=": [-1], "=": [1, -1]}[row.relation]
        program.parts.append([(len(program.rows) + k, sign) for k, sign in enumerate(signs)])
        for sign in signs:
            add(row.coefficients, sign, row.right)
    for place, (low, high) in enumerate(zip(model.lows, model.highs)):
        alone = [Fraction(int(place == k)) for k in range(len(model.lows))]
        if low:
            add(alone, -1, low)
        if high is not None:
            add(alone, 1, high)
    return program


# ---- dictionaries and the run

class Dictionary:
    """The basic variables and two objectives, each a constant and an entry for each non-basic variable."""

    def __init__(self, program):
        n, m = len(program.objective), len(program.rows)
        self.others = [*range(1, n + 1), 0]
        self.basics = [n + 1 + k for k in range(m)]
        self.lines = [[bound, *(-a for a in row), Fraction(1)] for bound, row in zip(program.bounds, program.rows)]
        self.first = [Fraction(0)] * (n + 1) + [Fraction(-1)]
        self.own = [Fraction(0), *program.objective, Fraction(0)]
        self.pivots = 0

    def pivot(self, place, column):
        """Exchanges the basic variable of a line and the one of a column."""
        line = self.lines[place]
        turned = [-a / line[column] for a in line]
        turned[column] = 1 / line[column]

        def put(other):
            return [other[column] * b + (0 if k == column else a) for k, (a, b) in enumerate(zip(other, turned))]

        self.lines = [turned if k == place else put(other) for k, other in enumerate(self.lines)]
        self.first, self.own = put(self.first), put(self.own)
        self.basics[place], self.others[column - 1] = self.others[column - 1], self.basics[place]
        self.pivots += 1

    def entering(self, objective, barred):
        """The column of the improving variable of least number."""
        numbers = [(v, k + 1) for k, v in enumerate(self.others) if objective[k + 1] > 0 and v != barred]
        return min(numbers)[1] if numbers else None

    def leaving(self, column):
        """The line of the least ratio, and among equals of the variable of least number."""
        ratios = [(line[0] / -line[column], self.basics[k], k) for k, line in enumerate(self.lines) if line[column] < 0]
        return min(ratios)[2] if ratios else None


class Spent(Exception):
    pass


def run(program, budget):
    """How the run of a program ends, `best`, `infeasible` or `unbounded`, its last dictionary, and the column that grows without end."""
    d = Dictionary(program)

    def spend():
        if d.pivots + 1 >= budget:
            raise Spent

    if any(line[0] < 0 for line in d.lines):
        place = min(range(len(d.lines)), key=lambda k: (d.lines[k][0], d.basics[k]))
        spend()
        d.pivot(place, len(d.others))
        while (column := d.entering(d.first, None)) is not None:
            spend()
            d.pivot(d.leaving(column), column)
        if d.first[0] < 0:
            return "infeasible", d, None
    while (column := d.entering(d.own, 0)) is not None:
        place = d.leaving(column)
        if place is None:
            return "unbounded", d, column
        spend()
        d.pivot(place, column)
    return "best", d, None


# ---- prices and ranges

@dataclass
class Price:
    price: Fraction
    low: Fraction
    high: Fraction


def slopes(d, program, parts):
    """How each basic variable, and the objective at the end, moves for each unit of change of a model's row."""
    n = len(program.objective)
    moves = [Fraction(0) for _ in d.basics] + [Fraction(0)]
    for row, sign in parts:
        slack = n + 1 + row
        if slack in d.basics:
            moves[d.basics.index(slack)] += sign
        else:
            column = d.others.index(slack) + 1
            for k, line in enumerate([*d.lines, d.own]):
                moves[k] -= sign * line[column]
    return moves


def price_of(d, program, parts, goal):
    *moves, gain = slopes(d, program, parts)
    ends = [(move, -line[0] / move) for move, line in zip(moves, d.lines) if move != 0]
    rising, falling = [end for move, end in ends if move > 0], [end for move, end in ends if move < 0]
    return Price(goal * gain, max(rising) if rising else None, min(falling) if falling else None)


@dataclass
class Priced:
    """How the run of a model ends, how many units it took, and the best value with the price of each row."""
    end: str
    units: int
    value: Fraction = None
    prices: list = None


def prices(model, budget=100000):
    program = standard(model)
    end, d, column = run(program, budget)
    goal = 1 if model.greatest else -1
    check_end(program, end, d, column)
    if end != "best":
        return Priced(end, d.pivots + 1)
    found = [price_of(d, program, parts, goal) for parts in program.parts]
    return Priced(end, d.pivots + 1, goal * d.own[0] + model.constant, found)


def check_end(program, end, d, column):
    """That an end without a best value is one, by the program alone: multipliers that no point meets, or a point and a way without end."""
    n, m = len(program.objective), len(program.rows)
    shown = {v: line[0] for v, line in zip(d.basics, d.lines)}
    if end == "infeasible":
        entry = dict(zip(d.others, d.first[1:]))
        y = [-entry.get(n + 1 + k, Fraction(0)) for k in range(m)]
        assert all(a >= 0 for a in y) and dot(program.bounds, y) < 0
        assert all(sum(y[k] * program.rows[k][j] for k in range(m)) >= 0 for j in range(n))
    if end == "unbounded":
        way = {v: line[column] for v, line in zip(d.basics, d.lines)} | {d.others[column - 1]: Fraction(1)}
        point, rise = ([at.get(j + 1, Fraction(0)) for j in range(n)] for at in (shown, way))
        assert min([*point, *rise]) >= 0 and dot(program.objective, rise) > 0
        assert all(dot(row, point) <= bound and dot(row, rise) <= 0 for row, bound in zip(program.rows, program.bounds))


# ---- best values by corners

def inverse(rows):
    """The inverse of a square of numbers, or None."""
    n = len(rows)
    work = [[*row, *(Fraction(int(i == k)) for k in range(n))] for i, row in enumerate(rows)]
    for j in range(n):
        place = next((i for i in range(j, n) if work[i][j] != 0), None)
        if place is None:
            return None
        work[j], work[place] = work[place], work[j]
        work[j] = [a / work[j][j] for a in work[j]]
        for i in range(n):
            if i != j and work[i][j] != 0:
                work[i] = [a - work[i][j] * b for a, b in zip(work[i], work[j])]
    return [row[n:] for row in work]


class Corners:
    """The choices of as many rows and bounds as there are decisions which meet in a point and of which some sum bounds the objective.

    Where the point of such a choice meets everything it is a best one, since what is met sums to no greater objective. Where no such point
    meets everything, nothing does, if there is a corner at all and the objective is bounded: a best corner would be one of them.
    """

    def __init__(self, model):
        self.model = model
        n = len(model.objective)
        alone = [[Fraction(int(i == k)) for k in range(n)] for i in range(n)]
        self.sides = [(row.coefficients, row.relation) for row in model.rows]
        self.sides += [(alone[k], ">=") for k, low in enumerate(model.lows) if low is not None]
        self.sides += [(alone[k], "<=") for k, high in enumerate(model.highs) if high is not None]
        found = [(choice, inverse([self.sides[k][0] for k in choice])) for choice in combinations(range(len(self.sides)), n)]
        self.choices = [(choice, back) for choice, back in found if back and self.bounds_objective(choice, back)]

    def bounds_objective(self, choice, back):
        """Whether the objective is a sum of these sides, each so many times as its relation allows."""
        goal = 1 if self.model.greatest else -1
        for j, side in enumerate(choice):
            weight = goal * sum(a * row[j] for a, row in zip(self.model.objective, back))
            relation = self.sides[side][1]
            if relation == "<=" and weight < 0 or relation == ">=" and weight > 0:
                return False
        return True

    def best(self, moved=None, by=0):
        """The best value with the right side of one row moved, or None where nothing meets all; for models with such a choice alone."""
        assert self.choices
        rights = self.rights(moved, by)
        for choice, back in self.choices:
            at = [rights[k] for k in choice]
            point = [dot(row, at) for row in back]
            if all(meets(side, point, right) for side, right in zip(self.sides, rights)):
                return self.model.constant + dot(self.model.objective, point)
        return None

    def rights(self, moved, by):
        rights = [row.right + (by if k == moved else 0) for k, row in enumerate(self.model.rows)]
        return rights + [x for x in self.model.lows if x is not None] + [x for x in self.model.highs if x is not None]


def meets(side, point, right):
    left = dot(side[0], point)
    return {"<=": left <= right, ">=": left >= right, "=": left == right}[side[1]]
