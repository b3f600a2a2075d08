#!/usr/bin/env python3
"""The linear model that `model` prints, as CPLEX LP or as free MPS text, for other solvers to read.

usage: to_lp.py lp|mps < MODEL > TEXT

MODEL is one answer to `model`. Every number of the text is exact: a row whose numbers have short decimals is written with these,
and any other is multiplied by the least whole number that makes all its numbers whole, the objective too (a comment says by what).
A constant of the objective is the coefficient of a variable `one` that is 1; `reach V` is a row. MPS texts ask for the least value,
so an objective that is to be greatest has its signs turned there. Ends with 1 and a line where MODEL is no such answer, or has cells
that are to be different, for which these texts have no line.
"""
import re
import sys
import textwrap
from dataclasses import dataclass, field
from fractions import Fraction
from math import lcm

from sheet_files import ending_in_a_line, spoken

CELL = r"(?:'(?:[^']|'')*'|[^\s'!*]+)![A-Z]+\d+"
TERM = re.compile(rf"(\S+?)\*({CELL})")
FORM = re.compile(rf"(?:\S+?\*{CELL} \+ )*[^\s*]+\Z")
GOAL = re.compile(r"(max|min|none|reach (\S+))(?: (.*))?\Z")
ROW = re.compile(r"row (\d+) (.*) (<=|>=|=) 0\Z")
INTEGERS = {True: "'INTORG'", False: "'INTEND'"}
VARIABLE = re.compile(rf"cell ({CELL}) (continuous|integer) (\S+) (\S+)\Z")


@dataclass
class Row:
    """A combination of variables in a relation to a number, or an objective's combination with its constant."""
    name: str
    terms: dict
    relation: str
    number: Fraction

    def scale(self):
        """What all numbers are multiplied by: 1 where each has a short decimal."""
        numbers = [*self.terms.values(), self.number]
        return 1 if all("/" not in spoken(n) for n in numbers) else lcm(*(n.denominator for n in numbers))

    def scaled(self):
        by = self.scale()
        return Row(self.name, {cell: n * by for cell, n in self.terms.items()}, self.relation, self.number * by)


@dataclass
class Model:
    goal: str = ""
    objective: Row = None
    rows: list = field(default_factory=list)
    kinds: dict = field(default_factory=dict)
    bounds: dict = field(default_factory=dict)
    scale: int = 1


def form(text):
    """The terms and the constant of a form as `model` prints it; ValueError where it is none."""
    if not FORM.match(text):
        raise ValueError(text)
    return {cell: Fraction(number) for number, cell in TERM.findall(text)}, Fraction(text.rsplit(" + ", 1)[-1])


def take(model, line):
    """Adds what a line of the model says; TypeError or ValueError where it is none."""
    if found := ROW.match(line):
        terms, constant = form(found[2])
        model.rows.append(Row(f"row{found[1]}", terms, found[3], -constant))
    elif found := VARIABLE.match(line):
        model.kinds[found[1]] = found[2]
        model.bounds[found[1]] = [None if text == "-" else Fraction(text) for text in found.group(3, 4)]
    elif found := GOAL.match(line):
        terms, constant = form(found[3]) if found[3] else ({}, Fraction(0))
        model.goal = "max" if found[1] == "max" else "min"
        if found[2]:
            model.rows.append(Row("reached", terms, "=", Fraction(found[2]) - constant))
            terms, constant = {}, Fraction(0)
        model.objective = Row("objective", terms, "", constant)
    elif line.startswith("different "):
        sys.exit(f"LP and MPS texts have no line for cells that are to be different: {line}")
    elif line != "end":
        raise ValueError(line)


def read(lines):
    """The model of the lines, its rows scaled, with bounds that have no short decimal as rows."""
    model = Model()
    for line in lines:
        try:
            take(model, line)
        except (TypeError, ValueError):
            sys.exit(f"no line of a model: {line}")
    if not model.objective or not model.kinds or lines[-1] != "end" or lines.count("end") > 1:
        sys.exit("no model, or several: one begins with the objective, has a line for each decision cell and ends with end")
    for row in (model.objective, *model.rows):
        if not row.terms.keys() <= model.kinds.keys():
            sys.exit(f"no model: {row.name} has a cell without a line: {', '.join(row.terms.keys() - model.kinds.keys())}")
    model.rows += bounds_in_rows(model)
    model.scale = model.objective.scale()
    model.objective, model.rows = model.objective.scaled(), [row.scaled() for row in model.rows]
    return model


def bounds_in_rows(model):
    """Rows for the bounds that have no short decimal, in the place of these bounds."""
    names = names_of(model)
    for cell, bounds in model.bounds.items():
        for place, (word, relation) in enumerate((("least", ">="), ("most", "<="))):
            if bounds[place] is not None and "/" in spoken(bounds[place]):
                yield Row(f"{word}_{names[cell]}", {cell: Fraction(1)}, relation, bounds[place])
                bounds[place] = None


def name_of(cell):
    """A cell as a name that solvers take: its sheet, an underscore and its address, and other marks as underscores."""
    name = re.sub(r"\W", "_", cell.replace("'", ""), flags=re.ASCII)
    return name if re.match(r"[A-DF-Za-df-z_]", name) else "_" + name


def names_of(model):
    """The name of each cell, no two of them alike."""
    names = {}
    for cell in model.kinds:
        name = name_of(cell)
        while name in names.values():
            name += "_"
        names[cell] = name
    return names


def combination(terms, names):
    """The terms as LP text; a combination without terms is 0 times the first variable."""
    spelled = [f"{'-' if n < 0 else '+'} {spoken(abs(n))} {names[cell]}" for cell, n in terms.items() if n]
    return " ".join(spelled).removeprefix("+ ") or f"0 {next(iter(names.values()))}"


def bound_line(name, low, high):
    """A variable's bounds as LP text."""
    if low is None and high is None:
        return f" {name} free"
    least, most = ("-infinity" if low is None else spoken(low)), ("" if high is None else f" <= {spoken(high)}")
    return f" {least} <= {name}{most}"


def lp(model, names):
    """The lines of the LP text."""
    constant = model.objective.number
    with_constant = {**model.objective.terms, **({"one": constant} if constant else {})}
    names = {**names, **({"one": "one"} if constant else {})}
    yield from [f"\\ the objective is {model.scale} times that of the sheet"] if model.scale > 1 else []
    yield "Maximize" if model.goal == "max" else "Minimize"
    yield f" objective: {combination(with_constant, names)}"
    yield "Subject To"
    for row in model.rows:
        yield f" {row.name}: {combination(row.terms, names)} {row.relation} {spoken(row.number)}"
    yield "Bounds"
    for cell, (low, high) in model.bounds.items():
        yield bound_line(names[cell], low, high)
    yield from [" one = 1"] if constant else []
    whole = [names[cell] for cell, kind in model.kinds.items() if kind == "integer"]
    yield from ["General", *(f" {name}" for name in whole)] if whole else []
    yield "End"


def columns(model, names):
    """The lines of the columns of MPS text, whole ones between marks."""
    sign, whole = -1 if model.goal == "max" else 1, False
    for cell, name in names.items():
        if (model.kinds[cell] == "integer") != whole:
            whole = not whole
            yield f" marker_{name} 'MARKER' {INTEGERS[whole]}"
        entries = [("objective", sign * model.objective.terms.get(cell, 0))] + [(row.name, row.terms.get(cell, 0)) for row in model.rows]
        for row, number in entries:
            if number or row == "objective":
                yield f" {name} {row} {spoken(Fraction(number))}"
    if whole:
        yield " marker_end 'MARKER' 'INTEND'"
    if model.objective.number:
        yield f" one objective {spoken(sign * model.objective.number)}"


def mps_bounds(name, low, high):
    """The lines of a variable's bounds in MPS text, both written out."""
    yield f" MI bounds {name}" if low is None else f" LO bounds {name} {spoken(low)}"
    yield f" PL bounds {name}" if high is None else f" UP bounds {name} {spoken(high)}"


def mps(model, names):
    """The lines of the free MPS text."""
    scale = -model.scale if model.goal == "max" else model.scale
    yield from [f"* the objective is {scale} times that of the sheet, and is to be least"] if scale != 1 else []
    yield from ["NAME model", "ROWS", " N objective"]
    for row in model.rows:
        yield f" {dict(zip(('<=', '>=', '='), 'LGE'))[row.relation]} {row.name}"
    yield "COLUMNS"
    yield from columns(model, names)
    yield "RHS"
    yield from (f" rhs {row.name} {spoken(row.number)}" for row in model.rows if row.number)
    yield "BOUNDS"
    for cell, (low, high) in model.bounds.items():
        yield from mps_bounds(names[cell], low, high)
    yield from [" FX bounds one 1"] if model.objective.number else []
    yield "ENDATA"


def folded(line):
    """A line of LP text in lines that are short enough for every reader; a comment has to stay one line."""
    return line if line.startswith("\\") else textwrap.fill(line, 240, subsequent_indent="  ", break_long_words=False, break_on_hyphens=False)


def main(kind):
    model = read(sys.stdin.read().splitlines())
    names = names_of(model)
    print(*(map(folded, lp(model, names)) if kind == "lp" else mps(model, names)), sep="\n")


if __name__ == "__main__":
    if len(sys.argv) != 2 or sys.argv[1] not in ("lp", "mps"):
        sys.exit(__doc__)
    ending_in_a_line(main, sys.argv[1])
