#!/usr/bin/env python3
"""Cases of crates/answers for `prices`: random linear models, their prices, and what a solve says where each range ends.

    python3 bench/price_cases.py cases [COUNT [SEED]] > CASES
    python3 bench/price_cases.py answers [COUNT [SEED]] > ANSWERS

The first prints the cases of COUNT models (50), ten sheets in each, the second what must come of them. Of each model without whole cells
the prices are asked for, and then the right side of each row is set to both ends of its range, to a number between them and to numbers
beyond, and the sheet is solved. The answers come of bench/price_reading.py, which knows the rules of the pages alone. No case is printed
before this is checked: at each number that is tried the best value, found by trying every corner and not by pivots, is the one that a
solve must print, and within the range it is the best value of before and so many times the price.
"""
import random
import sys
from fractions import Fraction

from price_reading import Corners, Model, Row, printed, prices

CODES = {"<=": 1, "=": 2, ">=": 3}
SHEETS = 10


def letter(column):
    return "ABCDEFGH"[column]


class Sheet:
    """A model as a sheet: decision cells in row 1, the objective in row 2, a row of the model in each row behind it."""

    def __init__(self, name, model, may_be_negative, bounds):
        self.name, self.model, self.bounds = name, model, bounds
        count = len(model.objective)
        self.last, self.sum, self.right = letter(count - 1), letter(count), letter(count + 1)
        self.may_be_negative = may_be_negative
        model.rows.sort(key=lambda row: CODES[row.relation])
        self.numbers = [len(bounds) + k + 1 for k in range(len(model.rows))]

    def text(self, coefficients, row):
        cells = [printed(a) for a in coefficients]
        return ",".join([*cells, f"=SUMPRODUCT(A$1:{self.last}$1;A{row}:{self.last}{row})"])

    def lines(self):
        """The sheet's records."""
        model = self.model
        yield ",".join("0" for _ in model.objective)
        yield self.text(model.objective, 2)
        for place, row in enumerate(model.rows):
            yield f"{self.text(row.coefficients, place + 3)},{printed(row.right)}"

    def constraints(self):
        """Each constraint, its left side, its code and its right side: the bounds one by one, then the rows of one relation together."""
        for place, relation, number in self.bounds:
            yield f"{letter(place)}1", CODES[relation], printed(number)
        for relation in CODES:
            places = [place + 3 for place, row in enumerate(self.model.rows) if row.relation == relation]
            if places:
                area = f"{places[0]}" if len(places) == 1 else f"{places[0]}:{{}}{places[-1]}"
                yield self.sum + area.format(self.sum), CODES[relation], self.right + area.format(self.right)

    def names(self):
        """The records of the names."""
        yield "solver_adj", f"A1:{self.last}1"
        yield "solver_opt", f"{self.sum}2"
        if not self.model.greatest:
            yield "solver_typ", 2
        if self.may_be_negative:
            yield "solver_neg", 2
        constraints = list(self.constraints())
        yield "solver_num", len(constraints)
        for number, (left, code, right) in enumerate(constraints, 1):
            yield f"solver_lhs{number}", left
            yield f"solver_rel{number}", code
            yield f"solver_rhs{number}", right


def random_model(source):
    """A model with its bounds, each a decision, a relation and a number, and whether decisions may be negative."""
    count, height = source.choice([2, 2, 3, 3, 3, 4, 5]), source.choice([1, 2, 2, 3, 3, 4, 5])
    number = lambda low, high: Fraction(source.randint(low, high))
    relations = ["<=", "<=", "<=", ">=", "="]
    rows = [Row([number(-1, 5) for _ in range(count)], source.choice(relations), number(-2, 14)) for _ in range(height)]
    greatest = source.random() < 0.6
    objective = [number(-2, 6) for _ in range(count)]
    may_be_negative = source.random() < 0.2
    bounds = []
    if source.random() < 0.3:
        place = source.randrange(count)
        bounds = [(place, "<=", number(1, 8))] if source.random() < 0.5 else [(place, ">=", number(-4, 3))]
    lows = [None if may_be_negative else Fraction(0)] * count
    highs = [None] * count
    for place, relation, bound in bounds:
        (highs if relation == "<=" else lows)[place] = bound
    return Model(greatest, objective, Fraction(0), rows, lows, highs), may_be_negative, bounds


def tried_changes(low, high):
    """Changes of a right side: both ends, between them, and beyond."""
    inner = {(True, True): [Fraction(-3), Fraction(4)], (True, False): [high and high - 3], (False, True): [low and low + 3]}
    between = inner.get((low is None, high is None)) or [(low + high) / 2]
    ends = [end for end in (low, high) if end is not None]
    beyond = ([low - 1] if low is not None else []) + ([high + 1] if high is not None else [])
    return sorted({*between, *ends, *beyond})


def text_of(x):
    """A number as the text of a cell."""
    return printed(x) if "/" not in printed(x) else "=" + printed(x)


def line_of(number, price):
    low, high = ("-" if end is None else printed(end) for end in (price.low, price.high))
    return f"row {number} price {printed(price.price)} from {low} to {high}"


class Script:
    """Records and what must come of each, line by line."""

    def __init__(self):
        self.records, self.answers = [], []

    def ask(self, record, *answers):
        self.records.append(record)
        self.answers.extend(answers)


def ask_of(sheet, script):
    """Asks about a sheet. False, with nothing asked, where its best values can't be told by corners."""
    model = sheet.model
    found = prices(model)
    if found.end != "best":
        script.ask(f"prices,{sheet.name}", found.end)
        script.ask(f"solve,{sheet.name}", found.end)
        return True
    corners = Corners(model)
    if not corners.choices:
        return False
    assert corners.best() == found.value
    lines = [line_of(number, price) for number, price in zip(sheet.numbers, found.prices)]
    script.ask(f"prices,{sheet.name}", f"optimal {printed(found.value)}", *lines, "end")
    for place, (row, price) in enumerate(zip(model.rows, found.prices)):
        cell = f"{sheet.name}!{sheet.right}{place + 3}"
        for change in tried_changes(price.low, price.high):
            best = corners.best(place, change)
            if (price.low is None or price.low <= change) and (price.high is None or change <= price.high):
                assert best == found.value + price.price * change
            script.ask(f"set,{cell},{text_of(row.right + change)}", "ok")
            script.ask(f"solve,{sheet.name}", "infeasible" if best is None else f"optimal {printed(best)}")
        script.ask(f"set,{cell},{printed(row.right)}", "ok")
    return True


def made(count, seed):
    """The cases of so many models: of each its name, its sheets and its script. At most one model in eight has no best value."""
    source, cases, ends = random.Random(seed), [], 0
    for start in range(0, count, SHEETS):
        script, sheets = Script(), []
        while len(sheets) < min(SHEETS, count - start):
            model, may_be_negative, bounds = random_model(source)
            is_end = prices(model).end != "best"
            if is_end and (ends + 1) * 8 > start + len(sheets) + 8:
                continue
            sheet = Sheet("m" + "abcdefghij"[len(sheets)], model, may_be_negative, bounds)
            if ask_of(sheet, script):
                sheets.append(sheet)
                ends += is_end
        cases.append((f"prices of random models, {start + 1} to {start + len(sheets)}", sheets, script))
    return cases


def print_case(name, sheets, script):
    print(f"case {name}\nwords --names names.csv {' '.join(sheet.name + '.csv' for sheet in sheets)}\nfile names.csv")
    for sheet in sheets:
        for record in sheet.names():
            print(f"|{sheet.name},{record[0]},{record[1]}")
    for sheet in sheets:
        print(f"file {sheet.name}.csv")
        for line in sheet.lines():
            print(f"|{line}")
    print("script")
    for record in script.records:
        print(f"|{record}")
    print()


def print_answer(name, script):
    """What must come; the files are as they were, since nothing is saved."""
    print(f"case {name}")
    for line in script.answers:
        print(f"|{line}")
    print("status 0")


def main(kind, count=50, seed=1):
    for name, sheets, script in made(int(count), int(seed)):
        if kind == "cases":
            print_case(name, sheets, script)
        else:
            print_answer(name, script)


if __name__ == "__main__":
    if len(sys.argv) < 2 or sys.argv[1] not in ("cases", "answers"):
        sys.exit(__doc__)
    main(*sys.argv[1:])
