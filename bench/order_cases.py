#!/usr/bin/env python3
"""Cases of crates/answers for cells that are to be different: orders of jobs, and what must come of them by trying every order.

    python3 bench/order_cases.py cases [COUNT [SEED [STEP]]] > CASES
    python3 bench/order_cases.py answers [COUNT [SEED [STEP]]] > ANSWERS

The first prints the cases, the second what must come of them. First stand all orders of up to 5 jobs (with a STEP, each STEPth of those of
5), each as the only best one of its objective, at once by depth and in two slices by the other pickers; then COUNT random models (50), ten
sheets in each case, and each case once for each picker, each model at once and in two slices: orders with rows that forbid some, two orders
at once, groups that share cells, squares whose rows and columns are orders (of 3 and of 4), and beside them cells that are whole alone.
What must come is found by trying every assignment of whole numbers, by the rules of docs/FORMATS.md alone: no pivot and no search is made
here. The cells are shown where one assignment alone is best.
"""
import random
import sys
from itertools import permutations

PICKERS = ("depth", "best", "oldest")
SHEETS = 10
HOLDS = {1: lambda left, right: left <= right, 2: lambda left, right: left == right, 3: lambda left, right: left >= right}


def cell(place, width):
    return f"{'ABCDEFGH'[place % width]}{place // width + 1}"


def sum_text(coefficients, width):
    """A sum of cells as a formula."""
    terms = [f"{a}*{cell(place, width)}" for place, a in enumerate(coefficients) if a]
    return "=" + ("+".join(terms).replace("+-", "-") or "0")


class Model:
    """Cells by number in rows of one width. Groups are areas of them, each with its cells; rows a sum, a code and a number."""

    def __init__(self, count, width, groups):
        self.count, self.width, self.groups = count, width, groups
        self.goal, self.objective, self.value = 1, [0] * count, 0
        self.rows, self.bounds, self.whole = [], [], []

    def area(self, places):
        first, last = cell(places[0], self.width), cell(places[-1], self.width)
        return first if first == last else f"{first}:{last}"

    def ranges(self):
        """The numbers that each cell may hold by its bounds."""
        found = [range(0, 6) for _ in range(self.count)]
        for group in self.groups:
            for place in group:
                found[place] = [x for x in found[place] if 1 <= x <= len(group)]
        for place, code, number in self.bounds:
            found[place] = [x for x in found[place] if HOLDS[code](x, number)]
        return found

    def assignments(self):
        """All that is permitted but for the rows: cell by cell, with no number twice in a group."""
        ranges = self.ranges()
        before = [[other for group in self.groups if place in group for other in group if other < place] for place in range(self.count)]

        def more(found):
            place = len(found)
            if place == self.count:
                yield found
                return
            for x in ranges[place]:
                if all(found[other] != x for other in before[place]):
                    yield from more(found + [x])

        return more([])

    def met(self):
        """The assignments that meet all constraints."""
        for found in self.assignments():
            if all(HOLDS[code](worth(coefficients, found), right) for coefficients, code, right in self.rows):
                assert all(sorted(found[place] for place in group) == list(range(1, len(group) + 1)) for group in self.groups)
                yield found

    def best(self):
        """The best value and all assignments that have it; None where nothing is permitted."""
        found = [(worth(self.objective, one), one) for one in self.met()]
        if self.goal == 3:
            found = [pair for pair in found if pair[0] == self.value]
        if not found:
            return None
        best = (min if self.goal == 2 else max)(value for value, _ in found)
        return best, [one for value, one in found if value == best]


def worth(coefficients, assignment):
    return sum(a * x for a, x in zip(coefficients, assignment))


class Sheet:
    """A model as a sheet: the decision cells, a row for the objective, a row in which all cells make one number, and the model's rows."""

    def __init__(self, name, model):
        self.name, self.model = name, model
        self.first = -(-model.count // model.width) + 1

    def lines(self):
        """The sheet's records."""
        model = self.model
        for start in range(0, model.count, model.width):
            yield ",".join("0" for _ in range(min(model.width, model.count - start)))
        yield sum_text(model.objective, model.width)
        yield sum_text([10 ** (model.count - place - 1) for place in range(model.count)], model.width)
        for coefficients, _, right in model.rows:
            yield f"{sum_text(coefficients, model.width)},{right}"

    def constraints(self):
        """Each constraint: its left side, its code and its right side."""
        model = self.model
        for group in model.groups:
            yield model.area(group), 6, "different"
        for place in model.whole:
            yield cell(place, model.width), 4, "integer"
        for place, code, number in model.bounds:
            yield cell(place, model.width), code, number
        for number, (_, code, _) in enumerate(model.rows):
            yield f"A{self.first + 2 + number}", code, f"B{self.first + 2 + number}"

    def names(self):
        """The records of the names."""
        yield "solver_adj", self.model.area(range(self.model.count))
        yield "solver_opt", f"A{self.first}"
        yield "solver_typ", self.model.goal
        if self.model.goal == 3:
            yield "solver_val", self.model.value
        constraints = list(self.constraints())
        yield "solver_num", len(constraints)
        for number, (left, code, right) in enumerate(constraints, 1):
            yield f"solver_lhs{number}", left
            yield f"solver_rel{number}", code
            yield f"solver_rhs{number}", right

    def end(self):
        """What a solve answers, and what the row with one number of all cells shows behind it, where one alone is best."""
        found = self.model.best()
        if found is None:
            return "infeasible", None
        shown = "number " + "".join(map(str, found[1][0])).lstrip("0")
        return f"optimal {found[0]}", shown if len(found[1]) == 1 else None


class Script:
    """Records and what must come of each."""

    def __init__(self):
        self.records, self.answers = [], []

    def ask(self, record, answer):
        self.records.append(record)
        self.answers.append(answer)


def ask_of(sheet, script):
    """Asks about a sheet: a solve, and the same in slices. The root alone takes its opening and a pivot, so one unit ends no search."""
    answer, shown = sheet.end()
    script.ask(f"solve,{sheet.name}", answer)
    if shown:
        script.ask(f"show,{sheet.name}!A{sheet.first + 1}", shown)
    script.ask(f"set,{sheet.name}!A1,0", "ok")
    script.ask(f"begin,{sheet.name}", "begun")
    script.ask(f"slice,{sheet.name},1", "more 1")
    script.ask(f"set,{sheet.name}!H1,first", "ok")
    script.ask(f"slice,{sheet.name},1000000", answer)
    if shown:
        script.ask(f"show,{sheet.name}!A{sheet.first + 1}", shown)


def ask_every_order(sheet, script, pick, step):
    """Asks for each order of STEP by the objective of which it is the only best one: the greatest sum of products of like orders."""
    count, name = sheet.model.count, sheet.name
    for order in list(permutations(range(1, count + 1)))[::step]:
        sheet.model.objective = list(order)
        answer, shown = sheet.end()
        assert shown == "number " + "".join(map(str, order))
        script.ask(f"set,{name}!A2,{sum_text(order, count)}", "ok")
        if pick != "depth":
            script.ask(f"begin,{name}", "begun")
            script.ask(f"slice,{name},1", "more 1")
        script.ask(f"solve,{name}" if pick == "depth" else f"slice,{name},1000000", answer)
        script.ask(f"show,{name}!A3", shown)


def random_order(source):
    """One order of 2 to 5 jobs, perhaps with a cell beside it that is whole alone."""
    jobs = source.choice([2, 3, 3, 4, 4, 5])
    count = jobs + (source.random() < 0.25)
    model = Model(count, count, [list(range(jobs))])
    if count > jobs:
        model.whole = [jobs]
        model.bounds = [(jobs, 1, source.randint(1, 5))]
    return model


def random_two_orders(source):
    jobs = source.choice([2, 3, 3])
    return Model(2 * jobs, jobs, [list(range(jobs)), list(range(jobs, 2 * jobs))])


def random_shared(source):
    """Groups in one row of cells that share some of them."""
    count = source.choice([3, 4, 5])
    middle, second = source.randint(2, count - 1), source.randint(0, count - 2)
    return Model(count, count, [list(range(middle)), list(range(min(second, middle - 1), count))])


def random_square(source):
    """A square whose rows and columns are orders, with some cells that are given."""
    size = source.choice([3, 3, 4])
    rows = [list(range(start, start + size)) for start in range(0, size * size, size)]
    model = Model(size * size, size, rows + [list(range(start, size * size, size)) for start in range(size)])
    shift, turn = source.sample(range(1, size + 1), size), source.choice([1, size - 1])
    given = source.sample(range(size * size), {3: source.randint(3, 5), 4: source.randint(10, 12)}[size])
    model.bounds = [(place, 2, shift[(place // size * turn + place % size) % size]) for place in given]
    return model


def add_rows(source, model, most):
    """Rows that forbid some: one cell before another, a bound of a cell, a sum with a limit."""
    for _ in range(source.randint(0, most)):
        kind, one, other = source.random(), *source.sample(range(model.count), 2)
        if kind < 0.4:
            row = [0] * model.count
            row[one], row[other] = 1, -1
            model.rows.append((row, source.choice([1, 1, 1, 2]), source.choice([-1, -1, -2])))
        elif kind < 0.7:
            model.bounds.append((one, source.choice([1, 3, 3, 2]), source.randint(1, 3)))
        else:
            row = [source.randint(-1, 3) for _ in range(model.count)]
            model.rows.append((row, source.choice([1, 1, 3, 2]), source.randint(2, 4 * model.count)))


def random_model(source):
    kind = source.choices([random_order, random_two_orders, random_shared, random_square], [10, 3, 4, 4])[0]
    model = kind(source)
    add_rows(source, model, 1 if kind is random_square else 3)
    model.goal = source.choice([1, 1, 2, 2, 3])
    model.objective = [source.randint(-2, 7) for _ in range(model.count)]
    while not any(model.objective):
        model.objective[0] = source.randint(1, 7)
    if model.goal == 3:
        values = [worth(model.objective, one) for one in model.met()]
        model.value = source.choice(values) if values and source.random() < 0.8 else source.randint(0, 20)
    return model


def every_order(pick, step):
    """All orders of up to 4 jobs, and of those of 5 each of STEP."""
    script, sheets = Script(), []
    for count in range(1, 6):
        sheets.append(Sheet("jobs" + str(count), Model(count, count, [list(range(count))])))
        ask_every_order(sheets[-1], script, pick, step if count == 5 else 1)
    return "orders of up to 5 jobs", pick, sheets, script


def made(count, seed, step):
    """The cases: of each the name of its files, its picker, its sheets and its script. At most one random model in four permits nothing."""
    for pick in PICKERS:
        yield every_order(pick, step)
    source, ends = random.Random(seed), 0
    for start in range(0, count, SHEETS):
        script, sheets = Script(), []
        while len(sheets) < min(SHEETS, count - start):
            sheet = Sheet("m" + "abcdefghij"[len(sheets)], random_model(source))
            is_end = sheet.end()[0] == "infeasible"
            if is_end and (ends + 1) * 4 > start + len(sheets) + 4:
                continue
            sheets.append(sheet)
            ask_of(sheet, script)
            ends += is_end
        for pick in PICKERS:
            yield f"random orders {start + 1} to {start + len(sheets)}", pick, sheets, script


def print_files(name, sheets):
    print(f"shared {name}\nfile names.csv")
    for sheet in sheets:
        for record in sheet.names():
            print(f"|{sheet.name},{record[0]},{record[1]}")
    for sheet in sheets:
        print(f"file {sheet.name}.csv")
        for line in sheet.lines():
            print(f"|{line}")
    print()


def print_case(name, pick, sheets, script):
    print(f"case {name}, picked by {pick}")
    print(f"words --pick {pick} --budget 1000000 --names names.csv {' '.join(sheet.name + '.csv' for sheet in sheets)}")
    print(f"with {name}\nscript")
    for record in script.records:
        print(f"|{record}")
    print()


def print_answer(name, pick, script):
    """What must come; the files are as they were, since nothing is saved."""
    print(f"case {name}, picked by {pick}")
    for line in script.answers:
        print(f"|{line}")
    print("status 0")


def main(kind, count=50, seed=1, step=1):
    for name, pick, sheets, script in made(int(count), int(seed), int(step)):
        if kind == "cases":
            if pick == PICKERS[0]:
                print_files(name, sheets)
            print_case(name, pick, sheets, script)
        else:
            print_answer(name, pick, script)


if __name__ == "__main__":
    if len(sys.argv) < 2 or sys.argv[1] not in ("cases", "answers"):
        sys.exit(__doc__)
    main(*sys.argv[1:])
