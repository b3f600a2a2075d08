"""Linear models of statements, and their standard programs."""
from dataclasses import dataclass
from math import ceil

from .forms import Form, form_of, minus
from .fraction import Wide, floor
from .values import EMPTY, ONE, ZERO, is_number


class Refused(Exception):
    """The line behind `refused `; cells stand in it between marks until they are printed."""

    def __init__(self, line):
        super().__init__(line)
        self.line = line


@dataclass
class Model:
    """Decisions by number. Rows are a form and a relation. The decisions of a group are to hold 1, 2, 3 and so on, each once."""

    goal: str
    value: object
    objective: Form
    rows: list
    whole: list
    lows: list
    highs: list
    groups: list


def side_form(entry):
    """The form of a side: what is empty is 0; None where it isn't a number."""
    if entry is EMPTY:
        return Form(ZERO, {})
    return form_of(entry) if is_number(entry) or isinstance(entry, Form) else None


class Building:
    """Makes the model of a statement from the entries of its places."""

    def __init__(self, statement, entries):
        self.of, self.entries = statement, entries
        count = len(statement.decisions)
        self.numbers = {cell: number for number, cell in enumerate(statement.decisions)}
        self.lows, self.highs = [None] * count, [None] * count
        self.rows, self.row_numbers = [], []

    def form(self, place):
        return side_form(self.entries.get(place))

    def model(self):
        of = self.of
        for number, (left, relation, right) in enumerate(of.rows):
            self.add_row(number + 1, left, relation, right)
        objective = Form(ZERO, {}) if of.objective is None else self.form(of.objective)
        shown = objective
        if of.goal == 'reach':
            try:
                added = minus(objective, of.value)
            except Wide as fault:
                raise Refused('wide-row %d' % (len(of.rows) + 1)) from fault
            self.rows.append((form_of(added), '='))
            self.row_numbers.append(None)
            objective = Form(ZERO, {})
        self.mark()
        value = of.value if of.goal == 'reach' else None
        model = Model(of.goal, value, objective, self.rows, self.whole(), self.lows, self.highs, of.groups)
        return model, shown, self.row_numbers

    def add_row(self, number, left, relation, right):
        right_form = self.form(right)
        if left in self.numbers and not right_form.terms:
            decision = self.numbers[left]
            if relation != '<=':
                self.raise_low(decision, right_form.base)
            if relation != '>=':
                self.lower_high(decision, right_form.base)
            return
        try:
            self.rows.append((form_of(minus(self.form(left), right_form)), relation))
        except Wide as fault:
            raise Refused('wide-row %d' % number) from fault
        self.row_numbers.append(number)

    def raise_low(self, decision, value):
        low = self.lows[decision]
        self.lows[decision] = value if low is None else max(low, value)

    def lower_high(self, decision, value):
        high = self.highs[decision]
        self.highs[decision] = value if high is None else min(high, value)

    def whole(self):
        marks = self.of.whole.union(self.of.binary, *self.of.groups)
        return [number in marks for number in range(len(self.of.decisions))]

    def mark(self):
        of = self.of
        for group in of.groups:
            for decision in group:
                self.raise_low(decision, ONE)
                self.lower_high(decision, ONE * len(group))
        for decision, is_whole in enumerate(self.whole()):
            if decision in of.binary:
                self.raise_low(decision, ZERO)
                self.lower_high(decision, ONE)
            if of.not_negative and decision not in of.explicit:
                self.raise_low(decision, ZERO)
            if is_whole:
                low, high = self.lows[decision], self.highs[decision]
                self.lows[decision] = None if low is None else ONE * ceil(low)
                self.highs[decision] = None if high is None else floor(high)


def standard(model, lows, highs, is_flat=False):
    """Columns (decision, sign), rows (entries by column, constant) and the objective (entries, constant), to be maximised."""
    columns = []
    for decision, low in enumerate(lows):
        columns.append((decision, ONE))
        if low is None or low < 0:
            columns.append((decision, -ONE))
    rows = []

    def add(terms, sign, constant):
        entries = [terms.get(decision, ZERO) * sign * turned for decision, turned in columns]
        rows.append((entries, constant))

    for form, relation in model.rows:
        if relation != '>=':
            add(form.terms, ONE, -form.base)
        if relation != '<=':
            add(form.terms, -ONE, form.base)
    for decision, (low, high) in enumerate(zip(lows, highs)):
        if low:
            add({decision: ONE}, -ONE, -low)
        if high is not None:
            add({decision: ONE}, ONE, high)
    sign = -ONE if model.goal == 'min' else ONE
    objective = Form(ZERO, {}) if is_flat else model.objective
    entries = [objective.terms.get(decision, ZERO) * sign * turned for decision, turned in columns]
    return columns, rows, (entries, objective.base * sign)
