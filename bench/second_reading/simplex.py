"""Dictionaries and the two phases by Bland's rule."""
from .fraction import Wide, add, divide, is_narrow, multiply
from .values import ONE, ZERO


class WidePivot(Exception):
    """The next pivot meets a number that isn't narrow: the basis, the row's variable and the column's."""

    def __init__(self, basis, row, column):
        super().__init__(row, column)
        self.basis, self.row, self.column = basis, row, column


class Dictionary:
    """Rows by basic variable, in a list: a constant and entries by non-basic variable, and the objectives' two rows last."""

    def __init__(self, program):
        columns, rows, (entries, constant) = program
        count = len(columns)
        self.count = count
        self.basic = [count + 1 + number for number in range(len(rows))]
        self.columns = list(range(count + 1))
        self.constants = [constant for _, constant in rows] + [constant, ZERO]
        self.rows = [[ONE] + [-entry for entry in entries] for entries, _ in rows]
        self.rows += [[ZERO] + list(entries), [-ONE] + [ZERO] * count]
        self.is_first = any(value < 0 for value in self.constants[:-2])
        self.has_begun = False
        self.end = None

    def next(self):
        """The row and the column of the next pivot; None where the run has ended, and `end` says how."""
        if self.is_first and not self.has_begun:
            least = min(self.constants[:-2])
            numbers = [number for number, value in enumerate(self.constants[:-2]) if value == least]
            return min(numbers, key=lambda number: self.basic[number]), self.columns.index(0)
        if self.is_first:
            chosen = self.bland(-1)
            if chosen is not None:
                return chosen
            if self.constants[-1] < 0:
                self.end = 'infeasible'
                return None
            self.is_first = False
        chosen = self.bland(-2)
        if chosen is None:
            self.end = 'best'
        elif chosen[0] is None:
            self.end, chosen = 'unbounded', None
        return chosen

    def bland(self, objective):
        """The pivot of Bland's rule; None at an optimum, and no row where nothing holds the column back."""
        entries = self.rows[objective]
        improving = [column for column, entry in enumerate(entries) if entry > 0 and (objective == -1 or self.columns[column])]
        if not improving:
            return None
        column = min(improving, key=lambda place: self.columns[place])
        ratios = {}
        for number in range(len(self.basic)):
            entry = self.rows[number][column]
            if entry < 0:
                ratios[number] = self.constants[number] / -entry
        wide = [number for number, ratio in ratios.items() if not is_narrow(ratio)]
        if wide:
            return min(wide, key=lambda number: self.basic[number]), column
        if not ratios:
            return None, column
        return min(ratios, key=lambda number: (ratios[number], self.basic[number])), column

    def pivot(self, row, column):
        try:
            constants, rows = self.turned(row, column)
        except Wide as fault:
            raise WidePivot(list(self.basic), self.basic[row], self.columns[column]) from fault
        self.constants, self.rows, self.has_begun = constants, rows, True
        self.basic[row], self.columns[column] = self.columns[column], self.basic[row]

    def turned(self, row, column):
        entry = self.rows[row][column]
        new = [-divide(value, entry) for value in self.rows[row]]
        new[column] = divide(ONE, entry)
        constant = -divide(self.constants[row], entry)
        constants, rows = [], []
        for number, values in enumerate(self.rows):
            factor = values[column]
            if number == row:
                constants.append(constant)
                rows.append(new)
            elif factor == 0:
                constants.append(self.constants[number])
                rows.append(values)
            else:
                constants.append(add(self.constants[number], multiply(factor, constant)))
                rows.append([
                    multiply(factor, new[place]) if place == column else
                    (add(value, multiply(factor, new[place])) if new[place] else value)
                    for place, value in enumerate(values)
                ])
        return constants, rows

    def point(self, columns, count):
        """The decisions' values at the dictionary's point."""
        values = [ZERO] * count
        for variable, constant in zip(self.basic, self.constants):
            if 1 <= variable <= self.count:
                decision, sign = columns[variable - 1]
                values[decision] += sign * constant
        return values

    def multipliers(self):
        """The rows, counted from 1, whose slacks have an entry that isn't 0 in the last objective's row, with that entry negated; the
        objective is that of phase 1 where there is no point."""
        entries = dict(zip(self.columns, self.rows[-1 if self.end == 'infeasible' else -2]))
        found = [(row, -entries.get(self.count + row, ZERO)) for row in range(1, len(self.basic) + 1)]
        return [(row, number) for row, number in found if number]

    def direction(self, columns, count):
        """How the decisions move while the column that nothing holds back rises by 1."""
        _, column = self.bland(-2)
        steps = {self.columns[column]: ONE}
        steps.update({variable: self.rows[place][column] for place, variable in enumerate(self.basic)})
        ray = [ZERO] * count
        for variable, (decision, sign) in enumerate(columns, 1):
            ray[decision] += sign * steps.get(variable, ZERO)
        return ray

    @property
    def value(self):
        return self.constants[-2]
