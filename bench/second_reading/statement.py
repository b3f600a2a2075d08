"""What the names of one sheet ask of the solver, and the first fault of the names."""
from dataclasses import dataclass, field
from fractions import Fraction

from .formulas import cells_in, size
from .fraction import narrow_numeral
from .grammar import Node, Reader, parse, parse_reference
from .tokens import Malformed

MOST, MOST_DECISIONS = 256, 512
RELATIONS = {1: '<=', 2: '=', 3: '>='}


class NamesFault(Exception):
    """The line behind `names `."""

    def __init__(self, number, line=''):
        super().__init__(number)
        self.line = ('%d %s' % (number, line)).strip()


@dataclass
class Statement:
    """Decision cells, objective, goal and rows (left cell, relation, right place); marks and groups by decision number."""

    decisions: list
    objective: tuple = None
    goal: str = 'max'
    value: Fraction = Fraction(0)
    rows: list = field(default_factory=list)
    sides: dict = field(default_factory=dict)
    whole: set = field(default_factory=set)
    binary: set = field(default_factory=set)
    explicit: set = field(default_factory=set)
    groups: list = field(default_factory=list)
    not_negative: bool = True


class Constraint:
    """One constraint as its names say it; a part is None where it isn't there or isn't of its form."""

    def __init__(self, number, texts):
        self.number = number
        self.left_text, self.code_text, self.right_text = (texts('solver_%s%d' % (part, number)) for part in ('lhs', 'rel', 'rhs'))
        self.code = code_of(self.code_text)
        self.left = self.right = self.side = None

    @property
    def is_row(self):
        return self.code in RELATIONS

    def lacks(self):
        return self.left_text is None or self.code_text is None or (self.is_row and self.right_text is None)


def number_of(text):
    """A number's text: a numeral with an optional equals sign."""
    return narrow_numeral(text.removeprefix('='))


def code_of(text):
    value = None if text is None else number_of(text)
    return int(value) if value in (1, 2, 3, 4, 5, 6) else None


def references(text, home, sheets):
    """The areas of a list of references, or None."""
    try:
        reader = Reader(text, 1 if text.startswith('=') else 0, home, sheets)
        areas = [reader.reference()]
        while reader.take(',', ';', '~'):
            areas.append(reader.reference())
    except Malformed:
        return None
    return None if None in areas or reader.next() is not None else areas


def shifted(node):
    """The tree with each place one less."""
    made = Node(node.kind, node.start - 1, node.end - 1, node.value)
    made.parts = tuple(map(shifted, node.parts))
    return made


def side_of(book, text, sheet):
    """The tree of a right side that is an expression."""
    if text.startswith('='):
        return book.expanded(parse(text, sheet, book.sheets), sheet)
    return shifted(book.expanded(parse('=' + text, sheet, book.sheets), sheet))


class Reading:
    """Reads the statement of a sheet, fault by fault."""

    def __init__(self, book, sheet):
        self.book, self.sheet = book, sheet
        self.faults = []
        self.constraints = []

    def text(self, name):
        return self.book.text_of(self.sheet, name)

    def fault(self, number, place, line):
        self.faults.append((number, place, line))

    def area(self, name, place):
        text = self.text(name)
        area = parse_reference(text, self.sheet, self.book.sheets)
        if area is None:
            self.fault(2, place, name)
        return area

    def read(self):
        if self.text('solver_adj') is None:
            raise NamesFault(1)
        areas = references(self.text('solver_adj'), self.sheet, self.book.sheets)
        if areas is None:
            raise NamesFault(2, 'solver_adj')
        statement = Statement(list(dict.fromkeys(cell for area in areas for cell in cells_in(area))))
        self.objective(statement)
        options = self.options(statement)
        for number in range(1, options['num'] + 1):
            self.constraint(Constraint(number, self.text))
        self.counts(statement)
        if self.faults:
            number, _, line = min(self.faults)
            raise NamesFault(number, line)
        self.add_rows(statement)
        return statement

    def objective(self, statement):
        if self.text('solver_opt') is None:
            return
        area = self.area('solver_opt', (0,))
        if area and size(area) != (1, 1):
            self.fault(2, (0,), 'solver_opt')
        statement.objective = area[:3] if area else (0, 0, 0)

    def option(self, name, allowed, default, place):
        text = self.text('solver_' + name)
        if text is None:
            return default
        value = number_of(text)
        if value is None or not allowed(value):
            self.fault(7, (place,), 'solver_' + name)
            return default
        return value

    def options(self, statement):
        if statement.objective is not None:
            goal = self.option('typ', lambda value: value in (1, 2, 3), Fraction(1), 1)
            statement.goal = {1: 'max', 2: 'min', 3: 'reach'}[int(goal)]
            if statement.goal == 'reach':
                statement.value = self.option('val', lambda value: True, Fraction(0), 2)
        statement.not_negative = self.option('neg', lambda value: value in (1, 2), Fraction(1), 3) == 1
        count = self.option('num', lambda value: value.denominator == 1 and 0 <= value <= MOST, Fraction(0), 4)
        return {'num': int(count)}

    def constraint(self, one):
        self.constraints.append(one)
        number = one.number
        if one.left_text is not None:
            one.left = self.area('solver_lhs%d' % number, (number, 0))
        if one.is_row and one.right_text is not None:
            self.right(one)
        if one.lacks():
            self.fault(3, (number,), str(number))
        if one.code_text is not None and one.code is None:
            self.fault(4, (number,), '%d "%s"' % (number, one.code_text))

    def right(self, one):
        one.right = parse_reference(one.right_text, self.sheet, self.book.sheets)
        if one.right is None:
            try:
                one.side = side_of(self.book, one.right_text, self.sheet)
            except Malformed:
                self.fault(2, (one.number, 1), 'solver_rhs%d' % one.number)
        elif one.left:
            left, right = (rows * columns for rows, columns in map(size, (one.left, one.right)))
            if right not in (1, left):
                self.fault(5, (one.number,), '%d %d %d' % (one.number, left, right))

    def counts(self, statement):
        decisions = set(statement.decisions)
        for one in self.constraints:
            if one.code in (4, 5, 6) and one.left:
                other = next((cell for cell in cells_in(one.left) if cell not in decisions), None)
                if other:
                    self.fault(6, (one.number,), '%d %s' % (one.number, Cell(other)))
        if len(decisions) > MOST_DECISIONS:
            self.fault(8, (0,), str(len(decisions)))
        rows = sum(size(one.left)[0] * size(one.left)[1] for one in self.constraints if one.is_row and one.left)
        if rows > MOST:
            self.fault(9, (0,), str(rows))

    def add_rows(self, statement):
        numbers = {cell: number for number, cell in enumerate(statement.decisions)}
        for one in self.constraints:
            lefts = cells_in(one.left)
            if not one.is_row:
                self.add_marks(statement, one.code, [numbers[cell] for cell in lefts])
                continue
            if one.side is not None:
                statement.sides[one.number] = one.side
            rights = cells_in(one.right) if one.right else [one.number]
            for place, left in enumerate(lefts):
                right = rights[place if len(rights) > 1 else 0]
                statement.rows.append((left, RELATIONS[one.code], right))
                if one.code == 3 and left in numbers:
                    statement.explicit.add(numbers[left])

    def add_marks(self, statement, code, numbers):
        if code == 6:
            statement.groups.append(numbers)
        else:
            (statement.whole if code == 4 else statement.binary).update(numbers)


class Cell:
    """A cell in the line of a fault, printed where the sheets' names are known."""

    def __init__(self, cell):
        self.cell = cell

    def __str__(self):
        return '\0%d,%d,%d\0' % self.cell

