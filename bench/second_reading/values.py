"""Values: conversions, the comparison, and grids."""
from fractions import Fraction

from .fraction import narrow_numeral, printed
from .tokens import lower


class Fault:
    """An error value."""

    def __init__(self, text):
        self.text = text

    def __eq__(self, other):
        return isinstance(other, Fault) and self.text == other.text

    def __hash__(self):
        return hash(self.text)


class Nothing:
    """The value of an empty cell."""


EMPTY = Nothing()
DIVISION, VALUE, REFERENCE = Fault('#DIV/0!'), Fault('#VALUE!'), Fault('#REF!')
NUMBER, NOT_AVAILABLE = Fault('#NUM!'), Fault('#N/A')
CIRCULAR, MALFORMED = Fault('#CIRCULAR'), Fault('#MALFORMED')
ZERO, ONE = Fraction(0), Fraction(1)


class Grid:
    """Elements in rows; a reference is one too, also of a single cell."""

    def __init__(self, rows, columns, items):
        self.rows, self.columns, self.items = rows, columns, items

    def at(self, row, column):
        return self.items[row * self.columns + column]

    def part(self, top, left, bottom, right):
        items = [self.at(row, column) for row in range(top, bottom + 1) for column in range(left, right + 1)]
        return Grid(bottom - top + 1, right - left + 1, items)


def is_number(value):
    return isinstance(value, Fraction)


def single(arg):
    """The one value that is wanted of an argument."""
    if not isinstance(arg, Grid):
        return arg
    return arg.items[0] if len(arg.items) == 1 else VALUE


def shrunk(arg):
    """A grid of one element as that element."""
    return arg.items[0] if isinstance(arg, Grid) and len(arg.items) == 1 else arg


def grid(arg):
    return arg if isinstance(arg, Grid) else Grid(1, 1, [arg])


def to_number(value):
    if isinstance(value, bool):
        return ONE if value else ZERO
    if value is EMPTY:
        return ZERO
    return VALUE if isinstance(value, str) else value


def to_logical(value):
    if is_number(value):
        return value != 0
    if value is EMPTY:
        return False
    return VALUE if isinstance(value, str) else value


def to_text(value):
    if isinstance(value, bool):
        return 'TRUE' if value else 'FALSE'
    if is_number(value):
        return printed(value)
    return '' if value is EMPTY else value


def kind(value):
    if isinstance(value, bool):
        return 2
    return 1 if isinstance(value, str) else 0


def compared(left, right):
    """Below 0, 0 or above 0, of two values that aren't errors."""
    if left is EMPTY and right is EMPTY:
        return 0
    if left is EMPTY:
        left = '' if isinstance(right, str) else ZERO
    if right is EMPTY:
        right = '' if isinstance(left, str) else ZERO
    if kind(left) != kind(right):
        return kind(left) - kind(right)
    if isinstance(left, str):
        left, right = lower(left), lower(right)
    return (left > right) - (left < right)


RELATIONS = {
    '=': lambda order: order == 0, '<>': lambda order: order != 0, '<': lambda order: order < 0,
    '<=': lambda order: order <= 0, '>': lambda order: order > 0, '>=': lambda order: order >= 0,
}


def meets(item, criterion):
    """Whether an element meets a criterion that is no error."""
    if isinstance(item, Fault) or criterion is EMPTY:
        return False
    if not isinstance(criterion, str):
        return item is not EMPTY and kind(item) == kind(criterion) and item == criterion
    sign = next((sign for sign in ('<=', '>=', '<>', '<', '>', '=') if criterion.startswith(sign)), None)
    rest = criterion[len(sign):] if sign else criterion
    if rest == '' and sign in ('=', '<>'):
        return (item is EMPTY) == (sign == '=')
    number = narrow_numeral(rest)
    wanted = rest if number is None else number
    if item is EMPTY or kind(item) != kind(wanted):
        return sign == '<>'
    return RELATIONS[sign or '='](compared(item, wanted))
