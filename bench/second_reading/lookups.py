"""INDEX, MATCH, VLOOKUP and HLOOKUP over known values."""
from fractions import Fraction

from .fraction import floor
from .values import EMPTY, NOT_AVAILABLE, REFERENCE, VALUE, Fault, Grid, compared, grid, shrunk, single, to_logical, to_number


def place(arg):
    """A place, or the error that stands there."""
    value = to_number(single(arg))
    return value if isinstance(value, Fault) else floor(value)


def index_part(rows, columns, places):
    """The part that INDEX picks of so many rows and columns, or an error."""
    found = [place(arg) for arg in places]
    fault = next((one for one in found if isinstance(one, Fault)), None)
    if fault:
        return fault
    row, column = found if len(found) == 2 else ((Fraction(0), found[0]) if rows == 1 else (found[0], Fraction(0)))
    if not (0 <= row <= rows and 0 <= column <= columns):
        return REFERENCE
    top, bottom = (0, rows - 1) if row == 0 else (int(row) - 1, int(row) - 1)
    left, right = (0, columns - 1) if column == 0 else (int(column) - 1, int(column) - 1)
    return top, left, bottom, right


def index(args):
    one = grid(args[0])
    part = index_part(one.rows, one.columns, args[1:])
    return part if isinstance(part, Fault) else shrunk(one.part(*part))


def search(key, keys, kind):
    """The place among keys, or None. Kind is 0, 1 or -1."""
    found = None
    for number, item in enumerate(keys):
        if item is EMPTY or isinstance(item, Fault):
            continue
        order = compared(item, key)
        if kind == 0:
            if order == 0:
                return number
        elif order * kind > 0:
            return found
        else:
            found = number
    return found if kind else None


def sign(number):
    return (number > 0) - (number < 0)


def match(args):
    key, keys = single(args[0]), grid(args[1])
    if isinstance(key, Fault):
        return key
    kind = to_number(single(args[2])) if len(args) > 2 else Fraction(1)
    if isinstance(kind, Fault):
        return kind
    found = search(key, keys.items, sign(kind)) if 1 in (keys.rows, keys.columns) else None
    return NOT_AVAILABLE if found is None else Fraction(found + 1)


def lookup_part(columns, keys, args):
    """The row and the column, from 0, of what VLOOKUP picks from so many columns whose first one has these keys, or an error."""
    key, column = single(args[0]), place(args[2])
    fourth = to_logical(single(args[3])) if len(args) > 3 else True
    for value in (key, column, fourth):
        if isinstance(value, Fault):
            return value
    if column < 1:
        return VALUE
    if column > columns:
        return REFERENCE
    found = search(key, keys, 1 if fourth else 0)
    return NOT_AVAILABLE if found is None else (found, int(column) - 1)


def vlookup(args):
    table = grid(args[1])
    part = lookup_part(table.columns, [table.at(row, 0) for row in range(table.rows)], args)
    return part if isinstance(part, Fault) else table.at(*part)


def hlookup(args):
    return vlookup([args[0], turned(grid(args[1]))] + list(args[2:]))


def turned(table):
    return Grid(table.columns, table.rows, [table.at(row, column) for column in range(table.columns) for row in range(table.rows)])
