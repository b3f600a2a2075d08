"""The functions over known values. Arguments are values and grids; IF, IFERROR and CHOOSE stand with the formulas."""
from fractions import Fraction

from . import lookups
from .fraction import HALF, add, divide, floor, multiply, power, subtract
from .values import (
    DIVISION, EMPTY, NUMBER, ONE, VALUE, ZERO, Fault, Grid, grid, is_number, meets, shrunk, single, to_logical, to_number,
)

MANY = 10 ** 6
COUNTS = {
    'SUM': (1, MANY), 'AVERAGE': (1, MANY), 'COUNT': (1, MANY), 'SUMPRODUCT': (1, MANY), 'MMULT': (2, 2), 'TRANSPOSE': (1, 1),
    'INDEX': (2, 3), 'MATCH': (2, 3), 'VLOOKUP': (3, 4), 'HLOOKUP': (3, 4), 'CHOOSE': (2, MANY), 'SUMIF': (2, 3),
    'COUNTIF': (2, 2), 'IF': (2, 3), 'IFERROR': (2, 2), 'AND': (1, MANY), 'OR': (1, MANY), 'NOT': (1, 1), 'TRUE': (0, 0),
    'FALSE': (0, 0), 'ABS': (1, 1), 'MIN': (1, MANY), 'MAX': (1, MANY), 'INT': (1, 1), 'MOD': (2, 2), 'ROUND': (1, 2),
    'POWER': (2, 2), 'N': (1, 1), 'ISNUMBER': (1, 1), 'ISBLANK': (1, 1), 'ROWS': (1, 1), 'COLUMNS': (1, 1),
}


def items(args):
    """The numbers and errors of a list of arguments."""
    found = []
    for arg in args:
        if isinstance(arg, Grid):
            found += [item for item in arg.items if is_number(item) or isinstance(item, Fault)]
        else:
            found.append(to_number(arg))
    return found


def first_fault(values):
    return next((value for value in values if isinstance(value, Fault)), None)


def numbers(args, count):
    """The single numbers of arguments, or the first error."""
    found = [to_number(single(arg)) for arg in args[:count]]
    return first_fault(found) or found


def sum_of(values):
    total = ZERO
    for value in values:
        total = add(total, value)
    return total


def sum_(args):
    found = items(args)
    return first_fault(found) or sum_of(found)


def average(args):
    found = items(args)
    fault = first_fault(found)
    if fault or not found:
        return fault or DIVISION
    return divide(sum_of(found), Fraction(len(found)))


def count(args):
    found = [item for arg in args for item in (arg.items if isinstance(arg, Grid) else [arg])]
    return Fraction(sum(map(is_number, found)))


def least(args):
    found = items(args)
    return first_fault(found) or min(found, default=ZERO)


def greatest(args):
    found = items(args)
    return first_fault(found) or max(found, default=ZERO)


def sumproduct(args):
    grids = [grid(arg) for arg in args]
    fault = first_fault(item for one in grids for item in one.items)
    if fault:
        return fault
    if len({(one.rows, one.columns) for one in grids}) > 1:
        return VALUE
    total = ZERO
    for factors in zip(*(one.items for one in grids)):
        product = ONE
        for place, factor in enumerate(factors):
            factor = factor if is_number(factor) else ZERO
            product = multiply(product, factor) if place else factor
        total = add(total, product)
    return total


def mmult(args):
    left, right = map(grid, args)
    elements = left.items + right.items
    fault = first_fault(elements)
    if fault:
        return fault
    if left.columns != right.rows or not all(map(is_number, elements)):
        return VALUE
    found = []
    for row in range(left.rows):
        for column in range(right.columns):
            total = ZERO
            for place in range(left.columns):
                total = add(total, multiply(left.at(row, place), right.at(place, column)))
            found.append(total)
    return Grid(left.rows, right.columns, found)


def transpose(args):
    one = grid(args[0])
    return Grid(one.columns, one.rows, [one.at(row, column) for column in range(one.columns) for row in range(one.rows)])


def logicals(args):
    """The logicals and errors of a list of arguments."""
    found = []
    for arg in args:
        if isinstance(arg, Grid):
            found += [to_logical(item) for item in arg.items if is_number(item) or isinstance(item, (bool, Fault))]
        else:
            found.append(to_logical(arg))
    return found


def and_(args):
    found = logicals(args)
    return first_fault(found) or (all(found) if found else VALUE)


def or_(args):
    found = logicals(args)
    return first_fault(found) or (any(found) if found else VALUE)


def not_(args):
    value = to_logical(single(args[0]))
    return value if isinstance(value, Fault) else not value


def of_number(work):
    def call(args):
        found = numbers(args, 1)
        return found if isinstance(found, Fault) else work(found[0])
    return call


def mod(args):
    found = numbers(args, 2)
    if isinstance(found, Fault):
        return found
    x, y = found
    if y == 0:
        return DIVISION
    return subtract(x, multiply(floor(divide(x, y)), y))


def round_(args):
    found = numbers(args, 2)
    if isinstance(found, Fault):
        return found
    x, places = found[0], floor(found[1]) if len(found) > 1 else ZERO
    if abs(places) > 1000:
        return NUMBER
    scale = power(Fraction(10), int(places))
    rounded = divide(floor(add(multiply(abs(x), scale), HALF)), scale)
    return -rounded if x < 0 else rounded


def raised(x, y):
    if y.denominator != 1 or abs(y) > 1000:
        return NUMBER
    if x == 0 and y < 0:
        return DIVISION
    return power(x, int(y))


def power_(args):
    found = numbers(args, 2)
    return found if isinstance(found, Fault) else raised(*found)


def n(args):
    value = single(args[0])
    if isinstance(value, bool):
        return ONE if value else ZERO
    return value if is_number(value) or isinstance(value, Fault) else ZERO


def sumif(args):
    tested, criterion = grid(args[0]), single(args[1])
    summed = grid(args[2]) if len(args) > 2 else tested
    if isinstance(criterion, Fault):
        return criterion
    if (tested.rows, tested.columns) != (summed.rows, summed.columns):
        return VALUE
    found = [value for item, value in zip(tested.items, summed.items) if meets(item, criterion)]
    return first_fault(found) or sum_of(filter(is_number, found))


def countif(args):
    criterion = single(args[1])
    if isinstance(criterion, Fault):
        return criterion
    return Fraction(sum(meets(item, criterion) for item in grid(args[0]).items))


CALLS = {
    'SUM': sum_, 'AVERAGE': average, 'COUNT': count, 'SUMPRODUCT': sumproduct, 'MMULT': mmult, 'TRANSPOSE': transpose,
    'INDEX': lookups.index, 'MATCH': lookups.match, 'VLOOKUP': lookups.vlookup, 'HLOOKUP': lookups.hlookup,
    'SUMIF': sumif, 'COUNTIF': countif, 'AND': and_, 'OR': or_, 'NOT': not_, 'TRUE': lambda args: True,
    'FALSE': lambda args: False, 'ABS': of_number(abs), 'MIN': least, 'MAX': greatest, 'INT': of_number(floor), 'MOD': mod,
    'ROUND': round_, 'POWER': power_, 'N': n, 'ISNUMBER': lambda args: is_number(shrunk(args[0])),
    'ISBLANK': lambda args: shrunk(args[0]) is EMPTY, 'ROWS': lambda args: Fraction(grid(args[0]).rows),
    'COLUMNS': lambda args: Fraction(grid(args[0]).columns),
}
