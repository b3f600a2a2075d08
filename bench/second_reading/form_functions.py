"""The functions where an argument, or an element of one, is a form or a test."""
from fractions import Fraction

from . import form_lookups, functions
from .forms import REVERSED, Break, Form, Test, Undecided, form_of, is_open, plus, scaled, times, total_of
from .fraction import floor
from .functions import raised
from .values import DIVISION, NUMBER, ONE, VALUE, ZERO, Fault, Grid, grid, is_number, shrunk, single, to_logical, to_number


def wanted(args):
    """What single numbers of arguments are: numbers, errors, forms and tests."""
    found = [single(arg) for arg in args]
    return [value if is_open(value) else to_number(value) for value in found]


def first_test(values):
    for number, value in enumerate(values):
        if isinstance(value, Test):
            raise Undecided(number)


def open_items(args):
    """The numbers, forms and errors of a list of arguments; the first error instead of them, where there is one."""
    found, test = [], None
    for number, arg in enumerate(args):
        if isinstance(arg, Grid):
            found += [item for item in arg.items if is_number(item) or isinstance(item, (Form, Fault))]
        elif isinstance(arg, Test):
            test = number if test is None else test
        else:
            found.append(arg if is_open(arg) else to_number(arg))
    fault = functions.first_fault(found)
    if fault is None and test is not None:
        raise Undecided(test)
    return fault or found


def sum_(args):
    found = open_items(args)
    return found if isinstance(found, Fault) else total_of(found)


def average(args):
    found = open_items(args)
    if isinstance(found, Fault) or not found:
        return found or DIVISION
    return scaled(total_of(found), Fraction(1, len(found)))


def extreme(choose):
    def call(args):
        found = open_items(args)
        if isinstance(found, Fault) or not found:
            return found or ZERO
        forms = [form_of(value) for value in found]
        if any(form.terms != forms[0].terms for form in forms):
            raise Break
        base = choose(form.base for form in forms)
        return Form(base, forms[0].terms) if forms[0].terms else base
    return call


def count(args):
    found = [item for arg in args for item in (arg.items if isinstance(arg, Grid) else [arg])]
    return Fraction(sum(is_number(item) or isinstance(item, Form) for item in found))


def sumproduct(args):
    grids = [grid(arg) for arg in args]
    fault = functions.first_fault(item for one in grids for item in one.items)
    if fault:
        return fault
    if len({(one.rows, one.columns) for one in grids}) > 1:
        return VALUE
    total = ZERO
    for factors in zip(*(one.items for one in grids)):
        factors = [factor if is_number(factor) or isinstance(factor, Form) else ZERO for factor in factors]
        product = factors[0]
        for factor in factors[1:]:
            product = times(product, factor)
        total = plus(total, product)
    return total


def mmult(args):
    left, right = map(grid, args)
    elements = left.items + right.items
    fault = functions.first_fault(elements)
    if fault:
        return fault
    if left.columns != right.rows or not all(is_number(item) or isinstance(item, Form) for item in elements):
        return VALUE
    found = []
    for row in range(left.rows):
        for column in range(right.columns):
            found.append(total_of(times(left.at(row, place), right.at(place, column)) for place in range(left.columns)))
    return Grid(left.rows, right.columns, found)


def joined(deciding):
    """AND, which FALSE decides, and OR, which TRUE decides."""
    def call(args):
        known, tests = [], []
        for number, arg in enumerate(args):
            for item in arg.items if isinstance(arg, Grid) else [arg]:
                if is_open(item):
                    tests.append((number, Test(item, '<>') if isinstance(item, Form) else item))
                elif not isinstance(arg, Grid):
                    known.append(to_logical(item))
                elif is_number(item) or isinstance(item, (bool, Fault)):
                    known.append(to_logical(item))
        fault = functions.first_fault(known)
        if fault or deciding in known:
            return fault or deciding
        if len(tests) > 1:
            raise Undecided(tests[0][0])
        return tests[0][1]
    return call


def not_(args):
    value = single(args[0])
    if isinstance(value, Fault):
        return value
    return Test(value, '=') if isinstance(value, Form) else Test(value.form, REVERSED[value.relation])


def broken(args):
    found = wanted(args)
    fault = functions.first_fault(found)
    if fault:
        return fault
    first_test(found)
    raise Break


def mod(args):
    found = wanted(args)
    fault = functions.first_fault(found)
    if fault or found[1] == ZERO:
        return fault or DIVISION
    first_test(found)
    raise Break


def round_(args):
    found = wanted(args)
    fault = functions.first_fault(found)
    if fault:
        return fault
    if len(found) > 1 and is_number(found[1]) and abs(floor(found[1])) > 1000:
        return NUMBER
    first_test(found)
    if isinstance(found[0], Form):
        raise Break
    raise Undecided(1)


def power(args):
    found = wanted(args)
    fault = functions.first_fault(found)
    if fault:
        return fault
    base, exponent = found
    if is_number(exponent) and isinstance(raised(ONE, exponent), Fault):
        return NUMBER
    first_test(found)
    if exponent == ZERO:
        return ONE
    if exponent == ONE:
        return base
    raise Break


def n(args):
    value = single(args[0])
    if isinstance(value, Test):
        raise Undecided(0)
    return value


CALLS = {
    'SUM': sum_, 'AVERAGE': average, 'COUNT': count, 'SUMPRODUCT': sumproduct, 'MMULT': mmult,
    'TRANSPOSE': functions.transpose, 'INDEX': form_lookups.index, 'MATCH': form_lookups.match,
    'VLOOKUP': form_lookups.vlookup, 'HLOOKUP': form_lookups.hlookup, 'SUMIF': form_lookups.sumif,
    'COUNTIF': form_lookups.countif, 'AND': joined(False), 'OR': joined(True), 'NOT': not_, 'ABS': broken, 'INT': broken,
    'MIN': extreme(min), 'MAX': extreme(max), 'MOD': mod, 'ROUND': round_, 'POWER': power, 'N': n,
    'ISNUMBER': lambda args: isinstance(shrunk(args[0]), Form), 'ISBLANK': lambda args: False,
    'ROWS': functions.CALLS['ROWS'], 'COLUMNS': functions.CALLS['COLUMNS'],
}
