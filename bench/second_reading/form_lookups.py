"""INDEX, the lookups, SUMIF and COUNTIF where an argument, or an element of one, is a form or a test."""
from fractions import Fraction

from . import functions, lookups
from .forms import Form, Test, Undecided, is_open, total_of
from .values import (
    EMPTY, NOT_AVAILABLE, ONE, REFERENCE, VALUE, Fault, Grid, compared, grid, is_number, meets, shrunk, single, to_logical, to_number,
)


def places_of(args, start):
    """The places among the arguments, by number; an open one is Undecided, a test before others."""
    found = [(number, single(args[number])) for number in range(start, len(args))]
    for wanted_kind in (Test, Form):
        for number, value in found:
            if isinstance(value, wanted_kind):
                raise Undecided(number)


def index_fault(rows, columns, places):
    """The error that INDEX gives whatever its open places are, or None."""
    found = [single(arg) for arg in places]
    known = [None if is_open(value) else lookups.place(value) for value in found]
    fault = functions.first_fault(known)
    if fault:
        return fault
    sizes = (rows, columns) if len(known) == 2 else ((columns,) if rows == 1 else (rows,))
    if any(value is not None and not 0 <= value <= size for value, size in zip(known, sizes)):
        return REFERENCE
    return None


def index_part(rows, columns, places):
    """The part that INDEX picks, or an error."""
    if not any(is_open(single(arg)) for arg in places):
        return lookups.index_part(rows, columns, places)
    fault = index_fault(rows, columns, places)
    if fault:
        return fault
    places_of([None] + list(places), 1)
    raise AssertionError


def is_out_of_range(one, places):
    """Whether INDEX can pick one element alone, and that is the error of a place out of range."""
    found = [single(arg) for arg in places]
    sizes = (one.rows, one.columns) if len(found) == 2 else (len(one.items),)
    if any(is_open(value) and size != 1 for value, size in zip(found, sizes)):
        return False
    part = lookups.index_part(one.rows, one.columns, [ONE if is_open(value) else value for value in found])
    return not isinstance(part, Fault) and one.part(*part).items == [REFERENCE]


def index(args):
    one = grid(args[0])
    if any(is_open(single(arg)) for arg in args[1:]) and is_out_of_range(one, args[1:]):
        return REFERENCE
    part = index_part(one.rows, one.columns, args[1:])
    return part if isinstance(part, Fault) else shrunk(one.part(*part))


def may_find(key, keys, kind):
    """The places that a search may find, None for nothing. An open key may be found at each place with a key, and nowhere; an open
    element may be equal to the key, beyond it, or neither."""
    places = [(place, item) for place, item in enumerate(keys) if item is not EMPTY and not isinstance(item, Fault)]
    if is_open(key):
        return {None} | {place for place, _ in places}
    found, last = set(), None
    for place, item in places:
        if is_open(item):
            found.add(last if kind else place)
        else:
            order = compared(item, key)
            if (order * kind > 0) if kind else (order == 0):
                return found | {last if kind else place}
        last = place if kind else None
    return found | {last}


def match(args):
    key, keys = single(args[0]), grid(args[1])
    kind = single(args[2]) if len(args) > 2 else ONE
    kind = kind if is_open(kind) else to_number(kind)
    for value in (key, kind):
        if isinstance(value, Fault):
            return value
    kinds = (0, 1, -1) if is_open(kind) else (lookups.sign(kind),)
    if 1 not in (keys.rows, keys.columns) or all(may_find(key, keys.items, one) == {None} for one in kinds):
        return NOT_AVAILABLE
    first_open([(2, kind)], [(0, key), (1, keys), (2, kind)])
    found = lookups.search(key, keys.items, kinds[0])
    return NOT_AVAILABLE if found is None else Fraction(found + 1)


def first_open(numbers, parts):
    """Undecided at the first test where a number is wanted, and else at the first part with something open."""
    for number, value in numbers:
        if isinstance(value, Test):
            raise Undecided(number)
    for number, value in parts:
        if any(map(is_open, value.items)) if isinstance(value, Grid) else is_open(value):
            raise Undecided(number)


def lookup_part(columns, keys, args, picked=lambda row, column: None):
    """The row and the column, from 0, of what a lookup picks from a table of so many columns, or an error. `picked` tells the elements
    of a table that is computed."""
    key, column = single(args[0]), single(args[2])
    column = column if is_open(column) else lookups.place(column)
    fourth = single(args[3]) if len(args) > 3 else True
    fourth = fourth if is_open(fourth) else to_logical(fourth)
    for value in (key, column, fourth):
        if isinstance(value, Fault):
            return value
    if not is_open(column) and not 1 <= column <= columns:
        return VALUE if column < 1 else REFERENCE
    kinds = (1, 0) if is_open(fourth) else ((1,) if fourth else (0,))
    if not is_open(column):
        found = set().union(*(may_find(key, keys, kind) for kind in kinds))
        ends = [NOT_AVAILABLE if place is None else picked(place, int(column) - 1) for place in found]
        if isinstance(ends[0], Fault) and all(end == ends[0] for end in ends):
            return ends[0]
    first_open([(2, column)], [(0, key), (1, Grid(1, len(keys), keys)), (2, column), (3, fourth)])
    found = lookups.search(key, keys, kinds[0])
    return NOT_AVAILABLE if found is None else (found, int(column) - 1)


def vlookup(args):
    table = grid(args[1])
    part = lookup_part(table.columns, [table.at(row, 0) for row in range(table.rows)], args, table.at)
    return part if isinstance(part, Fault) else table.at(*part)


def hlookup(args):
    return vlookup([args[0], lookups.turned(grid(args[1]))] + list(args[2:]))


def sumif(args):
    tested, criterion = grid(args[0]), single(args[1])
    summed = grid(args[2]) if len(args) > 2 else tested
    if isinstance(criterion, Fault):
        return criterion
    if (tested.rows, tested.columns) != (summed.rows, summed.columns):
        return VALUE
    fault = None if is_open(criterion) else certain_fault(tested.items, summed.items, criterion)
    if fault:
        return fault
    first_open([], [(0, tested), (1, criterion)])
    found = [value for item, value in zip(tested.items, summed.items) if meets(item, criterion)]
    fault = functions.first_fault(found)
    return fault or total_of(value for value in found if is_number(value) or isinstance(value, Form))


def certain_fault(tested, summed, criterion):
    """The error that comes first among what SUMIF sums, where it is the same whatever the open tested elements are."""
    found = []
    for item, value in zip(tested, summed):
        if isinstance(value, Fault) and (is_open(item) or meets(item, criterion)):
            found.append(value)
            if not is_open(item):
                return value if all(fault == value for fault in found) else None
    return None


def countif(args):
    criterion = single(args[1])
    if isinstance(criterion, Fault):
        return criterion
    first_open([], [(0, grid(args[0])), (1, criterion)])
    raise AssertionError
