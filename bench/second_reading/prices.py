"""Prices of rows and their ranges, from the last dictionary of a model without whole decisions."""
from .fraction import Wide, add, divide, printed
from .model import Refused, standard
from .search import Stuck
from .simplex import Dictionary, WidePivot
from .values import ONE, ZERO

SIGNS = {'<=': (ONE,), '>=': (-ONE,), '=': (ONE, -ONE)}


def solved(model, units):
    """The last dictionary; the first unit opens the program, and each further one makes a pivot."""
    dictionary = Dictionary(standard(model, model.lows, model.highs))
    chosen, spent = dictionary.next(), 1
    while chosen is not None:
        if spent == units:
            raise Refused('budget %d' % units)
        try:
            dictionary.pivot(*chosen)
        except WidePivot as fault:
            raise Stuck([], fault) from fault
        chosen, spent = dictionary.next(), spent + 1
    return dictionary


def price_lines(model, row_numbers, units):
    dictionary = solved(model, units)
    if dictionary.end != 'best':
        return [dictionary.end]
    turned = -ONE if model.goal == 'min' else ONE
    lines, slack = ['optimal ' + printed(turned * dictionary.value)], dictionary.count + 1
    for number, (_, relation) in zip(row_numbers, model.rows):
        rows = [(slack + place, sign) for place, sign in enumerate(SIGNS[relation])]
        slack += len(rows)
        try:
            price, (low, high) = turned * price_of(dictionary, rows), range_of(dictionary, rows)
        except Wide as fault:
            raise Refused('wide-range %d' % number) from fault
        lines.append('row %d price %s from %s to %s' % (number, printed(price), bound(low), bound(high)))
    return lines + ['end']


def bound(value):
    return '-' if value is None else printed(value)


def total(parts):
    """The sum of one number or of two."""
    return parts[0] if len(parts) == 1 else add(*parts)


def multiplier(dictionary, slack):
    return -dictionary.rows[-2][dictionary.columns.index(slack)] if slack in dictionary.columns else ZERO


def price_of(dictionary, rows):
    return total([sign * multiplier(dictionary, slack) for slack, sign in rows])


def slope(dictionary, place, rows):
    parts = []
    for slack, sign in rows:
        if slack in dictionary.columns:
            parts.append(-sign * dictionary.rows[place][dictionary.columns.index(slack)])
        else:
            parts.append(sign if dictionary.basic[place] == slack else ZERO)
    return total(parts)


def range_of(dictionary, rows):
    """The greatest change that a rising variable allows, and the least that a falling one does."""
    lows, highs = [], []
    for place in range(len(dictionary.basic)):
        step = slope(dictionary, place, rows)
        if step:
            (lows if step > 0 else highs).append(-divide(dictionary.constants[place], step))
    return max(lows, default=None), min(highs, default=None)
