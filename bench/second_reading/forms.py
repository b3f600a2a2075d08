"""Forms: a constant and terms over the decision cells; tests of forms; and operators where a side is one of these."""
from . import fraction
from .fraction import add, divide, multiply
from .functions import raised
from .values import DIVISION, EMPTY, ONE, RELATIONS, VALUE, ZERO, Fault, Grid, compared, is_number, shrunk, to_number, to_text

REVERSED = {'=': '<>', '<>': '=', '<': '>=', '>=': '<', '>': '<=', '<=': '>'}


class Break(Exception):
    """The part isn't affine."""


class Undecided(Exception):
    """The argument of this number has to be decided first."""

    def __init__(self, argument):
        super().__init__(argument)
        self.argument = argument


class Form:
    """A constant, and a coefficient other than 0 by decision number."""

    def __init__(self, base, terms):
        self.base, self.terms = base, terms

    def __eq__(self, other):
        return isinstance(other, Form) and self.base == other.base and self.terms == other.terms

    def __hash__(self):
        return hash(self.base)


class Test:
    """A form in a relation to 0."""

    def __init__(self, form, relation):
        self.form, self.relation = form, relation

    def __eq__(self, other):
        return isinstance(other, Test) and (self.form, self.relation) == (other.form, other.relation)

    def __hash__(self):
        return hash(self.relation)


def is_open(value):
    return isinstance(value, (Form, Test))


def has_open(args):
    return any(is_open(item) for arg in args for item in (arg.items if isinstance(arg, Grid) else [arg]))


def form_of(value):
    return value if isinstance(value, Form) else Form(value, {})


def settled(form):
    """A form as it is kept: one without terms is its number."""
    return form if form.terms else form.base


def plus(left, right):
    left, right = form_of(left), form_of(right)
    base, terms = add(left.base, right.base), {}
    for number in sorted(left.terms.keys() | right.terms.keys()):
        if number in left.terms and number in right.terms:
            terms[number] = add(left.terms[number], right.terms[number])
        else:
            terms[number] = left.terms.get(number) or right.terms[number]
    return settled(Form(base, {number: value for number, value in terms.items() if value}))


def scaled(value, factor):
    form = form_of(value)
    terms = {number: multiply(part, factor) for number, part in form.terms.items()}
    return settled(Form(multiply(form.base, factor), {number: part for number, part in terms.items() if part}))


def minus(left, right):
    return plus(left, scaled(right, -ONE))


def total_of(values):
    total = ZERO
    for value in values:
        total = plus(total, value)
    return total


def times(left, right):
    if isinstance(left, Form) and isinstance(right, Form):
        raise Break
    return scaled(left, right) if is_number(right) else scaled(right, left)


def is_multiple(value, tested):
    """Whether a form, which may be a number, is a fraction times one that has a term."""
    form = form_of(value)
    first = min(tested.terms)
    factor = divide(form.terms.get(first, ZERO), tested.terms[first])
    terms = {number: multiply(factor, tested.terms[number]) for number in sorted(tested.terms)}
    base = multiply(factor, tested.base)
    return (base, {number: part for number, part in terms.items() if part}) == (form.base, form.terms)


def arithmetic(sign, left, right):
    """A number's operator over known values and open ones."""
    left = left if is_open(left) else to_number(left)
    right = right if is_open(right) else to_number(right)
    for side in (left, right):
        if isinstance(side, Fault):
            return side
    if is_number(right) and sign == '/' and right == 0:
        return DIVISION
    if is_number(right) and sign == '^' and not is_open(left):
        return raised(left, right)
    if is_number(right) and sign == '^' and isinstance(raised(ONE, right), Fault):
        return raised(ONE, right)
    for number, side in enumerate((left, right)):
        if isinstance(side, Test):
            raise Undecided(number)
    if sign in '+-':
        return plus(left, right) if sign == '+' else minus(left, right)
    if sign == '*':
        return times(left, right)
    if isinstance(right, Form):
        raise Break
    if sign == '/':
        return scaled(left, ONE / right)
    if right not in (ZERO, ONE):
        raise Break
    return left if right == 1 else ONE


def joined(left, right):
    for side in (left, right):
        if isinstance(side, Fault):
            return side
    for number, side in enumerate((left, right)):
        if is_open(side):
            raise Undecided(number)
    return to_text(left) + to_text(right)


def relation(sign, left, right):
    for side in (left, right):
        if isinstance(side, Fault):
            return side
    if not is_open(left) and not is_open(right):
        return RELATIONS[sign](compared(left, right))
    if isinstance(left, Test) or isinstance(right, Test):
        other = right if isinstance(left, Test) else left
        if isinstance(other, (bool, Test)):
            raise Undecided(0 if isinstance(left, Test) else 1)
        return RELATIONS[sign](1 if isinstance(left, Test) else -1)
    other = right if isinstance(left, Form) else left
    if isinstance(other, (bool, str)):
        return RELATIONS[sign](-1 if isinstance(left, Form) else 1)
    difference = minus(ZERO if left is EMPTY else left, ZERO if right is EMPTY else right)
    return RELATIONS[sign](difference) if is_number(difference) else Test(difference, sign)


def infix_of_two(sign, left, right):
    if sign == '&':
        return joined(left, right)
    if sign in RELATIONS:
        return relation(sign, left, right)
    if is_open(left) or is_open(right):
        return arithmetic(sign, left, right)
    left, right = to_number(left), to_number(right)
    for side in (left, right):
        if isinstance(side, Fault):
            return side
    if sign == '^':
        return raised(left, right)
    if sign == '/' and right == 0:
        return DIVISION
    return {'+': fraction.add, '-': fraction.subtract, '*': fraction.multiply, '/': fraction.divide}[sign](left, right)


def infix(sign, left, right):
    """An operator over single values and grids."""
    left, right = shrunk(left), shrunk(right)
    if not isinstance(left, Grid) and not isinstance(right, Grid):
        return infix_of_two(sign, left, right)
    if isinstance(left, Grid) and isinstance(right, Grid) and (left.rows, left.columns) != (right.rows, right.columns):
        return VALUE
    shape = left if isinstance(left, Grid) else right
    count = len(shape.items)
    lefts = left.items if isinstance(left, Grid) else [left] * count
    rights = right.items if isinstance(right, Grid) else [right] * count
    return Grid(shape.rows, shape.columns, [infix_of_two(sign, *pair) for pair in zip(lefts, rights)])


def mapped(work, arg):
    """Minus or percent over a single value or a grid."""
    arg = shrunk(arg)
    if isinstance(arg, Grid):
        return Grid(arg.rows, arg.columns, [mapped(work, item) for item in arg.items])
    if isinstance(arg, Test):
        raise Undecided(0)
    value = arg if is_open(arg) else to_number(arg)
    return value if isinstance(value, Fault) else work(value)


def negated(arg):
    return mapped(lambda value: scaled(value, -ONE), arg)


def hundredth(arg):
    return mapped(lambda value: scaled(value, ONE / 100), arg)

