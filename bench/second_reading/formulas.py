"""What a formula is worth, and at which cells it looks, where a call tells what stands in a cell."""
from . import form_functions, form_lookups, functions, lookups
from .forms import Break, Form, Test, Undecided, has_open, hundredth, infix, is_open, minus, negated, is_multiple
from .fraction import Wide
from .values import EMPTY, VALUE, ZERO, Fault, Grid, grid, is_number, meets, shrunk, single, to_logical

POISON = object()


class Refusal:
    """Why a formula has no form: a part's span, and `not-affine`, `undecided` or `wide`."""

    def __init__(self, span, why):
        self.span, self.why = span, why


class Blocked:
    """A formula that looks at places without a form."""


BLOCKED = Blocked()


class Evaluation:
    """One formula. `get` gives the entry of a cell: a value, a form, a test, a Refusal or BLOCKED."""

    def __init__(self, get):
        self.get, self.looks, self.blocked, self.refusal = get, set(), False, None

    def result(self, tree):
        value = self.part(tree)
        if self.blocked:
            return BLOCKED
        if self.refusal:
            return self.refusal
        value = value.items[0] if isinstance(value, Grid) else value
        return ZERO if value is EMPTY else value

    def part(self, node):
        return getattr(self, 'on_' + node.kind)(node)

    def parts(self, nodes):
        return [self.part(node) for node in nodes]

    def refuse(self, span, why):
        if self.refusal is None:
            self.refusal = Refusal(span, why)
        return POISON

    def made(self, node, work, *args):
        """The work's answer, or what refuses the part."""
        if any(arg is POISON for arg in args):
            return POISON
        try:
            return work(*args)
        except Wide:
            return self.refuse(node.span, 'wide')
        except Break:
            return self.refuse(node.span, 'not-affine')
        except Undecided as fault:
            return self.refuse(node.parts[fault.argument].span, 'undecided')

    def called(self, node, work, args):
        if any(arg is POISON for arg in args):
            return POISON
        return self.made(node, lambda: work(args))

    def cell(self, cell):
        self.looks.add(cell)
        entry = self.get(cell)
        if isinstance(entry, (Refusal, Blocked)):
            self.blocked = True
            return POISON
        return entry

    def cells(self, rows, columns, cells):
        found = [self.cell(cell) for cell in cells]
        return POISON if any(value is POISON for value in found) else Grid(rows, columns, found)

    def on_number(self, node):
        return node.value

    on_text = on_logical = on_fault = on_number

    def on_missing(self, _):
        return EMPTY

    def on_array(self, node):
        return Grid(*node.value, self.parts(node.parts))

    def on_reference(self, node):
        return self.cells(*shape(node), cells_of(node))

    def on_plus(self, node):
        return self.part(node.parts[0])

    def on_minus(self, node):
        return self.made(node, negated, *self.parts(node.parts))

    def on_percent(self, node):
        return self.made(node, hundredth, *self.parts(node.parts))

    def on_infix(self, node):
        return self.made(node, lambda left, right: infix(node.value, left, right), *self.parts(node.parts))

    def on_call(self, node):
        special = getattr(self, 'on_call_' + node.value.lower(), None)
        if special:
            return special(node)
        return self.apply(node, self.parts(node.parts))

    def apply(self, node, args):
        return self.called(node, self.work(node.value, args), args)

    @staticmethod
    def work(name, args):
        calls = form_functions.CALLS if any(arg is not POISON and has_open([arg]) for arg in args) else functions.CALLS
        return calls.get(name)

    def on_call_if(self, node):
        tested = self.part(node.parts[0])
        if tested is POISON:
            return POISON
        tested = single(tested)
        if is_open(tested):
            return self.branches(node, tested if isinstance(tested, Test) else Test(tested, '<>'))
        tested = to_logical(tested)
        if isinstance(tested, Fault):
            return tested
        return self.branch(node, 1 if tested else 2)

    def branch(self, node, number):
        if number == len(node.parts):
            return False
        value = self.part(node.parts[number])
        return value if value is POISON else shrunk(value)

    def branches(self, node, test):
        yes, no = self.branch(node, 1), self.branch(node, 2)
        return self.made(node, lambda left, right: chosen(test, left, right), yes, no)

    def on_call_iferror(self, node):
        value = self.part(node.parts[0])
        if value is POISON:
            return POISON
        value = shrunk(value)
        return self.branch(node, 1) if isinstance(value, Fault) else value

    def on_call_choose(self, node):
        value = self.part(node.parts[0])
        if value is POISON:
            return POISON
        value = single(value)
        if is_open(value):
            if all(is_plain(part) and Evaluation(self.get).part(part) == VALUE for part in node.parts[1:]):
                return VALUE
            return self.refuse(node.parts[0].span, 'undecided')
        value = lookups.place(value)
        if isinstance(value, Fault):
            return value
        return self.branch(node, int(value)) if 1 <= value < len(node.parts) else VALUE

    def on_call_rows(self, node):
        of = reference_of(node.parts[0])
        return self.apply(node, self.parts(node.parts) if of is None else [Grid(*shape(of), [])])

    on_call_columns = on_call_rows

    def on_call_index(self, node):
        of = reference_of(node.parts[0])
        if of is None:
            return self.apply(node, self.parts(node.parts))
        args = self.parts(node.parts[1:])
        part = self.called(node, lambda places: form_lookups.index_part(*shape(of), places), args)
        if part is POISON or isinstance(part, Fault):
            return part
        value = self.picked(of, part)
        return value if value is POISON else shrunk(value)

    def picked(self, of, part):
        """The cells of a part (top, left, bottom, right) of a reference."""
        columns, cells = shape(of)[1], cells_of(of)
        top, left, bottom, right = part
        found = [cells[row * columns + column] for row in range(top, bottom + 1) for column in range(left, right + 1)]
        return self.cells(bottom - top + 1, right - left + 1, found)

    def on_call_vlookup(self, node):
        return self.looked_up(node, False)

    def on_call_hlookup(self, node):
        return self.looked_up(node, True)

    def looked_up(self, node, is_turned):
        of = reference_of(node.parts[1])
        if of is None:
            return self.apply(node, self.parts(node.parts))
        rows, columns = shape(of)
        first = (0, 0, 0, columns - 1) if is_turned else (0, 0, rows - 1, 0)
        args = [self.part(node.parts[0]), self.picked(of, first)] + self.parts(node.parts[2:])
        size = rows if is_turned else columns
        part = self.called(node, lambda args: form_lookups.lookup_part(size, args[1].items, args), args)
        if part is POISON or isinstance(part, Fault):
            return part
        row, column = reversed(part) if is_turned else part
        value = self.picked(of, (row, column, row, column))
        return value if value is POISON else shrunk(value)

    def on_call_sumif(self, node):
        of = reference_of(node.parts[2]) if len(node.parts) > 2 else None
        if of is None:
            return self.apply(node, self.parts(node.parts))
        args = self.parts(node.parts[:2])
        if any(arg is POISON for arg in args):
            return POISON
        tested, criterion = grid(args[0]), single(args[1])
        summed = Grid(*shape(of), [EMPTY] * (shape(of)[0] * shape(of)[1]))
        is_decided = not has_open(args) and not isinstance(criterion, Fault)
        if is_decided and (tested.rows, tested.columns) == (summed.rows, summed.columns):
            cells = cells_of(of)
            summed.items = [self.cell(cells[place]) if meets(item, criterion) else EMPTY for place, item in enumerate(tested.items)]
            if any(item is POISON for item in summed.items):
                return POISON
        return self.apply(node, args + [summed])


def chosen(test, yes, no):
    """IF of a test."""
    if alike(yes, no):
        return yes
    if not all(is_number(value) or isinstance(value, Form) for value in (yes, no)):
        raise Undecided(0)
    if test.relation not in ('=', '<>') or not is_multiple(minus(yes, no), test.form):
        raise Break
    return no if test.relation == '=' else yes


def alike(left, right):
    if isinstance(left, Grid) and isinstance(right, Grid):
        return (left.rows, left.columns) == (right.rows, right.columns) and all(map(alike, left.items, right.items))
    return type(left) is type(right) and left == right


def reference_of(node):
    """The reference that an argument is, or None."""
    while node.kind == 'plus':
        node = node.parts[0]
    return node if node.kind == 'reference' else None


def is_plain(node):
    """Whether a part looks at no cell."""
    return node.kind != 'reference' and all(map(is_plain, node.parts))


def size(area):
    return area[3] - area[1] + 1, area[4] - area[2] + 1


def shape(node):
    areas = node.value
    if len(areas) == 1:
        return size(areas[0])
    return sum(rows * columns for rows, columns in map(size, areas)), 1


def cells_in(area):
    sheet, top, left, bottom, right = area
    return [(sheet, row, column) for row in range(top, bottom + 1) for column in range(left, right + 1)]


def cells_of(node):
    return [cell for area in node.value for cell in cells_in(area)]
