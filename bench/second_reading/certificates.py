"""Makes a certificate of a linear model: a claim, and a tree of boxes with multipliers at its leaves. It is searched by boxes and programs of
its own, node by node, and nothing of it is asked of the program."""
from .fraction import floor, printed
from .model import standard
from .search import first_alike
from .simplex import Dictionary
from .values import ONE

MOST_NODES = 300


class TooLarge(Exception):
    """A tree would have more nodes than are made here."""


class Certificate:
    """`kind` is 'optimal', 'infeasible' or 'unbounded'; nodes are lists of words in preorder."""

    def __init__(self, kind, point=None, ray=None, nodes=(), value=None):
        self.kind, self.point, self.ray, self.nodes, self.value = kind, point, ray, list(nodes), value

    def text(self):
        head = 'cert ' + self.kind
        lines = [head if self.value is None else '%s %s' % (head, printed(self.value))]
        for word, numbers in (('point', self.point), ('ray', self.ray)):
            if numbers is not None:
                lines.append(' '.join([word] + list(map(printed, numbers))))
        return '\n'.join(lines + [' '.join(node) for node in self.nodes] + ['end']) + '\n'


def ended(program):
    """The last dictionary of a program; a pivot that isn't narrow raises WidePivot."""
    dictionary = Dictionary(program)
    while (chosen := dictionary.next()) is not None:
        dictionary.pivot(*chosen)
    return dictionary


def leaf(word, multipliers):
    """The words of a leaf."""
    return [word] + ['%d:%s' % (row, printed(number)) for row, number in multipliers]


class Endless(Exception):
    """The objective of the model's own box has no end along this direction."""

    def __init__(self, ray):
        super().__init__(ray)
        self.ray = ray


class Making:
    """Goes over the boxes of a model, the lower part first; with `is_flat` any point will do."""

    def __init__(self, model, is_flat):
        self.model, self.is_flat = model, is_flat
        self.point, self.greatest, self.nodes = None, None, []

    def settled(self):
        return self.is_flat and self.point is not None

    def make(self, lows, highs):
        if self.settled():
            self.nodes.append(['best'])
            return
        if len(self.nodes) >= MOST_NODES:
            raise TooLarge
        columns, rows, objective = program = standard(self.model, lows, highs, self.is_flat)
        dictionary = ended(program)
        if dictionary.end == 'unbounded':
            raise Endless(dictionary.direction(columns, len(lows)))
        if dictionary.end == 'infeasible':
            self.nodes.append(leaf('empty', dictionary.multipliers()))
            return
        if self.greatest is not None and dictionary.value <= self.greatest:
            self.nodes.append(leaf('best', dictionary.multipliers()))
            return
        self.branch(dictionary, dictionary.point(columns, len(lows)), lows, highs)

    def branch(self, dictionary, point, lows, highs):
        broken = [number for number, whole in enumerate(self.model.whole) if whole and point[number].denominator != 1]
        if broken:
            self.split(broken[0], floor(point[broken[0]]), lows, highs)
            return
        alike = first_alike(self.model.groups, point)
        if alike is None:
            self.point, self.greatest = point, dictionary.value
            self.nodes.append(['best'] if self.is_flat else leaf('best', dictionary.multipliers()))
            return
        for decision in alike:
            if lows[decision] != highs[decision]:
                number = point[decision]
                self.split(decision, number - 1 if lows[decision] < number else number, lows, highs)
                return
        self.nodes.append(['clash', str(alike[0] + 1), str(alike[1] + 1)])

    def split(self, decision, number, lows, highs):
        self.nodes.append(['split', str(decision + 1), printed(number)])
        lower, upper = list(highs), list(lows)
        lower[decision] = number if highs[decision] is None else min(number, highs[decision])
        upper[decision] = number + 1 if lows[decision] is None else max(number + 1, lows[decision])
        self.make(lows, lower)
        self.make(upper, highs)


def certificate_of(ready):
    """A certificate of what a sheet's prepared model comes to."""
    model = ready.model
    is_flat = not model.objective.terms and model.objective.base == 0
    making = Making(model, is_flat)
    try:
        making.make(list(model.lows), list(model.highs))
    except Endless as fault:
        making = Making(model, True)
        making.make(list(model.lows), list(model.highs))
        if making.point is not None:
            return Certificate('unbounded', making.point, fault.ray)
    if making.point is None:
        return Certificate('infeasible', nodes=making.nodes)
    value = None
    if ready.statement.objective is not None:
        value = ready.shown.base + sum(part * making.point[number] for number, part in ready.shown.terms.items())
    return Certificate('optimal', making.point, nodes=making.nodes, value=value)
