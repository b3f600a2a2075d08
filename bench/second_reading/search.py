"""Branch and bound, unit by unit."""
from dataclasses import dataclass, field

from .fraction import floor
from .model import standard
from .simplex import Dictionary, WidePivot
from .values import ZERO


@dataclass
class Waiting:
    """A node that waits to be opened."""

    number: int
    depth: int
    bound: object
    path: list = field(default_factory=list)


def pick_depth(waiting):
    return max(waiting, key=lambda node: (node.depth, -node.number))


def pick_best(waiting):
    return max(waiting, key=lambda node: (node.bound is None, ZERO if node.bound is None else node.bound, -node.number))


def pick_oldest(waiting):
    return min(waiting, key=lambda node: node.number)


PICKERS = {'depth': pick_depth, 'best': pick_best, 'oldest': pick_oldest}


def first_alike(groups, point):
    """Of the first group in which two decisions hold one number: the first that another one equals, and the next that equals it."""
    for group in groups:
        for first in sorted(group):
            for other in sorted(group):
                if first < other and point[first] == point[other]:
                    return first, other
    return None


class Stuck(Exception):
    """A pivot that can't be made, at this path."""

    def __init__(self, path, pivot):
        super().__init__(path)
        self.path, self.pivot = path, pivot


class Search:
    """`answer` is None, or ('optimal', point, value), ('infeasible',) or ('unbounded', point, ray).

    `ends` says of each node that was opened, by its number, what became of it: ('split', decision, floor, the number of the lower part),
    ('clash', decision, other), or a leaf, ('best', multipliers) or ('empty', multipliers). `parts` has the number of its parent and which part
    of it it is, and `root` is the number of the last root.
    """

    def __init__(self, model):
        self.model, self.units, self.answer = model, 0, None
        self.waiting, self.numbers = [Waiting(0, 0, None)], 1
        self.is_flat = False
        self.node = self.dictionary = self.best = self.columns = self.ray = None
        self.ends, self.parts, self.root = {}, {}, 0

    def run(self, units, choose):
        """Makes at most so many units more, until it has an answer."""
        while self.answer is None and units > 0:
            if self.node is None:
                self.open(choose(self.waiting))
            else:
                self.make_pivot()
            self.units += 1
            units -= 1
            self.settle()

    def open(self, node):
        self.waiting.remove(node)
        self.node = node
        self.lows, self.highs = self.box(node.path)
        program = standard(self.model, self.lows, self.highs, self.is_flat)
        self.columns = program[0]
        self.dictionary = Dictionary(program)

    def box(self, path):
        """The bounds of a node with this path."""
        lows, highs = list(self.model.lows), list(self.model.highs)
        for decision, is_upper, bound in path:
            bounds, tighter = (lows, max) if is_upper else (highs, min)
            bounds[decision] = bound if bounds[decision] is None else tighter(bounds[decision], bound)
        return lows, highs

    def path(self, number):
        """The parts that lead from its root to a node."""
        path = []
        while number in self.parts:
            number, part = self.parts[number]
            path.insert(0, part)
        return path

    def make_pivot(self):
        try:
            self.dictionary.pivot(*self.dictionary.next())
        except WidePivot as fault:
            raise Stuck(self.node.path, fault) from fault

    def settle(self):
        """Closes or splits the node where its run has ended."""
        if self.dictionary.next() is not None:
            return
        end = self.dictionary.end
        node, self.node = self.node, None
        if end == 'unbounded':
            self.end_unbounded()
            return
        value = self.dictionary.value
        self.ends[node.number] = 'best' if end == 'best' else 'empty', self.dictionary.multipliers()
        if end == 'best' and (self.best is None or value > self.best[1]):
            self.end_best(node, value)
        if self.answer is None and not self.waiting:
            self.answer = ('infeasible',) if self.best is None else ('optimal',) + self.best

    def end_unbounded(self):
        count = len(self.model.whole)
        self.ray = self.dictionary.direction(self.columns, count)
        if not any(self.model.whole):
            self.answer = 'unbounded', self.dictionary.point(self.columns, count), self.ray
            return
        self.is_flat, self.root = True, self.numbers
        self.waiting = [Waiting(self.numbers, 0, None)]
        self.numbers += 1

    def end_best(self, node, value):
        point = self.dictionary.point(self.columns, len(self.model.whole))
        broken = [number for number, whole in enumerate(self.model.whole) if whole and point[number].denominator != 1]
        if broken:
            self.split(node, value, broken[0], floor(point[broken[0]]))
            return
        alike = first_alike(self.model.groups, point)
        if alike:
            self.part(node, value, alike, point[alike[0]])
            return
        self.best = point, value
        if self.is_flat:
            self.answer = 'unbounded', point, self.ray
        elif not self.model.objective.terms and self.model.objective.base == 0:
            self.answer = ('optimal',) + self.best

    def part(self, node, value, alike, number):
        """Splits the node at one of two decisions that hold one number but are to be different; closes it where both are fixed."""
        for decision in alike:
            low, high = self.lows[decision], self.highs[decision]
            if low != high:
                self.split(node, value, decision, number - 1 if low < number else number)
                return
        self.ends[node.number] = ('clash',) + alike

    def split(self, node, value, decision, low):
        self.ends[node.number] = 'split', decision, low, self.numbers
        for is_upper, bound in ((False, low), (True, low + 1)):
            path = node.path + [(decision, is_upper, bound)]
            self.parts[self.numbers] = node.number, path[-1]
            self.waiting.append(Waiting(self.numbers, node.depth + 1, value, path))
            self.numbers += 1
