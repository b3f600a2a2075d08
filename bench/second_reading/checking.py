"""Checks a certificate against a workbook, as docs/CERTIFICATES.md tells: reads its text, and judges it node by node.

Where the rules permit more than one line (a part fails and a sum is too wide as well), all of them are given.
"""
import re
from fractions import Fraction

from .book import Stop, opened
from .fraction import MOST, Wide, add, is_narrow, multiply, printed
from .model import Refused, standard
from .outside import Failed, Folder, Printer
from .run import MOST_BYTES, MOST_SHEETS, is_sheet_word
from .session import Session, eval_cell, value_at
from .values import ONE, ZERO

USAGE = 'usage: optcheck --names FILE --cert FILE FILE...'
MOST_WEIGHT, MOST_DECISIONS = 100000, 65536
NUMBER = re.compile(r'-?[0-9]+(\.[0-9]+|/[0-9]+)?\Z')
COUNT = re.compile(r'[1-9][0-9]*\Z')


class NotRead(Exception):
    """A text that stops at this line to be the beginning of a certificate's."""

    def __init__(self, line):
        super().__init__(line)
        self.line = line


def number(word):
    """The number that is printed so, or None."""
    if not NUMBER.match(word) or '/0' in word or len(word) > 90:
        return None
    value = Fraction(word)
    return value if is_narrow(value) and printed(value) == word else None


def count(word, most):
    return int(word) if COUNT.match(word) and len(word) < 12 and int(word) <= most else None


class Reader:
    """Takes the lines of a certificate one after the other; `missing` counts the trees that have yet to come."""

    def __init__(self):
        self.claim = self.value = self.point = self.ray = None
        self.nodes, self.weight, self.missing, self.is_ended = [], 0, 1, False

    def take(self, line):
        """Whether the line may stand here."""
        words = line.split(' ')
        if self.is_ended or '' in words:
            return False
        if self.claim is None:
            return self.take_claim(words)
        if self.point is None and self.claim != 'infeasible':
            self.point = numbers_behind('point', words)
            return self.point is not None
        if self.claim == 'unbounded' and self.ray is None:
            self.ray = numbers_behind('ray', words)
            return self.ray is not None
        if self.claim == 'unbounded' or self.missing == 0:
            self.is_ended = words == ['end']
            return self.is_ended
        return self.take_node(words)

    def take_claim(self, words):
        if words[0] != 'cert' or len(words) not in (2, 3) or words[1] not in ('optimal', 'infeasible', 'unbounded'):
            return False
        self.claim = words[1]
        if len(words) == 3:
            self.value = number(words[2])
            return self.claim == 'optimal' and self.value is not None
        return True

    def take_node(self, words):
        node = node_of(words)
        if node is None:
            return False
        self.nodes.append(node)
        self.missing += 1 if node[0] == 'split' else -1
        if node[0] != 'split':
            self.weight += 1 + (max(node[1]) if node[0] != 'clash' and node[1] else 0)
        return self.weight <= MOST_WEIGHT


def numbers_behind(word, words):
    found = [number(other) for other in words[1:]]
    return found if words[0] == word and found and None not in found else None


def node_of(words):
    """A split (decision, floor), a leaf (multipliers by row) or a clash (two decisions), decisions counted from 1; or None."""
    if words[0] in ('best', 'empty'):
        pairs = [pair.partition(':') for pair in words[1:]]
        rows = [count(row, 10 ** 9) for row, _, _ in pairs]
        parts = [number(part) for _, _, part in pairs]
        if None in rows or None in parts or ZERO in parts or rows != sorted(set(rows)):
            return None
        return words[0], dict(zip(rows, parts))
    if len(words) != 3 or words[0] not in ('split', 'clash'):
        return None
    first = count(words[1], MOST_DECISIONS)
    if words[0] == 'clash':
        second = count(words[2], MOST_DECISIONS)
    else:
        second = number(words[2])
        if second is not None and (second.denominator != 1 or second > MOST - 1):
            return None
    return None if first is None or second is None else (words[0], first, second)


def read_certificate(data):
    """Reads whole lines. What stands behind the last line feed is taken for the beginning of a line that may stand there, so that it
    stops at its own line too; it is no beginning where a line before it isn't one."""
    lines, reader = data.decode('ascii').split('\n'), Reader()
    for place, line in enumerate(lines[:-1], 1):
        if not reader.take(line):
            raise NotRead(place)
    if lines[-1] or not reader.is_ended:
        raise NotRead(len(lines))
    return reader


class Checking:
    """`fails` says whether a part fails, and `wide` has the nodes with a sum that isn't narrow."""

    def __init__(self, ready, cert):
        self.ready, self.model, self.cert = ready, ready.model, cert
        self.fails, self.wide = False, set()
        self.sign = -ONE if self.model.goal == 'min' else ONE

    def lines(self):
        size = len(self.model.whole)
        if any(numbers is not None and len(numbers) != size for numbers in (self.cert.point, self.cert.ray)):
            return {'no'}
        if self.cert.claim != 'infeasible':
            self.check_point()
        if self.cert.claim == 'unbounded':
            self.check_ray()
        else:
            self.check_tree()
        if self.cert.claim == 'optimal' and self.cert.value != self.told():
            self.fails = True
        found = {'wide %d' % node for node in self.wide} | ({'no'} if self.fails else set())
        return found or {self.yes()}

    def yes(self):
        value = '' if self.cert.value is None else ' ' + printed(self.cert.value)
        return 'yes %s%s' % (self.cert.claim, value)

    def told(self):
        """The value that has to be told."""
        if self.ready.statement.objective is None:
            return None
        return value_at(self.ready.shown, self.cert.point)

    def need(self, holds):
        self.fails = self.fails or not holds

    # ---- the claim
    def sum_at(self, node, base, terms, point):
        """The exact sum, whose narrow one is made from the constant on, term after term."""
        try:
            total = base
            for decision in sorted(terms):
                total = add(total, multiply(terms[decision], point[decision]))
        except Wide:
            self.wide.add(node)
        return base + sum(part * point[decision] for decision, part in terms.items())

    def objective_sum(self, base, point):
        terms = {decision: self.sign * part for decision, part in self.model.objective.terms.items()}
        return self.sum_at(0, self.sign * base, terms, point)

    def check_point(self):
        model, point = self.model, self.cert.point
        for form, relation in model.rows:
            self.need(stands(relation, self.sum_at(0, form.base, form.terms, point)))
        for decision, value in enumerate(point):
            low, high = model.lows[decision], model.highs[decision]
            self.need((low is None or low <= value) and (high is None or value <= high))
            self.need(not model.whole[decision] or value.denominator == 1)
        for group in model.groups:
            self.need(len({point[decision] for decision in group}) == len(group))
        if self.cert.claim == 'optimal':
            self.greatest = self.objective_sum(model.objective.base, point)

    def check_ray(self):
        model, ray = self.model, self.cert.ray
        for form, relation in model.rows:
            self.need(stands(relation, self.sum_at(0, ZERO, form.terms, ray)))
        for decision, step in enumerate(ray):
            self.need((model.lows[decision] is None or step >= 0) and (model.highs[decision] is None or step <= 0))
        self.need(self.objective_sum(ZERO, ray) > 0)

    # ---- the tree
    def check_tree(self):
        boxes = [(list(self.model.lows), list(self.model.highs))]
        for place, node in enumerate(self.cert.nodes):
            lows, highs = boxes.pop()
            if node[0] == 'split':
                boxes += self.parts(node, lows, highs)
            elif node[0] == 'clash':
                self.check_clash(node, lows, highs)
            else:
                self.check_leaf(place, node, lows, highs)

    def parts(self, node, lows, highs):
        """The upper part and the lower one, which is taken first."""
        decision, low = node[1] - 1, node[2]
        self.need(decision < len(lows) and self.model.whole[decision])
        if decision >= len(lows):
            return [(lows, highs), (lows, highs)]
        lower, upper = list(highs), list(lows)
        lower[decision] = low if highs[decision] is None else min(low, highs[decision])
        upper[decision] = low + 1 if lows[decision] is None else max(low + 1, lows[decision])
        return [(upper, highs), (lows, lower)]

    def check_clash(self, node, lows, highs):
        first, second = node[1] - 1, node[2] - 1
        self.need(first != second and any(first in group and second in group for group in self.model.groups))
        if max(first, second) < len(lows):
            bounds = [lows[first], highs[first], lows[second], highs[second]]
            self.need(None not in bounds and len(set(bounds)) == 1)

    def check_leaf(self, place, node, lows, highs):
        word, parts = node
        columns, rows, (entries, base) = standard(self.model, lows, highs)
        self.need(all(part > 0 for part in parts.values()) and max(parts, default=0) <= len(rows))
        sums = [self.combined(place, parts, [row[0][column] for row in rows]) for column in range(len(columns))]
        bound = self.combined(place, parts, [row[1] for row in rows], base if word == 'best' else None)
        if word == 'empty':
            self.need(all(part >= 0 for part in sums) and bound < 0)
        else:
            self.need(self.cert.claim == 'optimal' and all(part >= entry for part, entry in zip(sums, entries)))
            self.need(self.cert.claim == 'optimal' and bound <= self.greatest)

    def combined(self, place, parts, entries, last=None):
        """The exact sum of the rows' entries, each times its multiplier; the narrow one is made from 0 on, with `last` at its end."""
        used = [(part, entries[row - 1]) for row, part in sorted(parts.items()) if row <= len(entries)]
        try:
            total = ZERO
            for part, entry in used:
                total = add(total, multiply(part, entry))
            if last is not None:
                add(total, last)
        except Wide:
            self.wide.add(place)
        return sum((part * entry for part, entry in used), ZERO) + (last or ZERO)


def stands(relation, value):
    return value <= 0 if relation == '<=' else value >= 0 if relation == '>=' else value == 0


# ---- runs
class Words:
    """The words of the command line, where they are of their form; `is_right` says so."""

    def __init__(self, words):
        self.options, self.files, self.is_right = {}, [], True
        words = list(words)
        while words:
            self.take(words)
        named = 'names' in self.options and 'cert' in self.options and self.files
        self.is_right = bool(self.is_right and named and all(map(is_sheet_word, self.files)))

    def take(self, words):
        word = words.pop(0)
        if word == '--':
            self.files += words
            words.clear()
        elif word.startswith('--'):
            name, sign, value = word[2:].partition('=')
            if not sign:
                value = words.pop(0) if words and not (words[0].startswith('-') and len(words[0]) > 1) else None
            self.is_right = self.is_right and value is not None and name in ('names', 'cert') and name not in self.options
            self.options[name] = value
        elif word.startswith('-') and len(word) > 1:
            self.is_right = False
        else:
            self.files.append(word)


def found(read, folder):
    """The workbook and the certificate."""
    if len(read.files) > MOST_SHEETS:
        raise Stop(6, 'limit sheets %d' % MOST_SHEETS)
    names, sheets = held(read.options['names'], folder), [held(word, folder) for word in read.files]
    book = opened(names, sheets)
    word, data = held(read.options['cert'], folder)
    try:
        data.decode('utf-8')
    except UnicodeDecodeError as fault:
        raise Stop(7, 'bad-input %s not-utf8 %d' % (word, fault.start)) from fault
    try:
        return book, read_certificate(data.decode('utf-8').encode('ascii', 'replace'))
    except NotRead as fault:
        raise Stop(7, 'bad-input %s cert %d' % (word, fault.line)) from fault


def held(word, folder):
    data = folder.read(word)
    if data is None:
        raise Stop(7, 'bad-input %s missing' % word)
    if len(data) > MOST_BYTES:
        raise Stop(6, 'limit file %d' % MOST_BYTES)
    return word, data


def checked(words, folder):
    """The lines that may come, and the status."""
    read = Words(word.encode('utf-8').decode('latin-1') for word in words)
    if not read.is_right:
        return {USAGE}, 2
    try:
        book, cert = found(read, folder)
    except Stop as stop:
        return {stop.line}, stop.status
    session = Session(book, read.files, read.options['names'], 10 ** 6, 'depth')
    try:
        lines = Checking(session.prepared(0), cert).lines()
    except Refused as refusal:
        lines = {'refused ' + re.sub('\0(.*?)\0', lambda seen: session.cell(eval_cell(seen[1])), refusal.line)}
    return lines, 0 if min(lines).startswith('yes') else 1


def run(words, files, fails):
    """What may be printed, and the status."""
    folder, printer = Folder(files, fails[:1]), Printer(fails[1:])
    try:
        lines, status = checked(words, folder)
        printer.write(b'')
        return {(line + '\n').encode('latin-1') for line in lines}, status
    except Failed as failed:
        return {b''}, failed.status
