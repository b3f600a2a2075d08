"""Trees of formulas: the grammar, read from left to right."""
from .fraction import Wide, numeral
from .functions import COUNTS
from .tokens import Malformed, address, lower, tokens, unquoted
from .values import Fault

LEVELS = [('=', '<>', '<', '<=', '>', '>='), ('&',), ('+', '-'), ('*', '/'), ('^',)]
MOST_OPEN, MOST_HEIGHT = 64, 512


class Node:
    """A part of a formula, with its span in the text."""

    def __init__(self, kind, start, end, value=None, parts=()):
        self.kind, self.start, self.end, self.value, self.parts = kind, start, end, value, parts
        self.cells = None
        self.height = 1 + max((part.height for part in parts), default=0)

    @property
    def span(self):
        return self.start, self.end


class Reader:
    """Reads trees of one text: `at` is the number of the next token."""

    def __init__(self, text, start, home, sheets):
        self.tokens, self.at, self.home, self.sheets = tokens(text, start), 0, home, sheets
        check_brackets(self.tokens)

    def next(self, ahead=0):
        place = self.at + ahead
        return self.tokens[place] if place < len(self.tokens) else None

    def is_mark(self, *marks, ahead=0):
        token = self.next(ahead)
        return token is not None and token.kind == 'mark' and token.text in marks

    def take(self, *marks):
        if not self.is_mark(*marks):
            return None
        self.at += 1
        return self.tokens[self.at - 1]

    def need(self, *marks):
        token = self.take(*marks)
        if token is None:
            raise Malformed
        return token

    def whole(self):
        node = self.infix(0)[0]
        if self.next() is not None:
            raise Malformed
        return node

    # Each call gives the node, and where it begins and ends with the parentheses around it.
    def infix(self, level):
        if level == len(LEVELS):
            return self.postfix()
        node, start, end = self.infix(level + 1)
        while self.is_mark(*LEVELS[level]):
            sign = self.take(*LEVELS[level]).text
            right, _, end = self.infix(level + 1)
            node = Node('infix', start, end, sign, (node, right))
        return node, start, end

    def postfix(self):
        signs = []
        while self.is_mark('+', '-'):
            signs.append(self.take('+', '-'))
        node, start, end = self.primary()
        for sign in reversed(signs):
            start = sign.start
            node = Node('plus' if sign.text == '+' else 'minus', start, end, None, (node,))
        while self.is_mark('%'):
            end = self.take('%').end
            node = Node('percent', start, end, None, (node,))
        return node, start, end

    def primary(self):
        token = self.next()
        if token is None:
            raise Malformed
        if token.text == '(' and token.kind == 'mark':
            self.at += 1
            node, _, _ = self.infix(0)
            return node, token.start, self.need(')').end
        node = self.leaf(token)
        return node, node.start, node.end

    def leaf(self, token):
        area = self.reference()
        if area is not None:
            return self.union(token, area)
        self.at += 1
        if token.kind == 'number':
            return Node('number', token.start, token.end, number_of(token.text))
        if token.kind == 'text':
            return Node('text', token.start, token.end, token.text[1:-1].replace('""', '"'))
        if token.kind == 'fault':
            return Node('fault', token.start, token.end, Fault(token.text))
        if token.kind == 'word':
            return self.word(token)
        if token.kind == 'mark' and token.text == '{':
            return self.array(token)
        raise Malformed

    def word(self, token):
        if self.is_mark('('):
            return self.call(token)
        if lower(token.text) in ('true', 'false'):
            return Node('logical', token.start, token.end, lower(token.text) == 'true')
        return Node('name', token.start, token.end, token.text)

    def call(self, word):
        self.need('(')
        parts = []
        while not (self.is_mark(')') and not parts):
            if self.is_mark(';', ',', ')'):
                end = self.tokens[self.at - 1].end
                parts.append(Node('missing', end, end))
            else:
                parts.append(self.infix(0)[0])
            if self.is_mark(')'):
                break
            self.need(';', ',')
        end = self.need(')').end
        name = word.text.upper() if word.text.isascii() else word.text
        if name not in COUNTS or not COUNTS[name][0] <= len(parts) <= COUNTS[name][1]:
            raise Malformed
        return Node('call', word.start, end, name, tuple(parts))

    def array(self, opening):
        rows = [[self.item()]]
        while True:
            mark = self.need(';', '|', '}')
            if mark.text == '}':
                break
            if mark.text == '|':
                rows.append([])
            rows[-1].append(self.item())
        if len({len(row) for row in rows}) > 1:
            raise Malformed
        return Node('array', opening.start, mark.end, (len(rows), len(rows[0])), tuple(sum(rows, [])))

    def item(self):
        sign = self.take('+', '-')
        token = self.next()
        if token is None:
            raise Malformed
        self.at += 1
        if token.kind == 'number':
            value = number_of(token.text)
            start = sign.start if sign else token.start
            return Node('number', start, token.end, -value if sign and sign.text == '-' else value)
        if not sign and token.kind == 'text':
            return Node('text', token.start, token.end, token.text[1:-1].replace('""', '"'))
        if not sign and token.kind == 'word' and lower(token.text) in ('true', 'false'):
            return Node('logical', token.start, token.end, lower(token.text) == 'true')
        raise Malformed

    def union(self, token, area):
        areas = [area]
        while self.take('~'):
            area = self.reference()
            if area is None:
                raise Malformed
            areas.append(area)
        return Node('reference', token.start, self.tokens[self.at - 1].end, areas)

    # An area, or None where no reference begins here.
    def reference(self):
        token = self.next()
        if token is None:
            return None
        if token.kind == 'mark' and token.text == '[':
            return self.bracketed()
        corner = self.corner(True)
        if corner is None:
            return None
        sheet, first = corner
        sheet = self.home if sheet is None else sheet
        last = first
        if self.take(':'):
            corner = self.corner(False)
            if corner is None or corner[0] not in (None, sheet):
                raise Malformed
            last = corner[1]
        return area_of(sheet, first, last)

    # A sheet or None, and an address, outside brackets.
    def corner(self, is_first):
        token = self.next()
        if token is None or token.kind not in ('word', 'quoted'):
            return None
        if self.is_mark('!', '.', ahead=1) and (token.kind == 'quoted' or '.' not in token.text):
            place = self.next(2)
            place = address(place.text) if place and place.kind == 'word' else None
            if place is None:
                raise Malformed
            self.at += 3
            return self.sheet(token), place
        if token.kind == 'quoted' or (is_first and self.is_mark('(', ahead=1)):
            return None
        place = address(token.text)
        if place is not None:
            self.at += 1
            return None, place
        return self.pointed(token)

    # A word that is split at its last point into a sheet that there is and an address.
    def pointed(self, token):
        sheet, point, rest = token.text.rpartition('.')
        place = address(rest)
        if not point or '.' in sheet or place is None:
            return None
        number = self.sheets.get(lower(sheet.removeprefix('$')))
        if number is None:
            return None
        self.at += 1
        return number, place

    def sheet(self, token):
        name = unquoted(token.text) if token.kind == 'quoted' else token.text.removeprefix('$')
        number = self.sheets.get(lower(name))
        if number is None:
            raise Malformed
        return number

    def bracketed(self):
        self.need('[')
        sheet, first = self.bracketed_corner()
        sheet, last = self.home if sheet is None else sheet, first
        if self.take(':'):
            other, last = self.bracketed_corner()
            if other not in (None, sheet):
                raise Malformed
        self.need(']')
        return area_of(sheet, first, last)

    def bracketed_corner(self):
        token = self.next()
        if token is None:
            raise Malformed
        if token.kind == 'word' and '.' in token.text:
            self.at += 1
            sheet, _, rest = token.text.rpartition('.')
            if '.' in sheet or address(rest) is None:
                raise Malformed
            number = self.sheets.get(lower(sheet.removeprefix('$')))
            if number is None:
                raise Malformed
            return number, address(rest)
        sheet = None
        if token.kind in ('word', 'quoted'):
            self.at += 1
            sheet = self.sheet(token)
        self.need('.')
        token = self.next()
        place = address(token.text) if token and token.kind == 'word' else None
        if place is None:
            raise Malformed
        self.at += 1
        return sheet, place


def number_of(text):
    try:
        return numeral(text)
    except Wide as fault:
        raise Malformed from fault


def area_of(sheet, first, last):
    rows, columns = sorted((first[0], last[0])), sorted((first[1], last[1]))
    return sheet, rows[0], columns[0], rows[1], columns[1]


def check_brackets(found):
    opened = 0
    for token in found:
        if token.kind == 'mark' and token.text in '([{':
            opened += 1
            if opened > MOST_OPEN:
                raise Malformed
        elif token.kind == 'mark' and token.text in ')]}':
            opened = max(opened - 1, 0)


def parse(text, home, sheets):
    """The tree of a formula that begins with its equals sign; the names in it stand as they are."""
    start = 3 if text.startswith('of:') else 0
    if text[start:start + 1] != '=':
        raise Malformed
    reader = Reader(text, start + 1, home, sheets)
    reader.take('=')
    tree = reader.whole()
    if tree.height > MOST_HEIGHT:
        raise Malformed
    return tree


def parse_reference(text, home, sheets):
    """The area of a text that is one reference, with an optional equals sign, or None."""
    try:
        reader = Reader(text, 1 if text.startswith('=') else 0, home, sheets)
        area = reader.reference()
    except Malformed:
        return None
    return area if reader.next() is None else None
