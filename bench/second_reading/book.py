"""The contents and the names of a workbook, and the entry of each cell: its value, its form, or why it has none."""
from . import rows
from .forms import Form
from .formulas import BLOCKED, Evaluation, Refusal, cells_of
from .fraction import Wide, narrow_numeral, numeral
from .grammar import Node, parse, parse_reference
from .tokens import Malformed, is_name, lower
from .values import CIRCULAR, EMPTY, MALFORMED, ONE, ZERO


class Stop(Exception):
    """A run ends before its first record, with this status and line."""

    def __init__(self, status, line):
        super().__init__(line)
        self.status, self.line = status, line


LIMITS = {'rows': 4096, 'columns': 1024, 'field': 8192, 'cells': 65536, 'formulas': 16384, 'names': 32768}


def is_formula(text):
    return text.startswith('=') or text.startswith('of:=')


class Book:
    """Cells are (sheet, row, column) from 0; names are a list of [sheet or None, name, text, the sheet field as it stands, comments].

    The comments of a name are a list of none or one: the fourth field of its record, where it has one.
    """

    def __init__(self, stems):
        self.stems, self.sheets = stems, {lower(stem): number for number, stem in enumerate(stems)}
        self.texts, self.names, self.trees, self.read_trees = {}, [], {}, {}

    def read(self, sheet, records):
        for row, record in enumerate(records):
            for column, text in enumerate(record):
                if text:
                    self.texts[sheet, row, column] = text

    def text_of(self, sheet, name):
        for record in self.names:
            if record[0] == sheet and lower(record[1]) == lower(name):
                return record[2]
        return None

    def edit(self):
        """The trees are to be read anew."""
        self.trees = {}

    def tree(self, cell):
        """The tree of a cell's formula with its names replaced; None where it is malformed."""
        if cell not in self.trees:
            self.trees[cell] = self.tree_of(cell[0], self.texts[cell])
        return self.trees[cell]

    def tree_of(self, home, text):
        """The tree of a formula with its names replaced, or None; what stands in the text itself is read once."""
        try:
            if (home, text) not in self.read_trees:
                self.read_trees[home, text] = None
                self.read_trees[home, text] = parse(text, home, self.sheets)
            tree = self.read_trees[home, text]
            return tree and self.expanded(tree, home)
        except Malformed:
            return None

    def expanded(self, node, home):
        if node.kind == 'name':
            return self.meaning(node, home)
        parts = tuple(self.expanded(part, home) for part in node.parts)
        if all(part is old for part, old in zip(parts, node.parts)):
            return node
        made = Node(node.kind, node.start, node.end, node.value)
        made.parts = parts
        return made

    def meaning(self, node, home):
        text = self.text_of(home, node.value)
        text = self.text_of(None, node.value) if text is None else text
        if text is None:
            raise Malformed
        number = narrow_numeral(text.removeprefix('='))
        if number is not None:
            return Node('number', node.start, node.end, number)
        area = parse_reference(text, home, self.sheets)
        if area is None:
            raise Malformed
        return Node('reference', node.start, node.end, [area])

    def plain(self, text):
        """The value of a text that is no formula."""
        try:
            number = numeral(text)
        except Wide:
            return MALFORMED
        if number is not None:
            return number
        return lower(text) == 'true' if lower(text) in ('true', 'false') else text

    def is_malformed(self, cell):
        text = self.texts[cell]
        return self.tree(cell) is None if is_formula(text) else self.plain(text) is MALFORMED

    def records(self, sheet):
        """The records of a sheet, as they are saved."""
        cells = [(row, column) for of, row, column in self.texts if of == sheet]
        ends = {}
        for row, column in cells:
            ends[row] = max(ends.get(row, 0), column)
        found = []
        for row in range(max(ends, default=-1) + 1):
            found.append([self.texts.get((sheet, row, column), '') for column in range(ends.get(row, 0) + 1)])
        return found

    def name_records(self):
        return [[field, name, text] + comments for sheet, name, text, field, comments in self.names]


class Entries:
    """The entries of one moment, with these decision cells and sides; without decision cells, the values that `show` tells."""

    def __init__(self, book, decisions=(), sides=(), is_shown=False):
        self.book, self.is_shown = book, is_shown
        self.decisions = {cell: number for number, cell in enumerate(decisions)}
        self.sides = dict(sides)
        self.entries, self.looks, self.circular = {}, {}, self.circular_cells()

    def formula(self, cell):
        """The tree of a formula cell that is no decision cell, or None."""
        if cell in self.decisions or cell not in self.book.texts or not is_formula(self.book.texts[cell]):
            return None
        return self.book.tree(cell)

    def circular_cells(self):
        """The formula cells from which references lead into a cycle: what is left once all others are taken away."""
        leads = {}
        for cell in self.book.texts:
            tree = self.formula(cell)
            if tree is not None:
                leads[cell] = references(tree)
        rest = set(leads)
        while True:
            done = {cell for cell in rest if not leads[cell] & rest}
            if not done:
                return rest
            rest -= done

    def tree(self, place):
        return self.sides[place] if isinstance(place, int) else self.formula(place)

    def is_circular(self, place):
        if isinstance(place, int):
            return bool(references(self.sides[place]) & self.circular)
        return place in self.circular

    def is_malformed(self, place):
        if isinstance(place, int) or place in self.decisions or place not in self.book.texts:
            return False
        return self.book.is_malformed(place)

    def get(self, place):
        """The entry of a cell, or of a side by its number."""
        if place not in self.entries:
            self.entries[place] = self.found(place)
        return self.entries[place]

    def found(self, place):
        if place in self.decisions:
            return Form(ZERO, {self.decisions[place]: ONE})
        if self.is_malformed(place):
            return MALFORMED if self.is_shown else BLOCKED
        if self.is_circular(place):
            self.looks[place] = references(self.tree(place))
            return CIRCULAR if self.is_shown else BLOCKED
        tree = self.tree(place)
        if tree is None:
            return self.book.plain(self.book.texts[place]) if place in self.book.texts else EMPTY
        evaluation = Evaluation(self.get)
        entry = evaluation.result(tree)
        self.looks[place] = evaluation.looks
        return entry

    def needed(self, roots):
        """The places that are looked at from these, without decision cells and cells without a text."""
        found, waiting = set(), list(roots)
        while waiting:
            place = waiting.pop()
            is_there = isinstance(place, int) or place in self.book.texts
            if place in found or place in self.decisions or not is_there:
                continue
            found.add(place)
            self.get(place)
            waiting += self.looks.get(place, ())
        return found


def order(place):
    """Cells by sheet, row and column, and then sides by number."""
    return (1, place) if isinstance(place, int) else (0,) + place


def references(tree):
    """The cells to which a tree refers."""
    if tree.cells is None:
        found, waiting = set(), [tree]
        while waiting:
            node = waiting.pop()
            if node.kind == 'reference':
                found.update(cells_of(node))
            waiting += node.parts
        tree.cells = frozenset(found)
    return tree.cells


def least(places):
    return min(places, key=order, default=None)


def own_refusals(entries, places):
    return [place for place in places if isinstance(entries.get(place), Refusal)]


def opened(names, files):
    """The workbook of these files, each a word and its bytes; raises Stop."""
    stems = [stem_of(word) for word, _ in files]
    for number, stem in enumerate(stems):
        if lower(stem) in map(lower, stems[:number]):
            raise Stop(7, 'bad-input %s duplicate-sheet' % files[number][0])
    book = Book(stems)
    for number, (word, data) in enumerate(files):
        book.read(number, sheet_records(word, data))
    check(len(book.texts) <= LIMITS['cells'], 'cells')
    check(sum(map(is_formula, book.texts.values())) <= LIMITS['formulas'], 'formulas')
    word, data = names
    records = records_of(word, data)
    check(all(len(field) <= LIMITS['field'] for record in records for field in record), 'field')
    for number, record in enumerate(records):
        add_name(book, word, number, record)
    check(len(records) <= LIMITS['names'], 'names')
    return book


def add_name(book, word, number, record):
    fault = Stop(7, 'bad-input %s name-row %d' % (word, number + 1))
    if len(record) not in (3, 4):
        raise fault
    field, name, text, *comments = record
    sheet = book.sheets.get(lower(field)) if field else None
    if (field and sheet is None) or not is_name(name) or book.text_of(sheet, name) is not None:
        raise fault
    book.names.append([sheet, name, text, field, comments])


def check(holds, kind):
    if not holds:
        raise Stop(6, 'limit %s %d' % (kind, LIMITS[kind]))


def stem_of(word):
    return word.rpartition('/')[2].removesuffix('.csv')


def records_of(word, data):
    try:
        return rows.read(rows.text_of(data))
    except rows.NotText as fault:
        raise Stop(7, 'bad-input %s not-utf8 %d' % (word, fault.place)) from fault


def sheet_records(word, data):
    records = records_of(word, data)
    check(len(records) <= LIMITS['rows'], 'rows')
    check(all(len(record) <= LIMITS['columns'] for record in records), 'columns')
    check(all(len(field) <= LIMITS['field'] for record in records for field in record), 'field')
    return records

