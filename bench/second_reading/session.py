"""The commands of a script, over a workbook."""
import re
from dataclasses import dataclass

from . import rows
from .book import LIMITS, Entries, is_formula, least, own_refusals
from .fraction import printed
from .model import Building, Refused, side_form
from .prices import price_lines
from .search import PICKERS, Search, Stuck
from .search_certificates import certificate
from .statement import NamesFault, Reading
from .tokens import COLUMNS, ROWS, column, is_name, lower, row, unquoted
from .values import EMPTY, Fault, is_number

ADDRESS = re.compile(r"""(\$?'(?:[^']|'')*'|[A-Za-z_$\x80-\xff][A-Za-z0-9_$\x80-\xff]*)[!.]\$?([A-Za-z]+)\$?([0-9]+)\Z""", re.ASCII)
FIELDS = {
    'set': 3, 'clear': 2, 'name': 4, 'unname': 3, 'show': 2, 'model': 2, 'solve': 2, 'prices': 2, 'cert': 2, 'begin': 2, 'slice': 3,
    'stop': 2, 'budget': 2, 'save': 1,
}
MOST_UNITS, MOST_SEARCHES = 10 ** 6, 8
PLAIN = re.compile(r'[A-Za-z_\x80-\xff][A-Za-z0-9_\x80-\xff]*\Z', re.ASCII)


@dataclass
class Prepared:
    """What a command that solves has read of the names and the forms."""

    statement: object
    model: object
    shown: object
    row_numbers: list


class Session:
    """`written` holds what a `save` has yet to write, by word."""

    def __init__(self, book, words, names_word, budget, pick):
        self.book, self.words, self.names_word = book, words, names_word
        self.budget, self.pick = budget, PICKERS[pick]
        self.searches, self.changed, self.names_changed, self.written = {}, set(), False, {}

    def answer(self, fields):
        """The printed lines of a record's answer."""
        try:
            if FIELDS.get(fields[0]) != len(fields):
                raise Refused('unknown-command')
            return getattr(self, 'do_' + fields[0])(*fields[1:])
        except Refused as refusal:
            return 'refused ' + re.sub('\0(.*?)\0', lambda found: self.cell(eval_cell(found[1])), refusal.line)

    # Places in records.
    def address(self, text):
        parts = ADDRESS.match(text)
        if not parts:
            raise Refused('bad-address')
        name = unquoted(parts[1]) if parts[1].endswith("'") else parts[1].removeprefix('$')
        sheet = self.sheet(name)
        place = sheet, row(parts[3]), column(parts[2])
        if not (0 <= place[1] < ROWS and place[2] < COLUMNS):
            raise Refused('out-of-sheet')
        return place

    def sheet(self, name):
        number = self.book.sheets.get(lower(name))
        if number is None:
            raise Refused('unknown-sheet')
        return number

    def named_sheet(self, text):
        return self.sheet(text) if text else None

    def cell(self, cell):
        """A cell as it is printed; a side by the name of its right side."""
        if isinstance(cell, int):
            return 'solver_rhs%d' % cell
        sheet, row_number, column_number = cell
        name = self.book.stems[sheet]
        if not PLAIN.match(name):
            name = "'" + name.replace("'", "''") + "'"
        letters, column_number = '', column_number + 1
        while column_number:
            column_number, letter = divmod(column_number - 1, 26)
            letters = chr(65 + letter) + letters
        return '%s!%s%d' % (name, letters, row_number + 1)

    # Edits.
    def do_set(self, address, text):
        cell = self.address(address)
        if len(text) > LIMITS['field']:
            raise Refused('field-too-long')
        self.check_room({cell: text}, 'too-many-cells', 'too-many-formulas')
        self.put(cell, text)
        return 'ok'

    def put(self, cell, text):
        if text:
            self.book.texts[cell] = text
        else:
            self.book.texts.pop(cell, None)
        self.book.edit()
        self.changed.add(cell[0])

    def check_room(self, edits, too_many_cells, too_many_formulas):
        after = {**self.book.texts, **edits}
        if len([text for text in after.values() if text]) > LIMITS['cells']:
            raise Refused(too_many_cells)
        if sum(map(is_formula, after.values())) > LIMITS['formulas']:
            raise Refused(too_many_formulas)

    def do_clear(self, address):
        self.put(self.address(address), '')
        return 'ok'

    def do_name(self, sheet_name, name, text):
        sheet = self.named_sheet(sheet_name)
        if not is_name(name):
            raise Refused('bad-name')
        if max(len(name), len(text)) > LIMITS['field']:
            raise Refused('field-too-long')
        names = self.book.names
        place = next((place for place, record in enumerate(names) if record[0] == sheet and lower(record[1]) == lower(name)), None)
        if place is None:
            if len(names) >= LIMITS['names']:
                raise Refused('too-many-names')
            names.append([sheet, name, text, '' if sheet is None else self.book.stems[sheet], []])
        else:
            names[place][2] = text
        return self.names_edited()

    def names_edited(self):
        self.names_changed = True
        self.book.edit()
        return 'ok'

    def do_unname(self, sheet_name, name):
        sheet = self.named_sheet(sheet_name)
        if not is_name(name):
            raise Refused('bad-name')
        if len(name) > LIMITS['field']:
            raise Refused('field-too-long')
        self.book.names = [record for record in self.book.names if record[0] != sheet or lower(record[1]) != lower(name)]
        return self.names_edited()

    # Values.
    def do_show(self, address):
        cell = self.address(address)
        entries = Entries(self.book, is_shown=True)
        wide = least(own_refusals(entries, entries.needed([cell])))
        if wide is not None:
            raise Refused('wide ' + self.cell(wide))
        return shown(entries.get(cell))

    # Models.
    def prepared(self, sheet):
        try:
            statement = Reading(self.book, sheet).read()
        except NamesFault as fault:
            raise Refused('names ' + fault.line) from fault
        entries = Entries(self.book, statement.decisions, statement.sides)
        roots = {left for left, _, _ in statement.rows} | {right for _, _, right in statement.rows}
        if statement.objective is not None:
            roots.add(statement.objective)
        self.check_forms(entries, roots)
        return Prepared(statement, *Building(statement, entries).model())

    def check_forms(self, entries, roots):
        needed = entries.needed(roots)
        for line, holds in (('malformed', entries.is_malformed), ('circular', entries.is_circular)):
            place = least(filter(holds, needed))
            if place is not None:
                raise Refused('%s %s' % (line, self.cell(place)))
        place = least(own_refusals(entries, needed))
        if place is not None:
            refusal = entries.get(place)
            span = '' if refusal.why == 'wide' else ' %d-%d' % refusal.span
            raise Refused('%s %s%s' % (refusal.why, self.cell(place), span))
        place = least(root for root in roots if side_form(entries.get(root)) is None)
        if place is not None:
            raise Refused('not-number ' + self.cell(place))

    def form(self, form, decisions):
        terms = ['%s*%s' % (printed(form.terms[number]), self.cell(decisions[number])) for number in sorted(form.terms)]
        return ' + '.join(terms + [printed(form.base)])

    def do_model(self, sheet_name):
        ready = self.prepared(self.sheet(sheet_name))
        of, model = ready.statement, ready.model
        head = of.goal if of.goal != 'reach' else 'reach ' + printed(of.value)
        lines = ['none' if of.objective is None else '%s %s' % (head, self.form(ready.shown, of.decisions))]
        for number, (form, relation) in zip(ready.row_numbers, model.rows):
            if number is not None:
                lines.append('row %d %s %s 0' % (number, self.form(form, of.decisions), relation))
        for number, cell in enumerate(of.decisions):
            low, high = ('-' if bound is None else printed(bound) for bound in (model.lows[number], model.highs[number]))
            kind = 'integer' if model.whole[number] else 'continuous'
            lines.append('cell %s %s %s %s' % (self.cell(cell), kind, low, high))
        for group in model.groups:
            lines.append(' '.join(['different'] + [self.cell(of.decisions[number]) for number in group]))
        return '\n'.join(lines + ['end'])

    # Prices.
    def do_prices(self, sheet_name):
        ready = self.prepared(self.sheet(sheet_name))
        of, model = ready.statement, ready.model
        if of.objective is None or of.goal == 'reach':
            raise Refused('no-objective')
        if any(model.whole):
            raise Refused('not-continuous ' + self.cell(of.decisions[model.whole.index(True)]))
        try:
            return '\n'.join(price_lines(model, ready.row_numbers, self.budget))
        except Stuck as stuck:
            raise Refused(self.stuck(stuck, of.decisions)) from stuck

    # Searches.
    def do_solve(self, sheet_name):
        ready = self.prepared(self.sheet(sheet_name))
        return self.ended(Search(ready.model), self.budget, ready)[0]

    def do_cert(self, sheet_name):
        ready = self.prepared(self.sheet(sheet_name))
        search, value = Search(ready.model), None
        self.make_units(search, self.budget, ready)
        if search.answer[0] == 'optimal' and ready.statement.objective is not None:
            value = value_at(ready.shown, search.answer[1])
        return certificate(search, value).text().removesuffix('\n')

    def do_begin(self, sheet_name):
        sheet = self.sheet(sheet_name)
        if len(set(self.searches) - {sheet}) >= MOST_SEARCHES:
            raise Refused('too-many-searches')
        self.searches[sheet] = Search(self.prepared(sheet).model)
        return 'begun'

    def do_slice(self, sheet_name, units):
        sheet, count = self.sheet(sheet_name), units_of(units)
        self.need_search(sheet)
        ready = self.prepared(sheet)
        if self.searches[sheet].model != ready.model:
            self.searches[sheet] = Search(ready.model)
        try:
            answer, is_open = self.ended(self.searches[sheet], count, ready)
        except Refused:
            del self.searches[sheet]
            raise
        if not is_open:
            del self.searches[sheet]
        return answer

    def need_search(self, sheet):
        if sheet not in self.searches:
            raise Refused('no-search')

    def do_stop(self, sheet_name):
        sheet = self.sheet(sheet_name)
        self.need_search(sheet)
        del self.searches[sheet]
        return 'stopped'

    def ended(self, search, units, ready):
        """The answer after so many units more, and whether the search stays open."""
        self.make_units(search, units, ready)
        if search.answer is None:
            return 'more %d' % search.units, True
        if search.answer[0] != 'optimal':
            return search.answer[0], False
        return self.written_back(search.answer[1], ready), False

    def make_units(self, search, units, ready):
        """Makes at most so many units more, until the search has an answer or the budget is spent."""
        try:
            search.run(min(units, max(self.budget - search.units, 0)), self.pick)
        except Stuck as stuck:
            raise Refused(self.stuck(stuck, ready.statement.decisions)) from stuck
        if search.answer is None and search.units >= self.budget:
            raise Refused('budget %d' % search.units)

    def stuck(self, stuck, decisions):
        splits = ['%s%s%d' % (self.cell(decisions[number]), '>=' if is_upper else '<=', bound)
                  for number, is_upper, bound in stuck.path]
        pivot = stuck.pivot
        basis = ','.join(map(str, pivot.basis))
        return 'wide-pivot %s basis %s at %d %d' % (','.join(splits) or 'root', basis, pivot.row, pivot.column)

    def written_back(self, point, ready):
        of, edits = ready.statement, {}
        for cell, value in zip(of.decisions, point):
            text = printed(value)
            edits[cell] = '=' + text if '/' in text else text
            fault = 'no-room ' + self.cell(cell)
            self.check_room(edits, fault, fault)
        for cell, text in edits.items():
            self.put(cell, text)
        if of.objective is None:
            return 'optimal'
        return 'optimal ' + printed(value_at(ready.shown, point))

    def do_budget(self, text):
        self.budget = units_of(text)
        return 'ok'

    def do_save(self):
        for sheet in sorted(self.changed):
            self.written[self.words[sheet]] = rows.write(self.book.records(sheet)).encode('latin-1')
        count = len(self.changed) + self.names_changed
        if self.names_changed:
            self.written[self.names_word] = rows.write(self.book.name_records()).encode('latin-1')
        self.changed, self.names_changed = set(), False
        return 'saved %d' % count


def value_at(form, point):
    return form.base + sum(part * point[number] for number, part in form.terms.items())


def units_of(text):
    digits = text.lstrip('0')
    if not re.match(r'[0-9]+\Z', text) or not 0 < len(digits) < 8 or int(digits) > MOST_UNITS:
        raise Refused('bad-number')
    return int(digits)


def eval_cell(text):
    return tuple(map(int, text.split(',')))


def shown(value):
    if isinstance(value, bool):
        return 'logical TRUE' if value else 'logical FALSE'
    if is_number(value):
        return 'number ' + printed(value)
    if value is EMPTY:
        return 'empty'
    return 'error ' + value.text if isinstance(value, Fault) else 'text "%s"' % value.replace('"', '""')

