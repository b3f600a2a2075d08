"""Random runs: words, files and a script. A case is (words, files by name, script), all but the words in bytes."""
from . import rows
from .random_formulas import NUMERALS, PLAIN, Formulas

SHEETS = ['plan', 'data', 'My Plan', 'Two', "o'ne", 'a.b', 'TRUE', 'A1', '2024', 'caf\xc3\xa9']
NAMES = ['rate', 'goal', 'Rate_2', 'x.y', 'area', 'none', 'solver_tol', '_a', 'caf\xc3\xa9']


class Case:
    """Makes one case from a source of random numbers."""

    def __init__(self, random):
        self.random = random
        is_odd = random.random() < 0.5
        self.sheets = random.sample(SHEETS, random.choice([1, 1, 2, 2, 3])) if is_odd else ['plan', 'data'][:random.choice([1, 2])]
        self.decisions = []
        self.formulas = Formulas(random, self.sheets, names=NAMES[:4])
        self.names = []

    def chance(self, share):
        return self.random.random() < share

    def pick(self, *choices):
        return self.random.choice(choices)

    def case(self):
        kinds = [self.shows, self.models, self.values, self.forms, self.programs, self.orders]
        kind = self.random.choices(kinds, [18, 32, 16, 16, 8, 10])[0]
        return kind()

    # Runs that show many formulas over the same values, and the forms of many over the same decision cells.
    def values(self):
        self.formulas = Formulas(self.random, self.sheets, range(4), range(5), names=NAMES[:3])
        sheets = [self.sheet_of_values() for _ in self.sheets]
        sheets[0] += [[self.formulas.formula() for _ in range(4)] for _ in range(5)]
        self.plain_names()
        name = "'%s'" % self.sheets[0].replace("'", "''")
        return self.files(sheets, [['show', '%s!%s%d' % (name, column, row)] for row in range(5, 10) for column in 'ABCD'])

    def sheet_of_values(self):
        odd = [self.random.choice(NUMERALS), self.random.choice(PLAIN)]
        row = lambda: [self.pick('0', '1', '2', '3', '4', '5', '-1', '0.5', '', 'a', 'b', 'TRUE', *odd) for _ in range(5)]
        rising = list(map(str, sorted(self.random.sample(range(-3, 12), 5))))
        last = row() if self.chance(0.7) else [self.formulas.formula(1)] * 3
        return [row(), rising if self.chance(0.7) else row(), row(), last]

    def forms(self):
        self.decisions = self.random.sample([(0, 0), (0, 1), (1, 0), (1, 1), (2, 3)], self.random.randint(1, 4))
        rows = self.pick(range(3), range(4))
        self.formulas = Formulas(self.random, self.sheets, rows, range(5), self.decisions, NAMES[:3])
        sheets = [self.sheet_of_values() for _ in self.sheets]
        sheets[0] += [[self.formulas.formula() if self.chance(0.8) else self.formulas.linear() for _ in range(4)] for _ in range(5)]
        self.plain_names()
        adj = ','.join(chr(65 + column) + str(row + 1) for row, column in self.decisions)
        self.names.append([self.sheets[0], 'solver_adj', adj])
        if self.chance(0.5):
            self.names.append([self.sheets[0], 'solver_neg', '2'])
        script = []
        for row in range(5, 10):
            for column in 'ABCD':
                script.append(['name', self.sheets[0], 'solver_opt', column + str(row)])
                script.append([self.pick('model', 'model', 'prices', 'solve', 'cert'), self.sheets[0]])
        return self.files(sheets, script)

    # Runs that show cells.
    def shows(self):
        sheets = [self.sheet_of_texts() for _ in self.sheets]
        self.plain_names()
        script = []
        for _ in range(self.random.randint(2, 10)):
            address = self.written_cell(sheets) if self.chance(0.8) else self.address()
            script.append(self.edit() if self.chance(0.25) else ['show', address])
        if self.chance(0.3):
            script.append(['save'])
        return self.files(sheets, script)

    def written_cell(self, sheets):
        number = self.random.randrange(len(sheets))
        texts = sheets[number]
        cells = [(row, column) for row in range(len(texts)) for column in range(len(texts[row])) if texts[row][column].startswith('=')]
        row, column = self.random.choice(cells or [(0, 0)])
        return "'%s'!%s%d" % (self.sheets[number].replace("'", "''"), chr(65 + column), row + 1)

    def sheet_of_texts(self):
        height = self.random.randint(1, 6)
        return [[self.formulas.text() for _ in range(self.random.randint(1, 5))] for _ in range(height)]

    def plain_names(self):
        for name in NAMES[:self.random.randint(0, 4)]:
            self.names.append([self.pick('', '', *self.sheets), name, self.name_text()])

    def name_text(self):
        chosen = self.random.random()
        if chosen < 0.35:
            return self.pick('', '=') + self.random.choice(NUMERALS)
        if chosen < 0.8:
            return self.pick('', '=') + self.pick(self.formulas.cell(), self.formulas.area())
        return self.pick(self.random.choice(PLAIN), self.formulas.formula(1))

    def address(self):
        sheet = self.random.choice(self.sheets)
        if not sheet.isidentifier() or self.chance(0.1):
            sheet = "'%s'" % sheet.replace("'", "''")
        if self.chance(0.03):
            place = self.pick('!A0', '!AMK1', '!A4097', '!$A$2', '!A', '!a002', ' !A1', '!A1:A2', '.B$1', '!A99999999999')
            return self.pick('A1', 'none!A1', '!A1', "''!A1", '$' + sheet + place, sheet + place, sheet + place, sheet + place)
        return '%s%s%s%d' % (sheet, self.pick('!', '!', '.'), self.pick(*'ABCDE'), self.random.randint(1, 6))

    def sheet_field(self):
        return self.pick('none', '', 'PLAN', 'plan ') if self.chance(0.04) else self.random.choice(self.sheets)

    def edit(self):
        chosen = self.random.random()
        if chosen < 0.55:
            text = self.formulas.linear() if self.decisions and self.chance(0.4) else self.formulas.text()
            return ['set', self.address(), text]
        if chosen < 0.65:
            return ['clear', self.address()]
        if chosen < 0.85:
            return ['name', self.pick('', self.sheet_field()), self.random.choice(NAMES), self.name_text()]
        if chosen < 0.92:
            return ['unname', self.pick('', self.sheet_field()), self.random.choice(NAMES + ['TRUE', 'A1', '$a', 'a b', ''])]
        odd = [['sort', 'plan'], ['set', 'plan!A1'], ['save', 'x'], [''], ['show', self.address(), ''], ['Set', 'plan!A1', '1']]
        return self.pick(['save'], *odd)

    # Runs that solve.
    def models(self):
        self.sheets = self.sheets[:2]
        columns = self.random.randint(1, 3)
        self.decisions = [(0, column) for column in range(columns)]
        self.formulas = Formulas(self.random, self.sheets, range(5), [0, 1, 3, 3, 4, 2], self.decisions, NAMES[:3])
        sheets = [self.model_sheet(columns)] + [self.sheet_of_texts() for _ in self.sheets[1:]]
        if self.chance(0.3):
            self.plain_names()
        self.solver_names(columns)
        return self.files(sheets, self.model_script())

    # Runs over programs of many digits, whose pivots may meet numbers that don't fit.
    def programs(self):
        self.sheets = ['plan']
        count, height = self.random.randint(2, 4), self.random.randint(2, 5)
        digits = self.pick(1, 2, 6, 12, 18, 24)
        number = lambda: str(self.random.randint(-10 ** digits // 4, 10 ** digits))
        last = 'ABCD'[count - 1]
        sheet = [['0'] * count]
        for row in range(2, height + 3):
            sheet.append([number() for _ in range(count)] + ['=SUMPRODUCT($A$1:$%s$1;A%d:%s%d)' % (last, row, last, row), number()])
        result, right = 'ABCDEF'[count], 'ABCDEF'[count + 1]
        texts = {
            'adj': 'A1:%s1' % last, 'opt': result + '2', 'typ': self.pick('1', '2', '3'), 'num': '2',
            'rel1': self.pick('1', '1', '2', '3'),
            'lhs1': '%s3:%s%d' % (result, result, height + 2), 'rhs1': '%s3:%s%d' % (right, right, height + 2),
            'lhs2': self.pick('A1', 'A1:B1', 'A1:%s1' % last), 'rel2': self.pick('1', '3', '4', '4', '5'), 'rhs2': number(),
            'neg': self.pick('1', '1', '2'), 'val': number(),
        }
        self.names = [['plan', 'solver_' + name, text] for name, text in texts.items()]
        script = [['model', 'plan'], ['prices', 'plan'], ['cert', 'plan'], ['solve', 'plan'], ['begin', 'plan'], ['slice', 'plan', '2'], ['slice', 'plan', '30'], ['save']]
        return self.files([sheet], script)

    # Runs over decision cells in a few rows, many of them to be different from each other.
    def orders(self):
        self.sheets = ['plan']
        height, width = self.pick((1, 2), (1, 3), (1, 3), (1, 4), (1, 5), (2, 2), (2, 2), (2, 3), (3, 2))
        letters = 'ABCDE'[:width]
        self.decisions = [(row, column) for row in range(height) for column in range(width)]
        number = lambda: str(self.random.randint(-3, 6)) if self.chance(0.8) else self.pick('0.5', '2.5', '1/3', '-0.5')
        sheet = [[self.pick('0', '1', '') for _ in range(width)] for _ in range(height)]
        cells = [letter + str(row + 1) for row in range(height) for letter in letters]
        for _ in range(4):
            terms = ['%s*%s' % (number(), cell) for cell in self.random.sample(cells, self.random.randint(1, len(cells)))]
            sheet.append(['=' + '+'.join(terms).replace('+-', '-'), str(self.random.randint(-2, 14))])
        self.names = [['plan', 'solver_adj', self.pick('A1:%s%d' % (letters[-1], height), ','.join(reversed(cells)))]]
        if self.chance(0.9):
            self.names.append(['plan', 'solver_opt', 'A%d' % (height + 1)])
        self.names += [['plan', 'solver_typ', self.pick('1', '1', '2', '2', '3')], ['plan', 'solver_val', self.pick('3', '6', '10')]]
        if self.chance(0.2):
            self.names.append(['plan', 'solver_neg', '2'])
        constraints = self.groups(letters, height) + [self.limit(cells, height) for _ in range(self.pick(0, 0, 1, 1, 2))]
        self.random.shuffle(constraints)
        self.names.append(['plan', 'solver_num', str(len(constraints))])
        for number, parts in enumerate(constraints, 1):
            self.names += [['plan', 'solver_%s%d' % (part, number), text] for part, text in zip(('lhs', 'rel', 'rhs'), parts)]
        return self.files([sheet], self.order_script(cells, height))

    def groups(self, letters, height):
        """Constraints of different cells: rows, columns, and other areas."""
        rows = ['A%d:%s%d' % (row, letters[-1], row) for row in range(1, height + 1)]
        columns = ['%s1:%s%d' % (letter, letter, height) for letter in letters]
        areas = self.pick(rows, rows, rows + columns, columns, [self.random.choice(rows + columns)])
        if self.chance(0.2):
            areas = areas + [self.pick('A1', 'A1:B1', '%s1' % letters[-1], 'A1:%s%d' % (letters[-1], height), 'A%d' % (height + 1))]
        return [(area, '6', self.pick('', 'different', 'A1')) for area in areas]

    def limit(self, cells, height):
        """A constraint of another kind."""
        left = self.pick('A%d' % (height + self.random.randint(2, 4)), 'A%d:A%d' % (height + 2, height + 4), self.random.choice(cells))
        code = self.pick('1', '1', '2', '3', '3', '4', '5')
        if code in '45':
            return self.random.choice(cells), code, ''
        right = self.pick('B%d' % (height + 2), '2', '6', '3', '1.5', '8', self.random.choice(cells))
        return left, code, right

    def order_script(self, cells, height):
        script = [['budget', self.pick('60', '150')], ['model', 'plan'], ['solve', 'plan']]
        for _ in range(self.random.randint(2, 6)):
            script.append(self.pick(
                ['begin', 'plan'], ['slice', 'plan', self.pick('1', '3', '5', '20')], ['slice', 'plan', '1000'], ['solve', 'plan'],
                ['set', 'plan!%s' % self.pick('B%d' % (height + 2), self.random.choice(cells)), self.pick('1', '4', '8')],
                ['name', 'plan', 'solver_rel%s' % self.pick('1', '2'), self.pick('1', '3', '4', '6', '6')], ['model', 'plan'],
                ['name', 'plan', 'solver_typ', self.pick('1', '2', '3')], ['prices', 'plan'], ['budget', self.pick('20', '1000')],
                ['cert', 'plan'], ['cert', 'plan'],
            ))
        return script + [['show', 'plan!%s' % cell] for cell in cells] + [['save']]

    def number(self):
        return self.pick('0', '1', '2', '3', '4', '5', '6', '7', '12', '-1', '-3', '0.5', '2.5', '1/3', '10', '100', '=7/3', '1E20', '')

    def formula_of_model(self):
        chosen = self.random.random()
        if chosen < 0.7:
            return self.formulas.linear()
        return self.formulas.formula(2) if chosen < 0.93 else self.number()

    def model_sheet(self, columns):
        decided = [self.pick('0', '0', '', '1', '3', 'x') for _ in range(columns)]
        sheet = [decided + [self.formulas.text() if self.chance(0.2) else '' for _ in range(5 - columns)]]
        for _ in range(4):
            last = self.formula_of_model() if self.chance(0.3) else ''
            sheet.append([self.number(), self.number(), self.formula_of_model(), self.number(), last])
        return sheet

    def solver_names(self, columns):
        add = lambda name, text: self.names.append([self.sheets[0], 'solver_' + name, text])
        adj = '$A$1:$%s$1' % 'ABC'[columns - 1] if columns > 1 else 'A1'
        if self.chance(0.15):
            adj = self.pick('A1,B1', 'A1;A1', '=A1~C1', 'A1:B2', '[.A1:.B1]', '%s!A1' % self.sheets[0], 'A1,', 'C2', '', 'none!A1',
                            '(A1)', 'A1 , B1')
        if not self.chance(0.02):
            add('adj', adj)
        if self.chance(0.9):
            add('opt', self.pick('$C$2', 'C2', '=C3', 'C2:C2', 'A1', 'C2:C3', 'D2', 'x') if self.chance(0.1) else 'C2')
        if self.chance(0.8):
            add('typ', self.pick('=2', '1.0', '100%', '4', 'x', '') if self.chance(0.05) else self.pick('1', '1', '2', '2', '3'))
        if self.chance(0.2):
            add('val', self.pick('5', '=2.5', '0', '3', '-3', 'x', '1e39') if self.chance(0.3) else '5')
        if self.chance(0.25):
            add('neg', self.pick('=1', '3', '') if self.chance(0.1) else self.pick('1', '2', '2'))
        count = self.random.randint(0, 4)
        add('num', str(count) if self.chance(0.97) else self.pick('', 'x', '-1', '257', '1.5', '=2', '2%'))
        for number in range(1, count + 1):
            self.constraint(add, number, adj)
        if self.chance(0.05) and self.names:
            del self.names[self.random.randrange(len(self.names))]

    def constraint(self, add, number, adj):
        left = self.pick('C3', 'C4', 'C3:C5', 'C5', 'A1', 'C3', adj, 'C4', '$C$2:$C$4')
        code = self.pick('1', '1', '2', '3', '3', '4', '5', '6')
        if code in '456':
            left = self.pick(adj, 'A1', adj, 'A1', 'B1')
        if self.chance(0.03):
            code = self.pick('7', '0', '', 'x', '1.0', '=1', '1.5', '"')
        right = self.pick('D3', 'D2:D4', 'D3:D5', '4', '6', '=7', '2.5', 'D2*2', '=C4+1', 'A1', '=SUM(D2:D3)', '-2', '10', '12', '3',
                          self.formulas.part(1), 'D1', 'integer', '3=3', 'rate', '= D2', '==D2', 'E5')
        if ':' in right and self.chance(0.8):
            left = 'C3:C5'
        add('lhs%d' % number, left)
        add('rel%d' % number, code)
        if code not in '456' or self.chance(0.5):
            add('rhs%d' % number, right)

    def model_script(self):
        sheet, script = self.sheets[0], []
        for _ in range(self.random.randint(2, 9)):
            chosen = self.random.random()
            if chosen < 0.2:
                script.append(['model', sheet])
            elif chosen < 0.37:
                script.append(['solve', sheet])
            elif chosen < 0.45:
                script.append(['cert', sheet])
            elif chosen < 0.52:
                script.append(['begin', sheet])
            elif chosen < 0.66 and self.chance(0.7 if ['begin', sheet] in script else 0.1):
                script.append(['slice', sheet, self.pick('1', '2', '3', '10', '100', '0', '001', 'x', '1000000', '1000001')])
            elif chosen < 0.67:
                script.append(['stop', self.sheet_field()])
            elif chosen < 0.69:
                script.append(['prices', sheet])
            elif chosen < 0.73:
                script.append(['budget', self.pick('1', '2', '5', '50', '0', '60')])
            elif chosen < 0.78:
                script.append(['show', self.address()])
            elif chosen < 0.84:
                script.append(self.solver_edit())
            elif chosen < 0.96:
                script.append(self.edit())
            else:
                script.append(['save'])
        if self.chance(0.3):
            script = [['begin', sheet], ['slice', sheet, self.pick('1', '2')]] + script
        return script

    def solver_edit(self):
        sheet = self.sheets[0]
        return self.pick(
            ['name', sheet, 'solver_typ', self.pick('1', '2', '3')], ['name', sheet, 'solver_val', self.pick('1', '5')],
            ['name', sheet, 'solver_neg', self.pick('1', '2')], ['name', sheet, 'solver_num', self.pick('0', '1', '2')],
            ['unname', sheet, 'solver_opt'], ['name', sheet, 'solver_rhs1', self.pick('3', 'D3', 'D3:D5', 'C4')],
            ['name', sheet, 'solver_rel1', self.pick('1', '2', '3', '4', '6')], ['name', sheet, 'solver_adj', self.pick('A1', 'A1:B1', 'B1,A1')],
        )

    # Words and bytes.
    def comments(self):
        for record in self.names:
            if self.chance(0.05):
                record += [self.pick('', 'how much', 'a "word", two', 'one\ntwo', '=A1')]
                record += ['x'] * self.chance(0.02)

    def files(self, sheets, script):
        self.comments()
        words = ['--names', 'names.csv']
        files = {'names.csv': self.written(self.names)}
        folder = self.pick('', '', '', '', 'sub/')
        for name, texts in zip(self.sheets, sheets):
            word = folder + name.encode('latin-1').decode('utf-8') + '.csv'
            words.append(word)
            files[word] = self.written(texts)
        words[:0] = ['--budget', self.pick('60', '40', '25', '7', '1', '60', '60')] if self.chance(0.95) else ['--budget=30']
        if self.chance(0.4):
            words += ['--pick', self.pick('depth', 'best', 'oldest')]
        return words, files, self.written(script)

    def written(self, records):
        data = rows.write(records).encode('latin-1')
        if self.chance(0.05):
            data = data.replace(b'\n', b'\r\n')
        if self.chance(0.03):
            data = b'\xef\xbb\xbf' + data
        return data[:-1] if self.chance(0.05) and data.endswith(b'\n') else data
