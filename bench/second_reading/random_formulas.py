"""Random formulas and texts of cells."""

NUMERALS = [
    '0', '1', '2', '3', '5', '7', '10', '-1', '-2', '-7', '0.5', '-0.25', '.5', '3.', '1e2', '1E-3', '25%', '+4', '-1.5%', '1E38',
    '1E39', '170141183460469231731687303715884105727', '170141183460469231731687303715884105728', '0.333333333333333333', '1e-38',
    '1e18', '1e-19', '12345678901234567890.123456789', '007', '1.50', '4096', '1000', '-1000', '1001', '2e0', '100%',
    '0e999999999', '1e999999999', '9E-40',
]
PLAIN = [
    'a', 'A', 'b', 'ab', 'x,y', 'say "hi"', ' 1', '1 ', '1,5', 'TRUE', 'false', 'Tru', '$5', '>1', '<=2', '<>', '=', '<>a', '=a', '>=a',
    '%',
    '.', '-', '1e', 'line\nend', 'r\r', "it's", '#N/A', 'caf\xc3\xa9', '\xc3\x89', '', ' ',
]
FAULTS = ['#DIV/0!', '#VALUE!', '#REF!', '#NUM!', '#N/A']
INFIX = ['+', '-', '*', '/', '^', '&', '=', '<>', '<', '<=', '>', '>=']
CALLS = {
    'SUM': (1, 4), 'AVERAGE': (1, 3), 'COUNT': (1, 3), 'SUMPRODUCT': (1, 3), 'MMULT': (2, 2), 'TRANSPOSE': (1, 1), 'INDEX': (2, 3),
    'MATCH': (2, 3), 'VLOOKUP': (3, 4), 'HLOOKUP': (3, 4), 'CHOOSE': (2, 4), 'SUMIF': (2, 3), 'COUNTIF': (2, 2), 'IF': (2, 3),
    'IFERROR': (2, 2), 'AND': (1, 3), 'OR': (1, 3), 'NOT': (1, 1), 'TRUE': (0, 0), 'FALSE': (0, 0), 'ABS': (1, 1), 'MIN': (1, 3),
    'MAX': (1, 3), 'INT': (1, 1), 'MOD': (2, 2), 'ROUND': (1, 2), 'POWER': (2, 2), 'N': (1, 1), 'ISNUMBER': (1, 1), 'ISBLANK': (1, 1),
    'ROWS': (1, 1), 'COLUMNS': (1, 1),
}
AREAS = {'SUM', 'AVERAGE', 'COUNT', 'SUMPRODUCT', 'MMULT', 'TRANSPOSE', 'AND', 'OR', 'MIN', 'MAX', 'ROWS', 'COLUMNS'}
GRID_FIRST = {'INDEX', 'SUMIF', 'COUNTIF'}
GRID_SECOND = {'MATCH', 'VLOOKUP', 'HLOOKUP'}


class Formulas:
    """Makes formulas that refer to cells of these rows and columns, and to the decision cells above all."""

    def __init__(self, random, sheets, rows=range(6), columns=range(5), decisions=(), names=()):
        self.random, self.sheets, self.rows, self.columns = random, sheets, list(rows), list(columns)
        self.decisions, self.names = list(decisions), list(names)

    def chance(self, share):
        return self.random.random() < share

    def pick(self, *choices):
        return self.random.choice(choices)

    def sheet(self):
        name = self.random.choice(self.sheets)
        name = "'%s'" % name.replace("'", "''") if not name.isalnum() or self.chance(0.1) else name
        return self.pick('', '', '', '$') + name

    def address(self):
        if self.decisions and self.chance(0.5):
            row, column = self.random.choice(self.decisions)
        else:
            row, column = self.random.choice(self.rows), self.random.choice(self.columns)
        letter = chr((65 if self.chance(0.95) else 97) + column)
        return self.pick('', '', '', '$') + letter + self.pick('', '', '', '$') + str(row + 1)

    def cell(self):
        address = self.address()
        if self.chance(0.75):
            return address
        if self.chance(0.2):
            return '[%s.%s]' % (self.pick('', self.sheet()), address)
        return self.sheet() + self.pick('!', '!', '.') + address

    def area(self):
        if self.chance(0.08):
            return '~'.join(self.pick(self.cell(), self.plain_area()) for _ in range(2))
        if self.chance(0.05):
            return '[%s.%s:.%s]' % (self.pick('', self.sheet()), self.address(), self.address())
        return self.plain_area()

    def plain_area(self):
        head = self.sheet() + '!' if self.chance(0.15) else ''
        row, column = self.random.choice(self.rows), self.random.choice(self.columns)
        height, width = self.random.choice([(1, 3), (3, 1), (2, 2), (1, 1), (3, 2), (2, 3), (1, 2), (2, 1)])
        return '%s%s%d:%s%d' % (head, chr(65 + column), row + 1, chr(65 + column + width - 1), row + height)

    def array(self):
        height, width = self.random.choice([(1, 3), (3, 1), (2, 2), (1, 1), (2, 1), (1, 2)])
        items = lambda: self.pick('1', '2', '3', '-1', '0', '4', '0.5', '"a"', '"b"', 'TRUE', 'FALSE', '""', '+2')
        return '{' + '|'.join(';'.join(items() for _ in range(width)) for _ in range(height)) + '}'

    def grid(self, depth):
        chosen = self.random.random()
        if chosen < 0.6:
            return self.area()
        if chosen < 0.8:
            return self.array()
        return self.part(depth)

    def leaf(self):
        chosen = self.random.random()
        if chosen < 0.3:
            return self.pick('0', '1', '2', '3', '5', '10', '0.5', '1.5', '4%', '1E38', '1e-20', '12345678901234567890', '.25')
        if chosen < 0.7:
            return self.cell()
        if chosen < 0.75 and self.names:
            return self.random.choice(self.names)
        if chosen < 0.82:
            return '"%s"' % self.random.choice(PLAIN).replace('"', '""')
        if chosen < 0.87:
            return self.pick('TRUE', 'FALSE', 'true', 'False')
        if chosen < 0.9:
            return self.random.choice(FAULTS)
        return self.area() if chosen < 0.95 else self.array()

    def part(self, depth):
        if depth <= 0 or self.chance(0.15):
            return self.leaf()
        chosen = self.random.random()
        if chosen < 0.3:
            sign = self.random.choice(INFIX if self.chance(0.5) else ['+', '-', '*', '+', '*', '/'])
            space = self.pick('', '', '', ' ', '\n')
            return self.bracketed(self.part(depth - 1), 0.5) + space + sign + space + self.bracketed(self.part(depth - 1), 0.5)
        if chosen < 0.37:
            return self.pick('-', '-', '+', '--') + self.bracketed(self.part(depth - 1), 0.6)
        if chosen < 0.4:
            return self.bracketed(self.part(depth - 1), 0.8) + '%'
        if chosen < 0.45:
            return '(' + self.part(depth - 1) + ')'
        return self.call(depth)

    def bracketed(self, text, share):
        return '(' + text + ')' if self.chance(share) else text

    def call(self, depth):
        name = self.random.choice(list(CALLS))
        least, most = CALLS[name]
        count = self.random.randint(least, most)
        if self.chance(0.01):
            count += self.pick(-1, 1)
        args = []
        for place in range(max(count, 0)):
            if self.chance(0.03):
                args.append('')
            elif name in AREAS or (name in GRID_FIRST and place == 0) or (name in GRID_SECOND and place == 1):
                args.append(self.grid(depth - 1))
            elif name == 'SUMIF' and place == 2:
                args.append(self.grid(depth - 1))
            elif name in GRID_FIRST | GRID_SECOND | {'CHOOSE'} and self.chance(0.6):
                args.append(self.pick('0', '1', '2', '3', '-1', 'TRUE', 'FALSE', '">1"', '"a"', '"<>"', '1.5', '"<=2"'))
            else:
                args.append(self.part(depth - 1))
        name = name.lower() if self.chance(0.03) else name
        name = 'FOO' if self.chance(0.003) else name
        return name + '(' + self.pick(';', ';', ',', '; ').join(args) + ')'

    def formula(self, depth=3):
        text = self.pick('=', '=', '=', '=', '=', '==', 'of:=', '= ') + self.part(self.random.randint(0, depth))
        if self.chance(0.02):
            place = self.random.randrange(len(text))
            text = text[:place] + self.random.choice('()[]{};:.,!~$\'"#%&=<>+-*/^ A1') + text[place + self.random.randrange(2):]
        return text

    def linear(self):
        """A formula that is affine more often than not."""
        terms = []
        for _ in range(self.random.randint(1, 4)):
            factor = self.pick('', '', '2*', '3*', '-1*', '0.5*', '7*', '5%*')
            terms.append(factor + self.address())
        text = '=' + self.pick('+', '-', '+').join(terms)
        if self.chance(0.3):
            text += self.pick('+1', '-2', '/2', '+0.5', '+' + self.part(1))
        if self.chance(0.25):
            text = '=' + self.pick('SUM', 'AVERAGE', 'SUM') + '(' + self.area() + ')'
        if self.chance(0.2):
            area = self.plain_area()
            text = '=SUMPRODUCT(%s;%s)' % (area, self.plain_area() if self.chance(0.5) else area)
        return text

    def text(self, formulas=0.35):
        """The text of a cell."""
        chosen = self.random.random()
        if chosen < formulas:
            return self.formula()
        if chosen < formulas + 0.3:
            return self.pick('0', '1', '2', '3', '4', '5', '10', '-1', '0.5')
        if chosen < formulas + 0.38:
            return self.random.choice(NUMERALS)
        return self.random.choice(PLAIN) if chosen < formulas + 0.45 else ''
