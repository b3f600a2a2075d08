"""The workbook that is made up of so many suppliers and places."""
from .book import Book
from .session import Session


def letters(number):
    """A column's letters, from 1."""
    text = ''
    while number:
        number, letter = divmod(number - 1, 26)
        text = chr(65 + letter) + text
    return text


class Draws:
    """Whole numbers, each drawn from the one before it."""

    def __init__(self):
        self.x = 1

    def draw(self):
        self.x = (1103515245 * self.x + 12345) % 2 ** 31
        return self.x // 65536


def texts(count):
    draws, last = Draws(), letters(count)
    found = {}
    for row in range(count):
        for column in range(count):
            found[0, row, column] = str(1 + draws.draw() % 20)
            found[0, count + row, column] = '0'
        found[0, count + row, count] = '=SUM(A%d:%s%d)' % (count + row + 1, last, count + row + 1)
        found[0, count + row, count + 1] = '20'
    for column in range(count):
        letter = letters(column + 1)
        found[0, 2 * count, column] = '=SUM(%s%d:%s%d)' % (letter, count + 1, letter, 2 * count)
        found[0, 2 * count + 1, column] = str(10 + draws.draw() % 10)
    found[0, 2 * count + 2, 0] = '=SUMPRODUCT(A1:%s%d;A%d:%s%d)' % (last, count, count + 1, last, 2 * count)
    return found


def area(top, left, bottom, right):
    first, last = '$%s$%d' % (letters(left), top), '$%s$%d' % (letters(right), bottom)
    return first if first == last else first + ':' + last


def session(count, budget):
    book = Book(['gen'])
    book.texts = texts(count)
    names = {
        'adj': area(count + 1, 1, 2 * count, count), 'opt': area(2 * count + 3, 1, 2 * count + 3, 1), 'typ': '2', 'num': '2',
        'lhs1': area(count + 1, count + 1, 2 * count, count + 1), 'rel1': '1',
        'rhs1': area(count + 1, count + 2, 2 * count, count + 2),
        'lhs2': area(2 * count + 1, 1, 2 * count + 1, count), 'rel2': '3', 'rhs2': area(2 * count + 2, 1, 2 * count + 2, count),
    }
    book.names = [[0, 'solver_' + name, text, 'gen', []] for name, text in names.items()]
    return Session(book, ['gen.csv'], 'names.csv', budget, 'depth')
