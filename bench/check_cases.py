#!/usr/bin/env python3
"""Cases of crates/check_answers, and what must come of them by a second reading of the rules.

    check_cases.py examples                 prints a case for each workbook of examples/, with a certificate that is made here
    check_cases.py random COUNT [SEED]      prints cases of random models: each with its certificate, and with one or two of its numbers changed
    check_cases.py scripts CASES            prints a case for each certificate that scripts of cases of crates/answers ask for by `cert`, but for
                                            those whose files are large
    check_cases.py compare CASES ANSWERS    compares what a program printed of cases, but for its last line, with what must come

Certificates are made by bench/second_reading/certificates.py, and what must come is told by bench/second_reading/checking.py, which knows
nothing of the program. Where two lines are permitted, since a part fails and a sum is too wide as well, either may be printed.
"""
import os
import random
import re
import sys

from second_reading import rows
from second_reading.book import opened
from second_reading.cases import Reader, lines
from second_reading.certificates import TooLarge, certificate_of
from second_reading.checking import run
from second_reading.model import Refused
from second_reading.run import Words
from second_reading.session import Session
from second_reading.simplex import WidePivot

HERE = os.path.dirname(os.path.abspath(__file__))
EXAMPLES = os.path.join(HERE, '..', 'examples')
MOST_BYTES = 20000


# ---- cases that are made
def prepared(names, sheets):
    """The model of the first sheet; files are pairs of a word and bytes."""
    return Session(opened(names, sheets), [word for word, _ in sheets], names[0], 10 ** 6, 'depth').prepared(0)


def print_cases(name, names, sheets, texts):
    """Prints a workbook's files, and a case for each of its certificates: what is said of it, and its text."""
    print('shared ' + name)
    for word, data in [names] + sheets:
        print('\n'.join(['file ' + word] + lines(data)))
    for said, text in texts:
        print('\ncase %s%s' % (name, said))
        print('words --names names.csv --cert cert.txt ' + ' '.join("'%s'" % word if ' ' in word else word for word, _ in sheets))
        print('\n'.join(['with ' + name, 'file cert.txt'] + lines(text.encode())))
    print()


def workbook(folder):
    """The names and the sheets of an example, that sheet first which its script solves."""
    words = sorted(file for file in os.listdir(folder) if file.endswith('.csv') and file not in ('names.csv', 'script.csv'))
    script = os.path.join(folder, 'script.csv')
    solved = re.search(b'^(?:solve|prices),(.*)$', data_of(folder, 'script.csv')[1], re.MULTILINE) if os.path.exists(script) else None
    words.sort(key=lambda word: word != (solved[1].strip().decode() if solved else 'plan') + '.csv')
    return data_of(folder, 'names.csv'), [data_of(folder, word) for word in words]


def data_of(folder, word):
    with open(os.path.join(folder, word), 'rb') as file:
        return word, file.read()


def examples():
    for folder, _, files in sorted(os.walk(EXAMPLES)):
        if 'names.csv' in files:
            names, sheets = workbook(folder)
            name = 'the example ' + os.path.relpath(folder, EXAMPLES).replace(os.sep, ' ')
            text = text_of(names, sheets)
            none = (', of which no true one can be written', 'cert infeasible\nempty\nend\n')
            print_cases(name, names, sheets, [none if text is None else ('', text)])


def text_of(names, sheets):
    """The text of a certificate; None where there is no model, a number isn't narrow or the tree would be large."""
    try:
        return certificate_of(prepared(names, sheets)).text()
    except (Refused, WidePivot, TooLarge):
        return None


# ---- random models
def random_book(draw):
    """Names and one sheet: a few decisions, an objective, rows, and perhaps marks."""
    count, rows = draw.randint(1, 4), draw.randint(0, 4)
    last = 'ABCDE'[count - 1]
    head = [','.join(['0'] * count)]
    numbers = [[str(draw.randint(-3, 6)) for _ in range(count)] for _ in range(rows + 1)]
    for place, row in enumerate(numbers, 2):
        total = '=SUMPRODUCT($A$1:$%s$1;A%d:%s%d)' % (last, place, last, place)
        head.append(','.join(row + [''] * (5 - count) + [total, str(draw.choice([draw.randint(-2, 20), '7/2', '2.25']))]).replace('7/2', '=7/2'))
    names = [('solver_adj', '$A$1:$%s$1' % last), ('solver_typ', str(draw.choice([1, 1, 2, 2, 3]))), ('solver_neg', draw.choice('1112'))]
    if draw.random() < 0.9:
        names.append(('solver_opt', '$F$2'))
    names.append(('solver_val', str(draw.randint(0, 9))))
    parts = [('$F$%d' % place, draw.choice('11123'), '$G$%d' % place) for place in range(3, rows + 3)]
    parts += [('$%s$1' % letter, '1', str(draw.randint(0, 9))) for letter in 'ABCD'[:count] if draw.random() < 0.4]
    if draw.random() < 0.6:
        parts.append(('$A$1:$%s$1' % draw.choice('ABCD'[:count]), draw.choice('4456'), 'x'))
    names.append(('solver_num', str(len(parts))))
    for place, (left, code, right) in enumerate(parts, 1):
        names += [('solver_lhs%d' % place, left), ('solver_rel%d' % place, code), ('solver_rhs%d' % place, right)]
    text = ''.join('plan,%s,%s\n' % pair for pair in names)
    return ('names.csv', text.encode()), [('plan.csv', ('\n'.join(head) + '\n').encode())]


def changed(draw, text):
    """The text with one of its numbers changed."""
    places = [found for found in re.finditer(r'(?<=[ :])[0-9]+(?=[ \n])', text)]
    if not places:
        return text
    found = draw.choice(places)
    return text[:found.start()] + str(int(found[0]) + draw.choice([1, 1, 2, -1])).replace('-1', '1') + text[found.end():]


def random_cases(count, seed):
    draw = random.Random(seed)
    for number in range(count):
        names, sheets = random_book(draw)
        text = text_of(names, sheets)
        if text is not None:
            texts = [('', text), (', changed', changed(draw, text)), (', changed twice', changed(draw, changed(draw, text)))]
            print_cases('random model %d' % number, names, sheets, texts)


# ---- certificates of scripts
class Certified(Session):
    """Keeps the files and the text of each certificate, those of one kind once."""

    def __init__(self, *parts):
        super().__init__(*parts)
        self.made = []

    def do_cert(self, sheet_name):
        text = super().do_cert(sheet_name)
        words = sorted(self.words, key=lambda word: word != self.words[self.sheet(sheet_name)])
        sheets = [(word, written(self.book.records(self.words.index(word)))) for word in words]
        found = (self.names_word, written(self.book.name_records())), sheets, text + '\n'
        if found not in self.made:
            self.made.append(found)
        return text


def written(records):
    return rows.write(records).encode('latin-1')


def print_scripted(case):
    """Prints the workbooks and the certificates of a case of crates/answers."""
    read = Words(word.encode('utf-8').decode('latin-1') for word in case.words)
    files, script = {name: bytes(data) for name, data in case.files}, bytes(case.script)
    if not (read.is_right and b'cert,' in script):
        return
    names, sheets = read.options['names'], [(word, files[word]) for word in read.files]
    if sum(map(len, files.values())) > MOST_BYTES:
        return
    session = Certified(opened((names, files[names]), sheets), read.files, names, read.budget, read.pick)
    for record in rows.read(rows.text_of(script)):
        session.answer(record)
    for place, (names, sheets, text) in enumerate(session.made, 1):
        print_cases(case.name + (', number %d' % place if len(session.made) > 1 else ''), names, sheets, [('', text)])


def scripts(cases):
    reader = Reader(print_scripted)
    with open(cases, encoding='utf-8') as file:
        for line in file.read().split('\n'):
            reader.take(line)
    reader.end()


# ---- what must come
class Checks(Reader):
    """Reads cases of checks: a file takes the place of one of its name."""

    def on_case(self, name):
        super().on_case(name)
        self.case.cut, self.case.fails = None, [10 ** 9] * 2

    def on_cuts(self, name):
        self.case.cut = name

    def on_file(self, name):
        self.part = bytearray()
        place = next((place for place, (other, _) in enumerate(self.files) if other == name), len(self.files))
        self.files[place:place + 1] = [(name, self.part)]


def outcomes(case):
    """The answers that may come of a case, each a tuple of lines."""
    files = {name: bytes(data) for name, data in case.files}
    if case.cut is None:
        printed, status = run(case.words, files, case.fails)
        return {tuple(lines(data) + ['status %d' % status]) for data in printed}
    kinds, data = {}, files[case.cut]
    for place in range(len(data)):
        printed, status = run(case.words, {**files, case.cut: data[:place]}, case.fails)
        kind = kinds.setdefault((status, min(printed)), [0, '%s %d' % (case.cut, place)])
        kind[0] += 1
    found = []
    for (status, printed), (count, first) in kinds.items():
        found += ['%d runs, first %s' % (count, first)] + lines(printed) + ['status %d' % status]
    return {tuple(found)}


def compare(cases, answers):
    """Prints the cases of which something else was printed, and tells how many there are."""
    with open(answers, encoding='utf-8') as file:
        parts = file.read().rstrip('\n').rpartition('\n')[0].split('\ncase ')
    printed = {part.split('\n')[0].removeprefix('case '): part.rstrip('\n').split('\n')[1:] for part in parts}
    seen, wrong = [], []

    def judge(case):
        seen.append(case.name)
        wanted, got = outcomes(case), printed.get(case.name)
        if got is None or tuple(got) not in wanted:
            wrong.append(case.name)
            print('%s: wanted %s, printed %s' % (case.name, sorted(wanted), got))

    reader = Checks(judge)
    with open(cases, encoding='utf-8') as file:
        for line in file.read().split('\n'):
            reader.take(line)
    reader.end()
    print('%d cases, %d of them otherwise' % (len(seen), len(wrong)))
    return 1 if wrong or len(seen) != len(set(seen)) else 0


def main():
    kind, rest = sys.argv[1] if len(sys.argv) > 1 else '', sys.argv[2:]
    if kind == 'examples' and not rest:
        return examples()
    if kind == 'random' and len(rest) in (1, 2):
        return random_cases(int(rest[0]), int(rest[1]) if len(rest) == 2 else 1)
    if kind == 'scripts' and len(rest) == 1:
        return scripts(*rest)
    if kind == 'compare' and len(rest) == 2:
        return compare(*rest)
    sys.exit(__doc__)


if __name__ == '__main__':
    sys.exit(main())
