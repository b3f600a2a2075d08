#!/usr/bin/env python3
"""Cases of crates/answers for `cert`: random models, ten sheets in each case, and their certificates by each picker in turn.

    python3 bench/cert_cases.py [COUNT [SEED]] > CASES

Prints the cases of COUNT models (60). What must come of them is told by bench/second_reading/cases.py. No model is taken whose certificate
has more than 30 lines, or whose certificate a second reading of the check (bench/second_reading/checking.py) doesn't say yes to: of such a
model the script says so and stops.
"""
import random
import sys

from check_cases import random_book
from second_reading.book import opened
from second_reading.cases import lines
from second_reading.checking import run
from second_reading.session import Session

SHEETS, MOST_LINES, BUDGET = 10, 30, 200
PICKERS = ['depth', 'best', 'oldest']


def order_book(draw):
    """Names and one sheet: cells that are to be different, an objective, and perhaps a row."""
    count = draw.randint(2, 4)
    last = 'ABCD'[count - 1]
    form = lambda: '=' + '+'.join('%d*%s1' % (draw.randint(-3, 6), letter) for letter in 'ABCD'[:count]).replace('+-', '-')
    names = [('adj', 'A1:%s1' % last), ('opt', 'A2'), ('typ', draw.choice('112')), ('num', draw.choice('12'))]
    names += [('lhs1', 'A1:%s1' % draw.choice('BCD'[:count - 1])), ('rel1', '6')]
    names += [('lhs2', draw.choice(['A3', 'A3', last + '1'])), ('rel2', draw.choice('13')), ('rhs2', str(draw.randint(0, 12)))]
    text = ''.join('plan,solver_%s,%s\n' % pair for pair in names)
    return ('names.csv', text.encode()), [('plan.csv', ('%s\n%s\n%s\n' % (','.join('0' * count), form(), form())).encode())]


def answer(names, sheets, pick):
    return Session(opened(names, sheets), ['plan.csv'], names[0], BUDGET, pick).answer(['cert', 'plan'])


def need_yes(names, sheets, text):
    """Stops where the check of a certificate may say anything but yes."""
    files = {**dict([names] + sheets), 'cert.txt': (text + '\n').encode()}
    said, _ = run(['--names', 'names.csv', '--cert', 'cert.txt', 'plan.csv'], files, [10 ** 9] * 2)
    if not all(line.startswith(b'yes ') for line in said):
        sys.exit('%s %s %s: %s' % (names, sheets, text, said))


def model(draw, pick):
    """A random model whose certificate is short; one in five or so has no tree of more than a node."""
    while True:
        names, sheets = draw.choice([random_book, random_book, order_book])(draw)
        text = answer(names, sheets, pick)
        count = text.count('\n') + 1
        if count <= MOST_LINES and ('split' in text or draw.random() < 0.2):
            if text.startswith('cert'):
                need_yes(names, sheets, text)
            return names, sheets


def print_case(name, pick, models):
    words = ['c%s.csv' % letter for letter in 'abcdefghij'[:len(models)]]
    print('case %s\nwords --budget %d --pick %s --names names.csv %s\nfile names.csv' % (name, BUDGET, pick, ' '.join(words)))
    for word, (names, _) in zip(words, models):
        print('\n'.join(lines(names[1].replace(b'plan,', word[:-4].encode() + b','))))
    for word, (_, sheets) in zip(words, models):
        print('\n'.join(['file ' + word] + lines(sheets[0][1])))
    print('script')
    for word in words:
        print('|cert,' + word[:-4])
    print()


def main(count=60, seed=1):
    draw, count = random.Random(int(seed)), int(count)
    for start in range(0, count, SHEETS):
        pick = PICKERS[start // SHEETS % 3]
        models = [model(draw, pick) for _ in range(min(SHEETS, count - start))]
        print_case('certificates of random models, %d to %d' % (start + 1, start + len(models)), pick, models)


if __name__ == '__main__':
    main(*sys.argv[1:])
