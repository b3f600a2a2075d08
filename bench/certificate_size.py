#!/usr/bin/env python3
"""Tells the processor's seconds for a certificate of nearly 100,000 numbers, beside a solve of the same sheet.

usage: certificate_size.py OPENSOLVER [OPTCHECK]

Nine rings of five whole cells, of which two neighbours are at most 1 together, make a tree of 512 leaves: the first cell of each ring splits
it. Beside them stand 140 cells with a row each, so that the program of a leaf has some 190 rows, and most have a multiplier. The leaves with
their rows weigh a little less than 100,000, which is the most that a certificate may. A `cert` makes the search of a `solve`, then the run of
each leaf once more, and the text: what it takes above the solve is told, from one run of each, and the script fails where that is more than a
second and more than two thirds of the solve. Where OPTCHECK is given, it checks the certificate.
"""
import os
import random
import re
import sys
import tempfile

import checks
from checks import seconds, write

RINGS, SINGLES = 9, 140


def letters(number):
    """A column's letters, from 1."""
    text = ''
    while number:
        number, letter = divmod(number - 1, 26)
        text = chr(65 + letter) + text
    return text


def sheet():
    """The decision cells in row 1, the objective in row 2, and each other row with its limit behind it."""
    draw, count = random.Random(1), 5 * RINGS + SINGLES
    cell = [letters(place + 1) + '1' for place in range(count)]
    weights = [1] * (5 * RINGS) + [draw.randint(1, 99) for _ in range(SINGLES)]
    lines = [','.join(['0'] * count), '=' + '+'.join('%d*%s' % pair for pair in zip(weights, cell))]
    for ring in range(0, 5 * RINGS, 5):
        lines += ['=%s+%s,1' % (cell[ring + place], cell[ring + (place + 1) % 5]) for place in range(5)]
    lines += ['=%d*%s,%d' % (draw.randint(2, 99), single, draw.randint(1, 99)) for single in cell[5 * RINGS:]]
    return '\n'.join(lines) + '\n', cell


def names(cell, height):
    pairs = [('adj', 'A1:' + cell[-1]), ('opt', 'A2'), ('num', '2'), ('lhs1', 'A3:A%d' % height), ('rel1', '1'), ('rhs1', 'B3:B%d' % height),
             ('lhs2', 'A1:' + cell[5 * RINGS - 1]), ('rel2', '4')]
    return ''.join('plan,solver_%s,%s\n' % pair for pair in pairs)


def main():
    programs = list(map(os.path.abspath, sys.argv[1:]))
    if len(programs) not in (1, 2):
        sys.exit(__doc__)
    checks.TIMES = 1
    text, cell = sheet()
    with tempfile.TemporaryDirectory() as folder:
        write(folder, 'plan.csv', text)
        write(folder, 'names.csv', names(cell, text.count('\n')))
        words = [programs[0], '--names', 'names.csv', '--budget', '1000000', 'plan.csv']
        _, alone = seconds(words, folder, b'model,plan\n')
        found, solve = seconds(words, folder, b'solve,plan\n')
        made, cert = seconds(words, folder, b'cert,plan\n')
        leaves = len(re.findall('^(?:best|empty)', made, re.MULTILINE))
        print('%s in %.2f s, of which %.2f s are the model' % (found, solve, alone))
        print('a certificate of %d leaves, %d numbers and %d bytes in %.2f s: %.2f s more' % (
            leaves, len(re.findall(':', made)), len(made) + 1, cert, cert - solve))
        if made.split('\n')[0] != 'cert ' + found or cert - solve > max(1, solve * 2 / 3):
            sys.exit('that is no certificate of the answer, or it took too long')
        if len(programs) == 2:
            write(folder, 'cert.txt', made + '\n')
            said, check = seconds([programs[1], '--names', 'names.csv', '--cert', 'cert.txt', 'plan.csv'], folder)
            print('checked: %s in %.2f s' % (said, check))
            if said != 'yes ' + found:
                sys.exit('that is not a yes')


if __name__ == '__main__':
    main()
