#!/usr/bin/env python3
"""Tells the processor's seconds for the check of certificates of about a thousand leaves over 50 cells and 50 rows.

usage: checks.py OPTCHECK [OPENSOLVER]

`cycles` is ten rings of five whole cells, of which two neighbours are at most 1 together: the greatest sum is 20, and a tree has to split
each ring, so that it has 1,024 leaves. `full rows` has 50 rows without an empty place and a tree of 1,000 leaves, each with a multiplier of
every row. Where OPENSOLVER is given, the first is solved too, which is the search for what is checked.
"""
import os
import random
import resource
import subprocess
import sys
import tempfile

COUNT, RINGS, LEAVES, TIMES = 50, 10, 1000, 5


def sheet(rows, objective):
    """A line of decisions, one of the objective, and one for each row: its numbers, their sum product and its limit."""
    lines = [','.join(['0'] * COUNT)]
    for place, (numbers, limit) in enumerate([(objective, '')] + rows, 2):
        lines.append(','.join(map(str, numbers)) + ',=SUMPRODUCT($A$1:$AX$1;A%d:AX%d),%s' % (place, place, limit))
    return '\n'.join(lines) + '\n'


def names():
    pairs = [('adj', '$A$1:$AX$1'), ('opt', '$AY$2'), ('num', '2'), ('lhs1', '$AY$3:$AY$52'), ('rel1', '1'), ('rhs1', '$AZ$3:$AZ$52'),
             ('lhs2', '$A$1:$AX$1'), ('rel2', '4')]
    return ''.join('plan,solver_%s,%s\n' % pair for pair in pairs)


def cycles():
    """The rows of a ring's neighbours, and the tree that splits the first cell of each ring at 0."""
    rows = []
    for ring in range(0, COUNT, 5):
        for place in range(5):
            pair = {ring + place, ring + (place + 1) % 5}
            rows.append(([int(cell in pair) for cell in range(COUNT)], 1))
    point = ['1' if cell % 5 in (1, 3) else '0' for cell in range(COUNT)]
    return rows, [1] * COUNT, 20, point, split_rings(0, [])


def split_rings(ring, parts):
    """The nodes below: in the lower part the first cell's bound and two rows make up a ring's sum of 2, in the upper part three."""
    if ring == RINGS:
        used = [5 * place + row for place, part in enumerate(parts) for row in ((1, 3, 5) if part else (2, 4))]
        return ['best ' + ' '.join('%d:1' % row for row in used + list(range(COUNT + 1, COUNT + RINGS + 1)))]
    nodes = ['split %d 0' % (5 * ring + 1)]
    return nodes + split_rings(ring + 1, parts + [False]) + split_rings(ring + 1, parts + [True])


def full_rows():
    """Rows that all hold the point as tightly as they can, so that their multipliers bound the objective by its value there."""
    draw = random.Random(1)
    matrix = [[draw.randint(1, 99) for _ in range(COUNT)] for _ in range(COUNT)]
    point = [draw.randint(0, 9) for _ in range(COUNT)]
    multipliers = [draw.randint(1, 9) for _ in range(COUNT)]
    rows = [(row, sum(part * number for part, number in zip(row, point))) for row in matrix]
    objective = [sum(part * row[cell] for part, row in zip(multipliers, matrix)) for cell in range(COUNT)]
    value = sum(part * number for part, number in zip(objective, point))
    leaf = 'best ' + ' '.join('%d:%d' % pair for pair in enumerate(multipliers, 1))
    return rows, objective, value, list(map(str, point)), halved(LEAVES, 1, leaf)


def halved(leaves, cell, leaf):
    """A tree of so many leaves, each the same."""
    if leaves == 1:
        return [leaf]
    half = leaves // 2
    return ['split %d 3' % cell] + halved(half, cell + 1, leaf) + halved(leaves - half, cell + 1, leaf)


def seconds(words, folder, script=b''):
    """What is printed, and the processor's seconds: the middle of some runs."""
    times, printed = [], ''
    for _ in range(TIMES):
        before = spent()
        run = subprocess.run(words, cwd=folder, input=script, stdout=subprocess.PIPE, check=False)
        times.append(spent() - before)
        printed = run.stdout.decode().strip()
    return printed, sorted(times)[TIMES // 2]


def spent():
    """The processor's seconds of all runs that have ended."""
    used = resource.getrusage(resource.RUSAGE_CHILDREN)
    return used.ru_utime + used.ru_stime


def write(folder, name, text):
    with open(os.path.join(folder, name), 'w', encoding='utf-8') as file:
        file.write(text)


def measure(name, made, optcheck, opensolver):
    rows, objective, value, point, nodes = made
    with tempfile.TemporaryDirectory() as folder:
        write(folder, 'names.csv', names())
        write(folder, 'plan.csv', sheet(rows, objective))
        write(folder, 'cert.txt', '\n'.join(['cert optimal %d' % value, 'point ' + ' '.join(point)] + nodes + ['end']) + '\n')
        write(folder, 'none.txt', 'cert infeasible\nempty\nend\n')
        leaves = sum(not node.startswith('split') for node in nodes)
        words = [optcheck, '--names', 'names.csv', 'plan.csv', '--cert']
        printed, took = seconds(words + ['cert.txt'], folder)
        _, alone = seconds(words + ['none.txt'], folder)
        print('%-10s %d leaves: %s in %.3f s, of which %.3f s are the model' % (name, leaves, printed, took, alone))
        if printed != 'yes optimal %d' % value or took >= 1:
            sys.exit('%s: that is not a yes below a second' % name)
        if opensolver:
            words = [opensolver, '--names', 'names.csv', '--budget', '1000000', 'plan.csv']
            found, search = seconds(words, folder, b'solve,plan\n')
            print('%-10s found: %s in %.3f s, %.1f times the check' % (name, found, search, search / took))


def main():
    programs = list(map(os.path.abspath, sys.argv[1:]))
    if len(programs) not in (1, 2):
        sys.exit(__doc__)
    optcheck, opensolver = programs[0], programs[1] if len(programs) == 2 else None
    measure('cycles', cycles(), optcheck, opensolver)
    measure('full rows', full_rows(), optcheck, None)


if __name__ == '__main__':
    main()
