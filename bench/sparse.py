#!/usr/bin/env python3
"""How many units a second a search makes of models whose rows are nearly empty: an opening of a node or a pivot is a unit.

    python3 bench/sparse.py PROGRAM [EARLIER]

Four models of 0-or-1 cells are searched within a budget that they reach. The units a second are those of the run without the time of
one that only reads the files, the best of three. Where an earlier program is given, it is run in turns with the other one, and
the ratio is printed.
"""
import os
import subprocess
import sys
import tempfile
import time

UNITS = 2000
RUNS = 3
LESS, SAME, MORE, BINARY = 1, 2, 3, 5


def draws(x):
    """Small whole numbers that look like drawn ones and are the same in each run."""
    while True:
        x = (1103515245 * x + 12345) % 2**31
        yield x // 65536


def packing():
    """16 items go into up to 8 bins, as few as can be."""
    items, bins, draw = 16, 8, draws(3)
    sizes = [20 + next(draw) % 41 for _ in range(items)]
    put = lambda item, bin: item * bins + bin
    rows = [({put(item, bin): 1 for bin in range(bins)}, SAME, 1) for item in range(items)]
    for bin in range(bins):
        rows.append(({**{put(item, bin): sizes[item] for item in range(items)}, items * bins + bin: -100}, LESS, 0))
    return items * bins + bins, items * bins + bins, {items * bins + bin: 1 for bin in range(bins)}, rows


def tour():
    """The shortest tour of 10 cities: each is left and reached once, and all but the first are numbered along the way."""
    cities, draw = 10, draws(5)
    places = [(next(draw) % 100, next(draw) % 100) for _ in range(cities)]
    ways = [(a, b) for a in range(cities) for b in range(cities) if a != b]
    far = lambda a, b: abs(places[a][0] - places[b][0]) + abs(places[a][1] - places[b][1])
    rows = [({k: 1 for k, way in enumerate(ways) if way[end] == city}, SAME, 1) for end in (0, 1) for city in range(cities)]
    for k, (a, b) in enumerate(ways):
        if a and b:
            rows.append(({len(ways) + a - 1: 1, len(ways) + b - 1: -1, k: cities}, LESS, cities - 1))
    return len(ways) + cities - 1, len(ways), {k: far(*way) for k, way in enumerate(ways)}, rows


def roster():
    """40 people work on up to 3 of 6 days, and each day has people enough."""
    people, days, draw = 40, 6, draws(7)
    rows = [({person * days + day: 1 for person in range(people)}, MORE, 12 + next(draw) % 6) for day in range(days)]
    rows += [({person * days + day: 1 for day in range(days)}, LESS, 3) for person in range(people)]
    rows += [({person * days + day: 1, person * days + day + 1: 1, person * days + day + 2: 1}, LESS, 2)
             for person in range(people) for day in (0, 2)]
    return people * days, people * days, {k: 3 + next(draw) % 17 for k in range(people * days)}, rows


def cover():
    """Some of 80 sets have all of 60 elements."""
    sets, elements, draw = 80, 60, draws(9)
    has = [{next(draw) % sets for _ in range(5)} for _ in range(elements)]
    return sets, sets, {k: 5 + next(draw) % 20 for k in range(sets)}, [({k: 1 for k in ks}, MORE, 1) for ks in has]


def formula(terms):
    return '=' + '+'.join('%d*A%d' % (number, cell + 1) for cell, number in sorted(terms.items())).replace('+-', '-')


def write(folder, name, model):
    """The sheet of a model that is to be made least, and its names."""
    cells, binary, objective, rows = model
    rows = sorted(rows, key=lambda row: row[1])
    lines = []
    for k in range(max(cells, len(rows))):
        fields = ['0' if k < cells else '']
        fields += [formula(rows[k][0]), str(rows[k][2])] if k < len(rows) else ['', '']
        lines.append(','.join(fields + ([formula(objective)] if k == 0 else [])))
    names, first = [('adj', 'A1:A%d' % cells), ('opt', 'D1'), ('typ', '2')], 0
    groups = [(relation, [k for k, row in enumerate(rows) if row[1] == relation]) for relation in (LESS, SAME, MORE)]
    groups = [(relation, ks) for relation, ks in groups if ks]
    for number, (relation, ks) in enumerate(groups, 1):
        names += [('lhs%d' % number, 'B%d:B%d' % (ks[0] + 1, ks[-1] + 1)), ('rel%d' % number, str(relation)),
                  ('rhs%d' % number, 'C%d:C%d' % (ks[0] + 1, ks[-1] + 1))]
    last = len(groups) + 1
    names += [('lhs%d' % last, 'A1:A%d' % binary), ('rel%d' % last, str(BINARY)), ('num', str(last))]
    with open(os.path.join(folder, name + '.csv'), 'w') as file:
        file.write('\n'.join(lines) + '\n')
    with open(os.path.join(folder, name + '.names.csv'), 'w') as file:
        file.write(''.join('%s,solver_%s,%s\n' % (name, word, text) for word, text in names))


def timed(program, folder, name, script):
    words = [program, '--names', name + '.names.csv', '--budget', str(UNITS), '--pick', 'best', name + '.csv']
    start = time.monotonic()
    done = subprocess.run(words, input=script, cwd=folder, stdout=subprocess.PIPE, text=True)
    return time.monotonic() - start, done.stdout.strip()


def main():
    programs = [os.path.abspath(word) for word in sys.argv[1:]]
    models = [('packing', packing), ('tour', tour), ('roster', roster), ('cover', cover)]
    with tempfile.TemporaryDirectory() as folder:
        for name, make in models:
            write(folder, name, make())
            best = {}
            for _ in range(RUNS):
                for program in programs:
                    idle, _none = timed(program, folder, name, '')
                    spent, said = timed(program, folder, name, 'solve,%s\n' % name)
                    best[program] = min(best.get(program, (1e9, '')), (max(spent - idle, 1e-6), said))
            told = ['%.0f units a second (%s)' % (UNITS / best[p][0], best[p][1]) for p in programs]
            if len(programs) == 2:
                told.append('%.1f times as many' % (best[programs[1]][0] / best[programs[0]][0]))
            print(name + ': ' + ', '.join(told), flush=True)


if __name__ == '__main__':
    main()
