#!/usr/bin/env python3
"""How long a unit of a search takes that goes ever deeper.

    python3 bench/deep.py PROGRAM

Two cells are to be whole, with twice their difference 1, and have no bounds: the search goes on without end, and every other node that
it opens lies one part deeper. It is cut after 20,000, 40,000, 80,000 and 160,000 units; what is printed is the answer, the seconds of the
whole run, the least of three, and the microseconds a unit. Where a unit of the last run takes over one and a half times as long as one of
the first, the script fails.
"""
import os
import subprocess
import sys
import tempfile
import time

BUDGETS = (20000, 40000, 80000, 160000)
NAMES = [
    ('adj', '$A$1:$B$1'), ('opt', '$A$1'), ('typ', '1'), ('num', '2'), ('lhs1', '$C$1'), ('rel1', '2'), ('rhs1', '1'),
    ('lhs2', '$A$1:$B$1'), ('rel2', '4'),
]


def write(folder):
    """A sheet with the two cells and their difference, and its names."""
    with open(os.path.join(folder, 'plan.csv'), 'w') as file:
        file.write('0,0,=2*A1-2*B1\n')
    with open(os.path.join(folder, 'names.csv'), 'w') as file:
        file.write(''.join('plan,solver_%s,%s\n' % name for name in NAMES))


def seconds(program, folder, budget):
    """The least of three whole runs, where each gives the wanted answer."""
    words = [program, '--names', 'names.csv', '--budget', str(budget), 'plan.csv']
    spent = []
    for _ in range(3):
        start = time.monotonic()
        done = subprocess.run(words, input=b'solve,plan\n', cwd=folder, capture_output=True)
        spent.append(time.monotonic() - start)
        if done.stdout.decode() != 'refused budget %d\n' % budget:
            sys.exit('budget %d: printed %r' % (budget, done.stdout))
    return min(spent)


def main():
    program, each = os.path.abspath(sys.argv[1]), []
    with tempfile.TemporaryDirectory() as folder:
        write(folder)
        for budget in BUDGETS:
            spent = seconds(program, folder, budget)
            each.append(1e6 * spent / budget)
            print('refused budget %d: %.2f s, %.1f microseconds a unit' % (budget, spent, each[-1]))
    if each[-1] > 1.5 * each[0]:
        sys.exit('a unit takes longer where the search is deeper')


if __name__ == '__main__':
    if len(sys.argv) != 2:
        sys.exit(__doc__)
    main()
