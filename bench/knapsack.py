#!/usr/bin/env python3
"""How long a unit of a search takes: an opening of a node or a pivot.

    python3 bench/knapsack.py PROGRAM

A knapsack of 30 binary cells is solved within 1,000, 2,000 and 4,000 units; what is printed is the answer, the seconds of the
whole run and the milliseconds a unit.
"""
import os
import subprocess
import sys
import tempfile
import time

CELLS = 30


def columns(n):
    return 'A' + chr(ord('A') + n - 27) if n > 26 else chr(ord('A') + n - 1)


def write(folder):
    """A sheet with the cells to be decided, their values and their weights, and its names."""
    draw, values, weights = 7, [], []
    for _ in range(CELLS):
        draw = (1103515245 * draw + 12345) % 2**31
        weights.append(20 + draw // 65536 % 81)
        draw = (1103515245 * draw + 12345) % 2**31
        values.append(weights[-1] + draw // 65536 % 15)
    last = columns(CELLS)
    rows = [
        ','.join(['0'] * CELLS),
        ','.join(map(str, values)),
        ','.join(map(str, weights)),
        '=SUMPRODUCT(A1:%s1;A2:%s2),=SUMPRODUCT(A1:%s1;A3:%s3),%d' % (last, last, last, last, sum(weights) // 2),
    ]
    names = [
        ('adj', '$A$1:$%s$1' % last), ('opt', '$A$4'), ('typ', '1'), ('num', '2'),
        ('lhs1', '$B$4'), ('rel1', '1'), ('rhs1', '$C$4'), ('lhs2', '$A$1:$%s$1' % last), ('rel2', '5'),
    ]
    with open(os.path.join(folder, 'bag.csv'), 'w') as file:
        file.write('\n'.join(rows) + '\n')
    with open(os.path.join(folder, 'names.csv'), 'w') as file:
        file.write(''.join('bag,solver_%s,%s\n' % name for name in names))


def main():
    program = os.path.abspath(sys.argv[1])
    with tempfile.TemporaryDirectory() as folder:
        write(folder)
        for budget in (1000, 2000, 4000):
            words = [program, '--names', 'names.csv', '--budget', str(budget), '--pick', 'best', 'bag.csv']
            start = time.monotonic()
            done = subprocess.run(words, input=b'solve,bag\n', cwd=folder, capture_output=True)
            spent = time.monotonic() - start
            print('%s: %.2f s, %.2f ms a unit at most' % (done.stdout.decode().strip(), spent, 1000 * spent / budget))


if __name__ == '__main__':
    main()
