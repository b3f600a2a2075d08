#!/usr/bin/env python3
"""Random runs of the program, beside a second reading of the rules.

    python3 bench/random_runs.py PROGRAM [--from SEED] [--count N] [--seconds S] [--keep FOLDER]

Each seed makes a case: words, files and a script, two in five of them damaged (bytes cut, changed and doubled, files missing, odd words).
The program runs it in a folder of its own; it must end with a status from 0 to 7 within a minute, print nothing to standard error, and
what it prints, its status and the folder behind it must be those of the second reading (bench/second_reading). Each seed at which
something differs is printed with the first difference, and its case is kept in FOLDER, where one is named. Where the second reading
itself takes over a minute, or meets what it can't say, the case counts as not compared: then only the status, the form of the lines and
the names of the files are looked at. Ends with 1 where something differs.
"""
import argparse
import os
import random
import re
import shutil
import signal
import subprocess
import sys
import tempfile
import time
from collections import Counter

from second_reading.damage import damaged
from second_reading.random_books import Case
from second_reading.run import outcome

SECONDS = 60
LINE = re.compile(
    rb'(ok|empty( .*)?|number \S+|text ".*|logical (TRUE|FALSE)|error #\S+|optimal( \S+)?|infeasible|unbounded|begun|more \d+|stopped'
    rb'|saved \d+|gen \d+ .*|usage: .*|limit [a-z]+ \d+|bad-input .*|refused [a-z]+.*|(max|min|reach) .*|none|row .*|cell .*'
    rb'|different .*|(cert|point|ray|split|best|clash)( .*)?|end)')


class Slow(Exception):
    """The second reading takes too long."""


def made(seed):
    source = random.Random(seed)
    case = Case(source).case()
    return damaged(source, case) if source.random() < 0.4 else case


def tried(program, case):
    """What the program prints, its status and the folder behind it; or how it failed."""
    words, files, script = case
    with tempfile.TemporaryDirectory(dir='/dev/shm' if os.path.isdir('/dev/shm') else None) as folder:
        for name, data in files.items():
            path = os.path.join(folder, name)
            os.makedirs(os.path.dirname(path), exist_ok=True)
            with open(path, 'wb') as file:
                file.write(data)
        try:
            found = subprocess.run([program] + words, cwd=folder, input=script, capture_output=True, timeout=SECONDS)
        except subprocess.TimeoutExpired:
            return 'no end within %d seconds' % SECONDS
        if found.returncode not in range(8):
            return 'status %d' % found.returncode
        if found.stderr:
            return 'standard error: %r' % found.stderr[:200]
        return found.stdout, found.returncode, contents(folder)


def contents(folder):
    found = {}
    for path, _, names in os.walk(folder):
        for name in names:
            whole = os.path.join(path, name)
            with open(whole, 'rb') as file:
                found[os.path.relpath(whole, folder)] = file.read()
    return found


def expected(case):
    """What the second reading says, or None."""
    signal.signal(signal.SIGALRM, stop)
    signal.alarm(SECONDS)
    try:
        return outcome(*case)
    except (Slow, RecursionError, MemoryError):
        return None
    finally:
        signal.alarm(0)


def stop(*_):
    raise Slow


def difference(found, want, case):
    """The first difference in words, or None."""
    if isinstance(found, str):
        return found
    if want is None:
        return odd_line(found[0]) or (None if set(found[2]) == set(case[1]) else 'other files')
    if found[1] != want[1] or found[0] != want[0]:
        lines, wanted = found[0].split(b'\n'), want[0].split(b'\n')
        place = next((n for n, pair in enumerate(zip(lines, wanted)) if pair[0] != pair[1]), min(len(lines), len(wanted)))
        return 'line %d: printed %r, expected %r, status %d and %d' % (
            place + 1, b''.join(lines[place:place + 1]), b''.join(wanted[place:place + 1]), found[1], want[1])
    for name in sorted(set(found[2]) | set(want[2])):
        if found[2].get(name) != want[2].get(name):
            return 'file %s: %r, expected %r' % (name, found[2].get(name), want[2].get(name))
    return None


def odd_line(data):
    odd = [line for line in data.split(b'\n')[:-1] if not LINE.fullmatch(line)]
    return 'odd line %r' % odd[0] if odd and b'text "' not in data else None


def keep(folder, seed, case):
    """The case as files, with the words and the script beside them."""
    words, files, script = case
    path = os.path.join(folder, str(seed))
    shutil.rmtree(path, ignore_errors=True)
    for name, data in list(files.items()) + [('words', '\n'.join(words).encode()), ('script', script)]:
        os.makedirs(os.path.dirname(os.path.join(path, name)), exist_ok=True)
        with open(os.path.join(path, name), 'wb') as file:
            file.write(data)


def main():
    parser = argparse.ArgumentParser()
    parser.add_argument('program')
    parser.add_argument('--from', type=int, default=0, dest='first')
    parser.add_argument('--count', type=int, default=1000)
    parser.add_argument('--seconds', type=float, default=10 ** 9)
    parser.add_argument('--keep')
    options = parser.parse_args()
    program, begin, counts, kinds = os.path.abspath(options.program), time.time(), Counter(), Counter()
    for seed in range(options.first, options.first + options.count):
        if time.time() - begin > options.seconds:
            break
        if counts['runs'] % 1000 == 999:
            print('seed %d: %d runs, %d different' % (seed, counts['runs'], counts['different']), flush=True)
        case = made(seed)
        found, want = tried(program, case), expected(case)
        wrong = difference(found, want, case)
        counts['runs'] += 1
        counts['not compared'] += want is None
        counts['different'] += wrong is not None
        if not isinstance(found, str):
            kinds['status %d' % found[1]] += 1
            kinds.update(re.sub(rb'^(refused \S+|\S+).*', rb'\1', line)[:40].decode('latin-1') for line in found[0].split(b'\n')[:-1])
        if wrong:
            print('seed %d: %s' % (seed, wrong), flush=True)
            if options.keep:
                keep(options.keep, seed, case)
    print(', '.join('%d %s' % (counts[name], name) for name in ('runs', 'different', 'not compared')))
    print(', '.join('%s: %d' % pair for pair in sorted(kinds.items())))
    return 1 if counts['different'] else 0


if __name__ == '__main__':
    sys.exit(main())
