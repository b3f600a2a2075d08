#!/usr/bin/env python3
"""Runs in which one request for memory is refused, and runs in which all from one on are.

    python3 bench/refused_memory.py PROGRAM [--step N] [--only NAME]

PROGRAM is a native one that takes its memory by the malloc and realloc of a shared C library. Each run below is made once with ample
memory, which tells how many requests it makes, and then twice for each of their numbers (each Nth one, with --step N): with that
request refused, and with that one and all behind it refused. Such a run must be the same as the one with ample memory, or end with
status 5, having printed the answers of the first records, each whole; its files then are those behind these records, or the next record
is a save and some of the first files that it saves are written, of which the last one may hold anything. Ends with 1 where a run does
anything else.
"""
import argparse
import os
import re
import subprocess
import sys
import tempfile
from collections import Counter

PLAN = 'x,y\n0,0\n3,2,=SUMPRODUCT(A2:B2;A3:B3)\n1,1,=SUMPRODUCT(A2:B2;A4:B4),4\n1,3,=SUMPRODUCT(A2:B2;A5:B5),6\n'
WHOLE_PLAN = 'x,y\n0,0\n5,4,=SUMPRODUCT(A2:B2;A3:B3)\n6,4,=SUMPRODUCT(A2:B2;A4:B4),24\n1,2,=SUMPRODUCT(A2:B2;A5:B5),6\n'
NAMES = {
    'adj': '$A$2:$B$2', 'opt': '$C$3', 'typ': '1', 'num': '1', 'lhs1': '$C$4:$C$5', 'rel1': '1', 'rhs1': '$D$4:$D$5',
}
WHOLE_NAMES = {**NAMES, 'num': '2', 'lhs2': '$A$2:$B$2', 'rel2': '4', 'rhs2': 'integer'}
BAKERY = '''Item,Bread,Cake,Used,Available
Batches,0,0,,
Profit,2.5,4,"=SUMPRODUCT(B2:C2,B3:C3)",
Flour,2,3,=SUMPRODUCT($B$2:$C$2;B4:C4),=data!B1
Oven,1,2,=SUMPRODUCT($B$2:$C$2;B5:C5),=data!B2
'''
BAKERY_NAMES = {
    'adj': '=plan!$B$2:$C$2', 'opt': '=plan!$D$3', 'typ': '=1', 'num': '=2', 'lhs1': '=plan!$D$4:$D$5', 'rel1': '=1',
    'rhs1': '=plan!$E$4:$E$5', 'lhs2': '=plan!$B$2:$C$2', 'rel2': '=4', 'rhs2': 'integer', 'tol': '=0.01',
}

ORDER = '0,0,0\n=3*A1+2*B1+C1\n'
ORDER_NAMES = {
    'adj': '$A$1:$C$1', 'opt': '$A$2', 'typ': '2', 'num': '1', 'lhs1': '$A$1:$C$1', 'rel1': '6', 'rhs1': 'AllDifferent',
}


def names_of(parts):
    return ''.join('plan,solver_%s,%s\n' % part for part in parts.items())


RUNS = {
    'an edit between two solves': (['plan.csv'], {'names.csv': names_of(NAMES), 'plan.csv': PLAN},
                                   ['solve,plan', 'set,plan!A3,1', 'solve,plan', 'show,plan!A2', 'show,plan!B2']),
    'slices with edits between them': (
        ['plan.csv', 'data.csv'], {'names.csv': names_of(WHOLE_NAMES), 'plan.csv': WHOLE_PLAN, 'data.csv': '1\n'},
        ['begin,plan', 'slice,plan,1', 'set,plan!A1,label', 'slice,plan,1', 'set,plan!D4,25', 'slice,plan,1', 'slice,data,1',
         'slice,plan,1000', 'stop,plan']),
    'an ordinary workbook': (
        ['plan.csv', 'data.csv'], {'names.csv': names_of(BAKERY_NAMES), 'plan.csv': BAKERY, 'data.csv': 'flour,24\noven hours,14.5\n'},
        ['solve,plan']),
    'a save of two sheets and the names': (
        ['plan.csv', 'data.csv'], {'names.csv': names_of(NAMES), 'plan.csv': PLAN, 'data.csv': '"a ""b""",=plan!C3\n'},
        ['solve,plan', 'set,data!A2,"x,y"', 'name,plan,solver_typ,2', 'save', 'model,plan', 'unname,plan,solver_opt', 'save']),
    'prices before and after an edit': (['plan.csv'], {'names.csv': names_of(NAMES), 'plan.csv': PLAN},
                                        ['prices,plan', 'set,plan!D4,5', 'prices,plan', 'model,plan']),
    'an order of three jobs': (['plan.csv'], {'names.csv': names_of(ORDER_NAMES), 'plan.csv': ORDER},
                               ['solve,plan', 'begin,plan', 'slice,plan,2', 'slice,plan,1000', 'save']),
}


class Tries:
    """The tries of one run of a program. `ends` are what stands with ample memory behind each of the first records."""

    def __init__(self, program, library, run):
        words, files, self.script = run
        self.files = {name: text.encode() for name, text in files.items()}
        self.command = [program, '--names', 'names.csv'] + words
        self.written = words + ['names.csv']
        self.library, self.count = library, 0
        self.ends = [self.made({}, count) for count in range(len(self.script) + 1)]

    def made(self, settings, records=None):
        """What is printed, the status and the files behind it."""
        with tempfile.TemporaryDirectory(dir='/dev/shm' if os.path.isdir('/dev/shm') else None) as folder:
            for name, data in self.files.items():
                with open(os.path.join(folder, name), 'wb') as file:
                    file.write(data)
            counted = folder + '.count'
            surroundings = {**os.environ, 'LD_PRELOAD': self.library, 'REFUSE_COUNT': counted, **settings}
            script = ''.join(line + '\n' for line in self.script[:records]).encode()
            found = subprocess.run(self.command, cwd=folder, env=surroundings, input=script, capture_output=True, timeout=60)
            self.count = int(read(counted))
            os.unlink(counted)
            return found.stdout, found.returncode, {name: read(os.path.join(folder, name)) for name in os.listdir(folder)}

    def kind(self, found):
        """What kind of end a run with refused memory has."""
        printed, status, files = found
        if found == self.ends[-1]:
            return 'the same'
        place = next((place for place, end in enumerate(self.ends) if end[0] == printed), None)
        if status != 5 or place is None:
            return 'wrong: status %d, printed %r' % (status, printed)
        before, after = self.ends[place][2], self.ends[min(place + 1, len(self.script))][2]
        if files == before:
            return 'status 5'
        return self.kind_of_save(files, before, after)

    def kind_of_save(self, files, before, after):
        """The same of a run whose files aren't those behind the last record that was answered: the next one is a save, begun."""
        signs = ''
        for name in self.written:
            if before[name] != after[name]:
                signs += 'n' if files[name] == after[name] else ('o' if files[name] == before[name] else '?')
        is_save = set(files) == set(before) and all(files[name] == before[name] for name in files if before[name] == after[name])
        if not is_save or not re.fullmatch('n*[?]?o*', signs):
            return 'wrong: files %s' % sorted(files)
        return 'status 5 within a save' + (', one file half written' if '?' in signs else '')


def read(path):
    with open(path, 'rb') as file:
        return file.read()


def main():
    parser = argparse.ArgumentParser()
    parser.add_argument('program')
    parser.add_argument('--step', type=int, default=1)
    parser.add_argument('--only', default='', help='the runs whose names begin so')
    options = parser.parse_args()
    is_wrong = False
    with tempfile.TemporaryDirectory() as folder:
        library = os.path.join(folder, 'refused_memory.so')
        source = os.path.join(os.path.dirname(os.path.abspath(__file__)), 'refused_memory.c')
        subprocess.run(['cc', '-shared', '-fPIC', '-O1', '-o', library, source, '-ldl'], check=True)
        for name, run in RUNS.items():
            if not name.startswith(options.only):
                continue
            tries = Tries(os.path.abspath(options.program), library, run)
            count = tries.count    # of the run that was made last, with all records
            print('%s: %d requests, status %d' % (name, count, tries.ends[-1][1]))
            for setting in ('REFUSE', 'REFUSE_FROM'):
                kinds = Counter(tries.kind(tries.made({setting: str(number)})) for number in range(0, count, options.step))
                is_wrong |= any(kind.startswith('wrong') for kind in kinds)
                print('  %s: %s' % ('one refused' if setting == 'REFUSE' else 'all from one on refused',
                                    ', '.join('%d %s' % (total, kind) for kind, total in sorted(kinds.items()))), flush=True)
    return 1 if is_wrong else 0


if __name__ == '__main__':
    sys.exit(main())
