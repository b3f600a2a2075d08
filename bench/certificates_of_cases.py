#!/usr/bin/env python3
"""Certificates of all that the cases of crates/answers solve, checked.

    certificates_of_cases.py OPENSOLVER OPTCHECK CASES

Runs the script of each case up to each of its solves, with `save` and `cert` in the place of the solve, and lets optcheck read the files that
are saved and the certificate that is printed. Cases with failing calls, damaged files or words of another form are left out, and a solve after
which more than LIMIT seconds pass. Tells how many certificates were said yes to, and each other outcome with how often it came; ends with 1
where a certificate gets a no, or claims something else than the solve answers.
"""
import collections
import os
import subprocess
import sys
import tempfile

from second_reading import rows
from second_reading.cases import NEVER, Reader
from second_reading.run import Words

LIMIT = 60


def records_of(script):
    """The records of a script as texts, in which each byte is a character."""
    return rows.read(rows.text_of(script))


def ran(program, words, folder, script=b''):
    """What a program prints, or nothing where it takes too long."""
    try:
        return subprocess.run([program] + words, cwd=folder, input=script, stdout=subprocess.PIPE, timeout=LIMIT).stdout
    except subprocess.TimeoutExpired:
        return None


def last_answer(printed):
    """The lines of the last answer, a certificate or a refusal."""
    lines = printed.decode('latin-1').split('\n')[:-1]
    starts = [place for place, line in enumerate(lines) if line.startswith(('cert ', 'refused '))]
    return lines[starts[-1]:] if starts else []


def claimed(answer):
    """What a solve's answer says, as the first line of a certificate does."""
    return 'cert ' + answer if answer.split(' ')[0] in ('optimal', 'infeasible', 'unbounded') else answer


def script_of(records):
    return rows.write(records).encode('latin-1')


def put(files, folder):
    for name, data in files:
        with open(os.path.join(folder, name), 'wb') as file:
            file.write(bytes(data))


class Checked:
    """Runs the cases, and counts what comes of them."""

    def __init__(self, opensolver, optcheck):
        self.opensolver, self.optcheck = opensolver, optcheck
        self.found, self.wrong = collections.Counter(), []

    def case(self, case):
        words = [word.encode('utf-8').decode('latin-1') for word in case.words]
        read = Words(iter(words))
        if case.damage or case.fails != [NEVER] * 3 or not read.is_right or any('/' in name for name, _ in case.files):
            return
        try:
            records = records_of(bytes(case.script))
        except rows.NotText:
            return
        for place, record in enumerate(records):
            if len(record) == 2 and record[0] == 'solve':
                self.solve(case, read, records[:place], record[1])

    def solve(self, case, read, before, sheet):
        with tempfile.TemporaryDirectory() as folder:
            put(case.files, folder)
            solved = ran(self.opensolver, case.words, folder, script_of(before + [['solve', sheet]]))
            put(case.files, folder)
            printed = ran(self.opensolver, case.words, folder, script_of(before + [['save'], ['cert', sheet]]))
            if not solved or not printed:
                self.found['no answer in time, or none'] += 1
                return
            answer, text = solved.decode('latin-1').split('\n')[-2], last_answer(printed)
            if answer.split(' ')[0] in ('bad-input', 'limit', 'usage:'):
                return
            if not text or claimed(answer) != text[0]:
                self.found['another answer: %s' % (text[0].split(' ')[:2] if text else '')] += 1
                if not answer.startswith('refused no-room') and not (text and text[0].startswith('refused cert-limit')):
                    self.wrong.append((case.name, answer, text[:1]))
                return
            if text[0].startswith('refused'):
                self.found[' '.join(text[0].split(' ')[:2])] += 1
                return
            with open(os.path.join(folder, 'a certificate'), 'wb') as file:
                file.write(('\n'.join(text) + '\n').encode('latin-1'))
            first = [word for word in read.files if word[:-4].lower() == sheet.lower()]
            others = [word for word in read.files if word not in first]
            said = ran(self.optcheck, ['--names', read.options['names'], '--cert', 'a certificate'] + first + others, folder)
            said = said.decode('latin-1').strip() if said is not None else 'no answer in time'
            self.found[said.split(' ')[0]] += 1
            if not said.startswith(('yes', 'wide')):
                self.wrong.append((case.name, answer, said))


def main(opensolver, optcheck, cases):
    checked = Checked(os.path.abspath(opensolver), os.path.abspath(optcheck))
    reader = Reader(checked.case)
    with open(cases, encoding='utf-8') as file:
        for line in file.read().split('\n'):
            reader.take(line)
    reader.end()
    for said, count in sorted(checked.found.items(), key=lambda it: -it[1]):
        print('%5d  %s' % (count, said))
    for it in checked.wrong:
        print('otherwise:', *it)
    sys.exit(1 if checked.wrong else 0)


if __name__ == '__main__':
    if len(sys.argv) != 4:
        sys.exit(__doc__)
    main(*sys.argv[1:])
