"""A whole run: what it prints, its status, and the files that it writes."""
import re
import sys

from . import made_up, rows
from .book import Stop, opened, stem_of
from .outside import Failed, Folder, Printer, Script
from .session import Session

sys.setrecursionlimit(100000)
USAGE = 'usage: opensolver --names FILE [--budget N] [--pick depth|best|oldest] FILE...'
MOST_BYTES, MOST_SHEETS, BUDGET = 16 * 1024 * 1024, 32, 100000


def whole_number(text, most):
    """A whole number in digits from 1 to `most`, or None."""
    digits = text.lstrip('0')
    if not re.match(r'[0-9]+\Z', text) or not 0 < len(digits) < 8 or int(digits) > most:
        return None
    return int(digits)


class Words:
    """The command line's words, where they are of their form; `is_right` says so."""

    def __init__(self, words):
        self.options, self.files, self.is_taken = {}, [], True
        words = list(words)
        while words:
            self.take(words)
        self.budget = whole_number(self.options.get('budget', str(BUDGET)), 10 ** 6)
        self.gen = whole_number(self.options['gen'], 12) if 'gen' in self.options else None
        self.pick = self.options.get('pick', 'depth')
        self.is_right = self.is_taken and (self.is_generator() if 'gen' in self.options else self.is_solver())

    def is_generator(self):
        return len(self.options) == 1 and not self.files and self.gen is not None

    def is_solver(self):
        is_named = 'names' in self.options and self.files and self.budget is not None
        return bool(is_named and self.pick in ('depth', 'best', 'oldest') and all(map(is_sheet_word, self.files)))

    def take(self, words):
        word = words.pop(0)
        if word == '--':
            self.files += words
            words.clear()
        elif word.startswith('--'):
            name, sign, value = word[2:].partition('=')
            if not sign:
                value = words.pop(0) if words and not (words[0].startswith('-') and len(words[0]) > 1) else None
            if name not in ('names', 'budget', 'pick', 'gen') or name in self.options or value is None:
                self.is_taken = False
            self.options[name] = value or ''
        elif word.startswith('-') and len(word) > 1:
            self.is_taken = False
        else:
            self.files.append(word)


def is_sheet_word(word):
    return word.endswith('.csv') and bool(stem_of(word))


def run(words, folder, script, printer):
    """The status of a run over a folder, a script and a printer."""
    read = Words(word.encode('utf-8').decode('latin-1') for word in words)
    try:
        if not read.is_right:
            return told(printer, USAGE, 2)
        if read.gen is not None:
            answer = 'gen %d %s' % (read.gen, made_up.session(read.gen, BUDGET).answer(['solve', 'gen']))
            return told(printer, answer, 1 if ' refused ' in answer else 0)
        session, records = begun(read, folder, script)
        return answered(session, records, folder, printer)
    except Stop as stop:
        try:
            return told(printer, stop.line, stop.status)
        except Failed as failed:
            return failed.status
    except Failed as failed:
        return failed.status


def told(printer, text, status):
    printer.write(line(text))
    return status


def answered(session, records, folder, printer):
    status = 0
    for record in records:
        answer = session.answer(record)
        status = 1 if answer.startswith('refused ') else status
        for word, data in session.written.items():
            folder.write(word, data)
        session.written = {}
        printer.write(line(answer))
    return status


def begun(read, folder, script):
    if len(read.files) > MOST_SHEETS:
        raise Stop(6, 'limit sheets %d' % MOST_SHEETS)
    found = []
    for word in [read.options['names']] + read.files:
        data = folder.read(word)
        if data is None:
            raise Stop(7, 'bad-input %s missing' % word)
        if len(data) > MOST_BYTES:
            raise Stop(6, 'limit file %d' % MOST_BYTES)
        found.append((word, data))
    book = opened(found[0], found[1:])
    data = script.read(MOST_BYTES)
    if len(data) > MOST_BYTES:
        raise Stop(6, 'limit script %d' % MOST_BYTES)
    try:
        records = rows.read(rows.text_of(data))
    except rows.NotText as fault:
        raise Stop(7, 'bad-input script not-utf8 %d' % fault.place) from fault
    return Session(book, read.files, read.options['names'], read.budget, read.pick), records


def line(text):
    return (text + '\n').encode('latin-1')


def outcome(words, files, script):
    """What a run prints where no call fails, its status, and the files behind it."""
    folder, printer = Folder(files), Printer()
    status = run(words, folder, Script(script), printer)
    return printer.data, status, folder.files


def main():
    """Prints what the program has to print by these words over files of the working folder; saves nothing."""
    words, files = sys.argv[1:], {}
    for word in words:
        try:
            with open(word, 'rb') as file:
                files[word] = file.read()
        except OSError:
            pass
    printed, status, _ = outcome(words, files, sys.stdin.buffer.read())
    sys.stdout.buffer.write(printed)
    return status


if __name__ == '__main__':
    sys.exit(main())
