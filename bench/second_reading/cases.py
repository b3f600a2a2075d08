"""Cases of runs: reads them, line by line, and prints what must come of each.

    python3 -m second_reading.cases < CASES > ANSWERS

The lines are those of crates/answers/stdin, as the head of crates/answers/src/main.rt tells them.
"""
import re
import sys

from .outside import Folder, Printer, Script
from .run import run

NEVER = 10 ** 9
BYTES = (0, 10, 13, 34, 44, 61, 128, 255)


class Case:
    """A run: its words, its files and its script, and the calls that fail; or many runs, of damaged files and scripts."""

    def __init__(self, name):
        self.name, self.words, self.files, self.script, self.fails = name, [], [], bytearray(), [NEVER] * 3
        self.damage = None


class Reader:
    """Reads lines, and prints a case where it ends."""

    def __init__(self, answer):
        self.answer, self.shared, self.case, self.part, self.files = answer, {}, None, None, []

    def end(self):
        if self.case:
            self.answer(self.case)
        self.case = None

    def take(self, line):
        if not line or line.startswith('#'):
            return
        if line[0] in '|>':
            self.part.extend((line[1:] + '\n').encode() if line[0] == '|' else spelled(line[1:]))
            return
        word, _, rest = line.partition(' ')
        getattr(self, 'on_' + word)(rest)

    def on_case(self, name):
        self.end()
        self.case, self.part = Case(name), None
        self.files = self.case.files

    def on_shared(self, name):
        self.end()
        self.files = self.shared[name] = []

    def on_words(self, rest):
        parts = rest.split("'")
        self.case.words = [word for place, part in enumerate(parts) for word in ([part] if place % 2 else part.split())]

    def on_with(self, name):
        self.files += [(name, bytearray(data)) for name, data in self.shared[name]]

    def on_fails(self, rest):
        self.case.fails = list(map(int, rest.split()))

    def on_damage(self, kind):
        self.case.damage = kind

    def on_file(self, name):
        self.part = bytearray()
        self.files.append((name, self.part))

    def on_script(self, _):
        self.part = self.case.script

    def on_times(self, rest):
        count, _, text = rest.partition(' ')
        self.part.extend(spelled(text) * int(count))

    def on_numbered(self, rest):
        count, _, text = rest.partition(' ')
        for number in range(int(count)):
            self.part.extend(spelled(text.replace('#', str(number), 1)))


def spelled(text):
    """The bytes that a text spells."""
    def byte(found):
        return {'n': b'\n', 'r': b'\r'}.get(found[1].decode()) or bytes.fromhex(found[1][1:].decode())
    return re.sub(rb'\\(n|r|x[0-9a-f]{2})', byte, text.encode())


def lines(data):
    """Bytes in lines, each as it is or spelled."""
    found = []
    for line in re.findall(b'[^\n]*\n|[^\n]+', data):
        try:
            text = line.decode()
        except UnicodeDecodeError:
            text = ''
        if text.endswith('\n') and '\r' not in text:
            found.append('|' + text[:-1])
        else:
            found.append('>' + ''.join(map(spelling, line)))
    return found


def spelling(byte):
    if byte in (10, 13):
        return '\\n' if byte == 10 else '\\r'
    return chr(byte) if 32 <= byte < 127 and byte != 92 else '\\x%02x' % byte


def answer_of(case):
    """The lines that must come of a case."""
    if case.damage:
        return answers_of_damage(case)
    files = {name: bytes(data) for name, data in case.files}
    folder, printer = Folder(files, case.fails[:1]), Printer(case.fails[2:])
    status = run(case.words, folder, Script(bytes(case.script), case.fails[1:2]), printer)
    found = ['case ' + case.name] + lines(printer.data) + ['status %d' % status]
    for name, data in files.items():
        if folder.files[name] != data:
            found += ['file ' + name] + lines(folder.files[name])
    return found


def damaged(data, kind):
    """Each place of bytes, with the bytes damaged there."""
    for place in range(len(data)):
        if kind == 'cuts':
            yield place, data[:place]
        else:
            for byte in BYTES:
                yield place, data[:place] + bytes([byte]) + data[place + 1:]


def answers_of_damage(case):
    """The lines that must come of a case of many runs."""
    kinds = {}
    files, script = {name: bytes(data) for name, data in case.files}, bytes(case.script)
    for name, data in list(files.items()) + [('script', script)]:
        for place, other in damaged(data, case.damage):
            before = {**files, name: other} if name in files else files
            folder, printer = Folder(before), Printer()
            status = run(case.words, folder, Script(script if name in files else other), printer)
            changed = [file for file in before if folder.files[file] != before[file]]
            kind = kinds.setdefault((status, printer.data, tuple(changed)), [0, '%s %d' % (name, place), {}])
            kind[0] += 1
            for file in changed:
                kind[2][file] = digest(kind[2].get(file, 0), folder.files[file])
    found = ['case ' + case.name]
    for (status, printed, _), (count, first, sums) in kinds.items():
        found.append('%d runs, first %s' % (count, first))
        found += ['changed %s %016x' % pair for pair in sums.items()]
        found += ['status %d' % status, '>' + ''.join(map(spelling, printed))]
    return found


def digest(before, data):
    """A digest that goes on over bytes, and over the end of them."""
    for byte in data:
        before = (before * 1099511628211 + byte + 1) % 2 ** 64
    return before * 1099511628211 % 2 ** 64


def main():
    reader = Reader(lambda case: print('\n'.join(answer_of(case)), flush=True))
    for line in sys.stdin.read().split('\n'):
        reader.take(line)
    reader.end()


if __name__ == '__main__':
    main()
