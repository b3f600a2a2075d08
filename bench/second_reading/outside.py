"""The folder, the script and the printer of a run, of which calls fail, each counted from 0. A failed call changes nothing."""


class Failed(Exception):
    """A call failed; the run ends with this status."""

    def __init__(self, status):
        super().__init__(status)
        self.status = status


class Calls:
    """Counts the calls, and raises at those that fail."""

    def __init__(self, fails):
        self.fails, self.count = set(fails), 0

    def make(self, status):
        self.count += 1
        if self.count - 1 in self.fails:
            raise Failed(status)


class Folder(Calls):
    """Bytes by name; a run's words are texts of bytes, as all its texts are."""

    def __init__(self, files, fails=()):
        super().__init__(fails)
        self.files = dict(files)

    def read(self, name):
        self.make(3)
        return self.files.get(named(name))

    def write(self, name, data):
        self.make(4)
        self.files[named(name)] = data


def named(word):
    return word.encode('latin-1').decode('utf-8')


class Script(Calls):
    """The script's bytes: a call for each piece of so many bytes, and one more that finds none left."""

    PIECE = 4096

    def __init__(self, data, fails=()):
        super().__init__(fails)
        self.data = data

    def read(self, most):
        for place in range(0, len(self.data) + self.PIECE, self.PIECE):
            self.make(3)
            if place > most:
                break
        return self.data


class Printer(Calls):
    """What was printed, piece by piece."""

    def __init__(self, fails=()):
        super().__init__(fails)
        self.data = b''

    def write(self, data):
        self.make(4)
        self.data += data
