"""The tokens of a formula."""
import re
from collections import namedtuple

Token = namedtuple('Token', 'kind text start end')

# A character past ASCII is a letter.
TOKEN = re.compile(r'''
    (?P<blank>[ \t\r\n]+)
  | (?P<number>(?:\d+(?:\.\d*)?|\.\d+)(?:[eE][+-]?\d+)?)
  | (?P<text>"(?:[^"]|"")*")
  | (?P<quoted>\$?'(?:[^']|'')*')
  | (?P<word>(?:[A-Za-z_\x80-\xff]|\$(?!'))(?:[A-Za-z0-9_.\x80-\xff]|\$(?!'))*)
  | (?P<fault>\#DIV/0!|\#VALUE!|\#REF!|\#NUM!|\#N/A)
  | (?P<mark><=|>=|<>|[-+*/^%&=<>()\[\]{};,|:~!.])
''', re.VERBOSE | re.ASCII)
WORD = re.compile(r'[A-Za-z_\x80-\xff][A-Za-z0-9_.\x80-\xff]*\Z', re.ASCII)
ADDRESS = re.compile(r'\$?([A-Za-z]+)\$?([0-9]+)\Z', re.ASCII)
ROWS, COLUMNS = 4096, 1024


class Malformed(Exception):
    """The text is no formula that is taken."""


def tokens(text, start=0):
    """The tokens behind a place; blanks between them are left out."""
    found, place = [], start
    while place < len(text):
        match = TOKEN.match(text, place)
        if not match:
            raise Malformed
        if match.lastgroup != 'blank':
            found.append(Token(match.lastgroup, match.group(), place, match.end()))
        place = match.end()
    return found


def column(letters):
    number = 0
    for letter in letters.upper():
        number = min(number * 26 + ord(letter) - 64, 10 ** 6)
    return number - 1


def row(digits):
    digits = digits.lstrip('0')
    return int(digits) - 1 if 0 < len(digits) < 8 else (-1 if not digits else 10 ** 7)


def address(word):
    """Row and column of an address within the limits, or None."""
    parts = ADDRESS.match(word)
    if not parts:
        return None
    place = row(parts[2]), column(parts[1])
    return place if 0 <= place[0] < ROWS and place[1] < COLUMNS else None


def lower(text):
    """The text with the capital letters of ASCII as small ones."""
    return re.sub('[A-Z]+', lambda part: part.group().lower(), text)


def unquoted(text):
    return text.removeprefix('$')[1:-1].replace("''", "'")


def is_name(text):
    """Whether a text is a name that may be defined."""
    return bool(WORD.match(text)) and address(text) is None and lower(text) not in ('true', 'false')
