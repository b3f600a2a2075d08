"""What the tools share: addresses and references, numbers, the CSV files that the program reads, and the Solver's names in them."""
import csv
import io
import re
import sys
from fractions import Fraction

NUMERAL = re.compile(r"[+-]?(\d+\.?\d*|\.\d+)([eE][+-]?\d+)?%?\Z", re.ASCII)
PLAIN_WORD = re.compile(r"[A-Za-z_\u0080-\U0010ffff][A-Za-z0-9_\u0080-\U0010ffff]*\Z")
PARTS = re.compile(r"(?:'(?:[^']|'')*'|[^,;~'])+")
CORNER = r"(?:\$?('(?:[^']|'')*'|[^\s'!.:$\[\]()+*/-]+)[!.]|\.)?\$?([A-Za-z]{1,3})\$?(\d{1,7})"
REFERENCE = re.compile(rf"\s*\[?{CORNER}(?::{CORNER})?\]?\s*\Z", re.ASCII)


def column_letters(column):
    """The letters of a column that is counted from 0."""
    letters = ""
    while column >= 0:
        letters, column = chr(65 + column % 26) + letters, column // 26 - 1
    return letters


def column_number(letters):
    """The column, counted from 0, that has these letters."""
    number = 0
    for letter in letters.upper():
        number = number * 26 + ord(letter) - 64
    return number - 1


def address(row, column):
    """The address of a cell whose row and column are counted from 0."""
    return f"{column_letters(column)}{row + 1}"


def cell_name(sheet, row, column):
    """A cell as the program prints it: with its sheet, in quotes where the sheet's name is no plain word."""
    quoted = sheet if PLAIN_WORD.match(sheet) else "'" + sheet.replace("'", "''") + "'"
    return f"{quoted}!{address(row, column)}"


def cells_of(text, sheet):
    """The cells (sheet, row, column) of one reference, row by row; None where the text is none."""
    found = REFERENCE.match(text[1:] if text.startswith("=") else text)
    if not found:
        return None
    where, letters, row, _, last_letters, last_row = found.groups()
    if where and where.startswith("'"):
        where = where[1:-1].replace("''", "'")
    columns = sorted((column_number(letters), column_number(last_letters or letters)))
    rows = sorted((int(row) - 1, int(last_row or row) - 1))
    return [(where or sheet, r, c) for r in range(rows[0], rows[1] + 1) for c in range(columns[0], columns[1] + 1)]


def decision_cells(names, sheet):
    """The decision cells that the names of a sheet state, each once, or the end of the script where they state none."""
    if "solver_adj" not in names:
        sys.exit(f"the sheet {sheet} has no name solver_adj, so no decision cells")
    cells = {}
    for part in PARTS.findall(names["solver_adj"].lstrip("=")):
        for cell in cells_of(part, sheet) or sys.exit(f"solver_adj of the sheet {sheet} has no reference: {part}"):
            cells[cell] = True
    return list(cells)


def read_records(path):
    """The records of a CSV file, without blank lines, as the program reads them."""
    with open(path, newline="", encoding="utf-8-sig") as file:
        return [record for record in csv.reader(file) if record]


def ending_in_a_line(work, *words):
    """Does a script's work; where a file can't be read or written, it ends with 1 and one line."""
    try:
        work(*words)
    except OSError as fault:
        sys.exit(f"{fault.filename or 'the output'}: {fault.strerror}")
    except (UnicodeError, csv.Error) as fault:
        sys.exit(f"a file is no CSV text in UTF-8: {fault}")


def text_of_record(record):
    """A record as a line of CSV. A field with a carriage return stands in quotes, as csv sees to where lines end in one."""
    line = io.StringIO(newline="")
    csv.writer(line, lineterminator="\r\n").writerow(record)
    return line.getvalue().removesuffix("\r\n") + "\n"


def write_records(file, records):
    file.writelines(map(text_of_record, records))


def names_by_sheet(records):
    """The names of each sheet, as small letters, with their texts: from the records of a file of names."""
    sheets = {}
    for number, record in enumerate(records, 1):
        if len(record) not in (3, 4):
            sys.exit(f"record {number} of the names has neither three nor four fields: {record}")
        sheets.setdefault(record[0].lower(), {})[record[1].lower()] = record[2]
    return sheets


def is_formula(text):
    return text.startswith(("=", "of:="))


def is_fraction(text):
    """Whether the text is numerator and denominator, as a decision cell holds them: =7/3."""
    return re.match(r"=-?\d+/\d+\Z", text) is not None


def number_of(text):
    """The exact number that a numeral, or a fraction such as 7/3 or =7/3, spells."""
    text = text.lstrip("=")
    return Fraction(text[:-1]) / 100 if text.endswith("%") else Fraction(text)


def spoken(number):
    """A number as the program prints it: its digits, a decimal where it has a short one, or numerator and denominator."""
    if 10**18 % number.denominator:
        return f"{number.numerator}/{number.denominator}"
    places = next(n for n in range(19) if 10**n % number.denominator == 0)
    digits = str(abs(number.numerator) * 10**places // number.denominator).rjust(places + 1, "0")
    sign = "-" if number < 0 else ""
    return sign + (digits if places == 0 else f"{digits[:-places]}.{digits[-places:]}")


def shortest(number):
    """The shortest numeral that a spreadsheet reads as this number of 64 bits: 4.0999999999999996 is 4.1."""
    number = float(number)
    return str(int(number)) if number == int(number) and abs(number) < 1e15 else repr(number)


def as_text(text):
    """A cell's text that stays a text: one that would be read as a number, a logical or a formula becomes a formula with that text."""
    if NUMERAL.match(text) or is_formula(text) or text.upper() in ("TRUE", "FALSE"):
        return '="' + text.replace('"', '""') + '"'
    return text
