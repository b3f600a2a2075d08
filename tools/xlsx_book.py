"""Workbooks of Excel (.xlsx): their sheets and names as texts, and numbers put into cells. The library openpyxl reads and writes them."""
import collections
import datetime
import os
import re
import sys
import warnings
import zipfile

from openpyxl.cell.cell import MergedCell
from openpyxl.reader.excel import ExcelReader
from openpyxl.utils.datetime import to_excel
from openpyxl.workbook.properties import CalcProperties

from sheet_files import address, as_text, cell_name, is_fraction, number_of, shortest

TIMES = (datetime.date, datetime.time, datetime.timedelta)
MADE_ANEW = {"calcChain.xml", "sharedString.xml"}


class ReaderOfNumbers(ExcelReader):
    """Reads dates as the numbers that the workbook keeps; openpyxl's dates are rounded, and some are other days or errors."""

    def read_worksheets(self):
        self.wb._date_formats, self.wb._timedelta_formats = set(), set()
        super().read_worksheets()


def opened(path):
    """The workbook, and what openpyxl says of the parts that it passes over, each once."""
    with warnings.catch_warnings(record=True) as said:
        warnings.simplefilter("always")
        reader = ReaderOfNumbers(path)
        reader.read()
    return reader.wb, list(dict.fromkeys(str(warning.message) for warning in said))


def cells_of_file(sheet):
    """The cells ((row, column), cell) that the file has, row by row: one far away makes no list of empty ones before it."""
    return sorted(sheet._cells.items(), key=lambda entry: entry[0])


def with_array_marks(formula):
    """The formula with arrays as OpenFormula has them: {1,2;3,4} is {1;2|3;4}."""
    parts = re.split(r'("(?:[^"]|"")*")', formula)
    parts[::2] = [re.sub(r"\{[^{}]*\}", lambda found: found[0].replace(";", "|").replace(",", ";"), part) for part in parts[::2]]
    return "".join(parts)


def text_of(cell, epoch):
    """The text of a cell: its formula, its number as it is kept, or its text."""
    value = cell.value
    if value is None:
        return ""
    if cell.data_type == "f":
        formula = getattr(value, "text", value)
        return with_array_marks(formula) if isinstance(formula, str) else "="
    if cell.data_type == "e":
        return "=" + value
    if isinstance(value, bool):
        return "TRUE" if value else "FALSE"
    if isinstance(value, TIMES):
        return shortest(to_excel(value, epoch))
    return shortest(value) if isinstance(value, (int, float)) else as_text(str(value))


def rows_of(sheet, epoch):
    """The texts of a sheet, row by row, each row to its last text."""
    rows = []
    for (row, column), cell in cells_of_file(sheet):
        text = text_of(cell, epoch)
        if text:
            rows += [[] for _ in range(row - len(rows))]
            rows[-1] += [""] * (column - 1 - len(rows[-1])) + [text]
    return rows


def matrices_of(sheet):
    """The addresses of matrix formulas over several cells."""
    by_address = getattr(sheet, "formula_attributes", {}) or getattr(sheet, "array_formulae", {})
    areas = {place: kept.get("ref", "") if isinstance(kept, dict) else str(kept) for place, kept in by_address.items()}
    return [place for place, area in areas.items() if ":" in area and len(set(area.split(":"))) == 2]


def names_of(book):
    """The names as (sheet, name, text), those that Excel hides too; the sheet is empty where a name is the whole workbook's."""
    kept = book.defined_names
    if hasattr(kept, "definedName"):
        order = book.sheetnames
        return [("" if name.localSheetId is None else order[name.localSheetId], name.name, name.attr_text or "") for name in kept.definedName]
    found = [("", name.name, name.attr_text or "") for name in kept.values()]
    for sheet in book.worksheets:
        found += [(sheet.title, name.name, name.attr_text or "") for name in sheet.defined_names.values()]
    return found


def read(path):
    """The sheets with their rows of texts, the names, and what is to be told of the workbook."""
    book, _ = opened(path)
    sheets = {sheet.title: rows_of(sheet, book.epoch) for sheet in book.worksheets}
    told = [f"{sheet.title}!{place}: a matrix formula over several cells, of which the first alone has it"
            for sheet in book.worksheets for place in matrices_of(sheet)]
    return sheets, names_of(book), told


def put(sheet, row, column, text):
    """Makes a cell hold a number, a fraction's formula, or nothing; its style stays."""
    cell = sheet[address(row, column)]
    if isinstance(cell, MergedCell):
        sys.exit(f"{cell_name(sheet.title, row, column)} is the hidden part of a merged cell, into which nothing can be put")
    number = None if text == "" else number_of(text)
    cell.value = text if is_fraction(text) else number if number is None else float(number) if number.denominator > 1 else int(number)


def keep_digits(book):
    """Makes numbers that need 17 digits be written with these, where openpyxl would write 16."""
    for cell in (cell for sheet in book.worksheets for _, cell in cells_of_file(sheet)):
        if cell.data_type == "n" and isinstance(cell.value, (int, float)) and float(f"{cell.value:.16g}") != float(cell.value):
            cell.value = repr(float(cell.value))
            cell.data_type = "n"


def kind_of(part):
    """What a part of the file is: its name without folder, number and plural, since openpyxl gives some parts other ones."""
    name = os.path.basename(part)
    return "drawing of comments" if name.endswith(".vml") else re.sub(r"s?\d*\.", ".", name, count=1)


def lost_parts(path, out):
    """The parts of a workbook's file that its copy has not, or has fewer of, but for those that a spreadsheet program makes anew."""
    with zipfile.ZipFile(path) as before, zipfile.ZipFile(out) as after:
        parts = [part for part in before.namelist() if not part.endswith("/") and "_rels/" not in part]
        kinds, left = (collections.Counter(map(kind_of, names)) for names in (parts, after.namelist()))
    return sorted(part for part in parts if left[kind_of(part)] < kinds[kind_of(part)] and kind_of(part) not in MADE_ANEW)


def write(path, texts, out):
    """Saves a copy of the workbook with these texts in the cells (sheet, row, column); gives what is to be told of it."""
    book, told = opened(path)
    sheets = {sheet.title.lower(): sheet for sheet in book.worksheets}
    for (sheet, row, column), text in texts.items():
        put(sheets[sheet.lower()], row, column, text)
    keep_digits(book)
    book.calculation = book.calculation or CalcProperties()
    book.calculation.fullCalcOnLoad = True
    book.save(out)
    return told + [f"openpyxl does not keep {part}" for part in lost_parts(path, out)]
