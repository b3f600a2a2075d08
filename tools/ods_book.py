"""Workbooks of LibreOffice (.ods): their sheets and names as texts, and numbers put into cells. The library odfpy reads and writes them."""
import re
from datetime import date
from fractions import Fraction

from odf.element import Element, Text
from odf.namespaces import OFFICENS, TABLENS, TEXTNS
from odf.opendocument import load

from sheet_files import as_text, is_fraction, number_of, shortest

CELLS = ((TABLENS, "table-cell"), (TABLENS, "covered-table-cell"))
ROW = (TABLENS, "table-row")
PARAGRAPH = (TEXTNS, "p")
NAMES = ((TABLENS, "named-range"), (TABLENS, "named-expression"))
CALCEXT = "urn:org:documentfoundation:names:experimental:calc:xmlns:calcext:1.0"
MOST_ROWS, MOST_COLUMNS = 4096, 256


def kept(element, namespace, name, otherwise=None):
    return element.attributes.get((namespace, name), otherwise)


def children(element, kind):
    """The elements of a kind right below an element."""
    return [child for child in element.childNodes if getattr(child, "qname", None) == kind]


def within(element, *kinds):
    """The elements of these kinds in an element, at any depth but not in one another, in their order."""
    for child in element.childNodes:
        if getattr(child, "qname", None) in kinds:
            yield child
        elif getattr(child, "qname", None):
            yield from within(child, *kinds)


def times(element, what):
    return int(kept(element, TABLENS, f"number-{what}-repeated", "1"))


def days_of(moment, day_0):
    """A date as a number of days since the day 0, as a spreadsheet counts them."""
    day, _, time = moment.rstrip("Z").partition("T")
    hours, minutes, seconds = (time or "0:0:0").split(":")
    return (date.fromisoformat(day) - day_0).days + parts_of_a_day(hours, minutes, seconds)


def days_in(duration):
    """A length of time as a number of days."""
    sign, *parts = re.fullmatch(r"(-?)PT(\d+)H(\d+)M([\d.,]+)S", duration).groups()
    return parts_of_a_day(*parts) * (-1 if sign else 1)


def parts_of_a_day(hours, minutes, seconds):
    return (int(hours) * 3600 + int(minutes) * 60 + Fraction(seconds.replace(",", "."))) / 86400


def day_0_of(document):
    """The day from which the document counts days: the end of 1899, or what its settings say."""
    settings = children(document.spreadsheet, (TABLENS, "calculation-settings"))
    days = [kept(day, TABLENS, "date-value") for setting in settings for day in children(setting, (TABLENS, "null-date"))]
    return date.fromisoformat(next(filter(None, days), "1899-12-30"))


def written(element):
    """The characters of a paragraph."""
    if isinstance(element, Text):
        return str(element.data)
    if element.qname == (TEXTNS, "s"):
        return " " * int(kept(element, TEXTNS, "c", "1"))
    if element.qname in ((TEXTNS, "tab"), (TEXTNS, "line-break")):
        return "\t" if element.qname == (TEXTNS, "tab") else "\n"
    return "".join(written(child) for child in element.childNodes)


def string_of(cell):
    """The characters of a cell that holds a text."""
    return kept(cell, OFFICENS, "string-value", "\n".join(map(written, children(cell, PARAGRAPH))))


def text_of(cell, day_0):
    """The text of a cell: its formula, its number as it is kept, or its text."""
    formula, kind = kept(cell, TABLENS, "formula"), kept(cell, OFFICENS, "value-type")
    if formula is not None:
        return str(formula)
    if kind in ("float", "percentage", "currency"):
        return shortest(kept(cell, OFFICENS, "value"))
    if kind == "boolean":
        return kept(cell, OFFICENS, "boolean-value").upper()
    if kind == "date":
        return shortest(days_of(kept(cell, OFFICENS, "date-value"), day_0))
    if kind == "time":
        return shortest(days_in(kept(cell, OFFICENS, "time-value")))
    return as_text(str(string_of(cell))) if kind == "string" else ""


def rows_of(table, day_0):
    """The texts of a sheet, row by row, each row to its last text."""
    rows = []
    for element in within(table, ROW):
        row = []
        for cell in within(element, *CELLS):
            text = text_of(cell, day_0)
            row += [text] * (times(cell, "columns") if text else min(times(cell, "columns"), MOST_COLUMNS))
        while row and not row[-1]:
            row.pop()
        rows += [row] * (times(element, "rows") if row else min(times(element, "rows"), MOST_ROWS))
    while rows and not rows[-1]:
        rows.pop()
    return rows


def is_wide_matrix(cell):
    return any(kept(cell, TABLENS, f"number-matrix-{what}-spanned", "1") != "1" for what in ("rows", "columns"))


def doubts_of(table):
    """What is to be told of a sheet: matrix formulas over several cells, and formulas of another language."""
    sheet, told = kept(table, TABLENS, "name"), []
    for cell in (cell for row in within(table, ROW) for cell in within(row, *CELLS)):
        formula = kept(cell, TABLENS, "formula")
        if formula is not None and not formula.startswith("of:="):
            told.append(f"{sheet}: a formula of another language: {formula}")
        if is_wide_matrix(cell):
            told.append(f"{sheet}: a matrix formula over several cells, of which the first alone has it: {formula}")
    return told


def without_brackets(text):
    """References as spreadsheets show them: [.$A$1:.$B$2], or $plan.$A$1:.$B$2 as a name has it, is $A$1:$B$2 of its sheet."""
    parts = re.split(r'("(?:[^"]|"")*")', text)
    parts[::2] = [re.sub(r"\[\.?([^\]]*)\]", r"\1", part).replace(":.", ":") for part in parts[::2]]
    return "".join(parts)


def names_in(element, sheet):
    """The names that stand in a sheet's element or the workbook's, as (sheet, name, text)."""
    for group in children(element, (TABLENS, "named-expressions")):
        for name in within(group, *NAMES):
            text = kept(name, TABLENS, "cell-range-address") or re.sub(r"^(of:)?=?", "", kept(name, TABLENS, "expression", ""))
            yield sheet, str(kept(name, TABLENS, "name")), without_brackets(text)


def tables_of(document):
    """The sheets; what LibreOffice keeps of other documents' sheets beside them is none."""
    return [table for table in children(document.spreadsheet, (TABLENS, "table")) if "'#$" not in kept(table, TABLENS, "name")]


def read(path):
    """The sheets with their rows of texts, the names, and what is to be told of the workbook."""
    document = load(path)
    sheets, names, told, day_0 = {}, list(names_in(document.spreadsheet, "")), [], day_0_of(document)
    for table in tables_of(document):
        sheet = str(kept(table, TABLENS, "name"))
        sheets[sheet] = rows_of(table, day_0)
        names += names_in(table, sheet)
        told += doubts_of(table)
    return sheets, names, told


def twin(element):
    """A copy of an element with all that is in it."""
    if isinstance(element, Text):
        return Text(element.data)
    copy = Element(qname=element.qname, qattributes=dict(element.attributes), check_grammar=False)
    for child in element.childNodes:
        copy.appendChild(twin(child))
    return copy


def single(parent, kinds, what, place):
    """The element of a row or a cell at a place, counted from 0; one that stands for several is parted, and one that isn't there is added."""
    first, last = 0, None
    for element in list(within(parent, *kinds)):
        count = times(element, what)
        if place < first + count:
            return parted(element, what, place - first, count)
        first, last = first + count, element
    for left in filter(None, (place - first, 1)):
        element = Element(qname=kinds[0], qattributes={(TABLENS, f"number-{what}-repeated"): str(left)} if left > 1 else {}, check_grammar=False)
        (last.parentNode if last else parent).insertBefore(element, last.nextSibling if last else None)
        last = element
    return last


def parted(element, what, before, count):
    """The element of one place out of an element that stands for so many; those before and behind it become elements of their own."""
    home, key = element.parentNode, (TABLENS, f"number-{what}-repeated")
    for left, mark in ((before, element), (count - 1 - before, element.nextSibling)):
        if left:
            others = twin(element)
            others.attributes[key] = str(left)
            home.insertBefore(others, mark)
    element.attributes.pop(key, None)
    return element


def forget_result(cell):
    """Drops what a cell holds but for its formula and its style."""
    for key in [key for key in cell.attributes if key[0] in (OFFICENS, CALCEXT)]:
        del cell.attributes[key]
    for paragraph in children(cell, PARAGRAPH):
        cell.removeChild(paragraph)


def put(cell, text):
    """Makes the cell hold a number, or nothing; its style stays."""
    forget_result(cell)
    cell.attributes.pop((TABLENS, "formula"), None)
    if text:
        cell.attributes[OFFICENS, "value-type"] = "float"
        cell.attributes[OFFICENS, "value"] = shortest(float(number_of(text)))
        if is_fraction(text):
            cell.attributes[TABLENS, "formula"] = "of:" + text


def forget_results(table):
    """Drops the results that are kept beside formulas, so that the spreadsheet program computes them when it opens the file."""
    for row in within(table, ROW):
        for cell in within(row, *CELLS):
            if kept(cell, TABLENS, "formula") is not None:
                forget_result(cell)


def write(path, texts, out):
    """Saves a copy of the workbook with these texts in the cells (sheet, row, column); gives what is to be told of it."""
    document = load(path)
    tables = {kept(table, TABLENS, "name").lower(): table for table in tables_of(document)}
    for (sheet, row, column), text in texts.items():
        element = single(tables[sheet.lower()], (ROW,), "rows", row)
        put(single(element, CELLS, "columns", column), text)
    for table in tables.values():
        forget_results(table)
    document.save(out)
    return []
