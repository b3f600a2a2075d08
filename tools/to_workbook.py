#!/usr/bin/env python3
"""The decision cells of the CSV files, put back into the workbook that they came from; all other cells of it stay as they are.

usage: to_workbook.py BOOK.xlsx|BOOK.ods FOLDER OUT.xlsx|OUT.ods

FOLDER is what from_workbook.py made of BOOK, after `save`: the decision cells that names.csv there states are written into a copy
of BOOK, OUT, where they differ. A fraction such as =7/3 is written as that formula. The results that a workbook keeps beside its
formulas are left out of OUT, so that the spreadsheet program computes them when it opens OUT. Prints each cell that is written.
OUT is read again and compared with BOOK; what the library doesn't keep of the workbook, and a number of more digits than a workbook
holds, is told on standard error. Ends with 0 where OUT is written, and else with 1 and one line.
"""
import os
import sys

import workbooks
from sheet_files import NUMERAL, cell_name, decision_cells, ending_in_a_line, is_fraction, names_by_sheet, number_of, read_records


def read_sheets(folder):
    """The records of each CSV file of the folder, by the sheet's name in small letters."""
    return {file[:-4].lower(): read_records(os.path.join(folder, file)) for file in sorted(os.listdir(folder)) if file.endswith(".csv")}


def text_at(rows, row, column):
    return rows[row][column] if row < len(rows) and column < len(rows[row]) else ""


def changed(sheets, folder):
    """The decision cells whose texts in the folder are others than in the workbook, with these texts."""
    solved, before = read_sheets(folder), {sheet.lower(): rows for sheet, rows in sheets.items()}
    texts = {}
    for sheet, names in names_by_sheet(solved.pop("names", [])).items():
        for cell in decision_cells(names, sheet) if sheet and "solver_adj" in names else []:
            where, row, column = cell[0].lower(), *cell[1:]
            if where not in solved or where not in before:
                sys.exit(f"{cell_name(*cell)}: the folder or the workbook has no such sheet")
            text = text_at(solved[where], row, column)
            if text != text_at(before[where], row, column):
                if text and not NUMERAL.match(text) and not is_fraction(text):
                    sys.exit(f"{cell_name(*cell)} holds {text}, which is no number")
                texts[where, row, column] = text
    return texts


def texts_of(sheets):
    """The texts of the sheets by their cells."""
    return {(sheet.lower(), row, column): text
            for sheet, rows in sheets.items() for row, texts in enumerate(rows) for column, text in enumerate(texts) if text}


def is_same(text, other):
    return text == other or all(NUMERAL.match(one) for one in (text, other)) and number_of(text) == number_of(other)


def differences(wanted, copied, titles):
    """A line for each cell of the copy that holds another text than it should."""
    for where, row, column in sorted(wanted.keys() | copied.keys()):
        text, other = (texts.get((where, row, column), "") for texts in (wanted, copied))
        if not is_same(text, other) and other != "of:" + text:
            yield f"{cell_name(titles[where], row, column)} is {other or 'empty'} in the copy, in place of {text or 'nothing'}"


def main(book, folder, out):
    if workbooks.ending(book) != workbooks.ending(out) or os.path.realpath(book) == os.path.realpath(out):
        sys.exit("OUT is another file than BOOK, of the same ending")
    sheets, names, _ = workbooks.read(book)
    titles = {sheet.lower(): sheet for sheet in sheets}
    texts = changed(sheets, folder)
    told = workbooks.module_for(book).write(book, texts, out)
    copied, names_of_copy, _ = workbooks.read(out)
    lost = [f"the name {name} is not as it was" for _, name, _ in sorted(set(names) ^ set(names_of_copy))]
    for line in [*told, *differences({**texts_of(sheets), **texts}, texts_of(copied), titles), *dict.fromkeys(lost)]:
        print(line, file=sys.stderr)
    for (where, row, column), text in texts.items():
        print(cell_name(titles[where], row, column), text or "(empty)")


if __name__ == "__main__":
    if len(sys.argv) != 4:
        sys.exit(__doc__)
    ending_in_a_line(main, *sys.argv[1:])
