#!/usr/bin/env python3
"""A workbook's sheets as CSV files and its names as names.csv: what opensolver reads.

usage: from_workbook.py BOOK.xlsx|BOOK.ods FOLDER

Each sheet becomes FOLDER/SHEET.csv, with formulas and with numbers as they are kept and not as they are shown, in their shortest
numerals. Dates come as their numbers of days, and a text that would be read as a number, a logical or a formula as a formula with
that text. names.csv has all names, those that Excel hides too, and so the model of Excel's Solver. Prints the command that
reads these files; what the program can't take is told on standard error. Ends with 0 where the files are written, and else with 1
and one line.
"""
import os
import re
import shlex
import sys

import workbooks
from sheet_files import REFERENCE, ending_in_a_line, write_records

NAME = re.compile(r"[A-Za-z_\u0080-\U0010ffff][A-Za-z0-9_.\u0080-\U0010ffff]*\Z")


def is_taken(sheets, sheet, name):
    """Whether the program takes a name: a word, of a sheet that has a file or of the whole workbook."""
    return NAME.match(name) is not None and sheet in ("", *sheets)


def moves(name, text):
    """Whether a name's text is a reference without dollar signs, which in a workbook depends on the cell that uses the name."""
    reference = REFERENCE.match(text)
    return not name.lower().startswith("solver_") and reference is not None and text.count("$") < 2


def doubts(sheets, names):
    """What is to be told of the names, a line each."""
    for sheet, name, text in names:
        if not is_taken(sheets, sheet, name):
            yield f"the name {name} is left out: for the program it is none"
        elif not sheet and name.lower().startswith("solver_"):
            yield f"the name {name} belongs to the whole workbook and is not read as the Solver's: give it a sheet as its scope"
        elif moves(name, text):
            yield f"the name {name} is {text}, which in the workbook moves with the cell that uses it, and here does not"
    if not any(sheet and name.lower() == "solver_adj" for sheet, name, _ in names):
        yield "no sheet has the name solver_adj, so this workbook keeps no Solver model"


def check(sheets):
    """The end of the script where a sheet's name is none for a file of its own."""
    for sheet in sheets:
        if sheet.lower() == "names":
            sys.exit("a sheet is called names, and its file would be that of the names: give it another name")
        if os.path.basename(sheet) != sheet or "\0" in sheet:
            sys.exit(f"a sheet is called {sheet}, and no file can be called so: give it another name")


def write(sheets, names, folder):
    """The files of the sheets and of the names."""
    os.makedirs(folder, exist_ok=True)
    for sheet, rows in sheets.items():
        with open(os.path.join(folder, sheet + ".csv"), "w", newline="", encoding="utf-8") as file:
            write_records(file, [row or [""] for row in rows])
    with open(os.path.join(folder, "names.csv"), "w", newline="", encoding="utf-8") as file:
        write_records(file, [name for name in names if is_taken(sheets, *name[:2])])


def word(sheet):
    """The file of a sheet as a word of a command line."""
    return shlex.quote(("./" if sheet.startswith("-") else "") + sheet + ".csv")


def main(book, folder):
    sheets, names, told = workbooks.read(book)
    check(sheets)
    write(sheets, names, folder)
    for line in [*told, *doubts(sheets, names)]:
        print(line, file=sys.stderr)
    print("opensolver --names names.csv", *map(word, sheets))


if __name__ == "__main__":
    if len(sys.argv) != 3:
        sys.exit(__doc__)
    ending_in_a_line(main, *sys.argv[1:])
