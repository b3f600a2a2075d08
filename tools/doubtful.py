#!/usr/bin/env python3
"""Lists texts in CSV sheets that look like numbers, dates, currencies or formulas and are none, so that sums pass over them silently.

usage: doubtful.py SHEET.csv..

Prints a line for each: the file, the cell, the text and what it looks like; and a line for each file that isn't UTF-8, or whose
fields seem to be parted by semicolons or tabs. Ends with 1 where it prints anything, and else with 0. What it doesn't list may still
be wrong: only `model` shows what the program makes of a sheet.
"""
import re
import sys

from sheet_files import NUMERAL, address, ending_in_a_line, is_formula, read_records

DIGITS = r"\d[\d.,'\u00a0\u202f]*"
KINDS = [
    ("a formula in braces", re.compile(r"\s*\{\s*=")),
    ("a formula behind a blank or a quote", re.compile(r"[\s'\"\u2019]+(of:)?=")),
    ("a formula without its equals sign", re.compile(r"[+@-]?[A-Z][A-Z0-9.]*\(.*\)\Z|[+-]\$?[A-Z]{1,3}\$?\d+([-+*/].*)?\Z")),
    ("the name of an error", re.compile(r"#[A-Z/0!?]+\Z|Err:\d+\Z")),
    ("a number with a blank around it", re.compile(r"\s+[+-]?[\d.]+%?\s*\Z|[+-]?[\d.]+%?\s+\Z")),
    ("a number with a decimal comma", re.compile(r"[+-]?\d*,(\d\d?|\d{4,})([eE][+-]?\d+)?\s*%?\Z")),
    ("a number with separators of thousands, or a decimal comma", re.compile(r"[+-]?\d{1,3}([,.'\s\u00a0\u202f]\d{3})+([.,]\d+)?\s*%?\Z")),
    ("a date, a time or a fraction", re.compile(r"\d{1,4}\s*([-/.:])\s*\d{1,2}(\s*\1\s*\d{1,4})?\.?([T\s]+\d.*)?\Z")),
    ("a date", re.compile(r"\d{1,2}[-.\s]+[A-Za-z]{3,9}[-.,\s]+\d{2,4}\Z")),
    ("a negative number", re.compile(rf"[(\u2212\u2013]\s*[^\w\s]?\s*{DIGITS}\s*[)]?\Z|{DIGITS}-\Z")),
    ("a number with a currency", re.compile(rf"(?:[A-Z]{{3}}|[^\w\s\"'(+-]{{1,2}})\s*[+-]?{DIGITS}\Z|[+-]?{DIGITS}\s*[\u20ac\u00a3\u00a5$]\Z")),
    ("a number in another spelling", re.compile(r"[+-]?[\d.,]*\d[\d.,]*%?\Z")),
    ("a number with a unit", re.compile(rf"[+-]?{DIGITS}\s*[^\d\s.,-]{{1,8}}\Z")),
]


def looks_like(text):
    """What a text that is none of the program's numbers and formulas looks like, or None."""
    if is_formula(text) or NUMERAL.match(text):
        return None
    return next((kind for kind, form in KINDS if form.match(text)), None)


def is_parted_otherwise(records):
    """Whether in half of the records or more a semicolon or a tab stands in a field that is no formula."""
    parted = [record for record in records if any(re.search(r"[;\t]", field) and not is_formula(field) for field in record)]
    return records != [] and 2 * len(parted) >= len(records)


def doubts_of(path):
    """A line for each doubtful text of a file."""
    try:
        records = read_records(path)
    except UnicodeDecodeError as fault:
        yield f"{path}: is not UTF-8 at byte {fault.start}"
        return
    if is_parted_otherwise(records):
        yield f"{path}: are the fields parted by semicolons or tabs? Commas part them here"
        return
    for row, record in enumerate(records):
        for column, text in enumerate(record):
            kind = looks_like(text)
            if kind:
                yield f"{path} {address(row, column)}: {text!r} is a text and looks like {kind}"


def main(paths):
    lines = [line for path in paths for line in doubts_of(path)]
    for line in lines:
        print(line)
    sys.exit(1 if lines else 0)


if __name__ == "__main__":
    if len(sys.argv) < 2:
        sys.exit(__doc__)
    ending_in_a_line(main, sys.argv[1:])
