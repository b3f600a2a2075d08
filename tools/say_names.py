#!/usr/bin/env python3
"""names.csv from a model in words, and back.

usage: say_names.py SHEET < model.txt > names.csv
       say_names.py --read SHEET < names.csv > model.txt

A model in words has a line for each of these; blank lines and lines that begin with # are passed over:

    max D3                   or min D3, or reach 100 D3 (a model without such a line has no objective)
    change B2:C2, B8         the decision cells
    D4:D5 <= E4:E5           or = or >=; on the right a reference, a number or an expression
    B2:C2 integer            or binary, or different: all different, from 1 to as many as they are
    free                     decision cells may be negative

Ends with 0, or with 1 and a line that names what is not understood.
"""
import csv
import re
import sys

from sheet_files import NUMERAL, PARTS, REFERENCE, ending_in_a_line, names_by_sheet, write_records

CODES = {"<=": "1", "=": "2", ">=": "3", "integer": "4", "binary": "5", "different": "6"}
GOALS = {"max": "1", "min": "2", "reach": "3"}
GOAL = re.compile(r"(?:(max|min)|reach\s+(\S+))\s+(\S.*)\Z")
ROW = re.compile(r"(.+?)\s*(<=|>=|=)\s*(.+)\Z")
MARK = re.compile(r"(.+?)\s+(integer|binary|different)\Z")


def reference(text, line):
    return text.strip() if REFERENCE.match(text) else sys.exit(f"not understood: {line} ({text.strip()} is no reference)")


def aim(line, goal, value, cell):
    """The names of the objective's line."""
    if value and not NUMERAL.match(value):
        sys.exit(f"not understood: {line} ({value} is no number)")
    return [("solver_opt", reference(cell, line)), ("solver_typ", GOALS[goal or "reach"])] + ([("solver_val", value)] if value else [])


def constraint(line, number):
    """The names of a constraint's line, or the end of the script."""
    found = MARK.match(line) or ROW.match(line) or sys.exit(f"not understood: {line}")
    left, word, right = (*found.groups(), found[2])[:3]
    return [(f"solver_lhs{number}", reference(left, line)), (f"solver_rel{number}", CODES[word]), (f"solver_rhs{number}", right)]


def write(sheet, lines):
    """The names of a model in words, as records of the file of names."""
    head, rows, count = [], [], 0
    for line in (line.strip() for line in lines):
        if not line or line.startswith("#"):
            continue
        if found := GOAL.match(line):
            head += aim(line, *found.groups())
        elif found := re.match(r"change\s+(.+)", line):
            head.append(("solver_adj", ",".join(reference(part, line) for part in PARTS.findall(found[1]))))
        elif line == "free":
            head.append(("solver_neg", "2"))
        else:
            count += 1
            rows += constraint(line, count)
    twice = [name for name, _ in head if [other for other, _ in head].count(name) > 1]
    if twice or "solver_adj" not in [name for name, _ in head]:
        sys.exit(f"a model has one line of each kind, and one that begins with change: {twice[0] if twice else 'there is no change'}")
    return [(sheet, name, text) for name, text in [*head, ("solver_num", str(count)), *rows]]


def plain_reference(text, sheet):
    """A reference without dollar signs, and without its sheet where that is the sheet itself; another text as it stands."""
    found = REFERENCE.match(text)
    if not found:
        return text
    where, letters, row, where_last, letters_last, row_last = found.groups()
    named = where[1:-1].replace("''", "'") if where and where.startswith("'") else where
    mark = "" if not where or named.lower() == sheet.lower() else where + "!"
    if where_last and where_last.lower() != (where or "").lower():
        return text
    return f"{mark}{letters}{row}" + (f":{letters_last}{row_last}" if letters_last else "")


def plain(name, text, sheet):
    """A name's text without its equals sign, references as in words."""
    text = text.removeprefix("=")
    parts = PARTS.findall(text) if name == "solver_adj" else [text]
    return ", ".join(plain_reference(part, sheet) for part in parts)


def read(sheet, records):
    """The lines of the model that the names of a sheet state."""
    names = {name: plain(name, text, sheet) for name, text in names_by_sheet(records).get(sheet.lower(), {}).items()}
    words = {code: word for word, code in CODES.items()}
    goals = {code: word for word, code in GOALS.items()}
    try:
        if "solver_opt" in names:
            goal = goals[names.get("solver_typ", "1")]
            yield " ".join([goal, *([names.get("solver_val", "0")] if goal == "reach" else []), names["solver_opt"]])
        yield "change " + names["solver_adj"]
        for number in range(1, int(names.get("solver_num", "0")) + 1):
            word = words[names[f"solver_rel{number}"]]
            right = "" if word in ("integer", "binary", "different") else " " + names[f"solver_rhs{number}"]
            yield f"{names[f'solver_lhs{number}']} {word}{right}"
        if names.get("solver_neg", "1") == "2":
            yield "free"
    except (KeyError, ValueError) as fault:
        sys.exit(f"the names of the sheet {sheet} state no model: {fault}")


def main(words):
    if len(words) == 1 and words[0] != "--read":
        write_records(sys.stdout, write(words[0], sys.stdin))
    elif len(words) == 2 and words[0] == "--read":
        for line in list(read(words[1], [record for record in csv.reader(sys.stdin) if record])):
            print(line)
    else:
        sys.exit(__doc__)


if __name__ == "__main__":
    ending_in_a_line(main, sys.argv[1:])
