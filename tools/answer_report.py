#!/usr/bin/env python3
"""Solves a sheet and reports the answer: the objective, each decision cell, each constraint with what is left of it.

usage: answer_report.py PROGRAM SHEET NAMES.csv SHEET.csv..

PROGRAM is opensolver. Nothing is saved. All numbers are exact, as the program prints them. What is left of a constraint is its right
side minus its left one, for >= the other way round; where nothing is left it is binding. Ends with the program's status, 0 also for
infeasible and unbounded, which are printed alone.
"""
import subprocess
import sys

from sheet_files import (cell_name, cells_of, decision_cells, ending_in_a_line, names_by_sheet, number_of, read_records, spoken,
                         text_of_record)

RELATIONS = {"1": "<=", "2": "=", "3": ">="}
LAST_ROW, LAST_COLUMN = 4095, 255


def constraints(names, sheet):
    """The rows (number of the constraint, left cell, relation, right side); a right side is a cell or an expression."""
    count = int(number_of(names.get("solver_num", "0")))
    for number in range(1, count + 1):
        relation = RELATIONS.get(str(number_of(names[f"solver_rel{number}"])))
        if relation:
            left, text = cells_of(names[f"solver_lhs{number}"], sheet), names[f"solver_rhs{number}"]
            right = cells_of(text, sheet) or [text if text.startswith("=") else "=" + text]
            for place, cell in enumerate(left):
                yield number, cell, relation, right[place] if len(right) > 1 else right[0]


def script(sheet, cells, expressions):
    """Solves, puts each expression into a spare cell in the sheet's last column, and shows the cells and these."""
    spare = {text: (sheet, LAST_ROW - place, LAST_COLUMN) for place, text in enumerate(expressions)}
    records = [["solve", sheet]] + [["set", cell_name(*cell), text] for text, cell in spare.items()]
    return records + [["show", cell_name(*cell)] for cell in [*cells, *spare.values()]]


def answers_of(program, files, records):
    """What the program prints for a script, line by line, and its status."""
    text = "".join(map(text_of_record, records))
    run = subprocess.run([program, "--names", *files], input=text, stdout=subprocess.PIPE, encoding="utf-8")
    return run.stdout.splitlines(), run.returncode


def value(answer):
    """The number of an answer to show, where an empty cell counts as 0."""
    return number_of("0" if answer == "empty" else answer.removeprefix("number "))


def report(decisions, rows, values):
    """The lines of the report below the first one."""
    for cell in decisions:
        yield f"{cell_name(*cell)} = {spoken(values[cell])}"
    for number, cell, relation, right in rows:
        left, bound = values[cell], values[right]
        rest = left - bound if relation == ">=" else bound - left
        side = cell_name(*right) if isinstance(right, tuple) else right[1:]
        note = f"{spoken(rest)} left" if rest else "binding"
        yield f"constraint {number}: {cell_name(*cell)} = {spoken(left)} {relation} {spoken(bound)} ({side}), {note}"


def main(program, sheet, *files):
    names = names_by_sheet(read_records(files[0])).get(sheet.lower(), {})
    lines, status = answers_of(program, files, [["solve", sheet]])
    print(*lines, sep="\n")
    if status or not lines[0].startswith("optimal"):
        sys.exit(status)
    decisions, rows = decision_cells(names, sheet), list(constraints(names, sheet))
    cells = list(dict.fromkeys([*decisions, *(row[1] for row in rows), *(row[3] for row in rows if isinstance(row[3], tuple))]))
    expressions = list(dict.fromkeys(row[3] for row in rows if not isinstance(row[3], tuple)))
    lines, status = answers_of(program, files, script(sheet, cells, expressions))
    if status:
        sys.exit(f"the report could not be made: {next(line for line in lines if line.startswith('refused'))}")
    values = dict(zip([*cells, *expressions], map(value, lines[1 + len(expressions):])))
    print(*report(decisions, rows, values), sep="\n")


if __name__ == "__main__":
    if len(sys.argv) < 5:
        sys.exit(__doc__)
    ending_in_a_line(main, *sys.argv[1:])
