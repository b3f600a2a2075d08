#!/usr/bin/env python3
"""Times edits of a workbook of 10,000 formulas, and cells that are shown between them.

usage: kept_references.py PROGRAM

The sheet has 2,500 rows: two columns of numbers, two of products, and two of sums over the products of ten rows. A set changes a number
or a product, in turns; a show asks for a sum of the edited rows. What a set takes is the difference of a run of 1,000 sets and one of 500,
over 500; what a show takes is the difference of a run of 500 shows, each behind two sets, and one of 250, less what the sets take, over
250. Each pair of runs is made nine times, and the middle and the greatest are given.
"""
import os
import subprocess
import sys
import tempfile
import time

ROWS = 2500
SUMMED = 10
SETS = 1000
TIMES = 9


def formulas(row):
    """The products and sums of a row."""
    last = min(row + SUMMED - 1, ROWS)
    return [f"=A{row}*B{row}", f"=A{row}*2", f"=SUM(C{row}:C{last})", f"=SUM(D{row}:D{last})"]


def write_files(folder):
    """Writes the sheet, and a file of no names."""
    with open(os.path.join(folder, "plan.csv"), "w") as sheet:
        for row in range(1, ROWS + 1):
            sheet.write(",".join([str(row), str(row % 7)] + formulas(row)) + "\n")
    open(os.path.join(folder, "names.csv"), "w").close()


def script_of(sets, shows):
    """So many sets, with a show behind each pair of them where there are shows, and what is printed."""
    numbers = {row: row for row in range(1, ROWS + 1)}
    added = dict.fromkeys(numbers, 0)
    records, lines = [], []
    for place in range(sets // 2):
        row = place * 37 % (ROWS - SUMMED) + 1
        numbers[row], added[row] = place, place + 1
        records += [f"set,plan!A{row},{place}", f"set,plan!C{row},=A{row}*B{row}+{place + 1}"]
        lines += ["ok", "ok"]
        if shows:
            records.append(f"show,plan!E{row}")
            total = sum(numbers[r] * (r % 7) + added[r] for r in range(row, row + SUMMED))
            lines.append(f"number {total}")
    return "".join(record + "\n" for record in records), "".join(line + "\n" for line in lines)


def seconds(program, folder, sets, shows):
    """How long a run takes."""
    script, want = script_of(sets, shows)
    words = [program, "--names", "names.csv", "plan.csv"]
    start = time.monotonic()
    run = subprocess.run(words, cwd=folder, input=script, stdout=subprocess.PIPE, text=True)
    taken = time.monotonic() - start
    if run.stdout != want:
        sys.exit(f"printed {run.stdout[-60:]!r}")
    return taken


def more(program, folder, shows):
    """The seconds that the second half of a run's commands takes."""
    return seconds(program, folder, SETS, shows) - seconds(program, folder, SETS // 2, shows)


def told(name, found):
    """The middle and the greatest, in milliseconds."""
    found.sort()
    print(f"a {name}: {found[TIMES // 2] * 1e3:.3f} ms, at most {found[-1] * 1e3:.3f} ms")


def main():
    program = os.path.abspath(sys.argv[1])
    sets, shows = [], []
    with tempfile.TemporaryDirectory() as folder:
        write_files(folder)
        for _ in range(TIMES):
            alone = more(program, folder, False)
            sets.append(alone / (SETS // 2))
            shows.append((more(program, folder, True) - alone) / (SETS // 4))
    told("set", sets)
    told("show", shows)


if __name__ == "__main__":
    if len(sys.argv) != 2:
        sys.exit(__doc__)
    main()
