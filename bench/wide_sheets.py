#!/usr/bin/env python3
"""Times whole sheets of 1,024 columns and models of 512 decision cells.

    python3 bench/wide_sheets.py PROGRAM [EARLIER]

full: 256 rows of 256 columns, 65,536 numbers (as many texts as a workbook may have), read, and read and saved. wide: 63 rows of 1,024
columns, likewise, with a sum over each row in a second sheet, of which one is shown (not for EARLIER). cells: 512 cells of which one
constraint bounds the sum, printed as a model, and solved (likewise). Each figure is the middle of five whole runs, in milliseconds.
"""
import os
import statistics
import subprocess
import sys
import tempfile
import time


def column(number):
    """The letters of a column, from 1 on."""
    letters = ""
    while number:
        number, letter = divmod(number - 1, 26)
        letters = chr(65 + letter) + letters
    return letters


def write(folder, name, rows):
    with open(os.path.join(folder, name), "w") as file:
        file.writelines(",".join(row) + "\n" for row in rows)


def write_files(folder):
    for name, height, width in [("full.csv", 256, 256), ("wide.csv", 63, 1024)]:
        write(folder, name, ([str(row + place) for place in range(width)] for row in range(height)))
    write(folder, "sums.csv", ([f"=SUM(wide!A{row}:AMJ{row})"] for row in range(1, 64)))
    beside = ["=SUM(A1:A512)", "=SUMPRODUCT(A1:A512;C1:C512)"]
    factors = [str(1 + 7 * place % 11) for place in range(512)]
    write(folder, "cells.csv", (["0", beside[place] if place < 2 else "", factors[place]] for place in range(512)))
    write(folder, "none.csv", [])
    names = [("adj", "A1:A512"), ("opt", "B2"), ("typ", "1"), ("neg", "1"), ("num", "1"), ("lhs1", "B1"), ("rel1", "1"), ("rhs1", "1000")]
    write(folder, "cells.names.csv", (["cells", f"solver_{name}", text] for name, text in names))


def milliseconds(program, folder, names, files, script, want):
    """The middle of five runs over the script."""
    taken = []
    for _ in range(5):
        begin = time.monotonic()
        run = subprocess.run([program, "--names", names, *files], cwd=folder, input=script, stdout=subprocess.PIPE, text=True)
        taken.append(1000 * (time.monotonic() - begin))
        if not run.stdout.startswith(want):
            sys.exit(f"printed {run.stdout[:200]!r} in place of {want!r}")
    return statistics.median(taken)


def main():
    program, *earlier = map(os.path.abspath, sys.argv[1:])
    with tempfile.TemporaryDirectory() as folder:
        write_files(folder)
        for one in [program, *earlier]:
            read = milliseconds(one, folder, "none.csv", ["full.csv"], "", "")
            saved = milliseconds(one, folder, "none.csv", ["full.csv"], "set,full!A1,5\nsave\n", "ok\nsaved 1\n")
            print(f"{one}: full {read:.0f} to read, {saved:.0f} to read and save")
        read = milliseconds(program, folder, "none.csv", ["wide.csv", "sums.csv"], "", "")
        saved = milliseconds(program, folder, "none.csv", ["wide.csv", "sums.csv"], "set,wide!A1,5\nsave\n", "ok\nsaved 1\n")
        shown = milliseconds(program, folder, "none.csv", ["wide.csv", "sums.csv"], "show,sums!A63\n", "number 587264")
        print(f"wide {read:.0f} to read, {saved:.0f} to read and save, {shown:.0f} to read and show a sum")
        idle = milliseconds(program, folder, "cells.names.csv", ["cells.csv"], "", "")
        model = milliseconds(program, folder, "cells.names.csv", ["cells.csv"], "model,cells\n", "max ")
        solved = milliseconds(program, folder, "cells.names.csv", ["cells.csv"], "solve,cells\n", "optimal ")
        print(f"cells {idle:.0f} to read, {model:.0f} to print the model too, {solved:.0f} to solve")


if __name__ == "__main__":
    main()
