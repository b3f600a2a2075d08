#!/usr/bin/env python3
"""Times the program where it makes and solves the models of large sheets.

usage: models.py PROGRAM

Three sheets are made, each as large as a sheet or a model may be. Each line that is printed is one script, run three times: what is
timed is the whole run, from the start of the program over the reading of the files to its last answer, and the middle of the three
times is given, with the least and the greatest. A run with an empty script only reads the files. The answers are compared with
the ones that follow from how the sheets are made.
"""
import os
import subprocess
import sys
import tempfile
import time

CELLS = 256
FORMULAS = 16384
TALL = 4096
RUNS = 3
# The best value of the program of bands, and the pivots on the way to it, by another solver.
BEST, PIVOTS = "79776071/15120", 335


def draws(x):
    """Small whole numbers that look like drawn ones and are the same in each run."""
    while True:
        x = (1103515245 * x + 12345) % 2**31
        yield x // 65536


def solver_names(sheet, cells, objective, rows):
    """The names of a sheet: its decision cells, an objective to be greatest, and one constraint `<=`, if any."""
    names = [("adj", cells), ("opt", objective), ("num", "1" if rows else "0")]
    if rows:
        names += [("lhs1", rows[0]), ("rel1", "1"), ("rhs1", rows[1])]
    return "".join(f"{sheet},solver_{name},{text}\n" for name, text in names)


def chain():
    """A1 is to be decided, and each of 16,384 formulas is the one before it and 1: down a column, and on in the next."""
    columns = [["0"] + [f"=A{row}+1" for row in range(1, TALL)]]
    left = FORMULAS - (TALL - 1)
    for letter, before in zip("BCDE", "ABCD"):
        column = [f"={before}{TALL}+1"] + [f"={letter}{row}+1" for row in range(1, TALL)]
        columns.append(column[:left])
        left -= len(columns[-1])
    last = f"E{len(columns[-1])}"
    sheet = "".join(
        ",".join(column[row] for column in columns if row < len(column)) + "\n" for row in range(TALL))
    lines = [f"max 1*chain!A1 + {FORMULAS}", "cell chain!A1 continuous 0 -", "end"]
    return sheet, solver_names("chain", "A1", last, None), [("model,chain", lines)]


def dots():
    """A1 to A256 are to be decided, and each of 256 rows is their product with 256 of the 511 numbers in column B."""
    numbers = [1 + draw % 9 for _, draw in zip(range(2 * CELLS - 1), draws(5))]
    sheet = ""
    for row in range(1, 2 * CELLS):
        fields = ["0" if row <= CELLS else "", str(numbers[row - 1])]
        if row <= CELLS:
            fields.append(f"=SUMPRODUCT($A$1:$A${CELLS};B{row}:B{row + CELLS - 1})")
        if row == 1:
            fields.append(f"=SUM(A1:A{CELLS})")
        sheet += ",".join(fields) + "\n"
    lines = ["max " + "".join(f"1*dots!A{cell} + " for cell in range(1, CELLS + 1)) + "0"]
    for row in range(CELLS):
        terms = "".join(f"{numbers[row + cell]}*dots!A{cell + 1} + " for cell in range(CELLS))
        lines.append(f"row {row + 1} {terms}-1000 <= 0")
    lines += [f"cell dots!A{cell} continuous 0 -" for cell in range(1, CELLS + 1)] + ["end"]
    return sheet, solver_names("dots", f"A1:A{CELLS}", "D1", (f"C1:C{CELLS}", "1000")), [("model,dots", lines)]


def bands():
    """A1 to A256 are to be decided, and each of 256 rows has up to 4 of them that are neighbours, with numbers from 1 to 3."""
    draw = draws(11)
    rows, lines = [], []
    for row in range(1, CELLS + 1):
        terms = [(1 + next(draw) % 3, cell) for cell in range(row, min(CELLS, row + 3) + 1)]
        most = 10 + next(draw) % 40
        rows.append(["0", "", "=" + "+".join(f"{number}*A{cell}" for number, cell in terms), str(most)])
        lines.append(f"row {row} " + "".join(f"{number}*bands!A{cell} + " for number, cell in terms) + f"-{most} <= 0")
    for row in rows:
        row[1] = str(1 + next(draw) % 9)
    rows[0].append(f"=SUMPRODUCT(A1:A{CELLS};B1:B{CELLS})")
    sheet = "".join(",".join(row) + "\n" for row in rows)
    lines.insert(0, "max " + "".join(f"{row[1]}*bands!A{cell} + " for cell, row in enumerate(rows, 1)) + "0")
    lines += [f"cell bands!A{cell} continuous 0 -" for cell in range(1, CELLS + 1)] + ["end"]
    names = solver_names("bands", f"A1:A{CELLS}", "E1", (f"C1:C{CELLS}", f"D1:D{CELLS}"))
    return sheet, names, [("model,bands", lines), ("solve,bands", [f"optimal {BEST}"])]


def timed(program, folder, name, script):
    """Runs the program over a script, and gives what it printed and how many seconds it took."""
    start = time.monotonic()
    words = [program, "--names", f"{name}.names.csv", f"{name}.csv"]
    run = subprocess.run(words, cwd=folder, input=script, stdout=subprocess.PIPE, text=True)
    return run.stdout, time.monotonic() - start


def measure(program, folder, name, script, want, says):
    """Runs one script several times, compares the answers, and prints the times."""
    times = []
    for _ in range(RUNS):
        printed, seconds = timed(program, folder, name, script)
        if printed != want:
            sys.exit(f"{script.strip() or name + ' without a record'}: printed {printed[:200]!r}")
        times.append(seconds)
    times.sort()
    print(f"{says}: {times[RUNS // 2]:.3f} s ({times[0]:.3f} to {times[-1]:.3f})")


def main():
    program = os.path.abspath(sys.argv[1])
    sheets = [
        ("chain", chain, f"a chain of {FORMULAS:,} formulas, the last one the objective"),
        ("dots", dots, f"{CELLS} rows of SUMPRODUCT, each of {CELLS} cells over {CELLS} decision cells"),
        ("bands", bands, f"{CELLS} rows of small whole numbers over {CELLS} decision cells"),
    ]
    print(f"seconds of whole runs, the middle of {RUNS} and the least and greatest")
    with tempfile.TemporaryDirectory() as folder:
        for name, make, says in sheets:
            sheet, names, scripts = make()
            for file, text in [(f"{name}.csv", sheet), (f"{name}.names.csv", names)]:
                with open(os.path.join(folder, file), "w") as to:
                    to.write(text)
            print(says)
            measure(program, folder, name, "", "", "  the files are read, no record")
            for record, lines in scripts:
                want = "".join(line + "\n" for line in lines)
                what = f"  the files are read, and {record}"
                if record.startswith("solve"):
                    what += f" (an opening and {PIVOTS} pivots)"
                measure(program, folder, name, record + "\n", want, what)


if __name__ == "__main__":
    if len(sys.argv) != 2:
        sys.exit(__doc__)
    main()
