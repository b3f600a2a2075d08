#!/usr/bin/env python3
"""Tells how much memory a search takes whose dictionaries are as large as a model by itself makes them, and full.

    python3 bench/memory.py PROGRAM [EARLIER]

512 cells that may be negative, 256 equations with a number for each of them, and a value to be reached: that makes 514 rows of 1,024
columns, to which the dictionary adds one for its first phase. The search is cut after its first pivots. The most memory that a run takes is told beside
that of one that only reads the files and of one that prints the model, and beside the size of the entries of the dictionary's rows.
"""
import os
import subprocess
import sys
import tempfile

CELLS, EQUATIONS = 512, 256
UNITS = 6
ENTRY_BYTES = 48
ROWS, COLUMNS = 2 * (EQUATIONS + 1), 2 * CELLS + 1


def draws(x):
    """Small whole numbers that look like drawn ones and are the same in each run."""
    while True:
        x = (1103515245 * x + 12345) % 2**31
        yield x // 65536


def write(folder):
    """The sheet: cells in A, 767 numbers in B, of which each row has 512, the rows in C and the objective in D."""
    numbers = [1 + draw % 9 for _, draw in zip(range(CELLS + EQUATIONS - 1), draws(5))]
    with open(os.path.join(folder, "full.csv"), "w") as file:
        for row in range(1, CELLS + EQUATIONS):
            fields = ["0" if row <= CELLS else "", str(numbers[row - 1])]
            if row <= EQUATIONS:
                fields.append(f"=SUMPRODUCT($A$1:$A${CELLS};B{row}:B{row + CELLS - 1})")
            if row == 1:
                fields.append(f"=SUM(A1:A{CELLS})")
            file.write(",".join(fields) + "\n")
    names = [("adj", f"A1:A{CELLS}"), ("opt", "D1"), ("typ", "3"), ("val", "7"), ("neg", "2"), ("num", "1"),
             ("lhs1", f"C1:C{EQUATIONS}"), ("rel1", "2"), ("rhs1", "1000")]
    with open(os.path.join(folder, "full.names.csv"), "w") as file:
        file.writelines(f"full,solver_{name},{text}\n" for name, text in names)


def peak(program, folder, script, want):
    """The most memory that a run over the script takes, in MB."""
    words = [program, "--names", "full.names.csv", "--budget", str(UNITS), "full.csv"]
    run = subprocess.Popen(words, cwd=folder, stdin=subprocess.PIPE, stdout=subprocess.PIPE, text=True)
    run.stdin.write(script)
    run.stdin.close()
    printed = run.stdout.read()
    _, _, usage = os.wait4(run.pid, 0)
    if not printed.startswith(want):
        sys.exit(f"printed {printed[:200]!r} in place of {want!r}")
    return usage.ru_maxrss / 1000


def main():
    print(f"entries of {ROWS} rows and {COLUMNS} columns: {ROWS * COLUMNS * ENTRY_BYTES / 1e6:.1f} MB")
    with tempfile.TemporaryDirectory() as folder:
        write(folder)
        for program in map(os.path.abspath, sys.argv[1:]):
            idle = peak(program, folder, "", "")
            model = peak(program, folder, "model,full\n", "")
            solving = peak(program, folder, "solve,full\n", f"refused budget {UNITS}")
            print(f"{program}: {idle:.1f} MB to read the files, {model:.1f} to print the model, {solving:.1f} for {UNITS} units")


if __name__ == "__main__":
    main()
