#!/usr/bin/env python3
"""Times the program where it shows one cell of a sheet with 16,000 sums of 4,000 cells each.

usage: one_cell.py PROGRAM
"""
import os
import resource
import subprocess
import sys
import tempfile
import time

ROWS = 4000
SUM = f"=SUM($A$1:$A${ROWS})"
WANT = f"number {ROWS * (ROWS + 1) // 2}\n"


def write_files(folder):
    """Writes the sheet, with numbers in its first column and sums in the next four, and a file of no names."""
    with open(os.path.join(folder, "plan.csv"), "w") as sheet:
        for row in range(1, ROWS + 1):
            sheet.write(",".join([str(row)] + [SUM] * 4) + "\n")
    open(os.path.join(folder, "names.csv"), "w").close()


def timed(program, folder, script):
    """Runs the program over a script, and gives what it printed and how many seconds it took."""
    start = time.monotonic()
    words = [program, "--names", "names.csv", "plan.csv"]
    run = subprocess.run(words, cwd=folder, input=script, stdout=subprocess.PIPE, text=True)
    return run.stdout, time.monotonic() - start


def main():
    program = os.path.abspath(sys.argv[1])
    with tempfile.TemporaryDirectory() as folder:
        write_files(folder)
        for name, script, want in [("open", "", ""), ("show", f"show,plan!E{ROWS}\n", WANT)]:
            printed, seconds = timed(program, folder, script)
            if printed != want:
                sys.exit(f"{name}: printed {printed!r}")
            print(f"{name}: {seconds:.3f} s")
    peak = resource.getrusage(resource.RUSAGE_CHILDREN).ru_maxrss
    print(f"most memory: {peak / 1024:.0f} MB")


if __name__ == "__main__":
    if len(sys.argv) != 2:
        sys.exit(__doc__)
    main()
