#!/usr/bin/env python3
"""Times the program, and tells its memory, where 16,384 formulas refer to 1,024 columns each.

usage: strips.py PROGRAM

Each formula has a strip in each column of a sheet, 16,777,216 in all. The first line is a run that only reads the files, the
second one that shows a cell too, for which the strips are made.
"""
import os
import resource
import subprocess
import sys
import tempfile
import time

ROWS = 4096


def write_files(folder):
    """Writes a sheet of formulas, four in a row, a sheet with one number, and a file of no names."""
    with open(os.path.join(folder, "plan.csv"), "w") as sheet:
        for row in range(1, ROWS + 1):
            sheet.write(",".join([f"=SUM(flow!$A${row}:$AMJ${row})"] * 4) + "\n")
    with open(os.path.join(folder, "flow.csv"), "w") as sheet:
        sheet.write("7\n")
    open(os.path.join(folder, "names.csv"), "w").close()


def timed(program, folder, script):
    """Runs the program over a script, and gives what it printed, how many seconds it took and the most memory in MB so far."""
    start = time.monotonic()
    words = [program, "--names", "names.csv", "plan.csv", "flow.csv"]
    run = subprocess.run(words, cwd=folder, input=script, stdout=subprocess.PIPE, text=True)
    return run.stdout, time.monotonic() - start, resource.getrusage(resource.RUSAGE_CHILDREN).ru_maxrss / 1024


def main():
    program = os.path.abspath(sys.argv[1])
    with tempfile.TemporaryDirectory() as folder:
        write_files(folder)
        for name, script, want in [("open", "", ""), ("show", "show,plan!A1\n", "number 7\n")]:
            printed, seconds, most = timed(program, folder, script)
            if printed != want:
                sys.exit(f"{name}: {printed!r} and not {want!r}")
            print(f"{name:<6} {seconds:.3f} s, {most:.0f} MB")


if __name__ == "__main__":
    main()
