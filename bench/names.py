#!/usr/bin/env python3
"""Times 2,000 edits of one name in a large workbook, beside a run that only reads it.

usage: names.py PROGRAM

The workbook has 32,000 names and 16,000 formulas; one formula uses the name that is edited. What an edit takes is the difference of the
two times, over 2,000. Each run is made three times, and the middle of the three times is given.
"""
import os
import subprocess
import sys
import tempfile
import time

EDITS = 2000


def seconds(program, folder, script, want):
    """The middle of three times of a run over the workbook."""
    found = []
    for _ in range(3):
        start = time.monotonic()
        run = subprocess.run([program, "--names", "names.csv", "plan.csv"], cwd=folder, input=script, stdout=subprocess.PIPE, text=True)
        found.append(time.monotonic() - start)
        if run.stdout != want:
            sys.exit(f"printed {run.stdout[-60:]!r}")
    return sorted(found)[1]


def main():
    program = os.path.abspath(sys.argv[1])
    with tempfile.TemporaryDirectory() as folder:
        with open(os.path.join(folder, "names.csv"), "w") as file:
            file.writelines(f"plan,rate{k},{k}\n" for k in range(32000))
        with open(os.path.join(folder, "plan.csv"), "w") as file:
            # 4,000 rows of four formulas; the first alone uses the name rate7
            file.write("=rate7,=2*rate8,=1,=1\n")
            file.writelines(f"=rate{9 + row},=2,=3,=4\n" for row in range(3999))
        edits = "".join(f"name,plan,rate7,{k}\n" for k in range(EDITS))
        read = seconds(program, folder, "", "")
        edited = seconds(program, folder, edits + "show,plan!A1\n", "ok\n" * EDITS + f"number {EDITS - 1}\n")
    print(f"the workbook is read: {read:.3f} s")
    print(f"and a name edited {EDITS} times: {edited:.3f} s, {(edited - read) / EDITS * 1e6:.0f} microseconds an edit")


if __name__ == "__main__":
    main()
