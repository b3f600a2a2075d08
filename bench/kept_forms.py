#!/usr/bin/env python3
"""Times a first solve in a workbook of 10,000 formulas, and pairs of a set of one number and a solve behind it.

usage: kept_forms.py PROGRAM [PROGRAM]*

The model has 20 decision cells and needs 2,000 of the formulas: 1,800 products of a number and a decision cell, 180 sums of ten products,
their sum as the objective, and 19 rows. A set changes the number of one product, which touches that product, one sum and the objective.
The first solve is the difference of a run with it and one without; a pair is the difference of a run of 200 pairs and one of 100, over
100. Each pair of runs is made five times for each program, the programs in turns, and the middle is given, with the ratio of a pair to the
first solve.
"""
import os
import subprocess
import sys
import tempfile
import time

DECISIONS = 20
PRODUCTS = 1800
SUMMED = 10
OTHERS = 8000
TIMES = 5


def write_files(folder):
    """Writes the sheet and its names. Column A has numbers, B the products, C their sums and the rows, E the decision cells."""
    sums = PRODUCTS // SUMMED
    lines = []
    for row in range(1, PRODUCTS + 1):
        cells = [str(row % 7), f"=A{row}*$E${row % DECISIONS + 1}", "", "", "0" if row <= DECISIONS else ""]
        if row <= sums:
            cells[2] = f"=SUM(B{SUMMED * (row - 1) + 1}:B{SUMMED * row})"
        elif row == sums + 1:
            cells[2] = f"=SUM(C1:C{sums})"
        elif row < sums + 1 + DECISIONS:
            first = row - sums - 1
            cells[2] = f"=$E${first}+2*$E${first + 1}"
        for other in range(OTHERS // PRODUCTS + 1):
            if other * PRODUCTS + row <= OTHERS:
                cells.append(f"=A{row}+{other}")
        lines.append(",".join(cells) + "\n")
    with open(os.path.join(folder, "plan.csv"), "w") as sheet:
        sheet.write("".join(lines))
    with open(os.path.join(folder, "names.csv"), "w") as names:
        names.write(f"plan,solver_adj,$E$1:$E${DECISIONS}\nplan,solver_opt,$C${sums + 1}\nplan,solver_typ,1\nplan,solver_neg,1\n")
        names.write(f"plan,solver_num,1\nplan,solver_lhs1,$C${sums + 2}:$C${sums + DECISIONS}\nplan,solver_rel1,1\nplan,solver_rhs1,100\n")


def script_of(solves, pairs):
    """One solve or none, and so many pairs behind it."""
    records = ["solve,plan"] * solves
    for place in range(pairs):
        row = place * 37 % PRODUCTS + 1
        records += [f"set,plan!A{row},{place % 5}", "solve,plan"]
    return "".join(record + "\n" for record in records)


def seconds(program, folder, solves, pairs):
    """How long a run takes, and what it prints."""
    words = [program, "--names", "names.csv", "plan.csv"]
    start = time.monotonic()
    run = subprocess.run(words, cwd=folder, input=script_of(solves, pairs), stdout=subprocess.PIPE, text=True)
    taken = time.monotonic() - start
    if len(run.stdout.splitlines()) != solves + 2 * pairs or "refused" in run.stdout:
        sys.exit(f"printed {run.stdout[:200]!r}")
    return taken, run.stdout


def middle(found):
    return sorted(found)[len(found) // 2]


def main():
    programs = [os.path.abspath(word) for word in sys.argv[1:]]
    firsts = {program: [] for program in programs}
    pairs = {program: [] for program in programs}
    with tempfile.TemporaryDirectory() as folder:
        write_files(folder)
        for _ in range(TIMES):
            said = set()
            for program in programs:
                none, _ = seconds(program, folder, 0, 0)
                one, _ = seconds(program, folder, 1, 0)
                half, _ = seconds(program, folder, 1, 100)
                whole, printed = seconds(program, folder, 1, 200)
                firsts[program].append(one - none)
                pairs[program].append((whole - half) / 100)
                said.add(printed)
            if len(said) != 1:
                sys.exit("the programs print different answers")
    for program in programs:
        first, pair = middle(firsts[program]), middle(pairs[program])
        print(f"{program}: the first solve {first * 1e3:.1f} ms, a pair {pair * 1e3:.2f} ms, {pair / first:.3f} of it")


if __name__ == "__main__":
    if len(sys.argv) < 2:
        sys.exit(__doc__)
    main()
