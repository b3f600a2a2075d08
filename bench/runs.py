#!/usr/bin/env python3
"""Times whole runs of the program, its start among them, and prints a table.

usage: runs.py PROGRAM

Each run is made three times, and the middle of the three times is given, with the least and the greatest. The rows are the workbooks
that are made up (`--gen 1` to `--gen 12`), beside z3, glpsol and QSopt_ex on the same programs where these are installed; one `show`
over large sheets; a sheet of nearly 16 MiB that is read and saved; and then what models.py and knapsack.py beside this script print, the
models of large sheets and a search over 30 binary cells.
"""
import os
import shutil
import subprocess
import sys
import tempfile
import time

RUNS = 3
# The least cost of each size, by flows along shortest paths.
COSTS = [342, 450, 632, 518, 364, 416, 336, 383, 357, 357, 349, 414]


def timed(words, folder, script, accepts):
    """The middle, least and greatest seconds of some runs, whose output is looked at."""
    seconds = []
    for _ in range(RUNS):
        start = time.monotonic()
        run = subprocess.run(words, cwd=folder, input=script, stdout=subprocess.PIPE, stderr=subprocess.DEVNULL, text=True)
        seconds.append(time.monotonic() - start)
        if not accepts(run.stdout):
            return f"printed {run.stdout[:60]!r}"
    seconds.sort()
    return f"{seconds[RUNS // 2]:.3f} s  ({seconds[0]:.3f} to {seconds[-1]:.3f})"


def drawn(size):
    """The costs by rows, and the demands, of the workbook of a size."""
    x, draws = 1, []
    for _ in range(size * size + size):
        x = (1103515245 * x + 12345) % 2**31
        draws.append(x // 65536)
    costs = [[1 + draws[i * size + j] % 20 for j in range(size)] for i in range(size)]
    return costs, [10 + draw % 10 for draw in draws[size * size:]]


def as_smt(size):
    """The program for z3."""
    costs, demands = drawn(size)
    every = [(i, j) for i in range(size) for j in range(size)]
    lines = [f"(declare-const x{i}_{j} Real)\n(assert (>= x{i}_{j} 0))" for i, j in every]
    lines += ["(assert (<= (+ 0 " + " ".join(f"x{i}_{j}" for j in range(size)) + ") 20))" for i in range(size)]
    lines += ["(assert (>= (+ 0 " + " ".join(f"x{i}_{j}" for i in range(size)) + f") {demands[j]}))" for j in range(size)]
    lines.append("(minimize (+ 0 " + " ".join(f"(* {costs[i][j]} x{i}_{j})" for i, j in every) + "))")
    return "\n".join(lines + ["(check-sat)", "(get-objectives)"]) + "\n"


def as_lp(size):
    """The program in the format of CPLEX, for glpsol and QSopt_ex."""
    costs, demands = drawn(size)
    lines = ["Minimize", " cost: " + " + ".join(f"{costs[i][j]} x{i}_{j}" for i in range(size) for j in range(size)), "Subject To"]
    lines += [f" s{i}: " + " + ".join(f"x{i}_{j}" for j in range(size)) + " <= 20" for i in range(size)]
    lines += [f" d{j}: " + " + ".join(f"x{i}_{j}" for i in range(size)) + f" >= {demands[j]}" for j in range(size)]
    return "\n".join(lines + ["End"]) + "\n"


def made_up(program, folder):
    """A row for each size: the program, and the other solvers."""
    for size, cost in enumerate(COSTS, 1):
        for name, text in ("smt2", as_smt(size)), ("lp", as_lp(size)):
            with open(os.path.join(folder, f"gen.{name}"), "w") as file:
                file.write(text)
        want = f"gen {size} optimal {cost}\n"
        yield f"--gen {size}", timed([program, "--gen", str(size)], folder, "", lambda out: out == want)
        others = [("z3", ["z3", "gen.smt2"]), ("glpsol", ["glpsol", "--exact", "--lp", "gen.lp"]), ("esolver", ["esolver", "-L", "gen.lp"])]
        for name, words in others:
            if shutil.which(name):
                yield f"  {name}", timed(words, folder, "", lambda out: str(cost) in out or name == "esolver")


def write(folder, name, text):
    with open(os.path.join(folder, f"{name}.csv"), "w") as file:
        file.write(text)


def shows(program, folder):
    """One `show` each over a chain of formulas, a long sum, and many sums."""
    write(folder, "names", "")
    chain = [["1"] + [f"=A{row}+1" for row in range(1, 4096)]]
    for letter, before in zip("BCD", "ABC"):
        chain.append([f"={before}4096+1"] + [f"={letter}{row}+1" for row in range(1, 4096)])
    write(folder, "chain", "".join(",".join(column[row] for column in chain) + "\n" for row in range(4096)))
    numbers = [",".join("1" for _ in range(16)) for _ in range(4096)]
    write(folder, "long", "\n".join(numbers[:-1] + [",".join(["1"] * 15) + ",=SUM(A1:P4095;A4096:O4096)"]) + "\n")
    sums = [f"{row},=SUM($A$1:$A$4000)" + (f"+B{row - 1}" if row > 1 else "") for row in range(1, 1001)]
    write(folder, "sums", "\n".join(sums + [str(row) for row in range(1001, 4001)]) + "\n")
    for name, cell, value in ("chain", "D4096", 16384), ("long", "P4096", 65535), ("sums", "B1000", 1000 * 8002000):
        words = [program, "--names", "names.csv", f"{name}.csv"]
        yield f"show, {name}", timed(words, folder, f"show,{name}!{cell}\n", lambda out: out == f"number {value}\n")


def saves(program, folder):
    """A sheet of nearly 16 MiB that is read and saved as it is."""
    text = ("x" * 8190 + "\n") * 2048
    write(folder, "big", text)
    words = [program, "--names", "names.csv", "big.csv"]
    yield "read 16 MiB", timed(words, folder, "", lambda out: out == "")
    yield "read and save 16 MiB", timed(words, folder, "clear,big!IV4096\nsave\n", lambda out: out == "ok\nsaved 1\n")
    with open(os.path.join(folder, "big.csv")) as file:
        if file.read() != text:
            yield "  what was saved", "differs"


def main():
    program = os.path.abspath(sys.argv[1])
    with tempfile.TemporaryDirectory() as folder:
        for rows in made_up, shows, saves:
            for name, row in rows(program, folder):
                print(f"{name:24} {row}", flush=True)
    here = os.path.dirname(os.path.abspath(__file__))
    for script in "models.py", "knapsack.py":
        print(flush=True)
        subprocess.run([sys.executable, os.path.join(here, script), program], check=True)
    missing = [name for name in ("z3", "glpsol", "esolver") if not shutil.which(name)]
    if missing:
        print(f"not installed, so not timed: {', '.join(missing)}")


if __name__ == "__main__":
    if len(sys.argv) != 2:
        sys.exit(__doc__)
    main()
