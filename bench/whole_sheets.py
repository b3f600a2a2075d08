#!/usr/bin/env python3
"""Times how a program refuses names that name whole sheets, or as many areas as a text holds.

usage: whole_sheets.py PROGRAM

Each workbook has one answer. What the names take is the time beside that of the same workbook without names. Each run is made three
times, and the middle of the three times is given, with the most memory that one took.
"""
import os
import resource
import subprocess
import sys
import tempfile
import time

# their names are short, so that a text holds many areas
SHEETS = [chr(ord("a") + k) if k < 26 else "a" + chr(ord("a") + k - 26) for k in range(32)]
TEXT_BYTES = 8192


def seconds(program, folder, names, want):
    """The middle of three times of a run over the workbook with these names."""
    with open(os.path.join(folder, "names.csv"), "w") as file:
        file.writelines(f'a,{name},"{text}"\n' for name, text in names)
    words = [program, "--names", "names.csv"] + [f"{sheet}.csv" for sheet in SHEETS]
    found = []
    for _ in range(3):
        start = time.monotonic()
        run = subprocess.run(words, cwd=folder, input="solve,a\n", stdout=subprocess.PIPE, text=True)
        found.append(time.monotonic() - start)
        if run.stdout != want:
            sys.exit(f"printed {run.stdout[-80:]!r} in place of {want!r}")
    return sorted(found)[1]


def letters(column):
    """A column's letters, from 0."""
    return chr(65 + column) if column < 26 else letters(column // 26 - 1) + letters(column % 26)


def filled(areas):
    """As many of the areas, over and over, as a text holds."""
    text = ""
    while True:
        for area in areas:
            more = f"{text},{area}" if text else area
            if len(more) > TEXT_BYTES:
                return text
            text = more


def areas_in(text):
    """How many different areas the text names."""
    return len(set(text.split(",")))


def main():
    program = os.path.abspath(sys.argv[1])
    whole = ",".join(f"{sheet}!A1:AMJ4096" for sheet in SHEETS)
    rows = filled([f"A{row}:AMJ{row}" for row in range(1, 4096, 2)])
    columns = filled([f"{letters(column)}1:{letters(column)}4096" for column in range(1024)])
    listed = f"A1:{columns.rpartition(':')[2]}"
    apart = filled([f"{sheet}!A{row}" for row in range(1, 101) for sheet in SHEETS])
    marks = [("solver_num", "256")]
    relations = [("solver_num", "256")]
    for k in range(1, 257):
        marks += [(f"solver_lhs{k}", listed), (f"solver_rel{k}", "4")]
        relations += [(f"solver_lhs{k}", "A1:AMJ4096"), (f"solver_rel{k}", "1"), (f"solver_rhs{k}", "A1")]
    cases = [
        ("no names", [], "refused names 1\n"),
        ("32 whole sheets", [("solver_adj", whole)], "refused names 8 134217728\n"),
        ("rows", [("solver_adj", rows)], f"refused names 8 {1024 * areas_in(rows)}\n"),
        ("columns", [("solver_adj", columns)], f"refused names 8 {4096 * areas_in(columns)}\n"),
        ("cells of 32 sheets", [("solver_adj", apart)], f"refused names 8 {areas_in(apart)}\n"),
        ("256 times all of them marked whole", [("solver_adj", columns)] + marks, f"refused names 8 {4096 * areas_in(columns)}\n"),
        ("256 whole sheets on the left", [("solver_adj", "A1")] + relations, "refused names 9 1073741824\n"),
    ]
    with tempfile.TemporaryDirectory() as folder:
        for sheet in SHEETS:
            with open(os.path.join(folder, f"{sheet}.csv"), "w") as file:
                file.write("1\n")
        for title, names, want in cases:
            taken = seconds(program, folder, names, want)
            most = resource.getrusage(resource.RUSAGE_CHILDREN).ru_maxrss // 1024
            print(f"{title}: {taken:.3f} s, at most {most} MB so far")


if __name__ == "__main__":
    main()
