#!/usr/bin/env python3
"""Runs the example workbooks in this folder and compares what is printed and saved.

usage: run.py PROGRAM [EXAMPLE..]

Each example is a folder, at any depth, with the sheets, the names and the script, what the program must print (expected.txt) and, where
it saves, what the files must hold then (after/). An example runs on a copy, so that its files stay as they are.
"""
import os
import shutil
import subprocess
import sys
import tempfile

HERE = os.path.dirname(os.path.abspath(__file__))


def read(path):
    with open(path, "rb") as file:
        return file.read()


def faults(program, name):
    """What is wrong with the run of an example, a line each."""
    home = os.path.join(HERE, name)
    with tempfile.TemporaryDirectory() as folder:
        sheets = sorted(file for file in os.listdir(home) if file.endswith(".csv") and file not in ("names.csv", "script.csv"))
        for file in [*sheets, "names.csv"]:
            shutil.copy(os.path.join(home, file), folder)
        script = read(os.path.join(home, "script.csv"))
        run = subprocess.run([program, "--names", "names.csv", *sheets], cwd=folder, input=script, stdout=subprocess.PIPE)
        wanted, got = read(os.path.join(home, "expected.txt")).split(b"\n"), run.stdout.split(b"\n")
        if wanted != got:
            place = next((i for i, pair in enumerate(zip(wanted, got)) if pair[0] != pair[1]), min(len(wanted), len(got)))
            yield f"line {place + 1}: wanted {wanted[place:place + 1]}, printed {got[place:place + 1]}"
        status = 1 if any(line.startswith(b"refused ") for line in wanted) else 0
        if run.returncode != status:
            yield f"status: wanted {status}, was {run.returncode}"
        after = os.path.join(home, "after")
        for file in [*sheets, "names.csv"]:
            saved = os.path.join(after, file)
            if read(os.path.join(folder, file)) != read(saved if os.path.exists(saved) else os.path.join(home, file)):
                yield f"{file} holds something else after the run"


def all_examples():
    """The folders that have a script, by their paths from here."""
    return sorted(os.path.relpath(folder, HERE) for folder, _, files in os.walk(HERE) if "script.csv" in files)


def main():
    program = os.path.abspath(sys.argv[1])
    names = sys.argv[2:] or all_examples()
    failed = 0
    for name in names:
        found = list(faults(program, name))
        failed += bool(found)
        print(f"{name}: {'; '.join(found) or 'as expected'}")
    sys.exit(f"{failed} of {len(names)} failed" if failed else None)


if __name__ == "__main__":
    if len(sys.argv) < 2:
        sys.exit(__doc__)
    main()
