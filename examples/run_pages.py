#!/usr/bin/env python3
"""Runs the commands that the pages show, and compares what they print with what stands below them.

usage: run_pages.py PROGRAM [PAGE..]

In a block of a page that begins with `$ `, each such line is a command for bash, and the lines below it are what it prints. Each block
runs from the top of a copy of the repository's examples and tools, with PROGRAM as `opensolver`, and `optcheck` as it was built beside it; what
one block of a page writes the later ones find. A block that needs a library which isn't installed, or `optcheck` where it isn't built, is
left out, with a line that says so. Ends with 1 where anything else was printed.
"""
import importlib.util
import os
import re
import shutil
import subprocess
import sys
import tempfile

TOP = os.path.dirname(os.path.dirname(os.path.abspath(__file__)))
PAGES = ["README.md", "docs/PLANNERS.md", "docs/TEACHING.md"]
MARK = "\x01"


def blocks(page):
    """The blocks of a page that begin with a command: the line where each stands, and its commands with what they print."""
    with open(os.path.join(TOP, page), encoding="utf-8") as file:
        text = file.read()
    for found in re.finditer(r"^```\n(\$ .*?)^```$", text, re.MULTILINE | re.DOTALL):
        parts = re.split(r"^\$ (.*)\n", found[1], flags=re.MULTILINE)[1:]
        yield text[:found.start()].count("\n") + 2, list(zip(parts[::2], parts[1::2]))


def printed(commands, folder):
    """What the commands of a block print, one after the other in one shell."""
    script = "".join(f"printf '{MARK}'\n{command}\n" for command, _ in commands)
    path = os.path.join(folder, ".bin")
    run = subprocess.run(["bash", "-c", script], cwd=folder, env={**os.environ, "PATH": f"{path}:{os.environ['PATH']}"},
                         stdout=subprocess.PIPE, stderr=subprocess.STDOUT, encoding="utf-8")
    return run.stdout.split(MARK)[1:]


def copy_to(folder, program):
    """A copy of what the pages use, with the program and this Python on its path."""
    for name in ("examples", "tools"):
        shutil.copytree(os.path.join(TOP, name), os.path.join(folder, name))
    os.mkdir(os.path.join(folder, ".bin"))
    os.symlink(program, os.path.join(folder, ".bin", "opensolver"))
    if os.path.exists(checker(program)):
        os.symlink(checker(program), os.path.join(folder, ".bin", "optcheck"))
    os.symlink(sys.executable, os.path.join(folder, ".bin", "python3"))


def checker(program):
    """Where `optcheck` is, if it is built beside the program."""
    return os.path.join(os.path.dirname(program), "..", "..", "optcheck", "out", "optcheck")


def needs(commands):
    """The libraries without which a block can't run."""
    text = " ".join(command for command, _ in commands)
    return [library for library, words in (("odf", r"workbook\.py .*\.ods"), ("openpyxl", r"workbook\.py .*\.xlsx")) if re.search(words, text)]


def faults(page, program):
    """What is wrong with a page, a line each; what is left out of it is printed."""
    skipped, missing = 0, set()
    with tempfile.TemporaryDirectory() as folder:
        copy_to(folder, program)
        for line, commands in blocks(page):
            if not os.path.exists(checker(program)) and any("optcheck " in command for command, _ in commands):
                print(f"{page}: the block at line {line} is left out, since optcheck isn't built")
                continue
            missing.update(name for name in needs(commands) if importlib.util.find_spec(name) is None)
            if missing and any("bakery" in command for command, _ in commands):
                skipped += 1
                continue
            for (command, wanted), got in zip(commands, printed(commands, folder)):
                if wanted != got:
                    yield f"line {line}: {command}: wanted {wanted!r}, printed {got!r}"
    if skipped:
        print(f"{page}: {skipped} blocks are left out, since {sys.executable} has no library {' or '.join(sorted(missing))}")


def main(program, pages):
    failed = 0
    for page in pages:
        found = list(faults(page, program))
        failed += bool(found)
        print(f"{page}: {'; '.join(found) or 'as expected'}")
    sys.exit(f"{failed} of {len(pages)} failed" if failed else None)


if __name__ == "__main__":
    if len(sys.argv) < 2:
        sys.exit(__doc__)
    main(os.path.abspath(sys.argv[1]), sys.argv[2:] or PAGES)
