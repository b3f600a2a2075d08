#!/usr/bin/env python3
"""Runs the gate and tells what it costs, by crate.

usage: gate.py [WORD..]

Runs `rt ci WORD..` in the repository, and looks at its processes every half second. When it has ended, a table has for each crate the
processor seconds of its proof, of the proof of its tests, and of its edits with the check that they begin with, and the most memory of
one check in GB; behind it stand what the compilers and links took, all processor minutes (user and system, as `time` counts them, so
nothing is missed there) and the minutes by the clock. A process that ends between two looks counts half a second less. The status is
that of the gate.
"""
import collections
import os
import resource
import subprocess
import sys
import time

ROOT = os.path.join(os.path.dirname(os.path.abspath(__file__)), "..")
TICKS = os.sysconf("SC_CLK_TCK")


def kind_of(words, folder):
    """Says what a process of the prover does: proof, tests, edits or build."""
    if "/rt-edit-" in folder:
        return "edits"
    if "--crate-checked" in words:
        return "build"
    return "tests" if "--test" in words else "proof"


def is_below(pid, top):
    """Whether the process was begun by the process top, or by one that it began."""
    while pid not in ("0", top):
        with open(f"/proc/{pid}/stat", encoding="utf-8") as it:
            pid = it.read().rpartition(")")[2].split()[1]
    return pid == top


def read(pid, top):
    """Gives of a process its crate, what it does, its processor seconds and its memory in GB; None where it is not the prover's below top."""
    with open(f"/proc/{pid}/cmdline", "rb") as it:
        words = it.read().decode(errors="replace").split("\0")
    if not words[0].endswith("/bin/rattle") or "--crate-name" not in words or not is_below(pid, top):
        return None
    with open(f"/proc/{pid}/stat", encoding="utf-8") as it:
        fields = it.read().rpartition(")")[2].split()
    with open(f"/proc/{pid}/status", encoding="utf-8") as it:
        held = next((int(line.split()[1]) for line in it if line.startswith("VmHWM:")), 0)
    seconds = sum(int(fields[at]) for at in (11, 12, 13, 14)) / TICKS
    crate = words[words.index("--crate-name") + 1]
    return (pid, fields[19]), crate, kind_of(words, os.readlink(f"/proc/{pid}/cwd")), seconds, held / 2**20


def watch(run):
    """Gives what each process of the prover came to, by its number and start, until the run has ended."""
    seen = {}
    while run.poll() is None:
        for pid in filter(str.isdigit, os.listdir("/proc")):
            try:
                found = read(pid, str(run.pid))
            except (OSError, IndexError, ValueError):
                continue
            if found:
                seen[found[0]] = found[1:]
        time.sleep(0.5)
    return seen


def table(seen):
    """Gives the lines of the table and the seconds of all that was built."""
    seconds, memory = collections.defaultdict(float), collections.defaultdict(float)
    for crate, kind, took, held in seen.values():
        seconds[crate, kind] += took
        memory[crate] = max(memory[crate], held)
    lines = ["| Crate | Proof | Tests | Edits | Memory, GB |", "|---|---|---|---|---|"]
    for crate in sorted(memory, key=lambda it: -sum(seconds[it, kind] for kind in ("proof", "tests", "edits"))):
        cells = [f"{seconds[crate, kind]:.0f}" if seconds[crate, kind] else "-" for kind in ("proof", "tests", "edits")]
        lines.append(f"| `{crate}` | {' | '.join(cells)} | {memory[crate]:.1f} |")
    sums = [sum(took for (_, of), took in seconds.items() if of == kind) / 60 for kind in ("proof", "tests", "edits", "build")]
    lines.append(f"| all, minutes | {sums[0]:.1f} | {sums[1]:.1f} | {sums[2]:.1f} | |")
    return lines, sums[3]


def main(words):
    began = time.monotonic()
    run = subprocess.Popen(["rt", "ci", *words], cwd=ROOT)
    lines, built = table(watch(run))
    used = resource.getrusage(resource.RUSAGE_CHILDREN)
    print(*lines, sep="\n")
    print(f"compilers: {built:.1f} minutes")
    print(f"all: {(used.ru_utime + used.ru_stime) / 60:.1f} processor minutes in {(time.monotonic() - began) / 60:.1f} minutes")
    return run.returncode


if __name__ == "__main__":
    sys.exit(main(sys.argv[1:]))
