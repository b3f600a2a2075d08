#!/usr/bin/env python3
"""paths.py [NAME..]: how many paths lead through crates.txt down from each crate, and about how many seconds the gate takes to walk them.

The gate reads the files of a library once for each path that leads to it, before and behind the proof of each library above it."""
import os
import sys

OPENING, FILE, BYTE = 0.15, 0.045, 1.2e-6  # milliseconds, measured on a busy machine


def lines():
    """Returns the crates of the repository that each crate uses, lowest first."""
    used = {}
    with open("crates.txt", encoding="utf-8") as file:
        for line in file:
            name, colon, libraries = line.partition(":")
            if colon and not line.startswith("#"):
                used[name] = libraries.split()
    ordered = []

    def put(name):
        if name not in ordered:
            for library in used[name]:
                if library in used:
                    put(library)
            ordered.append(name)

    for name in used:
        put(name)
    return {name: [it for it in used[name] if it in used] for name in ordered}


def reading(name):
    """Returns about how many milliseconds it takes to read a crate's files once."""
    files = [f"{at}/{it}" for part in ("src", "specs", "proofs") for at, _, names in os.walk(f"crates/{name}/{part}") for it in names]
    return OPENING + FILE * len(files) + BYTE * sum(map(os.path.getsize, files))


def main():
    paths, cost, total = {}, {}, 0
    for name, used in lines().items():
        paths[name] = 1 + sum(paths[it] for it in used)
        cost[name] = reading(name) + sum(cost[it] for it in used)
        if not os.path.isfile(f"crates/{name}/src/main.rt"):
            total += 2 * cost[name] / 1000
    for name in sys.argv[1:] or sorted(paths, key=paths.get)[-20:]:
        print(f"{name}: {paths[name]} paths, {cost[name] / 1000:.1f} seconds")
    print(f"all libraries, twice each: {total:.0f} seconds")


if __name__ == "__main__":
    main()
