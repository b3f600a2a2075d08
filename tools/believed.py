#!/usr/bin/env python3
"""Lists the definitions on which statements rest: those that a reader must believe.

usage: believed.py [--as-read] [CRATE.FILE.NAME..]

A statement is named by its crate, its file of specs/ and its name: `optcheck_cli.Verdicts.HoldsOnSheet` is what a yes of `optcheck` means,
`sheet_solving.Solving.IsSolved` what `optimal` means. Without words it is the contract of the program's call `run`. Each line printed has a
crate, how many of its definitions are reached and how many lines they have, and the files that hold them. What a file hands on is counted
where it is defined.

A value has to be one, so a formula's tree and a reference's area are also functions of their texts, and these go through a text in
the order of the reading. A reader need not believe them: laws that are proved say that they give exactly what the grammar spells, a
relation. So these laws are listed in their place, with what they say. With `--as-read` the functions themselves are listed.
"""
import collections
import os
import re
import sys

CRATES = os.path.join(os.path.dirname(os.path.abspath(__file__)), "..", "crates")
HEADLINE = ["opensolver_cli.Headline.RunsAs", "opensolver_cli.Completeness.EndsExactly", "opensolver_cli.Headline.IsCounted", "opensolver_cli.Completeness.IsComplete"]

# functions of a text, the law that says what they give, and the function whose contract it is
LAWS = {
    ("formula_parser", "TextTrees", "tree_in"): (("formula_parser", "TextTrees", "TreesAreSpelled"), "formula_parser::trees_are_spelled"),
    ("formula_parser", "TextTrees", "area_in"): (("text_laws", "Areas", "AreasAreSpelled"), "text_laws::areas_are_spelled"),
}

NAMED = re.compile(r"(?:unfoldable )?(?:pub )?use Rattle\.(\w+)\.specs\.([\w.]+?)\.\{(.*)\}$")
FILE = re.compile(r"(?:unfoldable )?(?:pub )?use Rattle\.(\w+)\.specs\.([\w.]+) as (\w+)$")
MUTUAL = re.compile(r"(?:abbrev |unfoldable )?mutual")
TYPE = re.compile(r"(?:  )?(?:(?:abbrev|unfoldable) )?(?:pub )?(record|data) (\S+)")
TOP = re.compile(r"(?:(?:abbrev|unfoldable) (?:pub )?|pub )(\S+) :")
INNER = re.compile(r"  (?:(?:abbrev|unfoldable) )?pub (\S+) :")
CONSTRUCTOR = re.compile(r"\s+(\S+) :")


class Specs:
    """All definitions: their lines, the types of constructors, and what each file imports."""

    def __init__(self):
        self.lines, self.types, self.imports = {}, {}, {}
        for crate in sorted(os.listdir(CRATES)):
            folder = os.path.join(CRATES, crate, "specs")
            for file in sorted(os.listdir(folder)) if os.path.isdir(folder) else []:
                if file.endswith(".antt") and file != "Lib.antt":
                    with open(os.path.join(folder, file), encoding="utf-8") as text:
                        self.read(crate, file[:-5], text.read().split("\n"))

    def read(self, crate, file, lines):
        """Takes the definitions of a file."""
        imports, now, is_data, in_mutual = self.imports.setdefault((crate, file), {}), None, False, False
        for line in lines:
            if self.is_import(imports, line) or not line.strip() or line.strip().startswith("--"):
                continue
            if MUTUAL.match(line):
                now, in_mutual = None, True
                continue
            type_, top = TYPE.match(line), TOP.match(line)
            inner = INNER.match(line) if in_mutual and not top else None
            in_mutual = in_mutual and line.startswith("  ")
            if type_ or top or inner:
                now, is_data = (crate, file, type_.group(2) if type_ else (top or inner).group(1)), bool(type_) and type_.group(1) == "data"
                self.lines[now] = []
            if now:
                self.lines[now].append(line)
                if is_data and CONSTRUCTOR.match(line):
                    self.types[(crate, file, CONSTRUCTOR.match(line).group(1))] = now

    @staticmethod
    def is_import(imports, line):
        """Takes an import, and returns whether the line is one."""
        named, file = NAMED.match(line), FILE.match(line)
        for word in named.group(3).split(",") if named else []:
            name, _, here = word.strip().partition(" as ")
            imports[here or name] = (named.group(1), named.group(2), name)
        if file:
            imports[file.group(3)] = (file.group(1), file.group(2), None)
        return bool(named or file)

    def found(self, key):
        """The definition of this key, also where the file only hands it on, or the type of this constructor."""
        while key is not None and key not in self.lines and key not in self.types:
            key = self.imports.get(key[:2], {}).get(key[2])
        return key if key in self.lines else self.types.get(key)

    def meant(self, crate, file, word):
        """The definitions that a word of a file may mean."""
        imports = self.imports[(crate, file)]
        for name in {word, "◌" + word + "◌"}:
            yield self.found((crate, file, name)) or self.found(imports.get(name))
        module, point, name = word.partition(".")
        if point and module in imports and imports[module][2] is None:
            yield self.found((*imports[module][:2], name))

    def reached(self, starts, laws):
        """The definitions on which these rest, and they themselves; in the place of what has a law stands that law."""
        seen, left = set(), list(starts)
        while left:
            key = left.pop()
            key = laws[key][0] if key in laws else key
            if key is None or key in seen:
                continue
            seen.add(key)
            for word in set(re.findall(r"[^\s(){};,λ]+", "\n".join(self.lines[key]))):
                left.extend(self.meant(key[0], key[1], word))
        return seen


def main():
    specs = Specs()
    words = [word for word in sys.argv[1:] if word != "--as-read"]
    laws = {} if "--as-read" in sys.argv[1:] else LAWS
    starts = [tuple(word.split(".")) for word in words or HEADLINE]
    lacking = [".".join(key) for key in starts if key not in specs.lines]
    if lacking:
        sys.exit(f"there is no statement {lacking[0]}")
    count, lines, files = collections.Counter(), collections.Counter(), collections.defaultdict(set)
    reached = specs.reached(starts, laws)
    for key in reached:
        count[key[0]] += 1
        lines[key[0]] += len(specs.lines[key])
        files[key[0]].add(key[1])
    for crate in sorted(count):
        print(f"{crate}: {count[crate]} definitions, {lines[crate]} lines ({', '.join(sorted(files[crate]))})")
    for function, (law, said_by) in sorted(laws.items()):
        if law in reached:
            print(f"in the place of {'.'.join(function)}: {'.'.join(law)}, as {said_by} proves")
    print(f"altogether {count.total()} of {len(specs.lines)} definitions, {lines.total()} of {sum(map(len, specs.lines.values()))} lines")


if __name__ == "__main__":
    main()
