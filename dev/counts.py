"""Counts what the shape of the sources is judged by: lines of imports, and clauses of contracts that are too long to read.

A line of imports begins with `use` or `pub use`, in src/, specs/ and proofs/. The `ghost use` lines of src/, which name what clauses cite,
are counted beside them. A clause is the text between the braces of a `requires` or `ensures`, its spaces folded.
"""
import re

from repository import read, tracked

MOST_IMPORTS = 10.4         # of 100 lines. Breaking lines of over 160 columns, and imports of over 140, made 9.1 of them 10.3
MOST_LONG_CLAUSES = 38
LONG = 200                  # characters of a clause
IMPORT = re.compile(r"(?:unfoldable )?(?:pub(?:\(\w+\))? )?(?:unfoldable )?use ")
CLAUSE = re.compile(r"\b(?:requires|ensures)\b\s*(\w*)\*?\s*\{")


def sources():
    """The path and the lines of each source of Rattle."""
    for path in tracked():
        if path.startswith("crates/") and path.endswith((".rt", ".antt")):
            yield path, read(path).splitlines()


def clauses(text):
    """The number of the line, the name and the text of each clause."""
    text = re.sub(r"//[^\n]*", "", text)
    for match in CLAUSE.finditer(text):
        at, depth = match.end(), 1
        while depth and at < len(text):
            depth += {"{": 1, "}": -1}.get(text[at], 0)
            at += 1
        yield text.count("\n", 0, match.start()) + 1, match[1], " ".join(text[match.end():at - 1].split())


class Counts:
    """The counts of this repository."""

    def __init__(self):
        self.lines = self.imports = self.ghosts = self.clauses = 0
        self.long = []
        for path, lines in sources():
            self.lines += len(lines)
            bare = [line.lstrip() for line in lines]
            self.imports += sum(1 for line in bare if IMPORT.match(line))
            self.ghosts += sum(1 for line in bare if line.startswith(("ghost use ", "pub ghost use ")))
            if path.endswith(".rt") and "/src/" in path:
                for number, name, text in clauses("\n".join(lines)):
                    self.clauses += 1
                    if len(text) > LONG:
                        self.long.append(f"{path}:{number}: {name or 'a clause'}, {len(text)} characters")

    def share(self, count):
        return 100 * count / max(self.lines, 1)


def faults():
    """A line for each count that is above its limit."""
    counts = Counts()
    found = []
    if counts.share(counts.imports) > MOST_IMPORTS:
        found.append(f"crates: {counts.imports:,} of {counts.lines:,} lines are imports, more than {MOST_IMPORTS:g} %")
    if len(counts.long) > MOST_LONG_CLAUSES:
        found += [f"crates: {len(counts.long)} clauses have over {LONG} characters, and {MOST_LONG_CLAUSES} may", *counts.long]
    return found


def show():
    counts = Counts()
    print(f"imports: {counts.imports:,} of {counts.lines:,} lines, {counts.share(counts.imports):.2f} %; "
          f"with {counts.ghosts:,} of clauses {counts.share(counts.imports + counts.ghosts):.2f} %")
    print(f"clauses: {len(counts.long)} of {counts.clauses:,} have over {LONG} characters")
    print("\n".join(counts.long))
