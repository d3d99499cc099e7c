"""The places that a new counter, state, command .. takes: each has a tag `[add: NAME]` in a comment.

CONTRIBUTING.md, "How to add something", names the tags; `python3 dev.py add NAME` prints their places.
"""
import re
import sys

from repository import Crates, read, tracked

TAG = re.compile(r"\[add: ([a-z][a-z, -]*)\]")
MARKS = re.compile(r"^\s*(?:///?|//!|--|#+(?![\[!])|/\*+|\*|<!--)\s*|\s*(?:\*/|-->)\s*$")
TABLE = "CONTRIBUTING.md"
SKIPPED = (".png", ".img", ".slip", ".xz", ".pcap", ".wasm")
PARTS = ("src", "specs", "proofs", "must-fail")
GENERATED = ("docs/DEFINITIONS.md", "docs/GUARANTEE.md", "crates/rexmit_timer/FIRST_PROOF.md")
MOST_TEXT = 200


def order_of(path, crates):
    """Crates as in crates.txt, src before specs before proofs; then all other files."""
    parts = path.split("/")
    if parts[0] != "crates" or parts[1] not in crates:
        return len(crates), 0, path
    return list(crates).index(parts[1]), PARTS.index(parts[2]) if parts[2] in PARTS else len(PARTS), path


def places(crates):
    """For each tag its places: the path, the number of the line, its comment, and the code that the comment is about."""
    found = {}
    for path in sorted(tracked(), key=lambda it: order_of(it, crates.below)):
        if path in (TABLE, *GENERATED) or path.endswith(SKIPPED) or path.startswith("dev/"):
            continue
        lines = read(path).split("\n")
        for number, line in enumerate(lines, 1):
            for match in TAG.finditer(line):
                for name in match[1].split(","):
                    found.setdefault(name.strip(), []).append((path, number, *about(lines, number - 1)))
    return found


def about(lines, at):
    """The comment of a tag, from its first line on, and its code: that of the line, or the next line that is no comment."""
    line = TAG.sub("", lines[at])
    inline = re.match(r"(.*\S)\s+(?://+|--|#|/\*)\s(.*)", line)
    if inline and not MARKS.match(line):
        return bare(inline[2]), inline[1].strip()
    text, above = bare(line), at - 1
    while above >= 0 and MARKS.match(lines[above]) and bare(lines[above]) and not TAG.search(lines[above]):
        text, above = f"{bare(lines[above])} {text}".strip(), above - 1
    code = next((it for it in lines[at + 1:at + 12] if it.strip() and not MARKS.match(it) and not it.strip().startswith("#[")), "")
    return text if len(text) <= MOST_TEXT else "... " + text[-MOST_TEXT:], code.strip()


def bare(line):
    """The text of a line of a comment."""
    return MARKS.sub("", MARKS.sub("", line)).strip()


def rows():
    """The tags that the table names, each with the number of its line."""
    lines = read(TABLE).split("\n")
    return {name: number for number, line in enumerate(lines, 1) for name in re.findall(r"dev\.py add ([a-z][a-z-]*)", line)}


def faults(crates):
    """The tags that the table names and no source has, and those that a source has and the table does not name."""
    named, found = rows(), places(crates)
    lost = [f"{TABLE}:{number}: no source has the tag [add: {name}]" for name, number in named.items() if name not in found]
    return lost + [f"{found[name][0][0]}:{found[name][0][1]}: {TABLE} does not name `dev.py add {name}`" for name in found if name not in named]


def main(words):
    found = places(Crates())
    if len(words) != 1:
        sys.exit("dev.py: add NAME, one of: " + (", ".join(f"{name} ({len(it)})" for name, it in sorted(found.items())) or "no source has a tag"))
    if words[0] not in found:
        sys.exit(f"dev.py: no source has the tag [add: {words[0]}]")
    for path, number, text, code in found[words[0]]:
        print(f"{path}:{number}: {text}" + (f"\n    {code}" if code else ""))
