#!/usr/bin/env python3
"""Plants wrong figures in the documents that have those of uIP and lwIP: the comparison of tables.py must find each.

    python3 bench/peers/test.py
"""
import re
import sys

import tables


def planted(name, text, figures):
    """The text with one figure changed, for each figure of a row or block that run.py writes, and with such a row or block missing."""
    lines = text.splitlines(keepends=True)
    rows = list(tables.ROWS[name](figures)) if name in tables.ROWS else []
    is_in_block = False
    for at, line in enumerate(lines):
        is_in_block = line.startswith("<!-- figures: ") or is_in_block and line != "<!-- to here -->\n"
        label = line.split(" | ")[0].removeprefix("| ")
        first = line.index(" | ") + 3 if label in rows else 0
        if not is_in_block and label not in rows:
            continue
        for found in re.finditer(r"\d", line):
            if found.start() >= first:
                yield "".join([*lines[:at], line[:found.start()], str((int(found[0]) + 1) % 10), line[found.end():], *lines[at + 1:]])
        yield "".join(lines[:at] + lines[at + 1:])


def main():
    figures, missed, count = tables.load(), [], 0
    texts = {name: tables.read_document(name) for name in tables.DOCUMENTS}
    if tables.differences(texts.get, figures):
        sys.exit("bench/peers: the documents have other figures than figures.json")
    for name, text in texts.items():
        for wrong in planted(name, text, figures):
            count += 1
            if not tables.differences({**texts, name: wrong}.get, figures):
                missed.append(name)
    print(f"bench/peers: {count} wrong figures planted, {len(missed)} missed")
    return int(bool(missed) or count < 100)


if __name__ == "__main__":
    sys.exit(main())
