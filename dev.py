#!/usr/bin/env python3
"""Commands for work on this repository. `rt` proves and builds; these look at the rest.

    python3 dev.py above CRATE ..     the crates that a change of these checks again, lowest first, with the seconds of their last check
    python3 dev.py check CRATE ..     checks these crates and all above them: layout, proof, edits; ends at the first failure
    python3 dev.py check --alone CRATE ..   checks these crates only
    python3 dev.py layers             the layers of crates.txt with their crates, the seconds of their last check, and the longest chain
    python3 dev.py docs               compares the documents with the sources: status 1 if they differ
    python3 dev.py wrap PAGE ..       wraps the prose of Markdown pages at 100 columns, but no code, table or generated list
    python3 dev.py fold CRATE ..      breaks lines of over 160 columns in the crates' proofs, and imports of over 140
    python3 dev.py words [write]      counts words that the prose is losing: status 1 if a count has risen; `write` stores the counts
    python3 dev.py words at COMMIT    the sums at a commit; words in PLACE: the lines of a page or crate that have one of the words
    python3 dev.py counts             lines of imports, and clauses of over 200 characters; `docs` fails if they are above their limits
    python3 dev.py names              types of src/ that two crates define
    python3 dev.py calls              public calls that have neither a caller, nor a test, nor an edit
    python3 dev.py trusted NAME       what a definition rests on; `trusted write` writes the generated pages; `trusted --help` has the rest
    python3 dev.py add NAME           the places that a new counter, state, command .. takes: the tags `[add: NAME]` of the sources
    python3 dev.py ci                 runs `rt ci`, and prints its progress and the processor minutes by crate; its status is that of rt
    python3 dev.py gate [LOG]         those minutes of the last run that was watched in this clone, or of a log
    python3 dev.py flash [ELF]        the flash of the example board by crate, from the linked firmware

It needs Python's standard library alone; `check` and `ci` need the kit's `rt` on the path. The modules are in dev/.
The seconds of a check are stored in crates/NAME/out/seconds, which is never committed.
"""
import os
import sys

sys.dont_write_bytecode = True
sys.path.insert(0, os.path.join(os.path.dirname(os.path.abspath(__file__)), "dev"))

import add  # noqa: E402
import calls  # noqa: E402
import checks  # noqa: E402
import counts  # noqa: E402
import documents  # noqa: E402
import flash  # noqa: E402
import fold  # noqa: E402
import gate  # noqa: E402
import trusted  # noqa: E402
import words  # noqa: E402
from repository import Crates  # noqa: E402


def print_calls(crates):
    found = calls.faults(crates)
    print("\n".join(found or ["each public call has a caller, a test or an edit"]))
    sys.exit(1 if found else 0)


def of_crates(verb, names):
    """The commands whose words are crates."""
    crates = Crates()
    is_alone = "--alone" in names
    names = [it for it in names if it != "--alone"]
    lost = [it for it in names if it not in crates.below]
    if lost:
        sys.exit(f"dev.py: crates.txt has no crate {lost[0]}")
    if verb == "above":
        checks.above(crates, names)
    else:
        checks.check(crates, names, is_alone)


PLAIN = {
    "layers": lambda: checks.layers(Crates()),
    "docs": lambda: sys.exit(documents.docs(Crates())),
    "names": calls.type_names,
    "counts": counts.show,
    "calls": lambda: print_calls(Crates()),
    "ci": gate.ci,
    "gate": lambda: gate.show(None),
    "flash": lambda: flash.show(None),
}
WITH_WORDS = {
    "wrap": documents.wrap,
    "fold": fold.main,
    "above": lambda rest: of_crates("above", rest),
    "check": lambda rest: of_crates("check", rest),
}
OF_MODULES = {"words": words, "add": add, "trusted": trusted}
WITH_ONE = {"gate": gate.show, "flash": flash.show, "watch": gate.watch}


def main():
    verb, *rest = sys.argv[1:] or [""]
    if verb in OF_MODULES:
        OF_MODULES[verb].main(rest)
    elif not rest and verb in PLAIN:
        PLAIN[verb]()
    elif rest and verb in WITH_WORDS:
        WITH_WORDS[verb](rest)
    elif len(rest) == 1 and verb in WITH_ONE:
        WITH_ONE[verb](rest[0])
    else:
        print(__doc__)
        sys.exit(0 if verb in ("-h", "--help") else 2)


if __name__ == "__main__":
    main()
