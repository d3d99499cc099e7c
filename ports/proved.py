#!/usr/bin/env python3
"""Writes what the proof states of a kept module and its text does not (to_c/proved.py).

    python3 ports/proved.py KIT CRATES MODULE.ll OUT.json      KIT is that which proved the libraries; their MIR is in CRATES/NAME/out and KIT/rlibs
"""
import json
import sys

from to_c import proved


def main():
    if len(sys.argv) != 5:
        sys.exit(__doc__)
    kit, crates, module, out = sys.argv[1:]
    with open(module, encoding="utf8") as file:
        text = file.read()
    facts = proved.facts_of(text, proved.mir_of(kit, crates, text), kit)
    with open(out, "w", encoding="utf8") as file:
        json.dump(facts, file, indent=0, sort_keys=True)
        file.write("\n")
    sums, lengths = (sum(bool(fact[name]) for fact in facts.values()) for name in ("sums", "lengths"))
    print(f"{module}: {sums} functions whose sums do not wrap, {lengths} that are given slices")


if __name__ == "__main__":
    main()
