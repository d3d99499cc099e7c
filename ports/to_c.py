#!/usr/bin/env python3
"""Translates the library's LLVM modules into one file of C99, for any compiler and any processor with addresses of 32 or 64 bits.

    python3 ports/to_c.py MODULES CLANG OUT.c       MODULES is the folder with uip_c.ll, uip_app_c.ll, uip_both_c.ll, and .json (module.sh)
    python3 ports/to_c.py --plain MODULE.ll OUT.c   one module as it is, without the calls of the headers (for the tests)

CLANG is that of the kit: it optimises each module for size, before the translation.

The rule: at addresses below 2^32, or of 64 bits, OUT.c does what the module does, and every object in memory has the same bytes at the same
offsets, on a big-endian processor too. Integers keep their widths. A pointer keeps its slot of 8 bytes. From this rule follows:
  - an integer is read and written by the functions of to_c/head.c, least byte first;
  - a struct that is a value becomes a C struct; in memory it has the offsets of the module's layout;
  - addresses are computed in bytes; an offset is cut to a size_t, as the lengths of memset and memmove;
  - arithmetic is that of unsigned types. What is poison in the module, such as a shift by too much, is undefined in C: the module is proved
    to have none of it.
The rule assumes that no object has 2^31 bytes or more.

Each line of the module must match one of the forms of to_c/forms.py as a whole. The program stops at any other line and prints it.
"""
import json
import os
import re
import sys

import scalar
from to_c import prepare, proved
from to_c.forms import Unsupported
from to_c.module import Module
from to_c.names import EXPORTS, Names, Quoted
from to_c.translation import File, Translation

HERE = os.path.dirname(os.path.abspath(__file__))
CRATES = os.path.join(HERE, "..", "crates")
ETHERNET = ("uip_open_ether", "uip_input_frame_area", "uip_periodic_frame")
SETS = {    # a set of calls: the word of its condition in head.c, its module, and the exports that it leaves out
    "IS_SERIAL": ("uip_c", ETHERNET), "IS_WHOLE": ("uip_c", ()), "IS_APP": ("uip_app_c", ()), "IS_BOTH": ("uip_both_c", ()),
}


def read(path):
    with open(path, encoding="utf8") as file:
        return file.read()


def source_of(parts):
    """The file of a function among the sources, by the parts of its path."""
    for end in range(len(parts), 1, -1):
        path = f"crates/{parts[0]}/src/{'/'.join(parts[1:end])}.rt"
        if os.path.exists(os.path.join(HERE, "..", path)):
            return path
    return None


def layers(crates):
    """These crates in the order of crates.txt, those of the kit first, and the exports last."""
    order = [line.split(":")[0].split()[0] for line in read(os.path.join(HERE, "..", "crates.txt")).split("\n") if ":" in line]
    known = list(dict.fromkeys(crates))
    return sorted(it for it in known if it not in (*order, EXPORTS)) + [it for it in (*order, EXPORTS) if it in known]


def prepared(folder, crate, left_out, clang):
    text = scalar.without_vectors(read(os.path.join(folder, f"{crate}.ll")), CRATES)
    text = proved.noted(text, json.loads(read(os.path.join(folder, f"{crate}.json"))))
    text = prepare.with_switches(prepare.without_addresses(text, True))
    return prepare.optimised(prepare.without_calls(text, left_out) if left_out else text, clang)


def file_of(modules):
    """The lines of the functions of these modules, by the words of their conditions."""
    quoted = Quoted()
    names = Names(quoted, set(re.findall(r"\b(?:\w+(?=\()|[A-Z_]+|any\w+|[ui]\d+)", read(os.path.join(HERE, "to_c", "head.c")))))
    try:
        parts = File({word: Translation(Module(quoted.hide(text)), names, source_of) for word, text in modules.items()}, layers)
    except Unsupported as why:
        sys.exit(f"to_c.py: {quoted.shown(str(why))}")
    out = []
    for name in ("structs", "constants", "imports", "heads"):
        out += ["", *parts.lines(name)]
    return [*out, "", *parts.bodies(), *parts.lines("ports")]


def main():
    words = sys.argv[1:]
    if len(words) != 3:
        sys.exit(__doc__)
    if words[0] == "--plain":
        modules, tail = {"1": prepare.without_addresses(read(words[1]))}, ""
    else:
        kept = {crate for crate, _ in SETS.values() if os.path.exists(os.path.join(words[0], f"{crate}.ll"))}
        modules = {word: prepared(words[0], crate, left_out, words[1]) for word, (crate, left_out) in SETS.items() if crate in kept}
        tail = read(os.path.join(HERE, "to_c", "calls.c"))
    with open(words[2], "w", encoding="utf8") as file:
        file.write(read(os.path.join(HERE, "to_c", "head.c")) + "\n".join(file_of(modules)) + "\n" + tail)


if __name__ == "__main__":
    main()
