#!/usr/bin/env python3
"""Redirects calls of functions that examine 32 or 64 bytes at a time to functions without vectors, which examine eight or one.

    python3 ports/scalar.py MODULE.ll CRATES OUT.ll

Each pair below has the same contract, which determines the result. So one proved function may replace the other. The program compares the
two contracts in the sources below CRATES. If their text differs, or if one of the two is not in the module, the run ends with status 1. A
pair of which the module has neither is passed over: a library without a serial line has no function of SLIP.
"""
import re
import sys

PAIRS = [    # the source file, the Rattle module, the function whose calls are redirected, and the function that is called instead
    ("uip_slip/src/plain_runs.rt", "uip_slip::plain_runs", "copy_plain", "copy_plain_by_words"),
    ("script_lang/src/search.rt", "script_lang::search", "byte_from", "byte_one_by_one"),
]


def read(path):
    with open(path) as file:
        return file.read()


def contract(source, name, path):
    """The parameters, the result and the clauses of a function, as they are written."""
    found = re.search(rf"\bfn {name}(\(.*?)\n\{{", source, re.S)
    if not found:
        sys.exit(f"scalar.py: {path} has no function {name}")
    return found[1]


def redirected(module, crates, path, prefix, old, new):
    if not any(f'@"{prefix}::{name}"(' in module for name in (old, new)):
        print(f"scalar.py: the module has neither {prefix}::{old} nor {prefix}::{new}", file=sys.stderr)
        return module
    source = read(f"{crates}/{path}")
    if contract(source, old, path) != contract(source, new, path):
        sys.exit(f"scalar.py: the contracts of {old} and {new} in {path} are not the same text")
    if f'@"{prefix}::{new}"(' not in module:
        sys.exit(f"scalar.py: {prefix}::{new} is not in the module")
    module, count = re.subn(rf'( call .*?)@"{prefix}::{old}"\(', rf'\1@"{prefix}::{new}"(', module)
    if count == 0:
        sys.exit(f"scalar.py: nothing in the module calls {prefix}::{old}")
    return module


def without_vectors(module, crates):
    """The module in which no function with vectors is called."""
    for pair in PAIRS:
        module = redirected(module, crates, *pair)
    return module


def main():
    if len(sys.argv) != 4:
        sys.exit(__doc__)
    module = without_vectors(read(sys.argv[1]), sys.argv[2])
    with open(sys.argv[3], "w") as file:
        file.write(module)


if __name__ == "__main__":
    main()
