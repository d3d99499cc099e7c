#!/usr/bin/env python3
"""Measures the instructions to load a site and to find a name in it. It asserts nothing.

    python3 bench/site.py [PROGRAM]

PROGRAM is the built `uipd`, crates/uipd/out/uipd if none is given (`rt run` in crates/uipd builds it). It runs with `check` on
images that are written to bench/out. Instructions are those that `valgrind --tool=callgrind` counts. Each include of a script is
one look-up of a name, so a script with many includes of one file shows the cost of a look-up. Names are searched by bisection:
about ten comparisons among 1,024 files, five among 32 and one among 2.
"""
import os
import re
import subprocess
import sys

HERE = os.path.dirname(os.path.abspath(__file__))
OUT = os.path.join(HERE, "out")


def image(files):
    parts = [b"UIPSITE1", len(files).to_bytes(2, "big")]
    for name, content in files:
        parts += [bytes([len(name)]), name, len(content).to_bytes(4, "big"), content]
    return b"".join(parts)


def site(count, includes):
    """A site of `count` files. The last is a script that includes the one in the middle `includes` times."""
    names = [b"/f%04d" % number for number in range(count - 1)]
    script = b"%%!:%s\n" % names[len(names) // 2] * includes
    return image([(name, name) for name in names] + [(b"/s.shtml", script)])


def instructions(program, data):
    path = os.path.join(OUT, "site.img")
    with open(path, "wb") as f:
        f.write(data)
    profile = "--callgrind-out-file=" + os.path.join(OUT, "callgrind.out")
    done = subprocess.run(["valgrind", "--tool=callgrind", profile, program, "check", path], stdout=subprocess.PIPE, stderr=subprocess.PIPE, check=True)
    return int(re.search(rb"Collected : (\d+)", done.stderr).group(1))


def main():
    if "--help" in sys.argv or "-h" in sys.argv:
        sys.exit(print(__doc__))
    program = os.path.abspath(sys.argv[1] if len(sys.argv) > 1 else os.path.join(HERE, "..", "crates", "uipd", "out", "uipd"))
    if not os.access(program, os.X_OK):
        sys.exit(f"site.py: no program at {program}: `rt run` in crates/uipd builds it, or name one")
    os.makedirs(OUT, exist_ok=True)
    few, many = 1000, 3000
    print("files    instructions per name that is found")
    for count in (2, 32, 1024):
        spent = instructions(program, site(count, many)) - instructions(program, site(count, few))
        print("%5d %39d" % (count, round(spent / (many - few))))
    spent = instructions(program, site(1024, 1)) - instructions(program, site(2, 1))
    print("instructions per file that is loaded and listed, of 1024: %d" % round(spent / 1022))


try:
    main()
except subprocess.CalledProcessError as error:
    sys.exit(f"site.py: {' '.join(map(str, error.cmd))} ended with status {error.returncode}: {(error.stderr or b'').decode(errors='replace')[-300:]}")
