#!/usr/bin/env python3
"""Tests the translation of modules to C: random modules and those of cases/ give the same on each host as by clang alone.

    python3 ports/c_test/run.py CLANG [MODULES [SEED]]      MODULES random modules (20) from this seed on (1); CLANG is that of the kit

Each module is translated as it is, and optimised first. A module of cases/ whose first line is `; refused: WHY` must be refused with WHY.
"""
import functools
import glob
import os
import shutil
import subprocess
import sys
import tempfile

HERE = os.path.dirname(os.path.abspath(__file__))
sys.path.insert(0, os.path.dirname(HERE))

from c_test.random_module import random_module
from to_c.forms import Unsupported
from to_c.prepare import optimised

TO_C = os.environ.get("TO_C", os.path.join(HERE, "..", "to_c.py"))
QUICK = (("tcc", ""), ("i686-linux-gnu-gcc -O0 -static", ""))
HOSTS = (
    ("tcc", ""), ("i686-linux-gnu-gcc -O2 -static", ""), ("mips-linux-gnu-gcc -O1 -static", "qemu-mips"), ("gcc -O1", ""),
    ("clang -O1 -fsanitize=undefined,address -fno-sanitize-recover=all", ""), ("g++ -x c++ -O1", ""),
    ("s390x-linux-gnu-gcc -O2 -static", "qemu-s390x"))
LIMIT = 120 * int(os.environ.get("PATIENCE", "1"))    # seconds of a program, which takes less than one


class Wrong(Exception):
    """A module whose translation does not do what it does."""


def run(words, what, limit=None):
    """The output of a command. A program of a module may have no end, so it has a limit; a compiler has none."""
    done = subprocess.run(words, capture_output=True, text=True, timeout=limit, check=False)
    if done.returncode:
        lines = (done.stdout + done.stderr).strip().splitlines()
        raise Wrong(f"{what}: {lines[-1] if lines else done.returncode}")
    return done.stdout


def write(path, text):
    with open(path, "w", encoding="utf8") as file:
        file.write(text)


@functools.lru_cache(None)
def by_clang(text, clang):
    """What a module does by clang alone, and its optimised text."""
    main = os.path.join(HERE, "main.c")
    with tempfile.TemporaryDirectory() as room:
        module, object_file, program = (os.path.join(room, it) for it in ("m.ll", "m.o", "program"))
        write(module, text)
        run([clang, "-w", "--target=x86_64-unknown-linux-gnu", "-O0", "-c", "-x", "ir", module, "-o", object_file], "clang")
        run(["gcc", "-w", "-DMODULE", main, object_file, "-o", program], "gcc")
        return run([program], "by clang", LIMIT), optimised(text, clang)


def compared(text, clang, room, to_c=TO_C, hosts=HOSTS):
    """Compares a module with its translation on each of these hosts that is here."""
    module, c_file, program = (os.path.join(room, it) for it in ("m.ll", "m.c", "program"))
    main = os.path.join(HERE, "main.c")
    must, small = by_clang(text, clang)
    for kind, form in (("as it is", text), ("optimised", small)):
        write(module, form)
        run([sys.executable, to_c, "--plain", module, c_file], "to_c.py")
        for compiler, runner in hosts:
            words = compiler.split()
            if not shutil.which(words[0]) or (runner and not shutil.which(runner)):
                continue
            run([*words, "-w", f"-I{HERE}/../../include", f'-DTRANSLATION="{c_file}"', main, "-o", program], f"{kind}, {compiler}")
            if run([*runner.split(), program], f"{kind}, {compiler}", LIMIT) != must:
                raise Wrong(f"{kind}, {compiler}: it differs")


def refused(text, why, room):
    """Whether to_c.py refuses a module for this reason."""
    module = os.path.join(room, "m.ll")
    write(module, text)
    done = subprocess.run([sys.executable, TO_C, "--plain", module, os.path.join(room, "m.c")], capture_output=True, text=True, check=False)
    if done.returncode == 0 or not done.stderr.startswith("to_c.py: ") or why not in done.stderr:
        raise Wrong(f"not refused because of {why}: {done.stderr.strip().splitlines()[-1:] or 'accepted'}")


def modules(count, seed):
    for path in sorted(glob.glob(os.path.join(HERE, "cases", "*.ll"))):
        with open(path, encoding="utf8") as file:
            yield os.path.basename(path), file.read()
    for it in range(seed, seed + count):
        yield f"random module {it}", random_module(it)


def main():
    words = sys.argv[1:]
    if not 1 <= len(words) <= 3:
        sys.exit(__doc__)
    count, seed = (int(word) for word in [*words[1:], *["20", "1"][len(words) - 1:]])
    wrong = tried = 0
    with tempfile.TemporaryDirectory() as room:
        for name, text in modules(count, seed):
            tried += 1
            try:
                first = text.split("\n", 1)[0]
                if first.startswith("; refused: "):
                    refused(text, first.removeprefix("; refused: "), room)
                else:
                    compared(text, words[0], room)
            except (Wrong, Unsupported, subprocess.TimeoutExpired) as why:
                wrong += 1
                print(f"WRONG: {name}: {why}", flush=True)
    print(f"{tried} modules; wrong: {wrong}")
    sys.exit(1 if wrong else 0)


if __name__ == "__main__":
    main()
