#!/usr/bin/env python3
"""Lets each growth of the program's memory fail in turn, and prints how every command ends. It asserts nothing.

    python3 bench/refuse_growths.py [PROGRAM]

PROGRAM is the built `uipd`, crates/uipd/out/uipd if none is given (`rt run` in crates/uipd builds it). It needs `cc`: a library of a
few lines, loaded before the system's, refuses the N-th growth of a run. For each N from 1 on the run must end out of memory (status 8)
with nothing written, or as the run with all its memory ends. A run that does neither is odd.
"""
import os
import subprocess
import sys
import tempfile

HERE = os.path.dirname(os.path.abspath(__file__))
EXAMPLES = os.path.join(HERE, "..", "examples")

# Counts the growths of the program, and refuses the one with the number REFUSED.
OVERLAY = r"""
#define _GNU_SOURCE
#include <dlfcn.h>
#include <errno.h>
#include <stdlib.h>

static long seen, refused = -1;

static int is_refused(void) {
    static int ready;
    if (!ready) {
        const char *number = getenv("REFUSED");
        ready = 1;
        if (number) refused = atol(number);
    }
    return ++seen == refused;
}

void *malloc(size_t size) {
    static void *(*next)(size_t);
    if (!next) next = dlsym(RTLD_NEXT, "malloc");
    if (is_refused()) { errno = ENOMEM; return 0; }
    return next(size);
}

void *realloc(void *old, size_t size) {
    static void *(*next)(void *, size_t);
    if (!next) next = dlsym(RTLD_NEXT, "realloc");
    if (is_refused()) { errno = ENOMEM; return 0; }
    return next(old, size);
}

int posix_memalign(void **place, size_t align, size_t size) {
    static int (*next)(void **, size_t, size_t);
    if (!next) next = dlsym(RTLD_NEXT, "posix_memalign");
    return is_refused() ? ENOMEM : next(place, align, size);
}

void *aligned_alloc(size_t align, size_t size) {
    static void *(*next)(size_t, size_t);
    if (!next) next = dlsym(RTLD_NEXT, "aligned_alloc");
    if (is_refused()) { errno = ENOMEM; return 0; }
    return next(align, size);
}
"""

# If this number of growths in a row changes nothing, the run has no further growth.
QUIET = 60

BAD_WORDS, OUT_OF_MEMORY = 1, 8


def overlay(folder):
    source, library = os.path.join(folder, "overlay.c"), os.path.join(folder, "overlay.so")
    with open(source, "w") as file:
        file.write(OVERLAY)
    subprocess.run(["cc", "-shared", "-fPIC", "-O1", "-o", library, source, "-ldl"], check=True)
    return library


def framed(datagram):
    """The datagram as an Ethernet frame to the node, after its length."""
    frame = bytes([2, 0, 0, 0, 0, 1, 2, 0, 0, 0, 0, 2, 8, 0]) + datagram
    return len(frame).to_bytes(2, "big") + frame


# [add: command] a run of a command, in which each growth of memory is refused
def commands(folder, program, ping):
    """The runs: their words, and the bytes of their line."""
    site, schedule = os.path.join(EXAMPLES, "site.img"), os.path.join(EXAMPLES, "page.schedule")
    files = sorted(os.listdir(os.path.join(EXAMPLES, "site")))[:3]
    words = [f"/{name}={os.path.join(EXAMPLES, 'site', name)}" for name in files]
    frame = framed(ping.strip(b"\xc0"))
    capture = subprocess.run([program, "pcap"], input=ping, stdout=subprocess.PIPE, check=True).stdout
    return [
        (("serve", site, "10.0.0.1"), ping),
        (("serve", "-", "10.0.0.1"), ping),
        (("ether", site, "10.0.0.1", "02:00:00:00:00:01"), frame),
        (("check", site), b""),
        (("pack", *words), b""),
        (("upgrade", site), b""),
        (("page", site, "/"), b""),
        (("replay", site, schedule), b""),
        (("replay", site, schedule, "show"), b""),
        (("load", site, "7", "16"), b""),
        (("dump",), ping),
        (("pcap",), ping),
        (("slip",), capture),
        (("resolve", "10.0.0.1", "10.0.0.2", "1", "a.b"), ping),
        (("desk", site, "10.0.0.1"), ping),
    ]


def run(program, words, line, library, number):
    env = dict(os.environ, LD_PRELOAD=library, REFUSED=str(number))
    done = subprocess.run([program, *words], input=line, stdout=subprocess.PIPE, stderr=subprocess.PIPE, env=env)
    return done.returncode, done.stdout, done.stderr


def main():
    if "--help" in sys.argv or "-h" in sys.argv:
        sys.exit(print(__doc__))
    program = os.path.abspath(sys.argv[1] if len(sys.argv) > 1 else os.path.join(HERE, "..", "crates", "uipd", "out", "uipd"))
    if not os.access(program, os.X_OK):
        sys.exit(f"refuse_growths.py: no program at {program}: `rt run` in crates/uipd builds it, or name one")
    with open(os.path.join(EXAMPLES, "ping.slip"), "rb") as file:
        ping = file.read()
    with tempfile.TemporaryDirectory() as folder:
        library = overlay(folder)
        for words, line in commands(folder, program, ping):
            good = run(program, words, line, library, -1)
            if good[0] == BAD_WORDS:
                print(f"{words[0]}: no command of this program")
                continue
            last, reported, odd = 0, 0, []
            number = 0
            while number <= last + QUIET:
                number += 1
                answer = run(program, words, line, library, number)
                if answer == (OUT_OF_MEMORY, b"", b""):
                    last, reported = number, reported + 1
                elif answer != good:
                    last = number
                    odd.append((number, answer[0], len(answer[1])))
            shown = " ".join(os.path.basename(word) for word in words)
            print(f"{shown}: status {good[0]} with all its memory, {reported} refusals reported; odd: {odd or 'none'}", flush=True)


if __name__ == "__main__":
    main()
