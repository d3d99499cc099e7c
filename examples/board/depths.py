#!/usr/bin/env python3
"""Prints how much stack each call of a library for C needs, without interrupts: by the frames and the calls of the linked code.

    python3 examples/board/depths.py LIBRARY OBJECT ..

The objects have what the library needs of a program: the heap, memcpy, divisions. Needs ld.lld, llvm-nm and llvm-objdump (aarch64, Cortex-M
and RISC-V). A firmware that makes only some of the calls needs no more than these (usage.py).
"""
import os
import subprocess
import sys
import tempfile

import usage


def calls_of(library):
    text = subprocess.check_output(["llvm-nm", "--defined-only", "--extern-only", library], text=True, stderr=subprocess.DEVNULL)
    return sorted({fields[2] for fields in map(str.split, text.splitlines()) if len(fields) == 3 and fields[1] == "T" and fields[2].startswith("uip_")})


def main():
    if len(sys.argv) < 3:
        sys.exit(__doc__)
    library, *objects = sys.argv[1:]
    calls = calls_of(library)
    with tempfile.TemporaryDirectory() as room:
        elf = os.path.join(room, "calls.elf")
        wanted = [word for call in calls for word in ("-u", call)]
        sizes = {"flash_at": "0", "flash_len": "2M", "ram_at": "0x20000000", "ram_len": "64K", "stack_len": "8K"}
        layout = ["-T", os.path.join(os.path.dirname(os.path.abspath(__file__)), "../../boards/link.ld")]
        layout += [word for name, value in sizes.items() for word in ("--defsym", f"{name}={value}")]
        subprocess.run(["ld.lld", "-e", calls[0], "--gc-sections", "--discard-locals", *layout, *wanted, "-o", elf, *objects, library], check=True)
        frames, called, _ = usage.read_code(elf)
    needed = sorted(((usage.depth(call, frames, called), call) for call in calls), reverse=True)
    print("stack of each call:", ", ".join(f"{call} {bytes_}" for bytes_, call in needed))


main()
