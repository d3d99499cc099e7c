#!/usr/bin/env python3
"""Writes the table of flash and memory into boards/README.md, from the firmware of each board that `make` has built.

    python3 boards/table.py            builds each firmware, and writes the table
    python3 boards/table.py check      status 1 if the table is not what it would write

Flash is what the firmware takes there without the site's image. Memory is .data and .bss with the heap, and the stack, whose depth stack.py computes.
"""
import os
import subprocess
import sys

sys.dont_write_bytecode = True
HERE = os.path.dirname(os.path.abspath(__file__))
sys.path.insert(0, HERE)
from stack import Calls  # noqa: E402

README = os.path.join(HERE, "README.md")
BEGIN, END = "<!-- table.py writes this table -->\n", "<!-- to here -->\n"


def words_of(board):
    with open(os.path.join(HERE, board, "board.mk")) as file:
        return dict(line.strip().split("=", 1) for line in file if "=" in line)


def symbols(tool, elf):
    lines = subprocess.check_output([tool + "nm", elf], text=True).splitlines()
    return {fields[2]: int(fields[0], 16) for fields in map(str.split, lines) if len(fields) == 3}


def row(board, loop):
    words = words_of(board)
    wanted = loop or words.get("LOOP", "step")
    out = os.path.join(HERE, "out", "table", f"{board}-{wanted}")
    subprocess.run(["make", "-s", "-C", HERE, f"BOARD={board}", f"LOOP={wanted}", f"out={out}"], check=True, stdout=subprocess.DEVNULL)
    tool = {"arm": "arm-none-eabi-", "riscv32": "riscv64-unknown-elf-"}[words["PROCESSOR"]]
    at = symbols(tool, os.path.join(out, "firmware.elf"))
    flash = at["__flash_end"] - at["__flash_start"] - os.path.getsize(os.path.join(out, "site.img"))
    static, stack = at["__bss_end"] - at["__data_start"], at["__stack_top"] - at["__stack_low"]
    deepest = Calls(out).greatest(words["PROCESSOR"])
    size = int(words["RAM_LEN"].rstrip("K")) * 1024
    ring = "" if wanted == "ether" else words["RING"]
    return f"| {board} | {wanted} | {ring} | {flash:,} | {static + stack:,} of {size:,} | {deepest:,} |\n"


def table():
    boards = sorted(name for name in os.listdir(HERE) if os.path.exists(os.path.join(HERE, name, "board.mk")))
    rows = [row(board, None) for board in boards]
    rows += [row(board, "ether") for board in boards if os.path.exists(os.path.join(HERE, board, "ether.c"))]
    return "| board | loop | ring | flash | memory | of it stack, at most |\n|---|---|---|---|---|---|\n" + "".join(sorted(rows))


def main():
    if sys.argv[1:] not in ([], ["check"]):
        sys.exit(__doc__)
    with open(README) as file:
        before, _, rest = file.read().partition(BEGIN)
    old, _, after = rest.partition(END)
    new = table()
    if sys.argv[1:]:
        sys.exit(0 if old == new else "table.py: boards/README.md has another table; write it by `python3 boards/table.py`")
    with open(README, "w") as file:
        file.write(before + BEGIN + new + END + after)


main()
