#!/usr/bin/env python3
"""Compares what the firmware's map of memory says with what it should: flash and memory ordinary, and the devices alone as devices.

    python3 examples/board/map.py FOLDER QEMU

FOLDER has the firmware of map_test.c, map_test.bin and map_test.map. What may be read and written, where it leads and with which
attribute is what the running processor answers; what may be executed is read from the table in the firmware.
"""
import os
import subprocess
import sys

BLOCK = 1 << 21
NORMAL, DEVICE = 0xFF, 0x00
FLASH = {"leads": 0x00000000, "attribute": NORMAL, "written": False, "executed": True}
CONTROLLER = {"leads": 0x08000000, "attribute": DEVICE, "written": True, "executed": False}
PORT = {"leads": 0x09000000, "attribute": DEVICE, "written": True, "executed": False}
MEMORY = {"leads": 0x40000000, "attribute": NORMAL, "written": True, "executed": False}
WANTED = {0: ("flash", FLASH), 1: ("interrupt controller", CONTROLLER), 2: ("port", PORT), 4: ("memory", MEMORY)}


def answers(firmware, qemu):
    """What the processor answered: for each kind of access and each address, where it leads and its attribute, or None for a fault."""
    words = [qemu, "-M", "virt,gic-version=2", "-cpu", "cortex-a53", "-m", "64", "-nic", "none", "-display", "none", "-monitor", "none",
             "-serial", "stdio", "-bios", firmware]
    board = subprocess.Popen(words, stdin=subprocess.DEVNULL, stdout=subprocess.PIPE, text=True)
    told = {}
    for line in board.stdout:
        kind, address, answer = line.split()
        if kind == "e":
            break
        answer = int(answer, 16)
        told[kind, int(address, 16)] = None if answer & 1 else (answer & 0xFFFFFFFFF000, answer >> 56)
    board.kill()
    return told


def executed(firmware, place, block):
    """Whether the table's entry of a block lets its bytes be executed in EL1."""
    with open(firmware, "rb") as file:
        entry = int.from_bytes(file.read()[place + 8 * block:place + 8 * block + 8], "little")
    return entry & 3 == 1 and not entry >> 53 & 1


def main():
    if len(sys.argv) != 3:
        sys.exit(__doc__)
    folder, qemu = sys.argv[1:]
    firmware = os.path.join(folder, "map_test.bin")
    with open(os.path.join(folder, "map_test.map")) as file:
        place = next(int(line.split()[0], 16) for line in file if line.split()[4:] == ["map"])
    told, wrong = answers(firmware, qemu), 0
    for block in range(17):
        name, wanted = WANTED.get(block, ("nothing", None))
        for at in (block * BLOCK, (block + 1) * BLOCK - 8):
            leads = wanted and (wanted["leads"] + at % BLOCK & ~0xFFF, wanted["attribute"])
            good = told["r", at] == leads and told["w", at] == (leads if wanted and wanted["written"] else None)
            good = good and (block > 15 or executed(firmware, place, block) == bool(wanted and wanted["executed"]))
            wrong += not good
            if wanted or not good:
                print("ok   " if good else "WRONG", f"0x{at:08x}", name, told["r", at], told["w", at])
    print(f"the map of memory: {wrong} of 34 places are wrong")
    sys.exit(1 if wrong else 0)


main()
