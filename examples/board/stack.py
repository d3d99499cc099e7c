#!/usr/bin/env python3
"""Prints how far the stack pointer of the firmware went: the least in qemu's log of the processor, which has an entry for each instruction.

    python3 examples/board/stack.py FIRMWARE QEMU COMMAND ARG ..

FIRMWARE.bin and FIRMWARE.map are what the linker wrote, and COMMAND is run beside the board. The paint that usage.py looks for can
tell too little, since a frame need not be written to its end; the stack pointer cannot. If QEMU has several words, they start a board on
Ethernet, and COMMAND starts it: it finds them in the variable BOARD.
"""
import os
import re
import subprocess
import sys

HERE = os.path.dirname(os.path.abspath(__file__))


def symbol(firmware, name):
    with open(firmware + ".map") as file:
        return next(int(line.split()[0], 16) for line in file if name in line.split())


def least(path, low, top):
    """The least stack pointer between the two in a log, and how many entries it has."""
    found, count = top, 0
    with open(path, "rb") as log:
        while block := log.read(1 << 24) + (log.readline() or b""):
            points = re.findall(rb"(?: SP|R13)=([0-9a-f]+)", block)
            count += len(points)
            found = min([found, *(point for point in (int(it, 16) for it in set(points)) if low <= point)])
    return found, count


def main():
    if len(sys.argv) < 4:
        sys.exit(__doc__)
    firmware, qemu, *command = sys.argv[1:]
    version = subprocess.run([qemu.split()[0], "--version"], capture_output=True, text=True, check=True).stdout
    is_old = int(re.search(r"version (\d+)", version)[1]) < 9
    log = firmware + ".log"
    if os.path.exists(log):
        os.remove(log)
    os.mkfifo(log)
    step = "-singlestep" if is_old else "-accel tcg,one-insn-per-tb=on"
    words = f"{step} -d cpu,nochain -D {log}"
    if " " in qemu:
        given = {"BOARD": f"{qemu} {words}"}
    else:
        given = {"QEMU": qemu}
        command = [sys.executable, os.path.join(HERE, "../browse.py"), "--board", firmware + ".bin", "--qemu", words, "--", *command]
    run = subprocess.Popen(command, env={**os.environ, **given})
    low, top = symbol(firmware, "__stack_low"), symbol(firmware, "__stack_top")
    found, count = least(log, low, top)
    os.remove(log)
    print(f"stack in this run: {top - found} bytes by the stack pointer, over {count} instructions")
    sys.exit(run.wait())


main()
