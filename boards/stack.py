#!/usr/bin/env python3
"""The depth of the stack of a firmware, from the frames and calls that gcc lists (-fcallgraph-info=su), with one interrupt above the program.

    python3 boards/stack.py FOLDER PROCESSOR STACK     `make` runs it: status 1 if a firmware may need more than these bytes

FOLDER has the lists, and PROCESSOR is that of board.mk. If a function calls itself or is called by its address, the depth is not known: the
script prints that, with status 0.
"""
import os
import re
import sys

RECURSIVE = {"slot_guard_choice_slots_of": 11}           # it calls itself for each of the ten slots, and once after the last
PROGRAM = ("_start", "begin", "main")                    # what starts a Cortex-M, and a RISC-V; main may be a part of it
INTERRUPT_FRAME = {"arm": 36, "riscv32": 0}              # what the processor itself saves, with its alignment
UNKNOWN = "__indirect_call"


class NotKnown(Exception):
    pass


class Calls:
    """The frames and calls of a firmware."""

    def __init__(self, folder):
        self.frames, self.calls = {}, {}
        for name in os.listdir(folder):
            if name.endswith(".ci"):
                with open(os.path.join(folder, name)) as file:
                    self.read(file.read())

    def read(self, text):
        for title, label in re.findall(r'^node: \{ title: "([^"]*)" label: "([^"]*)"', text, re.M):
            size = re.search(r"\\n(\d+) bytes", label)
            if size:
                self.frames[title] = int(size[1])
        for source, target in re.findall(r'^edge: \{ sourcename: "([^"]*)" targetname: "([^"]*)"', text, re.M):
            deep = RECURSIVE.get(re.sub(r"_\d+$", "", source.rsplit(":", 1)[-1].split(".")[0])) if source == target else None
            if deep:
                self.frames[source] *= deep
            else:
                self.calls.setdefault(source, set()).add(target)

    def depth(self, name, above=()):
        if name in above:
            raise NotKnown(f"{name} calls itself")
        if name == UNKNOWN:
            raise NotKnown(f"{above[-1]} calls a function by its address")
        below = [self.depth(other, (*above, name)) for other in self.calls.get(name, ())]
        return self.frames.get(name, 0) + max(below, default=0)

    def deepest(self, is_one):
        """That of the deepest function with such a name."""
        return max((self.depth(name) for name in self.frames if is_one(name.rsplit(":", 1)[-1])), default=0)

    def greatest(self, processor):
        """That of the program with one interrupt above it."""
        program = self.deepest(lambda name: name in PROGRAM)
        return program + self.deepest(lambda name: name.startswith("interrupt_")) + INTERRUPT_FRAME[processor]


def main():
    if len(sys.argv) != 4:
        sys.exit(__doc__)
    folder, processor, stack = sys.argv[1:]
    try:
        deepest = Calls(folder).greatest(processor)
    except NotKnown as why:
        print(f"stack: {stack} bytes; how many of them are used is not known: {why}")
        return
    if deepest > int(stack):
        sys.exit(f"stack.py: the stack has {int(stack):,} bytes, and may need {deepest:,}: make it larger by STACK={(deepest + 7) // 8 * 8}")
    print(f"stack: {deepest:,} of {int(stack):,} bytes, at most")


if __name__ == "__main__":
    main()
