#!/usr/bin/env python3
"""Prints what flash and memory a firmware needs, and what a run of it used.

    python3 examples/board/usage.py FIRMWARE [MEMORY]

The linker wrote FIRMWARE.elf and FIRMWARE.map. MEMORY is the board's memory after a run. The start code painted the stack, so the depth that
this run used is where the paint ends (stack.py reads the stack pointer itself). If llvm-objdump is on the path, the greatest possible depth is
printed too: it follows from the frames and the calls of the linked functions (aarch64, Cortex-M and RISC-V). Not proved: the stack.
"""
import re
import shutil
import subprocess
import sys

PAINT = 0xA5
CORTEX_M_FRAME = 36    # what the processor itself saves in an interrupt, with its alignment
INTERRUPTS = re.compile(r"(vector_)?interrupt(_\w+)?$")
CALL = re.compile(r"(?:bl?(?:\.[wn])?|(?:c\.)?j(?:al)?)\t[^<]*<(.*)>$")
CALL_BY_REGISTER = re.compile(r"(?:blr|blx|(?:c\.)?jalr|bx\tr\d)\b")    # a plain `jr` is a return or the jump of a table


def read_map(path):
    """The addresses of the symbols that the linker placed."""
    names = {}
    with open(path) as file:
        for line in file:
            fields = line.split()
            if len(fields) >= 5 and re.fullmatch(r"[0-9a-f]+", fields[0]):
                names[fields[4]] = int(fields[0], 16)
    return names


class Frame:
    """How far the instructions of a function lower the stack pointer."""

    def __init__(self):
        self.size, self.constants = 0, {}    # constants: the known contents of registers

    def note_constant(self, words, literal):
        if found := re.fullmatch(r"(?:c\.)?lui\t(\w+), (0x[0-9a-f]+|\d+)", words):
            upper = int(found[2], 0)
            self.constants[found[1]] = (upper - (upper >> 19 << 20)) << 12
        elif found := re.fullmatch(r"(?:c\.)?addiw?\t(\w+), (\w+), (-?(?:0x[0-9a-f]+|\d+))", words):
            self.constants[found[1]] = self.constants.get(found[2], 0) + int(found[3], 0)
        elif found := re.fullmatch(r"(?:c\.)?li\t(\w+), (-?(?:0x[0-9a-f]+|\d+))", words):
            self.constants[found[1]] = int(found[2], 0)
        elif found := re.fullmatch(r"ldr\t(\w+), \[pc, #\w+\]", words):
            self.constants.pop(found[1], None)
            if literal is not None:
                self.constants[found[1]] = literal - (literal >> 31 << 32)

    def lowered(self, words):
        """By how many bytes an instruction lowers the stack pointer."""
        if found := re.fullmatch(r"push(?:\.w)?\t\{(.*)\}", words):
            return 4 * len(found[1].split(","))
        if found := re.fullmatch(r"subw?(?:\.w)?\tsp, (?:sp, )?#(0x[0-9a-f]+|\d+)(, lsl #12)?", words):
            return int(found[1], 0) * (4096 if found[2] else 1)
        if found := re.search(r"\[sp, #-(0x[0-9a-f]+|\d+)\]!", words):
            return int(found[1], 0)
        if found := re.fullmatch(r"(?:c\.)?addi(?:16sp)?\tsp, sp, -(0x[0-9a-f]+|\d+)", words):
            return int(found[1], 0)
        if found := re.fullmatch(r"(?:c\.)?(sub|add)\tsp, (?:sp, )?(\w+)", words):
            return max(self.constants[found[2]] * (1 if found[1] == "sub" else -1), 0)
        return 0

    def add(self, words, literal):
        """Adds an instruction; `literal` is the word that it loads from beside the code."""
        self.size += self.lowered(words)
        self.note_constant(words, literal)


def read_code(elf):
    """The frame of each function and the functions that it calls, and the kind of processor. No function may call by a register."""
    text = subprocess.check_output(["llvm-objdump", "-d", "--no-show-raw-insn", elf], text=True)
    processor = re.search(r"file format (\S+)", text)[1]
    frames, calls, name = {}, {}, None
    literals = {int(at, 16): int(word, 16) for at, word in re.findall(r"^ *([0-9a-f]+):.*\s\.word\s+0x([0-9a-f]+)$", text, re.M)}
    for line in text.splitlines():
        if start := re.match(r"[0-9a-f]+ <(.*)>:$", line):
            name = start[1]
            frames.setdefault(name, Frame())
            calls.setdefault(name, set())
            continue
        found = re.match(r" *[0-9a-f]+:\s+(\S+)(?:\t| +)?(.*?)(?: +(?:@|//|[#;]) .*)?$", line)
        if not found or name in (None, "vectors"):
            continue
        words = f"{found[1]}\t{found[2].strip()}"
        literal = re.search(r"@ 0x([0-9a-f]+) ", line)
        frames[name].add(words, literals.get(int(literal[1], 16)) if literal else None)
        if jump := CALL.match(words):
            other = re.sub(r"\+0x[0-9a-f]+$", "", jump[1])
            if other != name:
                calls[name].add(other)
        elif CALL_BY_REGISTER.match(words):
            sys.exit(f"usage.py: {name} calls by a register, so the depth of the stack is unknown: {words}")
    return frames, calls, processor


def depth(name, frames, calls, above=()):
    """The greatest depth of the stack in a function and in those that it calls."""
    if name in above:
        sys.exit(f"usage.py: {name} calls itself, so the depth of the stack is unknown")
    below = [depth(other, frames, calls, (*above, name)) for other in calls[name]]
    return frames[name].size + max(below, default=0)


def print_depth(elf):
    frames, calls, processor = read_code(elf)
    handlers = [depth(name, frames, calls) for name in frames if INTERRUPTS.match(name)]
    interrupt = max(handlers) + (CORTEX_M_FRAME if "littlearm" in processor else 0)
    print(f"stack: {depth('_start', frames, calls)} bytes at most, by the frames of the code, and {interrupt} of an interrupt")
    deepest = sorted(((depth(name, frames, calls), name) for name in frames if re.fullmatch(r"uip_\w+", name)), reverse=True)[:2]
    print("the deepest calls of the library:", ", ".join(f"{name} {needed}" for needed, name in deepest))


def print_run(at, path, static):
    with open(path, "rb") as file:
        memory = file.read()
    start = at["__stack_low"]

    def number(name):
        return int.from_bytes(memory[at[name] - start:][:4], "little")

    stack = memory[:at["__stack_top"] - start]
    used = len(stack) - next((i for i, byte in enumerate(stack) if byte != PAINT), len(stack))
    heap = number("heap_used")
    print(f"memory in this run: {static + used + heap} bytes: static {static}, stack {used}, heap {heap}")


def main():
    if len(sys.argv) not in (2, 3):
        sys.exit(__doc__)
    firmware = sys.argv[1]
    at = read_map(firmware + ".map")
    image = at.get("site_image_end", 0) - at.get("site_image", 0)    # a firmware with an application of its own has none
    data = at["__data_end"] - at["__data_start"]
    static = at["__bss_end"] - at["__bss_start"] + data    # without the heap
    print(f"flash: {at['__data_from'] - at['__flash_start'] + data - image} bytes, and {image} of the site's image")
    print(f"static memory: {static} bytes")
    if shutil.which("llvm-objdump"):
        print_depth(firmware + ".elf")
    if len(sys.argv) == 3:
        print_run(at, sys.argv[2], static)


if __name__ == "__main__":
    main()
