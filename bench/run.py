#!/usr/bin/env python3
"""Measures the program, and prints the figures. It asserts nothing.

    python3 bench/run.py [PROGRAM] [lines] [ether] [desk] [replay] [memory] [--markdown]

PROGRAM is the built `uipd`, crates/uipd/out/uipd if none is given (`rt run` in crates/uipd builds it). Without a further word it
measures everything.

    lines     the recorded lines of bench/lines (bench/peers has them beside uIP and lwIP)
    ether     the echo requests of ping84 in Ethernet frames (`uipd ether`)
    desk      pages over `uipd desk`, beside the same over `uipd serve`
    replay    schedules: a made one of 16 and of 64 clients, one of n echo requests and one of n ticks at n, 2n and 4n
    memory    the heap that `serve` allocates at the start, the greatest depth of the stack, and the size of the program

Instructions are those that `valgrind --tool=callgrind` counts, less those of a run on an empty line (or an empty schedule). Two runs
differ by less than a thousandth. With --markdown the first table is in Markdown.
"""
import json
import os
import re
import shutil
import subprocess
import sys
import time

import counting
from counting import LINES, figure, run, unpacked

HERE = os.path.dirname(os.path.abspath(__file__))
OUT = os.path.join(HERE, "out")
SITE = os.path.join(OUT, "site.img")
EXAMPLE = os.path.join(HERE, "..", "examples", "site.img")
NODE_MAC, PEER_MAC = bytes([2, 0, 0, 0, 0, 1]), bytes([2, 0, 0, 0, 0, 2])
NODE, PEER = bytes([10, 0, 0, 1]), bytes([10, 0, 0, 2])
SERVE = ("serve", SITE, "10.0.0.1")
DESK = ("desk", SITE, "10.0.0.1")
ETHER = ("ether", SITE, "10.0.0.1", "02:00:00:00:00:01")


def kept(name, data):
    """Writes a file of bench/out with this content, and returns its path."""
    path = os.path.join(OUT, name)
    with open(path, "wb") as file:
        file.write(data)
    return path


def instructions(program, data, words=SERVE):
    return counting.instructions((program, *words), data)


def measure_lines(program, is_markdown):
    print("| line | unit | `uipd` |\n|---|---|---|" if is_markdown else "line       unit           uipd")
    with open(os.path.join(LINES, "lines.json"), encoding="utf-8") as file:
        lines = json.load(file)
    empty = instructions(program, b"")
    for name, line in lines.items():
        spent = figure((instructions(program, unpacked(name + ".slip")) - empty) / line["units"], line["unit"])
        print(f"| {line['what']} | {line['unit']} | {spent} |" if is_markdown else f"{name:10} {line['unit']:8} {spent:>10}")


def framed(data):
    """A datagram in an Ethernet frame, after its length."""
    frame = NODE_MAC + PEER_MAC + bytes([8, 0]) + data
    return len(frame).to_bytes(2, "big") + frame


def unescaped(frame):
    return frame.replace(b"\xdb\xdc", b"\xc0").replace(b"\xdb\xdd", b"\xdb")


def measure_ether(program):
    """The peer asks for the node's hardware address, and then sends the echo requests of ping84."""
    pings = [unescaped(frame) for frame in unpacked("ping84.slip").split(b"\xc0") if frame]
    arp = bytes([0, 1, 8, 0, 6, 4, 0, 1]) + PEER_MAC + PEER + bytes(6) + NODE
    first = b"\xff" * 6 + PEER_MAC + bytes([8, 6]) + arp
    ask = len(first).to_bytes(2, "big") + first
    spent = instructions(program, ask + b"".join(map(framed, pings)), ETHER) - instructions(program, ask, ETHER)
    print(f"an echo request of 84 bytes in an Ethernet frame: {spent / len(pings):,.0f} instructions")


def measure_desk(program):
    print("pages by   `serve`          `desk`     desk / serve")
    empty, idle = instructions(program, b""), instructions(program, b"", DESK)
    for name in ("small", "big", "big536", "big100", "ten"):
        data = unpacked(name + ".slip")
        served, desk = instructions(program, data) - empty, instructions(program, data, DESK) - idle
        print(f"{name:8} {served:>12,} {desk:>14,} {desk / served:>12.4f}")


def schedule(program, text):
    """Instructions and seconds of a replay."""
    words = ("replay", EXAMPLE, kept("schedule", text))
    return instructions(program, b"", words), seconds_of(program, words)


def seconds_of(program, words):
    times = []
    for _ in range(5):
        start = time.perf_counter()
        run((program, *words))
        times.append(time.perf_counter() - start)
    return min(times)


def heap_of(program, words, data=b""):
    """The most bytes of the heap that a run holds at once."""
    out = os.path.join(OUT, "massif")
    run((program, *words), data, ("valgrind", "--tool=massif", "--stacks=no", "--massif-out-file=" + out))
    with open(out, encoding="utf-8") as file:
        return max(int(line.split("=")[1]) for line in file if line.startswith("mem_heap_B="))


def measure_replay(program):
    print("replay                                instructions     each    seconds")
    head = b"client 10.0.0.2 1025 0 536 get /index.html\n"
    none, _ = schedule(program, head)
    for clients in (16, 64):
        words = ("load", EXAMPLE, "7", str(clients))
        print(f"made of seed 7, {clients} clients {instructions(program, b'', words):>25,} {'':8} {seconds_of(program, words):10.4f}")
    for line, what in ((b"ping 10.0.0.9\n", "echo requests"), (b"tick 1\n", "ticks")):
        for count in (4000, 8000, 16000):
            spent, seconds = schedule(program, head + line * count)
            print(f"{count:6} {what:26} {spent - none:>16,} {(spent - none) / count:8,.0f} {seconds:10.4f}")
    page = bytes(1460 * 3200)
    site = b"UIPSITE1\0\1\4/big" + len(page).to_bytes(4, "big") + page
    numbers = range(1, 11)
    clients = b"".join(b"client 10.0.0.2 %d 0 1460 get /big\nopen %d\n" % (1024 + number, number) for number in numbers)
    words = ("replay", kept("big.img", site), kept("schedule", clients + b"round\n" * 6420))
    told = run((program, *words)).stdout.split(b"\n")[-2].decode()
    print(f"10 clients with pages in segments of 1460 ({told}): {seconds_of(program, words):.3f} seconds, {heap_of(program, words):,} bytes at once")


def stack_of(program, words, data):
    out = os.path.join(OUT, "massif")
    run((program, *words), data, ("valgrind", "--tool=massif", "--stacks=yes", "--massif-out-file=" + out))
    with open(out, encoding="utf-8") as file:
        return max(int(line.split("=")[1]) for line in file if line.startswith("mem_stacks_B="))


def measure_memory(program):
    image = os.path.getsize(EXAMPLE)
    words = ("serve", EXAMPLE, "10.0.0.1")
    data = unpacked("ping84.slip")[:8000]
    print(f"serve of the example site ({image:,} bytes): {heap_of(program, words, data):,} bytes of the heap at once, "
          f"{heap_of(program, words):,} on an empty line")
    print(f"greatest depth of the stack: {stack_of(program, words, data):,} bytes")
    if shutil.which("size"):
        text, data, bss = re.findall(r"\d+", subprocess.run(["size", program], stdout=subprocess.PIPE, text=True, check=True).stdout)[:3]
        print(f"the program: {int(text):,} bytes of code and constants, {int(data):,} of data, {int(bss):,} of zeros")


def main():
    if "--help" in sys.argv or "-h" in sys.argv:
        sys.exit(print(__doc__))
    parts = {"lines", "ether", "desk", "replay", "memory"}
    words = [word for word in sys.argv[1:] if word != "--markdown"]
    asked = [word for word in words if word in parts] or sorted(parts)
    named = [word for word in words if word not in parts]
    program = os.path.abspath(named[0] if named else os.path.join(HERE, "..", "crates", "uipd", "out", "uipd"))
    if not os.access(program, os.X_OK):
        sys.exit(f"run.py: no program at {program}: `rt run` in crates/uipd builds it, or name one")
    if not shutil.which("valgrind"):
        sys.exit("run.py: no command valgrind here, which counts the instructions")
    os.makedirs(OUT, exist_ok=True)
    kept("site.img", unpacked("site.img"))
    if "lines" in asked:
        measure_lines(program, "--markdown" in sys.argv)
    if "ether" in asked:
        measure_ether(program)
    if "desk" in asked:
        measure_desk(program)
    if "replay" in asked:
        measure_replay(program)
    if "memory" in asked:
        measure_memory(program)


if __name__ == "__main__":
    counting.report("run.py", main)
