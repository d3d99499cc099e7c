"""Counts instructions, and reads flash, memory and the stack of a firmware."""
import glob
import json
import os
import re
import subprocess
import sys

import build
import client
from sources import HERE, run

sys.path.insert(0, os.path.join(HERE, ".."))
import counting

BIG, SMALL = "/big.txt", "/one.txt"
SCRIPT_PAGE = re.compile(
    rb"<html><body><h1>Statistics</h1>\n<p>an included line</p>\n<p>hits +\d+ ticks +\d+</p><table>\n"
    rb"(<tr><td>\d+</td><td>10\.0\.0\.2:\d+</td><td>[A-Z_\-]+</td><td>\d+</td><td>\d+</td><td>[ *]</td></tr>\r\n)+</table><pre>\n"
    rb"( *\d+\n){20}</pre>\n</body></html>\n")

# What the client does on each line of bench/lines: its unit, how many on x86-64 and on the small processors (under qemu fewer), and the
# work. The line `page` is for the small processors alone.
LINES = {
    "ping84": ("request", 2000, 20, lambda line, files, count: client.ping(line, 84, count)),
    "ping1006": ("request", 500, 5, lambda line, files, count: client.ping(line, 1006, count)),
    "small": ("request", 200, 10, lambda line, files, count: client.fetch(line, SMALL, files[SMALL], times=count)),
    "big": ("byte", 5, 1, lambda line, files, count: client.fetch(line, BIG, files[BIG], times=count)),
    "big536": ("byte", 5, 1, lambda line, files, count: client.fetch(line, BIG, files[BIG], mss=536, times=count)),
    "big100": ("byte", 2, 1, lambda line, files, count: client.fetch(line, BIG, files[BIG], mss=100, times=count)),
    "escapes": ("byte", 10, 1, lambda line, files, count: client.fetch(line, "/special.bin", files["/special.bin"], times=count)),
    "ten": ("byte", 20, 10, lambda line, files, count: client.fetch(line, "/t20000.txt", files["/t20000.txt"], times=count, at_once=10)),
    "page": ("byte", 0, 1, lambda line, files, count: client.fetch(line, "/t20000.txt", files["/t20000.txt"], times=count)),
    "script": ("request", 40, 5, lambda line, files, count: client.fetch(line, "/stats.shtml", SCRIPT_PAGE, times=count)),
}
ON_X86 = tuple(name for name in LINES if LINES[name][1])
ON_SMALL = ("ping84", "ping1006", "small", "page", "script")

with open(os.path.join(counting.LINES, "lines.json"), encoding="utf-8") as lines_file:
    UNITS = {name: line["units"] / LINES[name][1] for name, line in json.load(lines_file).items()}
UNITS["page"] = 20081                                      # bytes of the reply of this stack, with its head, as in lines.json


def units(name, count):
    return UNITS[name] * count


def recorded(words, name, files, count):
    """What the client sent while it did its work with a running program. A second run with the same line brings the same output."""
    line = client.Line(words)
    try:
        LINES[name][3](line, files, count)
    finally:
        line.close()
    again = counting.run(words, line.sent).stdout
    if again != line.received:
        raise client.Wrong(f"{name}: the same line brings another output")
    return line.sent


def on_x86(live, counted, files):
    """The instructions for a unit of each line. `live` are the words of a program, `counted` those of the one that is counted."""
    empty, spent = counting.instructions(counted), {}
    for name in ON_X86:
        sent = recorded(live, name, files, LINES[name][1])
        spent[name] = (counting.instructions(counted, sent) - empty) / units(name, LINES[name][1])
        print(f"    {name}: {counting.figure(spent[name], LINES[name][0])}", flush=True)
    return spent


def by_qemu(qemu, program, data):
    """The instructions of a program under qemu's user mode, which logs each of them."""
    path = program + ".line"
    with open(path, "wb") as file:
        file.write(data)
    with open(path, "rb") as stdin:
        words = [qemu, "-singlestep", "-d", "exec,nochain", "-D", "/dev/fd/2", program]
        logged = subprocess.Popen(words, stdin=stdin, stdout=subprocess.DEVNULL, stderr=subprocess.PIPE)
        count, rest = 0, b""
        while text := logged.stderr.read(1 << 20):
            count += (rest + text).count(b"Trace ")
            rest = text[-5:]
        if logged.wait():
            raise client.Wrong(f"{program} ended with status {logged.returncode}")
    return count


def on_lines(words):
    """The same for a program of this stack, on the lines of bench/lines themselves."""
    empty, spent = counting.instructions(words), {}
    for name in ON_X86:
        unit, count, *_ = LINES[name]
        spent[name] = (counting.instructions(words, counting.unpacked(name + ".slip")) - empty) / units(name, count)
        print(f"    {name}: {counting.figure(spent[name], unit)}", flush=True)
    return spent


def on_small(processor, programs, files):
    live, counted = programs
    empty, spent = by_qemu(processor.qemu, counted, b""), {}
    for name in ON_SMALL:
        count = LINES[name][2]
        sent = recorded([processor.qemu, live], name, files, count)
        unit = 1460 if LINES[name][0] == "byte" else 1
        spent[name] = (by_qemu(processor.qemu, counted, sent) - empty) / units(name, count) * unit
        print(f"    {name}: {spent[name]:,.0f}", flush=True)
    return spent


# ---- a firmware

# Which functions lwIP may call by a pointer, and this board's loop for this stack.
BY_POINTER = {
    "tcp_input": "http_sent http_recv http_err http_accept", "tcp_process_refused_data": "http_recv",
    "tcp_input_delayed_close": "http_recv http_err", "tcp_slowtmr": "http_poll http_err", "tcp_abandon": "http_err",
    "get_tag_insert": "put_tag", "slipif_poll": "netif_input", "netif_add": "slipif_init", "ip4_output_if_src": "slipif_output_v4",
    "sys_check_timeouts": "tcpip_tcp_timer", "main": "port_send", "uip_feed_all": "port_send", "uip_tick_all": "port_send",
}
# How many frames a function that calls itself has at most: one for each of ten connections, and the last.
RECURSIVE = {"slot_guard_choice_slots_of": 11}
INTERRUPT_FRAME = {"arm-none-eabi-": 36, "riscv64-unknown-elf-": 0}    # what the processor itself saves, with its alignment


class Stack:
    """The frames and calls of a firmware, as gcc lists them (-fcallgraph-info=su)."""

    def __init__(self, folder):
        self.frames, self.calls = {}, {}
        for path in glob.glob(os.path.join(folder, "*.ci")):
            if not re.match("live|count|hosted", os.path.basename(path)):
                with open(path, encoding="utf-8") as file:
                    self.read(file.read())
        for name, calls in self.calls.items():
            if "__indirect_call" in calls:
                calls |= self.named(BY_POINTER.get(self.short(name), ""), name)
                calls.discard("__indirect_call")
            if name in calls and self.short(name) in RECURSIVE:
                calls.discard(name)
                self.frames[name] *= RECURSIVE[self.short(name)]

    @staticmethod
    def short(name):
        return re.sub(r"\.(isra|constprop|part)\b.*", "", name.rsplit(":", 1)[-1])

    def named(self, words, name):
        found = {title for title in self.frames if self.short(title) in words.split()}
        if not found:
            sys.exit(f"peers: which functions {name} calls by a pointer is not known")
        return found

    def read(self, text):
        for title, label in re.findall(r'^node: \{ title: "([^"]*)" label: "([^"]*)"', text, re.M):
            if size := re.search(r"\\n(\d+) bytes", label):
                self.frames[title] = int(size[1])
        for source, target in re.findall(r'^edge: \{ sourcename: "([^"]*)" targetname: "([^"]*)"', text, re.M):
            self.calls.setdefault(source, set()).add(target)

    def depth(self, name, above=()):
        if name in above:
            sys.exit(f"peers: {name} calls itself, so the depth of the stack is unknown")
        return self.frames.get(name, 0) + max((self.depth(other, (*above, name)) for other in self.calls.get(name, ())), default=0)

    def interrupt(self):
        return max(self.depth(name) for name in self.frames if self.short(name).startswith("interrupt_"))


def memory_of(processor, folder, firmware):
    """Flash without the site's image, memory without stack, and the stack at most, with one interrupt."""
    lines = run([processor.tool("nm"), firmware]).splitlines()
    at = {fields[2]: int(fields[0], 16) for fields in map(str.split, lines) if len(fields) == 3}
    stack = Stack(folder)
    figures = {
        "flash": at["__flash_end"] - at["__flash_start"] - (at["site_image_end"] - at["site_image"]),
        "static": at["__bss_end"] - at["__data_start"],
        "stack": stack.depth("main") + stack.interrupt() + INTERRUPT_FRAME[processor.tools],
    }
    return {**figures, "ram": figures["static"] + figures["stack"]}


def served(processor, firmware, files):
    """Under qemu's model of the board the firmware answers the client, and ten at once get every file. There time passes: if this machine
    is busy, the firmware may give up a client that is silent for too long, and the client tries again."""
    words = [*processor.machine, "-display", "none", "-monitor", "none", "-serial", "stdio", "-device", "loader,file=" + firmware]
    line, taken = client.Line(words, subprocess.DEVNULL), 0
    try:
        client.ping(line, 84, 10)
        client.ping(line, 1006, 2)
        for name, content in files.items():
            if name == "/404.html":
                continue
            expected = re.compile(b".*", re.S) if name.endswith(".shtml") else content
            for tries in range(5):
                try:
                    client.fetch(line, name, expected, times=10, at_once=10, first=taken + 10 * tries + 1)
                    break
                except client.Wrong:
                    if tries == 4:
                        raise
            taken += 10 * (tries + 1)
    finally:
        line.close()


def files_by_text(image):
    return {name.decode(): content for name, content in build.files_of(image).items()}
