#!/usr/bin/env python3
"""Plants faults that the boards or browse.py once had, one at a time in a copy, and sees that a test of theirs finds each.

    python3 boards/planted_test.py [WORD ..]      all, or those whose name has one of the words

First each test is run without a fault: it has to pass. Then it has to fail, and to report why. Needs what test.sh and examples/test/test_browse.py need.
The status is 0 if all were found.
"""
import os
import re
import shutil
import signal
import subprocess
import sys
import tempfile

TOP = os.path.join(os.path.dirname(os.path.abspath(__file__)), "..")
COPIED = ("boards", "examples")
PATIENCE = 600      # seconds for each test
BROWSE = (sys.executable, "examples/test/test_browse.py")


def board(name):
    return "sh", "boards/test.sh", name


# Each fault: its name, the file, the text there and what replaces it, the test, and what the test reports.
FAULTS = (
    ("SysTick has 24 bits: a clock above 33.5 MHz is cut", "boards/cortex_m.h",
     "PARTS = CLOCK / 2 / 0x1000000 + 1 }", "PARTS = 1 }", board("netduinoplus2"), r"WRONG \d+ ticks in|WRONG a connection failed"),
    ("the start code copies no .data", "boards/shared.h",
     "    for (volatile unsigned *at = __data_start; at < __data_end; at++) *at = *from++;\n", "    (void)from;\n",
     board("data"), "without their initial values"),
    ("the link script refuses .data", "boards/link.ld",
     "    ASSERT(", '    ASSERT(SIZEOF(.data) == 0, "the start code copies no data")\n    ASSERT(',
     board("data"), "copies no data"),
    ("the linker does not know the size of the memory", "boards/link.ld",
     "LENGTH = ram_len", "LENGTH = 64K", board("small"), "took more memory"),
    ("the linker does not count the stack", "boards/link.ld",
     ". += stack_len;", ". += 0;", board("small"), "took more memory"),
    ("nobody looks at the depth of the stack", "boards/stack.py",
     "if deepest > int(stack):", "if deepest > 8192:", board("small"), "less stack than the firmware may need"),
    ("the secret is the same at each start", "boards/shared.h",
     "secret[at] = (unsigned char)byte;", "secret[at] = (unsigned char)at;", board("secret"), "the same number at both starts"),
    ("the secret is not given to the device", "boards/shared.h",
     "    if (is_random) uip_protect(&device, secret);\n", "    (void)is_random;\n", board("secret"), "WRONG the first sequence number is 0x0000"),
    ("two lights are wired the wrong way round", "boards/microbit/pages.c",
     "10 + 2, 00 + 9, 10 + 3,", "00 + 9, 10 + 2, 10 + 3,", board("demo"), "WRONG /heart.html is on the matrix|WRONG /"),
    ("a row of the lights is no output", "boards/microbit/pages.c",
     "pin < FIRST_COLUMN + COLUMNS + ROWS; pin++", "pin < FIRST_COLUMN + COLUMNS + ROWS - 1; pin++", board("demo"), "WRONG rows and columns are outputs"),
    ("a number that is no picture is shown", "boards/microbit/pages.c",
     " && number < 1 << 25)", ")", board("demo"), "WRONG what is no picture changes nothing"),
    ("a port of mps2 is deaf after its ring was full", "boards/mps2-an386/board.c",
     "    if (receives && received()) INTERRUPT_LINE(LINE);\n", "", board("full"),
     r"WRONG after a flood of 30 pings 0 of 10 pings|WRONG a connection failed: timed out"),
    ("browse.py: a socket that has room for few writes of one byte", "examples/browse.py",
     "    with socket.create_server((\"127.0.0.1\", 0)) as server:\n        line = socket.create_connection(server.getsockname())\n"
     "        port = server.accept()[0]\n    line.setsockopt(socket.SOL_SOCKET, socket.SO_SNDBUF, SOCKET_ROOM)\n"
     "    for end in (line, port):\n        end.setsockopt(socket.IPPROTO_TCP, socket.TCP_NODELAY, 1)\n    return line, port\n",
     "    return socket.socketpair()\n", BROWSE, r"20,000 writes of one byte: \d+\n"),
    ("browse.py: its writes wait, and the node's do, too", "examples/browse.py",
     "        os.set_blocking(descriptor, False)\n", "", BROWSE, "a line that is not read blocks"),
    ("browse.py: the time for which qemu is held up counts as the board's", "examples/browse.py",
     "time.monotonic() - held_up(self.board, os.getpid())", "time.monotonic()", BROWSE, "a line that does not wait"),
)


def copy(room):
    """The repository: copies of the folders in which faults are planted, and links to the others."""
    for name in os.listdir(TOP):
        if name in COPIED:
            shutil.copytree(os.path.join(TOP, name), os.path.join(room, name), ignore=shutil.ignore_patterns("out"))
        elif not name.startswith("."):
            os.symlink(os.path.abspath(os.path.join(TOP, name)), os.path.join(room, name))


def run(room, command):
    """The status of a test, and what it printed. One that does not end is ended, with all that it started."""
    test = subprocess.Popen(command, cwd=room, stdout=subprocess.PIPE, stderr=subprocess.STDOUT, text=True, start_new_session=True)
    try:
        told = test.communicate(timeout=PATIENCE)[0]
    except subprocess.TimeoutExpired:
        os.killpg(test.pid, signal.SIGKILL)
        told = test.communicate()[0] + f"not ended after {PATIENCE} seconds"
    return test.returncode, told


def plant(room, path, old, new):
    with open(os.path.join(room, path), encoding="utf8") as file:
        text = file.read()
    if text.count(old) != 1:
        sys.exit(f"planted_test.py: {path} has {text.count(old)} times: {old}")
    with open(os.path.join(room, path), "w", encoding="utf8") as file:
        file.write(text.replace(old, new))


def passes(command):
    with tempfile.TemporaryDirectory() as room:
        copy(room)
        status, told = run(room, command)
    print(f"{'passed' if status == 0 else 'FAILED'} without a fault: {' '.join(command)}{'' if status == 0 else chr(10) + told}", flush=True)
    return status == 0


def is_found(fault):
    name, path, old, new, command, report = fault
    with tempfile.TemporaryDirectory() as room:
        copy(room)
        plant(room, path, old, new)
        status, told = run(room, command)
    found = status != 0 and re.search(report, told) is not None
    print(f"{'found' if found else 'MISSED'}: {name}{'' if found else chr(10) + told}", flush=True)
    return found


def main():
    words = sys.argv[1:]
    if {"-h", "--help"} & set(words):
        sys.exit(__doc__)
    faults = [fault for fault in FAULTS if not words or any(word in fault[0] for word in words)]
    good = [passes(command) for command in dict.fromkeys(fault[4] for fault in faults)]
    good += [is_found(fault) for fault in faults]
    print(f"{len(faults)} faults planted: {'each was found' if all(good) else 'not all is as it should be'}")
    sys.exit(0 if all(good) else 1)


main()
