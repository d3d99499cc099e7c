#!/usr/bin/env python3
"""Tests browse.py: its framing, faults and capture file by hand, and whole runs with a small node in Python (web/test/by_uips_rules.py).

    python3 examples/test/test_browse.py

Whole runs need `ip`, curl and /dev/net/tun; without them they are skipped, and a line says so. If tshark is here, it reads the captures.
"""
import contextlib
import io
import os
import re
import shutil
import signal
import stat
import struct
import subprocess
import sys
import tempfile
import time
import unittest.mock

HERE = os.path.dirname(os.path.dirname(os.path.abspath(__file__)))      # the folder examples/
sys.dont_write_bytecode = True
sys.path.insert(0, HERE)
import browse  # noqa: E402

NODE = os.path.join(HERE, "../web/test/by_uips_rules.py")
PAGE = "This text was made 1 times.\n"


class Trial:
    def __init__(self):
        self.count = self.failed = 0

    def see(self, is_good, text):
        self.count += 1
        if not is_good:
            self.failed += 1
            print(f"WRONG: {text}")


def framing(trial):
    """RFC 1055: END is 192, ESC 219; in a datagram they are 219 220 and 219 221. Frames have their length before them."""
    slip = browse.Slip()
    trial.see(slip.text_of(bytes([1, 192, 219, 2])) == bytes([192, 1, 219, 220, 219, 221, 2, 192]), "the text of a SLIP frame")
    parts = [slip.feed(bytes(part)) for part in ([192, 1, 219], [220, 219, 221], [2, 192, 192], [3, 192])]
    trial.see(parts == [[], [], [bytes([1, 192, 219, 2])], [bytes([3])]], f"the SLIP frames of a line: {parts}")
    frames = browse.Frames()
    trial.see(frames.text_of(b"abc") == b"\0\3abc", "the text of an Ethernet frame")
    trial.see([frames.feed(it) for it in (b"\0", b"\3ab", b"c\0\0\0\1d")] == [[], [], [b"abc", b"d"]], "the Ethernet frames of a line")
    frames = browse.Frames(4)
    trial.see(frames.text_of(b"abc") == b"\0\0\0\3abc", "the text of a frame of qemu's network")
    trial.see([frames.feed(it) for it in (b"\0\0\0\3ab", b"c\0\0")] == [[], [b"abc"]], "the frames of qemu's network")


def end_waiting(*_):
    raise TimeoutError


def lines(trial):
    """A line whose other end reads nothing does not block, and loses nothing; and one-byte writes fill it only after many."""
    signal.signal(signal.SIGALRM, end_waiting)
    near, far = browse.stream_pair()
    line = browse.Line(near.detach(), browse.Slip(), 4000000, False)
    data = bytes(range(1, 101)) * 10000
    line.put(data)
    line.start -= 1
    signal.alarm(10)    # ends a beat that waits
    try:
        line.beat()
    except TimeoutError:
        trial.see(False, "a line that is not read blocks")
        return
    finally:
        signal.alarm(0)
    trial.see(len(line.untaken) > len(data) / 2, f"of a million bytes a line that is not read takes some: {len(line.untaken)} wait")
    got = b""
    far.settimeout(5)
    while len(got) < len(data) + 2:
        got += far.recv(1 << 20)
        line.beat()
    trial.see(got == bytes([browse.END]) + data + bytes([browse.END]), "all of it arrives")
    near, far = browse.stream_pair()
    far.setblocking(False)
    taken = 0
    try:
        while taken < 20000:
            taken += far.send(b"x")
    except BlockingIOError:
        pass
    trial.see(taken == 20000, f"a line takes 20,000 writes of one byte: {taken}")


def hasty_lines(trial):
    """What is unread for too long is lost, but for the time in which the board waited for a processor."""
    near, far = browse.stream_pair()
    own = far.dup()
    line = browse.HastyLine(near.detach(), browse.Slip(), 115200, far.detach(), os.getpid())
    line.is_heard = True
    line.start -= 1

    def waiting_after(seconds, held_up):
        """How many bytes wait at the other end after this time, of which the board was held up for a part."""
        with unittest.mock.patch.object(browse.time, "monotonic", return_value=line.start + 1 + seconds), \
                unittest.mock.patch.object(browse, "held_up", return_value=held_up):
            line.beat()
            time.sleep(0.05)
            return line.unread()

    line.put(b"12345")
    found = [waiting_after(*it) for it in ((0, 0), (0.2, 0), (1, 0.8), (1.2, 0.96), (1.3, 0.96))]
    trial.see(found == [7, 7, 7, 7, 0] and line.lost == 7, f"a line that does not wait: {found}, {line.lost} lost")
    own.close()
    trial.see(0 <= browse.held_up(os.getpid()) < time.clock_gettime(time.CLOCK_BOOTTIME), "the time for which this process was held up")


def faults(trial):
    """Each fault alone at 100 %, and their shares of many datagrams."""
    one, two = b"\0\0", b"\1\1"
    trial.see(browse.Faults({}, 1).put(one) == [one], "no fault")
    trial.see(browse.Faults({"loss": 100}, 1).put(one) == [], "loss")
    trial.see(browse.Faults({"dup": 100}, 1).put(one) == [one, one], "duplication")
    damaged = browse.Faults({"damage": 100}, 1).put(one)[0]
    trial.see(len(damaged) == 2 and bin(int.from_bytes(damaged, "big")).count("1") == 1, f"damage of one bit: {damaged}")
    late = browse.Faults({"reorder": 100}, 1)
    trial.see([late.put(one), late.late(), late.put(two)] == [[], [], [two, one]], "reordering")
    late.put(one)
    late.until = 0
    trial.see(late.late() == [one] and late.late() == [], "a datagram that is held back arrives in time")
    many = browse.Faults({"loss": 20, "dup": 10}, 7)
    arrived = sum(len(many.put(one)) for _ in range(20000))
    trial.see(abs(arrived - 20000 * 0.8 * 1.1) < 300, f"20,000 datagrams at 20 % loss and 10 % duplication: {arrived} arrive")


def words(trial):
    """The command line: boards of any machine, and what is refused."""
    board = browse.Words(["--memory-at", "0x20000000", "qemu-system-arm", "-M", "mps2-an386", "-kernel", "f.elf", "--", "x"])
    trial.see(board.is_board and board.machine[-1] == "f.elf" and board.memory_at == 0x20000000 and board.command == ["x"], "a machine by its words")
    own = browse.Words(["--board", "f.bin", "--machine", "qemu-x -kernel {}", "--qemu", "-d cpu"])
    trial.see(browse.machine_words(own.machine, own.board) == ["qemu-x", "-kernel", "f.bin"] and own.qemu == ["-d", "cpu"], "a machine with {}")
    rates = browse.Words(["--loss", "1", "--dup", "2", "--reorder", "3", "--damage", "4.5"]).rates
    trial.see(rates == {"loss": 1, "dup": 2, "reorder": 3, "damage": 4.5}, f"the rates of the faults: {rates}")
    for bad in (["--loss", "101"], ["--loss"], ["--frob"], ["a", "b", "c"], ["--line", "x"], ["--silent"],
                ["--ether", "--baud", "9600"]):
        done = subprocess.run([sys.executable, os.path.join(HERE, "browse.py"), *bad], capture_output=True, text=True, check=False)
        trial.see(done.returncode == 1 and done.stderr.startswith("browse.py: "), f"{bad}: {done.stderr}")


def printed(show, *given):
    """What a function prints."""
    text = io.StringIO()
    with contextlib.redirect_stdout(text):
        show(*given)
    return text.getvalue()


def refusal(make, *given):
    """The words with which a function ends the program."""
    try:
        return f"no end: {make(*given)}"
    except SystemExit as end:
        return str(end)


def addresses(trial):
    """--node: this machine's address, that of a server, of the interfaces and of all that is printed; and what is refused."""
    own = {node: browse.own_address(node) for node in ("10.0.0.1", "10.0.0.2", "192.168.7.12", "172.16.5.254", "10.2.2.3")}
    trial.see(list(own.values()) == ["10.0.0.2", "10.0.0.1", "192.168.7.2", "172.16.5.2", "10.2.2.2"], f"this machine's addresses: {own}")
    trial.see(browse.Words([]).server_words()[1:4:2] == ["serve", "10.0.0.1"], "the node's address without --node")
    trial.see(browse.Words(["--ether", "--node", "192.168.7.2"]).server_words()[1:4:2] == ["ether", "192.168.7.2"], "the node's address by --node")
    for ether, words in ((False, "addr add 192.168.7.1 peer 192.168.7.2 dev uip0"), (True, "addr add 192.168.7.1/24 dev uip0")):
        trial.see(browse.commands_of(ether, "192.168.7.2")[1] == words, f"the addresses of an interface: {browse.commands_of(ether, '192.168.7.2')}")
        with unittest.mock.patch.object(browse.os, "open", side_effect=PermissionError(1, "Operation not permitted")):
            cure = refusal(browse.make_interface, ether, True, "192.168.7.2")
        trial.see(f"sudo ip {words}" in cure, f"the cure names the addresses: {cure}")
    for options, count in (([], 3), (["--desk"], 4), (["--host"], 1)):
        text = printed(browse.show_ways, browse.Words([*options, "--node", "192.168.7.9"]), "enter")
        trial.see(text.count("192.168.7.9") == count and "10.0.0" not in text, f"the ways of {options}: {text}")
    for bad in (None, "", "node", "10.0.0", "10.0.0.300", "010.0.0.1", "10.0.0.1/24", "10.0.0.1 ", "::1", "10.0.0.0", "10.0.0.255", "0.0.0.1",
                "127.0.0.2", "224.0.0.1", "255.255.255.254"):
        words = ["--node"] if bad is None else ["--node", bad]
        done = subprocess.run([sys.executable, os.path.join(HERE, "browse.py"), *words], capture_output=True, text=True, check=False)
        trial.see(done.returncode == 1 and done.stderr.startswith("browse.py: --node needs the IPv4 address of one host"), f"{words}: {done.stderr}")


def statuses(trial):
    """Each status of the manual page has words."""
    with open(os.path.join(HERE, "../crates/uipd/uipd.1"), encoding="utf8") as file:
        listed = re.findall(r"^\.B (\d)$", file.read().partition(".SH EXIT STATUS")[2], re.M)
    trial.see(listed == list(map(str, browse.STATUSES)), f"the manual page lists the statuses {listed}")


def records_of(path):
    with open(path, "rb") as file:
        data = file.read()
    records, at = [], 24
    while at < len(data):
        seconds, micro, size, _ = struct.unpack_from(">IIII", data, at)
        records.append((seconds + micro / 1e6, data[at + 16:at + 16 + size]))
        at += 16 + size
    return data[:24], records


def rules(seconds):
    """The command of the small node, which sends again after these seconds."""
    return f'exec {sys.executable} "{NODE}" {seconds}'


def run(room, *words, name="uipd", node=rules(0.1)):
    program = os.path.join(room, name)
    with open(program, "w", encoding="utf8") as file:
        file.write(f"#!/bin/sh\n{node}\n")
    os.chmod(program, os.stat(program).st_mode | stat.S_IXUSR)
    command = [sys.executable, os.path.join(HERE, "browse.py"), program, os.path.join(HERE, "site.img"), *words]
    return subprocess.run(command, capture_output=True, text=True, timeout=120, check=False)


def whole_runs(trial, room):
    fetch = ("--", "curl", "-s", "-m", "60", "http://10.0.0.1/")
    path, now = os.path.join(room, "line.pcap"), time.time()
    done = run(room, "--record", path, *fetch, node=rules(30))
    trial.see(done.returncode == 0 and done.stdout == PAGE, f"a page: {done}")
    head, records = records_of(path)
    kinds = [(data[15], data[33] & 3) for _, data in records if data[0] >> 4 == 4]    # the last byte of the source; SYN 2, FIN 1
    order = [kinds.index(it) if it in kinds else -1 for it in ((2, 2), (1, 2), (2, 0), (1, 0), (1, 1))]
    times = [time for time, _ in records]
    trial.see(head == struct.pack(">IHHiIII", 0xA1B2C3D4, 2, 4, 0, 0, 65535, 101), "the head of a capture file")
    trial.see(order[0] == 0 and order == sorted(order) and times == sorted(times) and now < times[0] < times[-1] < time.time(),
              f"the datagrams of a capture, in their order and at their times: {kinds} {times}")
    if shutil.which("tshark"):
        read = subprocess.run(["tshark", "-r", path, "-T", "fields", "-e", "tcp.analysis.flags"], capture_output=True, text=True, check=False)
        trial.see(len(read.stdout.splitlines()) == len(records) and not read.stdout.strip(), f"tshark reads {read.stdout}")
    done = run(room, "--loss", "5", "--dup", "10", "--reorder", "10", "--damage", "5", *fetch)
    counts = re.findall(r"(\d+) datagrams, (\d+) loss, (\d+) dup, (\d+) reorder, (\d+) damage", done.stderr)
    trial.see(done.returncode == 0 and re.fullmatch(r"This text was made \d+ times.\n", done.stdout) and len(counts) == 2, f"faults: {done}")
    trial.see(run(room, "--loss", "100", "--", "curl", "-s", "-m", "2", "http://10.0.0.1/").returncode == 28, "a line that loses everything")
    for status, text in ((3, "ended with status 3: reading the line failed"), (8, "status 8: out of memory"), (77, "ended with status 77\n")):
        done = run(room, "--", "sleep", "20", node=f"exit {status}")
        trial.see(text in done.stderr, f"status {status}: {done.stderr}")
    now = time.monotonic()
    done = run(room, "--", "sleep", "40", name="another", node="exit 3")
    trial.see(done.stderr.endswith("another ended with status 3\n"), f"the status of another program: {done.stderr}")
    trial.see(time.monotonic() < now + 30, "if the node ends, so does the command")
    done = run(room, "--reorder", "100", *fetch, node=rules(100))
    trial.see(done.stdout == PAGE, f"datagrams that are held back: {done}")


def flooded(trial, room):
    """Both directions full: the node reads nothing until its own 300,000 bytes are taken, and more than its terminal holds is sent to it."""
    flood = "import socket; it = socket.socket(socket.AF_INET, socket.SOCK_DGRAM); [it.sendto(bytes(1400), ('10.0.0.1', 9)) for _ in range(40)]"
    try:
        done = run(room, "--", "sh", "-c", f'{sys.executable} -c "{flood}"; exec curl -s -m 60 http://10.0.0.1/',
                   node=f"sleep 1; head -c 300000 /dev/zero | tr '\\000' '\\300'; {rules(30)}")
        trial.see(done.returncode == 0 and done.stdout == PAGE, f"a page after a flood: {done}")
    except subprocess.TimeoutExpired:
        trial.see(False, "a flood: the script and the node wait for each other")


def runs_elsewhere(trial, room):
    """--node with a node that is reached, with TAP, and with a port."""
    path, given = os.path.join(room, "elsewhere.pcap"), os.path.join(room, "words")
    done = run(room, "--node", "192.168.7.2", "--record", path, "--", "curl", "-s", "-m", "60", "http://192.168.7.2/",
               node=f'echo "$1 $3" >"{given}"; {rules(30)}')
    trial.see(done.returncode == 0 and done.stdout == PAGE, f"a page of another address: {done}")
    with open(given, encoding="utf8") as file:
        trial.see(file.read() == "serve 192.168.7.2\n", "the server gets the address")
    ends = {data[12:20] for _, data in records_of(path)[1] if data[0] >> 4 == 4 and data[9] == 6}
    trial.see(ends == {bytes([192, 168, 7, 1, 192, 168, 7, 2]), bytes([192, 168, 7, 2, 192, 168, 7, 1])}, f"the addresses on the line: {ends}")
    done = run(room, "--ether", "--node", "192.168.7.9", "--", "ip", "-o", "-4", "addr", "show", "dev", "uip0", node="exec sleep 20")
    trial.see(" 192.168.7.2/24 " in done.stdout, f"the addresses by TAP: {done}")
    near, far = os.openpty()
    done = run(room, "--line", os.ttyname(far), "9600", "--node", "192.168.7.9", "--", "ip", "-o", "-4", "addr", "show", "dev", "uip0")
    trial.see("uipd serve SITE 192.168.7.9 pace" in done.stdout and " 192.168.7.2 peer 192.168.7.9/32 " in done.stdout, f"a port: {done}")
    os.close(near)
    os.close(far)


def main():
    trial = Trial()
    for part in (framing, lines, hasty_lines, faults, words, addresses, statuses):
        part(trial)
    if shutil.which("ip") and shutil.which("curl") and os.access("/dev/net/tun", os.W_OK):
        with tempfile.TemporaryDirectory() as room:
            whole_runs(trial, room)
            flooded(trial, room)
            runs_elsewhere(trial, room)
    else:
        print("skipped: whole runs: they need ip, curl and /dev/net/tun")
    print(f"browse.py: {trial.count} expectations, {trial.failed} failed")
    sys.exit(1 if trial.failed else 0)


main()
