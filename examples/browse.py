#!/usr/bin/env python3
"""Connects a node on a serial line to this machine's own TCP, so that a browser can open its pages.

    python3 examples/browse.py [UIPD [SITE]] [OPTION ..] [-- COMMAND ARG ..]
    python3 examples/browse.py [OPTION ..] QEMU-COMMAND WORD .. [-- COMMAND ARG ..]

It makes a TUN interface (10.0.0.2; the other end is 10.0.0.1) in a network namespace of its own, starts `UIPD serve SITE 10.0.0.1`
on a pseudo terminal, and carries datagrams between the two as SLIP frames. If a COMMAND is given, it runs that in the namespace
and ends with its status. Else it prints how to open the pages, and waits for Ctrl-C. It needs Linux, /dev/net/tun and `ip`, but no
privilege. In the second form the node is a board: the command starts qemu (`qemu-system-arm -M mps2-an386 -kernel FIRMWARE`).

    --node ADDRESS       the address of the node (10.0.0.1), for example that of a firmware on the line. The interface has the .2 of the
                         same /24, or its .1 if the node has the .2. A server that the script starts gets ADDRESS
    --line DEVICE RATE   starts no server: the node is at the other end of a serial port, for example /dev/ttyUSB0 115200
    --silent             with --line: that node has a clock of its own, as a firmware has, so the line is not filled (see below)
    --ether              Ethernet frames over a TAP interface, with Linux's own ARP, in place of SLIP (`UIPD ether`, or a board's controller)
    --desk               a shell at port 23 beside the pages (`UIPD desk`)
    --host               no namespace: the interface is one of this machine, so its usual browser opens the pages. This needs root,
                         or an interface uip0 that was made for this user and ADDRESS (the script prints how); the /24 has to be free

    --board FIRMWARE     starts no server: the node runs on a board under qemu, and this is its serial port
    --machine WORDS      with --board: the command of another machine, in one word; {} in it represents FIRMWARE
    --qemu WORDS         further words for qemu; the variable QEMU may name its program
    --baud RATE          the board's line has RATE bits a second and does not wait: a byte that the board has not read within a
                         quarter of a second is lost. Time for which qemu or this script waited for a processor does not count.
                         The script prints the number of lost bytes at the end
    --memory FILE        writes 64 kB of the board's memory to FILE at the end
    --memory-at ADDRESS  the address of that memory (0x40000000)

    --loss P, --dup P, --reorder P, --damage P    of the datagrams, in both directions, P percent are lost, delivered twice,
                         delivered after the next one (or 0.1 s later), or delivered with one bit changed
    --seed N             the first state of the random numbers by which these are chosen (1)
    --record FILE        writes the datagrams to FILE as they pass, with their times: a capture file that Wireshark and `uipd slip` read.
                         It has what the node receives and sends, so a datagram that is lost on its way to the node is missing
    --help               prints this text

The line has a rate, as a real one has (20,000 bytes a second, or that of the port). Its silence is filled with bytes that mean
nothing, so the server's `pace` is a clock of half seconds, however busy the line is. A board has a clock of its own, and its line
is not filled, nor is that of a firmware with --silent.
"""
import contextlib
import ctypes
import errno
import fcntl
import glob
import ipaddress
import os
import random
import select
import shutil
import socket
import struct
import subprocess
import sys
import termios
import time
import tty

HERE = os.path.dirname(os.path.abspath(__file__))
END, ESC, ESC_END, ESC_ESC = 0xC0, 0xDB, 0xDC, 0xDD
CLONE_NEWUSER, CLONE_NEWNET = 0x10000000, 0x40000000
TUNSETIFF, IFF_TUN, IFF_TAP, IFF_NO_PI = 0x400454CA, 1, 2, 0x1000
INTERFACE = "uip0"
NODE_ADDRESS = "10.0.0.1"
NODE_MAC = "02:00:00:00:00:01"
MACHINE = "qemu-system-aarch64 -M virt,gic-version=2 -cpu cortex-a53 -m 64 -bios {}".split()
QEMU_PACKAGES = {"aarch64": "qemu-system-arm", "arm": "qemu-system-arm", "riscv32": "qemu-system-misc", "riscv64": "qemu-system-misc"}
LOCAL_RATE = 20000
BOARD_RATE = 200000
BOARD_MEMORY = (0x40000000, 0x10000)
PATIENCE = 0.25
QUEUE = 16384      # bytes that may wait for the line before datagrams wait in the interface
HELD = 0.1         # seconds for which a datagram is held that is to be reordered
SOCKET_ROOM = 65536
LINK_TYPES = {False: 101, True: 1}    # of a capture file: raw IP, and Ethernet
# The exit statuses of uipd (crates/uipd/uipd.1).
STATUSES = {
    0: "the line ended",
    1: "the command line is unknown",
    2: "a file could not be read, or does not exist",
    3: "reading the line failed",
    4: "writing failed",
    5: "the number of items that it was allowed was taken",
    6: "the image of the site is bad",
    7: "the schedule is bad",
    8: "out of memory",
    9: "the capture file is bad",
}


class Slip:
    """Datagrams as SLIP frames (RFC 1055). An END between frames means nothing."""
    filler = bytes([END])

    def __init__(self):
        self.rest = b""

    def text_of(self, datagram):
        text = datagram.replace(bytes([ESC]), bytes([ESC, ESC_ESC])).replace(bytes([END]), bytes([ESC, ESC_END]))
        return bytes([END]) + text + bytes([END])

    def feed(self, data):
        """The datagrams that these bytes complete."""
        *frames, self.rest = (self.rest + data).split(bytes([END]))
        return [f.replace(bytes([ESC, ESC_END]), bytes([END])).replace(bytes([ESC, ESC_ESC]), bytes([ESC])) for f in frames if f]


class Frames:
    """Ethernet frames, each after its length in two bytes, or in four as qemu has it. A frame of length 0 is dropped."""

    def __init__(self, head=2):
        self.head, self.rest, self.filler = head, b"", bytes(head)

    def text_of(self, frame):
        return len(frame).to_bytes(self.head, "big") + frame

    def feed(self, data):
        self.rest += data
        frames, head = [], self.head
        while len(self.rest) >= head and len(self.rest) >= head + int.from_bytes(self.rest[:head], "big"):
            end = head + int.from_bytes(self.rest[:head], "big")
            frames.append(self.rest[head:end])
            self.rest = self.rest[end:]
        return [frame for frame in frames if frame]


class Line:
    """The bytes to the node, at a rate: what waits is sent as time passes, and the rest of the time may be filled. It never blocks, as the
    node may read nothing before its own output is read."""

    def __init__(self, descriptor, form, rate, is_filled):
        self.is_heard = False    # whether the other end has sent something
        self.descriptor, self.form, self.rate, self.is_filled = descriptor, form, rate, is_filled
        self.queue, self.start, self.sent = b"", time.monotonic(), 0
        self.untaken = b""       # what is sent, but not yet taken by the other end
        os.set_blocking(descriptor, False)

    def put(self, datagram):
        self.queue += self.form.text_of(datagram)

    def is_full(self):
        """Whether so much waits that further datagrams should wait in the interface, which drops what is too much."""
        return len(self.queue) > QUEUE

    def beat(self):
        self.write()
        due = int((time.monotonic() - self.start) * self.rate) - self.sent
        due = min(due - due % len(self.form.filler), self.rate // 4)
        if due <= 0:
            return
        if self.untaken:
            self.sent += due     # this time passed in vain
            return
        text = self.queue[:due]
        if self.is_filled and not self.queue[due:]:
            text += self.form.filler * ((due - len(text)) // len(self.form.filler))
        self.queue = self.queue[due:]
        self.sent += len(text) if self.is_filled else due
        self.untaken = text
        self.write()

    def write(self):
        with contextlib.suppress(BlockingIOError):
            while self.untaken:
                self.untaken = self.untaken[os.write(self.descriptor, self.untaken):]


class HastyLine(Line):
    """A line that does not wait once its other end has sent something: what is unread there for too long is lost, the oldest first. `board` is
    the process at that end."""

    def __init__(self, descriptor, form, rate, other, board):
        super().__init__(descriptor, form, rate, False)
        self.other, self.board = socket.socket(fileno=other), board
        self.lost, self.written, self.marks = 0, 0, []

    def unread(self):
        return int.from_bytes(fcntl.ioctl(self.other, termios.FIONREAD, bytes(4)), sys.byteorder)

    def beat(self):
        now = time.monotonic() - held_up(self.board, os.getpid())
        while self.marks and self.marks[0][0] < now - PATIENCE:
            due = self.marks.pop(0)[1]
            late = min(due - self.written + self.unread(), self.unread())
            if self.is_heard and late > 0:
                with contextlib.suppress(BlockingIOError):    # the board took them after all
                    self.lost += len(self.other.recv(late, socket.MSG_DONTWAIT))
        waited = len(self.queue) + len(self.untaken)
        super().beat()
        taken = waited - len(self.queue) - len(self.untaken)
        if taken > 0:
            self.written += taken
            self.marks.append((now, self.written))


def held_up(*processes):
    """For how many seconds the threads of these processes were ready, but waited for a processor; 0 if Linux does not count it."""
    waited = 0
    for path in (path for process in processes for path in glob.glob(f"/proc/{process}/task/*/schedstat")):
        with contextlib.suppress(OSError), open(path) as file:
            waited += int(file.read().split()[1])
    return waited / 1e9


class Faults:
    """What happens to the datagrams of one direction: each is lost, doubled, held back or damaged with a probability."""

    def __init__(self, rates, seed):
        self.rates, self.random, self.held, self.until = rates, random.Random(seed), [], 0
        self.counts = {"datagrams": 0, "loss": 0, "dup": 0, "reorder": 0, "damage": 0}

    def happens(self, kind):
        is_so = self.random.random() * 100 < self.rates.get(kind, 0)
        self.counts[kind] += is_so
        return is_so

    def damaged(self, datagram):
        at = self.random.randrange(8 * len(datagram))
        return datagram[:at // 8] + bytes([datagram[at // 8] ^ 1 << at % 8]) + datagram[at // 8 + 1:]

    def put(self, datagram):
        """The datagrams that arrive if this one is sent."""
        self.counts["datagrams"] += 1
        if self.happens("loss"):
            return []
        if self.happens("damage"):
            datagram = self.damaged(datagram)
        arrive = [datagram] * (2 if self.happens("dup") else 1)
        if not self.held and self.happens("reorder"):
            self.held, self.until = arrive, time.monotonic() + HELD
            return []
        arrive, self.held = arrive + self.held, []
        return arrive

    def late(self):
        """The datagrams that were held back for long enough."""
        if not self.held or time.monotonic() < self.until:
            return []
        arrive, self.held = self.held, []
        return arrive


class Capture:
    """A capture file (libpcap, big-endian), written as the datagrams pass."""

    def __init__(self, path, ether):
        try:
            self.file = open(path, "wb")
        except OSError as error:
            fail(f"no capture file {path}: {error.strerror}")
        self.file.write(struct.pack(">IHHiIII", 0xA1B2C3D4, 2, 4, 0, 0, 65535, LINK_TYPES[ether]))
        self.file.flush()

    def put(self, datagram):
        seconds, micro = divmod(time.time_ns() // 1000, 1_000_000)
        self.file.write(struct.pack(">IIII", seconds, micro, len(datagram), len(datagram)) + datagram)
        self.file.flush()


def fail(text):
    sys.exit(f"{os.path.basename(sys.argv[0])}: {text}")


# ---- the interface

def enter_namespace():
    """Enters a network namespace; a plain user also enters a user namespace, as its root. Returns the command by which others enter it."""
    libc = ctypes.CDLL(None, use_errno=True)
    user, group = os.getuid(), os.getgid()
    flags = CLONE_NEWNET if user == 0 else CLONE_NEWNET | CLONE_NEWUSER
    if libc.unshare(flags) != 0:
        fail(f"no network namespace: {os.strerror(ctypes.get_errno())}. Run it as root, or let users make namespaces: "
             "sysctl kernel.unprivileged_userns_clone=1 (Debian), kernel.apparmor_restrict_unprivileged_userns=0 (Ubuntu)")
    if user != 0:
        for name, text in (("setgroups", "deny"), ("uid_map", f"0 {user} 1"), ("gid_map", f"0 {group} 1")):
            with open(f"/proc/self/{name}", "w") as file:
                file.write(text)
    return f"nsenter {'' if user == 0 else '--preserve-credentials -U '}-n -t {os.getpid()}"


def own_address(node):
    """This machine's address on the /24 of a node."""
    network, _, last = node.rpartition(".")
    return f"{network}.{1 if last == '2' else 2}"


def commands_of(ether, node):
    """The words of `ip` that give the interface its addresses."""
    own = own_address(node)
    address = f"addr add {own}/24 dev" if ether else f"addr add {own} peer {node} dev"
    return f"link set {INTERFACE} up mtu 1500", f"{address} {INTERFACE}"


def tun_cure(error, ether, is_host, node):
    """What to do if the interface cannot be made."""
    if error.errno in (errno.ENOENT, errno.ENODEV):
        return "load the driver: modprobe tun (in a container: --device /dev/net/tun)"
    if error.errno == errno.EBUSY:
        return f"another program uses the interface {INTERFACE}: end it first"
    todo = ["chmod 666 /dev/net/tun"] if error.errno == errno.EACCES else []
    if is_host:
        add = f"ip tuntap add dev {INTERFACE} mode {'tap' if ether else 'tun'} user {os.getuid()}"
        todo += [add, *(f"ip {words}" for words in commands_of(ether, node))]
    own = f", or once: {'; '.join(f'sudo {it}' for it in todo)}" if todo else ""
    return f"run it as root{own} (in a container: --device /dev/net/tun --cap-add NET_ADMIN)"


def make_interface(ether, is_host=False, node=NODE_ADDRESS):
    """A TUN interface, or a TAP interface, with this machine's address on the /24 of the node."""
    try:
        descriptor = os.open("/dev/net/tun", os.O_RDWR)
        fcntl.ioctl(descriptor, TUNSETIFF, struct.pack("16sH", INTERFACE.encode(), (IFF_TAP if ether else IFF_TUN) | IFF_NO_PI))
    except OSError as error:
        fail(f"no interface by /dev/net/tun: {error.strerror}. Cure: {tun_cure(error, ether, is_host, node)}")
    if is_host and os.getuid() != 0:
        return descriptor    # made for this user, with its addresses
    for words in (*(() if is_host else ("link set lo up",)), *commands_of(ether, node)):
        if subprocess.run(["ip", *words.split()], check=False).returncode:
            fail(f"`ip {words}` failed")
    return descriptor


# ---- the node

def start_server(words):
    """The server's standard input is a raw terminal whose reads end after half a second; its output is a pipe."""
    line, end = os.openpty()
    tty.setraw(end)
    settings = termios.tcgetattr(end)
    settings[6][termios.VMIN], settings[6][termios.VTIME] = 0, 5
    termios.tcsetattr(end, termios.TCSANOW, settings)
    server = subprocess.Popen(words, stdin=end, stdout=subprocess.PIPE)
    os.close(end)
    return server, line, server.stdout.fileno()


def open_port(device, rate):
    """A serial port, raw, at a rate in bits a second."""
    speed = getattr(termios, f"B{rate}", None)
    if speed is None:
        fail(f"no rate of a port: {rate}")
    try:
        port = os.open(device, os.O_RDWR | os.O_NOCTTY)
        tty.setraw(port)
        settings = termios.tcgetattr(port)
    except (OSError, termios.error) as error:
        fail(f"no serial port {device}: {error}")
    settings[4] = settings[5] = speed
    termios.tcsetattr(port, termios.TCSANOW, settings)
    return port


def machine_words(machine, firmware):
    """The words of a machine with its firmware."""
    program, *words = [it.replace("{}", firmware or "{}") for it in machine]
    return [os.environ.get("QEMU", program), *words]


def stream_pair():
    """Two connected sockets, of which the first holds little of what is sent to the second. They are TCP's, which joins what is written: a
    UNIX socket has room for some 280 writes, and most of qemu's ports write single bytes, and some drop what the socket does not take."""
    with socket.create_server(("127.0.0.1", 0)) as server:
        line = socket.create_connection(server.getsockname())
        port = server.accept()[0]
    line.setsockopt(socket.SOL_SOCKET, socket.SO_SNDBUF, SOCKET_ROOM)
    for end in (line, port):
        end.setsockopt(socket.IPPROTO_TCP, socket.TCP_NODELAY, 1)
    return line, port


def emulate(firmware, further, machine=MACHINE, ether=False):
    """A board by qemu, with both ends of its serial line, or of its network, and the end of its monitor."""
    line, port = stream_pair()
    monitor, monitor_end = socket.socketpair()
    link = ["-nic", f"socket,fd={port.fileno()}", "-serial", "null"] if ether else \
        ["-nic", "none", "-chardev", f"socket,id=line,fd={port.fileno()}", "-serial", "chardev:line"]
    words = [*machine_words(machine, firmware), *link, "-display", "none", *further,
             "-chardev", f"socket,id=monitor_end,fd={monitor_end.fileno()}", "-mon", "chardev=monitor_end"]
    board = subprocess.Popen(words, pass_fds=[port.fileno(), monitor_end.fileno()])
    monitor_end.close()
    return board, line.detach(), port.detach(), monitor


def start_board(firmware, further=(), machine=MACHINE, ether=False):
    """A board by qemu, with the end of its serial line or network, which ends if the board does, and that of its monitor."""
    board, line, other, monitor = emulate(firmware, further, machine, ether)
    os.close(other)
    return board, line, monitor


def save_memory(board, monitor, path, at=BOARD_MEMORY[0]):
    """The board's memory; the monitor answers with its prompt when it is written."""
    monitor.sendall(f'pmemsave {at} {BOARD_MEMORY[1]} "{os.path.abspath(path)}"\nquit\n'.encode())
    board.wait(timeout=10)


def ending_of(server, program):
    """How the node ended, in words."""
    if server is None:
        return "the serial port was closed"
    name = os.path.basename(program)
    try:
        status = server.wait(timeout=5)
    except subprocess.TimeoutExpired:
        return f"{name} closed its end of the line"
    why = f"by signal {-status}" if status < 0 else f"with status {status}"
    return f"{name} ended {why}" + (f": {STATUSES[status]}" if name == "uipd" and status in STATUSES else "")


# ---- between the two

class Bridge:
    """Carries datagrams between the interface and the node, with faults and a capture."""

    def __init__(self, interface, line, output, words):
        self.interface, self.line, self.output = interface, line, output
        self.to_node, self.from_node = Faults(words.rates, words.seed), Faults(words.rates, words.seed + 1)
        self.capture = Capture(words.record, words.ether) if words.record else None
        self.is_damaging = bool(words.rates.get("damage"))

    def seen(self, datagram):
        if self.capture:
            self.capture.put(datagram)

    def send(self, datagrams):
        for datagram in datagrams:
            self.seen(datagram)
            self.line.put(datagram)

    def receive(self, datagrams):
        for datagram in datagrams:
            try:
                os.write(self.interface, datagram)
            except OSError as error:
                if not self.is_damaging:
                    print(f"browse.py: the interface refused what the node sent: {error.strerror}", file=sys.stderr)

    def run(self, is_done, ending):
        while not is_done():
            readers = [self.output] if self.line.is_full() else [self.interface, self.output]
            writers = [self.line.descriptor] if self.line.untaken else []
            for ready in select.select(readers, writers, [], 0.02)[0]:
                if ready == self.interface:
                    self.send(self.to_node.put(os.read(self.interface, 2048)))
                    continue
                data = read_some(self.output)
                if not data:
                    fail(ending())
                self.line.is_heard = True
                for datagram in self.line.form.feed(data):
                    self.seen(datagram)
                    self.receive(self.from_node.put(datagram))
            self.send(self.to_node.late())
            self.receive(self.from_node.late())
            try:
                self.line.beat()
            except OSError:
                fail(ending())

    def report(self):
        """What the faults did, if there were any."""
        if self.to_node.rates:
            for name, faults in (("to the node", self.to_node), ("from the node", self.from_node)):
                text = ", ".join(f"{faults.counts[kind]} {kind}" for kind in ("loss", "dup", "reorder", "damage"))
                print(f"{name}: {faults.counts['datagrams']} datagrams, {text}", file=sys.stderr, flush=True)


def read_some(descriptor):
    """The next bytes; none if the other end is closed (a terminal reports that as an error)."""
    try:
        return os.read(descriptor, 65536)
    except OSError:
        return b""


# ---- the command line

def number(text):
    """A number of a command line, decimal or hexadecimal."""
    return int(text, 0)


def percent(text):
    value = float(text)
    if not 0 <= value <= 100:
        raise ValueError
    return value


def host_address(text):
    """The address of a host on a /24, as it is written."""
    first, *_, last = ipaddress.IPv4Address(text).packed
    if first in (0, 127) or first >= 224 or last in (0, 255):
        raise ValueError
    return text


# Each option: its field, and what reads each of its words.
OPTIONS = {
    "--ether": ("ether", ()), "--desk": ("desk", ()), "--host": ("host", ()), "--silent": ("silent", ()),
    "--line": ("line", (str, number)), "--board": ("board", (str,)), "--machine": ("machine", (str.split,)), "--qemu": ("qemu", (str.split,)),
    "--baud": ("baud", (number,)), "--memory": ("memory", (str,)), "--memory-at": ("memory_at", (number,)),
    "--loss": ("loss", (percent,)), "--dup": ("dup", (percent,)), "--reorder": ("reorder", (percent,)), "--damage": ("damage", (percent,)),
    "--seed": ("seed", (number,)), "--record": ("record", (str,)), "--node": ("node", (host_address,)),
}
NEEDS = {(percent,): "a number from 0 to 100", (host_address,): f"the IPv4 address of one host, as {NODE_ADDRESS}: its last number is from 1 to 254"}


class Words:
    """What the command line asks for."""
    ether = desk = host = silent = False
    line = board = machine = baud = memory = record = None
    loss = dup = reorder = damage = 0
    memory_at, seed, node = BOARD_MEMORY[0], 1, NODE_ADDRESS

    def __init__(self, words):
        own = words[:words.index("--")] if "--" in words else words
        if "--help" in own or "-h" in own:
            sys.exit(print(__doc__))
        self.command, self.qemu = words[len(own) + 1:], []
        plain = self.read(own)
        self.uipd = plain[0] if plain else os.path.join(HERE, "../crates/uipd/out/uipd")
        self.site = plain[1] if len(plain) > 1 else os.path.join(HERE, "site.img")
        self.rates = {kind: getattr(self, kind) for kind in ("loss", "dup", "reorder", "damage") if getattr(self, kind)}
        self.is_board = bool(self.board or self.machine)

    def read(self, words):
        """Reads the options, and returns the other words."""
        plain = []
        while words:
            word, *words = words
            if word in OPTIONS:
                words = self.take(word, words)
            elif os.path.basename(word).startswith("qemu-system") and not plain:
                self.machine, words = [word, *words], []
            elif word.startswith("-") or len(plain) == 2:
                fail(f"unknown word {word}; --help prints the words")
            else:
                plain.append(word)
        return plain

    def take(self, option, words):
        """Reads the words of an option, and returns the rest."""
        field, readers = OPTIONS[option]
        try:
            values = [reader(word) for reader, word in zip(readers, words)]
        except ValueError:
            values = []
        if len(values) < len(readers):
            fail(f"{option} needs {NEEDS.get(readers, 'its value')}; --help prints the words")
        setattr(self, field, True if not readers else values[0] if len(values) == 1 else tuple(values))
        return words[len(readers):]

    def check(self):
        if self.silent and self.line is None:
            fail("--silent goes with --line")
        if self.ether and self.desk:
            fail("--desk is served over a serial line: omit --ether")
        if self.ether and self.baud:
            fail("--baud is the rate of a serial line: omit --ether")
        if not shutil.which("ip"):
            fail("no command `ip` here: it is in the package iproute2")
        if self.is_board:
            self.check_board()
        elif self.line is None:
            self.check_server()
        if self.command and not shutil.which(self.command[0]):
            fail(f"no command {self.command[0]} here")

    def check_board(self):
        program = self.program()
        if not shutil.which(program):
            package = QEMU_PACKAGES.get(os.path.basename(program).replace("qemu-system-", ""))
            fail(f"no command {program} here" + (f": it is in the package {package}" if package else ""))
        if self.board and not os.path.exists(self.board):
            fail(f"no firmware at {self.board}: `sh examples/board/run.sh build` builds that of the example board")
        if not self.board and any("{}" in it for it in self.machine):
            fail("{} in a machine represents the firmware, which --board names")

    def check_server(self):
        if not os.access(self.uipd, os.X_OK):
            fail(f"no program at {self.uipd}: `rt run` in crates/uipd builds it{self.without_kit()}")
        if not os.path.exists(self.site):
            fail(f"no image at {self.site}: `sh examples/pack.sh` packs it")

    def without_kit(self):
        """What serves the same pages where the program is not built."""
        inside = os.path.join(HERE, "../web/test/uipd.mjs")
        if self.ether or self.desk or not shutil.which("node") or not os.path.exists(inside):
            return ""
        return f"; without the kit `python3 {sys.argv[0]} {os.path.relpath(inside)}` serves by the library as WebAssembly"

    def rate(self):
        """Bytes a second."""
        if self.line:
            return self.line[1] // 10
        return self.baud // 10 if self.baud else BOARD_RATE if self.is_board else LOCAL_RATE

    def program(self):
        return machine_words(self.machine or MACHINE, self.board)[0] if self.is_board else self.uipd

    def kind(self):
        return "ether" if self.ether else "desk" if self.desk else "serve"

    def server_words(self):
        mac = [NODE_MAC] if self.ether else []
        return [self.uipd, self.kind(), self.site, self.node, *mac, "pace", str(self.rate() // 2), "tty"]


class Node:
    """The node that was asked for: its process, the two descriptors of its line, and its monitor."""

    def __init__(self, words, port):
        self.server = self.monitor = None
        form = Frames(4 if words.is_board else 2) if words.ether else Slip()
        if words.is_board and words.baud:
            self.server, to_node, other, self.monitor = emulate(words.board, words.qemu, words.machine or MACHINE)
            self.output, self.line = to_node, HastyLine(to_node, form, words.rate(), other, self.server.pid)
            return
        if words.is_board:
            self.server, to_node, self.monitor = start_board(words.board, words.qemu, words.machine or MACHINE, words.ether)
            self.output = to_node
        elif port is not None:
            to_node = self.output = port
            if not words.silent:
                print(f"On the other end: stty -F PORT {words.line[1]} raw -echo min 0 time 5; "
                      f"uipd {words.kind()} SITE {words.node} pace {words.rate() // 2} tty <PORT >PORT")
        else:
            self.server, to_node, self.output = start_server(words.server_words())
        self.line = Line(to_node, form, words.rate(), not words.is_board and not words.silent)

    def end(self, words):
        if words.baud:
            print(f"the line lost {self.line.lost} of {self.line.written} bytes", flush=True)
        if self.monitor and words.memory:
            save_memory(self.server, self.monitor, words.memory, words.memory_at)
        if self.server:
            self.server.kill()


def show_ways(words, entry):
    """Prints how to open the pages."""
    if words.host:
        print(f"The site is at http://{words.node}/: open it in your browser. Ctrl-C ends it.", flush=True)
        return
    root = "--no-sandbox " if os.getuid() == 0 else ""    # a plain user is root there, and Chromium refuses its sandbox to root
    print(f"The site is at http://{words.node}/ in a network of its own. From another terminal:")
    print(f"    {entry} curl http://{words.node}/")
    print(f"    {entry} chromium {root}--user-data-dir=/tmp/lowunbisa http://{words.node}/", flush=True)
    if words.desk:
        print(f"    {entry} telnet {words.node}", flush=True)


def main():
    words = Words(sys.argv[1:])
    words.check()
    port = open_port(*words.line) if words.line else None
    entry = None if words.host else enter_namespace()
    interface = make_interface(words.ether, words.host, words.node)
    node = Node(words, port)
    bridge = Bridge(interface, node.line, node.output, words)
    child = subprocess.Popen(words.command) if words.command else None
    if not child:
        show_ways(words, entry)
    try:
        bridge.run(lambda: child is not None and child.poll() is not None, lambda: ending_of(node.server, words.program()))
    except KeyboardInterrupt:
        pass
    finally:
        if child and child.poll() is None:
            child.terminate()
    bridge.report()
    node.end(words)
    sys.exit(child.returncode if child else 0)


if __name__ == "__main__":
    main()
