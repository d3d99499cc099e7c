#!/usr/bin/env python3
"""Counts the instructions that a target needs for pings, ARP, a file of one byte and ticks, on each link, and for single calls.

    python3 ports/speed.py USER SPEED SPEED_ETHER        `sh ports/run.sh TARGET speed` runs it

USER is qemu's user mode for the target. SPEED is the program of speed.c, and SPEED_ETHER the same with ETHERNET. Every instruction of a
run is counted, and those of a run that makes fewer calls are subtracted. The input is that of the recorded lines of bench/lines. On a
serial line the other run has an empty line, and the loop of uip_feed_all is counted too. On the other links the input is the datagrams of
a line, and the calls alone are counted. A run that is not counted shows that each link brings the same replies. The copies of memcpy,
memmove and memset are counted apart: those of examples/board/runtime.c.

A single call is counted in one run, from the mark before it to the next one. Its peer is the class Client below. On a serial line the call
has the whole frame, without an END before it. Opening includes the heap of speed.c, which only grows.
"""
import bisect
import functools
import json
import lzma
import os
import re
import subprocess
import sys
import threading

HERE = os.path.dirname(os.path.abspath(__file__))
sys.path.insert(0, os.path.join(HERE, "..", "tools"))
import pack

LINES = os.path.join(HERE, "..", "bench", "lines")
COPIES = re.compile(r"(__aeabi_)?mem(cpy|move|set|clr)\d?")
OF_SPEED = re.compile("_start|main|system_call|take|number_at|count_sent|feed_line|call|drain|make_records|open_device|mark_.*")
MARKS = re.compile("mark_.*")
LINE, DATAGRAMS, FRAMES = range(3)
NAMES = ("a serial line", "datagrams", "Ethernet")
RECORD, PERIODIC = 1516, 0xFFFF    # as in speed.c; RECORD without its length, and with the place
OWN, PEER = bytes([10, 0, 0, 1]), bytes([10, 0, 0, 2])
OWN_MAC, PEER_MAC = bytes([2, 0, 0, 0, 0, 1]), bytes([2, 0, 0, 0, 0, 2])
PINGS, LONG_PINGS, FILES, TICKS = 200, 20, 20, 20
TEXT = b"The quick brown fox jumps over the lazy dog.\n" * 100
MAX_OUT, PIECE, FULL = 3002, 256, 1460    # rooms of a call for a serial line; bytes of a full segment


def unpacked(name):
    with lzma.open(os.path.join(LINES, name + ".xz")) as file:
        return file.read()


def recorded(name, units):
    """The first units of a recorded line, each as its datagrams without the escapes of SLIP."""
    with open(os.path.join(LINES, "lines.json")) as file:
        all_units = json.load(file)[name]["units"]
    found = datagrams_of(unpacked(name + ".slip"))
    each = len(found) // all_units
    return [found[k * each:(k + 1) * each] for k in range(units)]


def datagrams_of(line):
    frames = [frame for frame in line.split(b"\xc0") if frame]
    return [frame.replace(b"\xdb\xdc", b"\xc0").replace(b"\xdb\xdd", b"\xdb") for frame in frames]


def slip(datagram):
    return b"\xc0" + datagram.replace(b"\xdb", b"\xdb\xdd").replace(b"\xc0", b"\xdb\xdc") + b"\xc0"


def checksum(text):
    total = sum(int.from_bytes(text[k:k + 2].ljust(2, b"\0"), "big") for k in range(0, len(text), 2))
    while total > 0xFFFF:
        total = (total & 0xFFFF) + (total >> 16)
    return (total ^ 0xFFFF).to_bytes(2, "big")


def ping(size, number):
    """An echo request whose datagram has this size."""
    data = bytes(k & 0xFF for k in range(size - 28))
    icmp = b"\x08\0" + b"\0\0" + b"\0\1" + number.to_bytes(2, "big") + data
    head = b"\x45\0" + size.to_bytes(2, "big") + b"\0\1\0\0\x40\1" + b"\0\0" + PEER + OWN
    return head[:10] + checksum(head) + head[12:] + icmp[:2] + checksum(icmp) + icmp[4:]


def arp_request():
    """With the padding to the 60 bytes of the shortest frame."""
    packet = b"\0\1\x08\0\6\4\0\1" + PEER_MAC + PEER + bytes(6) + OWN
    return (b"\xff" * 6 + PEER_MAC + b"\x08\6" + packet).ljust(60, b"\0")


def frame(datagram):
    return OWN_MAC + PEER_MAC + b"\x08\0" + datagram


def record(text, place=0):
    return len(text).to_bytes(4, "big") + (bytes(place) + text).ljust(RECORD, b"\0")


def periodic(slot, place=0):
    return PERIODIC.to_bytes(4, "big") + (bytes(place) + bytes([slot])).ljust(RECORD, b"\0")


def segment(port, sequence, acknowledgement, flags, text=b"", options=b""):
    """A datagram with a TCP segment of the peer."""
    head = port.to_bytes(2, "big") + b"\0\x50" + sequence.to_bytes(4, "big") + acknowledgement.to_bytes(4, "big")
    head += bytes([(20 + len(options)) << 2, flags]) + (8000).to_bytes(2, "big")
    tcp = len(head) + 4 + len(options) + len(text)
    total = checksum(PEER + OWN + b"\0\6" + tcp.to_bytes(2, "big") + head + bytes(4) + options + text)
    ip = b"\x45\0" + (20 + tcp).to_bytes(2, "big") + b"\0\1\0\0\x40\6"
    return ip + checksum(ip + bytes(2) + PEER + OWN) + PEER + OWN + head + total + bytes(2) + options + text


def symbols(program):
    """The functions of the program, in the order of their addresses."""
    text = subprocess.check_output(["llvm-nm", "--numeric-sort", program], text=True)
    return [(int(at, 16), name) for at, kind, name in (line.split()[:3] for line in text.splitlines()) if kind in "tT"]


def ranges_of(table, names):
    """The ranges of addresses of the functions with these names."""
    ends = [at for at, _ in table[1:]] + [1 << 64]
    return [(at & ~1, end & ~1) for (at, name), end in zip(table, ends) if names.fullmatch(name)]


def kinds_in(program):
    """A function that returns the kind of the instruction at an address: the mark that begins there, "speed.c", "copy" or "library"."""
    table = symbols(program)
    starts = [at & ~1 for at, _ in table]

    @functools.cache
    def kind(at):
        k = max(bisect.bisect(starts, at) - 1, 0)
        name = table[k][1]
        if OF_SPEED.fullmatch(name):
            return name if MARKS.fullmatch(name) and at == starts[k] else "speed.c"
        return "copy" if COPIES.fullmatch(name) else "library"
    return kind


class Programs:
    """The two programs under qemu, each with the image of the site."""

    def __init__(self, user, line, ether):
        self.user, self.paths = user.split(), {LINE: line, DATAGRAMS: line, FRAMES: ether}
        self.image = unpacked("site.img")

    def input(self, link, is_written, data, count=0, made=0, place=0, room=MAX_OUT):
        numbers = b"".join(number.to_bytes(4, "big") for number in (len(self.image), count, made, room))
        return bytes([link, place, is_written]) + numbers + self.image + data

    def fails(self, link, status):
        sys.exit(f"speed.py: {self.paths[link]} ended with status {status}")

    def written(self, link, data, count=0):
        """What a run writes, which is not counted."""
        run = subprocess.run([*self.user, self.paths[link]], input=self.input(link, 1, data, count, count), stdout=subprocess.PIPE)
        return run.stdout if run.returncode == 0 else self.fails(link, run.returncode)

    def addresses(self, link, given):
        """The address of each instruction of a run."""
        words = [*self.user, "-singlestep", "-d", "exec,nochain", "-D", "/dev/fd/2", self.paths[link]]
        run = subprocess.Popen(words, stdin=subprocess.PIPE, stderr=subprocess.PIPE)
        threading.Thread(target=lambda: (run.stdin.write(given), run.stdin.close())).start()
        for line in run.stderr:
            if found := re.match(rb"Trace \d+: 0x[0-9a-f]+ \[[0-9a-f]+/([0-9a-f]+)/", line):
                yield int(found[1], 16)
        if run.wait() != 0:
            self.fails(link, run.returncode)

    def counted(self, link, data, count=0, made=0, place=0):
        """The instructions of a run, and those of the copying functions. If the run has records, without those of speed.c itself."""
        table, total, copies = symbols(self.paths[link]), 0, 0
        copying, own = ranges_of(table, COPIES), ranges_of(table, OF_SPEED) if count else []
        for at in self.addresses(link, self.input(link, 0, data, count, made, place)):
            total += not any(low <= at < high for low, high in own)
            copies += any(low <= at < high for low, high in copying)
        return total, copies

    def each_call(self, link, records=(), place=0, room=MAX_OUT):
        """For each mark of one run: its name, the instructions after it without those of speed.c, and those of the copying functions."""
        kind, calls = kinds_in(self.paths[link]), []
        given = self.input(link, 0, b"".join(records), len(records), len(records), place, room)
        for what in map(kind, self.addresses(link, given)):
            if MARKS.fullmatch(what):
                calls.append([what, 0, 0])
            elif calls and what != "speed.c":
                calls[-1][1] += 1
                calls[-1][2] += what == "copy"
        return calls

    def report(self, what, units, more, less):
        """Prints the difference of two runs for each unit."""
        print_cost(what, [(a - b) / units for a, b in zip(self.counted(*more), self.counted(*less))])

    def calls(self, what, link, units, records, before=(), place=0):
        """Reports what the records cost for each unit. Those before them are made in both runs."""
        data, count = b"".join([*before, *records]), len(before) + len(records)
        where = f", {place} bytes after a multiple of 4" if place else ""
        self.report(f"{what}, {NAMES[link]}{where}", units, (link, data, count, count, place), (link, data, count, len(before), place))


def require(is_so, what):
    if not is_so:
        sys.exit(f"speed.py: {what}")


def compare(programs, datagrams, name):
    """The replies are the same on each link."""
    line = datagrams_of(programs.written(LINE, b"".join(map(slip, datagrams))))
    require(len(line) >= len(datagrams) // 2, f"{name}: few replies on the line")
    plain = programs.written(DATAGRAMS, b"".join(map(record, datagrams)), len(datagrams))
    require(plain == b"".join(line), f"{name}: other replies to datagrams than on the line")
    frames = [arp_request(), *map(frame, datagrams)]
    ether = programs.written(FRAMES, b"".join(map(record, frames)), len(frames))
    require(ether[42:] == b"".join(PEER_MAC + OWN_MAC + b"\x08\0" + reply for reply in line), f"{name}: other replies on Ethernet")


def pings_and_files(programs, short, long, files):
    empty = (LINE, b"")
    programs.report("ping of 84 bytes, a serial line", PINGS, (LINE, b"".join(map(slip, short))), empty)
    programs.report("file of one byte, a serial line", FILES, (LINE, b"".join(map(slip, files))), empty)
    programs.report("ping of 1,500 bytes, a serial line", LONG_PINGS, (LINE, b"".join(map(slip, long))), empty)
    for link, place in ((DATAGRAMS, 0), (FRAMES, 0), (FRAMES, 2)):    # at place 2 the datagram of a frame lies at a multiple of 4
        wrap, before = (frame, [record(arp_request(), place)]) if link == FRAMES else (bytes, [])
        kinds = ("ping of 84 bytes", PINGS, short), ("ping of 1,500 bytes", LONG_PINGS, long), ("file of one byte", FILES, files)
        for what, units, datagrams in kinds:
            programs.calls(what, link, units, [record(wrap(datagram), place) for datagram in datagrams], before, place)


def ticks(programs, opening):
    """`opening` opens ten connections."""
    learns = record(arp_request())
    programs.calls("ARP request", FRAMES, PINGS, [learns] * PINGS, [learns])
    for link, before, wrap in ((LINE, [], None), (DATAGRAMS, [], bytes), (FRAMES, [learns], frame)):
        calls = [periodic(slot) for slot in range(10)] * TICKS
        require(programs.written(link, b"".join(before + calls), len(before + calls))[42 * len(before):] == b"", "a tick sent something")
        programs.calls("periodic call of slot 1 that sends nothing", link, PINGS, [periodic(1)] * PINGS, before)
        programs.calls("tick that sends nothing", link, TICKS, calls, before)
        if wrap:
            opened = before + [record(wrap(datagram)) for datagram in opening]
            programs.calls("the same with ten open connections", link, TICKS, calls, opened)


class Session:
    """The calls that one device of a site gets, each as a datagram, or as the slot of a periodic call."""

    def __init__(self, programs, files):
        self.programs, self.steps, self.output = programs, [], b""
        programs.image = pack.pack([pack.File(name, content) for name, content in files])

    def records(self, link, place=0):
        """The calls on a link. The first one on Ethernet brings the peer's address."""
        wrap = {LINE: lambda datagram: slip(datagram)[1:], DATAGRAMS: bytes, FRAMES: frame}[link]
        first = [record(arp_request(), place)] if link == FRAMES else []
        return first + [periodic(step, place) if isinstance(step, int) else record(wrap(step), place) for step in self.steps]

    def make(self, *steps):
        """Makes further calls. Returns their output."""
        self.steps += steps
        before, self.output = len(self.output), self.programs.written(DATAGRAMS, b"".join(self.records(DATAGRAMS)), len(self.steps))
        return self.output[before:]

    def links_agree(self):
        line = datagrams_of(self.programs.written(LINE, b"".join(self.records(LINE)), len(self.steps)))
        ether = self.programs.written(FRAMES, b"".join(self.records(FRAMES)), len(self.steps) + 1)
        header = PEER_MAC + OWN_MAC + b"\x08\0"
        return b"".join(line) == self.output and ether[42:] == b"".join(header + reply for reply in line)

    def report(self, what, last):
        """Prints the dearest of the last calls on each link, and on a serial line the dearest uip_drain among them."""
        require(self.links_agree(), f"{what}: other replies on another link")
        for link, place, room in ((LINE, 0, MAX_OUT), (LINE, 0, PIECE), (DATAGRAMS, 0, 0), (FRAMES, 0, 0), (FRAMES, 2, 0)):
            calls = self.programs.each_call(link, self.records(link, place), place, room)
            first = [k for k, call in enumerate(calls) if call[0] == "mark_call"][-last]
            where = NAMES[link] + (f", {place} bytes after a multiple of 4" if place else f", room for {room}" if room else "")
            for mark, name in (("mark_call", what), ("mark_drain", f"a uip_drain for {what}")):
                costs = [call[1:] for call in calls[first:] if call[0] == mark]
                if costs:
                    print_cost(f"{name}, {where}", max(costs))


class Client:
    """A connection of the peer. It acknowledges each segment."""

    def __init__(self, session, port):
        self.session, self.port, self.sequence, self.acknowledgement = session, port, 1001, 0
        self.take(session.make(segment(port, 1000, 0, 2, options=b"\2\4" + FULL.to_bytes(2, "big"))), 1)

    def take(self, reply, flags=0):
        text = reply[20 + (reply[32] >> 4) * 4:]
        self.acknowledgement = int.from_bytes(reply[24:28], "big") + len(text) + flags
        return text

    def send(self, text=b""):
        """Acknowledges all, with this text. Returns the text of the reply."""
        reply = self.session.make(segment(self.port, self.sequence, self.acknowledgement, 0x18 if text else 0x10, text))
        self.sequence += len(text)
        return self.take(reply) if reply else b""

    def get(self, name):
        return self.send(b"GET " + name + b" HTTP/1.0\r\n\r\n")


def print_cost(what, cost):
    print(f"{what}: {cost[0]:.0f} instructions, {cost[1]:.0f} of them in memcpy, memmove and memset", flush=True)


def full_segments(programs, what, name, content, connections=1):
    """The call that takes an acknowledgement and sends a full segment of a file, and the one that sends it again."""
    session = Session(programs, [(name, content)])
    clients = [Client(session, 50000 + k) for k in range(connections)]
    for client in clients:
        client.send()
    clients[-1].get(name)
    require(len(clients[-1].send()) == FULL, f"{what}: no full segment")
    session.report(f"the call that takes an acknowledgement and sends {FULL} bytes of {what}", 1)
    while not session.make(*range(10)):
        pass
    session.report(f"the periodic call that sends {FULL} bytes of {what} again", 10)


def passed_over(programs):
    """What one more directive without a function adds to the call that passes over it."""
    costs = []
    for count in (100, 200):
        session = Session(programs, [(b"/page.shtml", b"first\n" + b"%! none\n" * count + TEXT)])
        client = Client(session, 50000)
        client.get(b"/page.shtml")
        require(len(client.send()) == FULL, "no full segment after directives")
        costs.append(programs.each_call(DATAGRAMS, session.records(DATAGRAMS))[-1][1:])
    print_cost("each directive without a function adds, datagrams", [(b - a) / 100 for a, b in zip(*costs)])


def long_segments(programs):
    """Calls that take the longest segment, and send the longest. The last one is the dearest that was found."""
    session = Session(programs, [(b"/page.txt", TEXT), (b"/page.shtml", b"%" * len(TEXT))])
    client = Client(session, 50000)
    client.send()
    start = b"GET /page.txt HTTP/1.0\r\n"
    require(len(client.send(start + b"a" * (FULL - 4 - len(start)) + b"\r\n\r\n")) == FULL, "no reply to a long request")
    session.report(f"the call that takes a request of {FULL} bytes and sends {FULL} bytes of a text", 1)
    client = Client(session, 50001)
    client.get(b"/page.shtml")
    require(len(client.send(b"a" * FULL)) == FULL, "no reply to a long acknowledgement")
    session.report(f"the call that takes an acknowledgement with {FULL} bytes and sends {FULL} percent signs of a script", 1)


def last_connections(programs):
    """A SYN for the last slot, and one that finds no slot."""
    for count in (9, 10):
        session = Session(programs, [(b"/page.txt", TEXT)])
        for client in [Client(session, 50000 + k) for k in range(count)]:
            client.send()
        reply = session.make(segment(60000, 1000, 0, 2))
        require(bool(reply) == (count < 10), "a SYN with ten connections brought a reply")
        session.report(f"the call that takes a SYN with {count} open connections", 1)


def openings(programs):
    """Opening the example site, and sites that differ in the length of a file, in its kind, and in the number of files and their names."""
    with open(os.path.join(HERE, "..", "examples", "site.img"), "rb") as file:
        images = [("the example site", file.read())]
    sites = [
        ("no file", []),
        ("one text of 1,000 bytes", [(b"/text.txt", TEXT[:1000])]), ("one text of 100,000", [(b"/text.txt", bytes(100000))]),
        ("one script of 1,000 bytes of text", [(b"/page.shtml", TEXT[:1000])]), ("one script of 4,000", [(b"/page.shtml", TEXT[:4000])]),
        *((f"{count} empty files with names of {size} bytes", [(b"/%0*d" % (size - 1, k), b"") for k in range(count)])
          for count, size in ((10, 9), (100, 9), (100, 64), (1000, 9))),
    ]
    images += [(what, pack.pack([pack.File(*file) for file in files])) for what, files in sites]
    for what, programs.image in images:
        for link, name in ((LINE, "uip_open"), (FRAMES, "uip_open_ether")):
            print_cost(f"{name}, {what}, an image of {len(programs.image)} bytes", programs.each_call(link)[0][1:])


def single_calls(programs):
    full_segments(programs, "a text", b"/page.txt", TEXT)
    full_segments(programs, "a text whose bytes SLIP escapes", b"/page.txt", b"\xc0" * len(TEXT))
    full_segments(programs, "the text of a script", b"/page.shtml", TEXT)
    full_segments(programs, "the percent signs of a script", b"/page.shtml", b"%" * len(TEXT))
    for function in ("net-stats", "tcp-connections"):
        content = b"%! " + function.encode() + b"\n" + TEXT
        full_segments(programs, f"{function} with ten connections and the text after it", b"/page.shtml", content, 10)
    passed_over(programs)
    long_segments(programs)
    last_connections(programs)
    openings(programs)


def main():
    if len(sys.argv) != 4:
        sys.exit(__doc__)
    programs = Programs(*sys.argv[1:])
    short = [unit[0] for unit in recorded("ping84", PINGS)]
    long = [ping(1500, number) for number in range(LONG_PINGS)]
    files = [datagram for unit in recorded("small", FILES) for datagram in unit]
    opening = [datagram for unit in recorded("small", 10) for datagram in unit[:2]]
    for name, datagrams in (("ping", short), ("long ping", long), ("file", files), ("opening", opening)):
        compare(programs, datagrams, name)

    pings_and_files(programs, short, long, files)
    ticks(programs, opening)
    single_calls(programs)


main()
