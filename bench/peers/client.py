"""The client of all measurements: a computer at 10.0.0.2, at the other end of a SLIP line. It sends echo requests and fetches files,
compares what arrives with what was asked for, and keeps what it sent. For Lowunbisa that is byte for byte bench/lines (run.py compares).

Nothing here takes time: each datagram is an answer to the one before, so the same program gets the same line again.
"""
import re
import subprocess

NODE, PEER = bytes([10, 0, 0, 1]), bytes([10, 0, 0, 2])
FIN, SYN, RST, PSH, ACK = 1, 2, 4, 8, 16
END = b"\xc0"


class Wrong(Exception):
    """The node did something else than it had to."""


def checksum(text):
    total = sum(int.from_bytes(text[at:at + 2].ljust(2, b"\0"), "big") for at in range(0, len(text), 2))
    while total > 0xFFFF:
        total = (total & 0xFFFF) + (total >> 16)
    return (total ^ 0xFFFF).to_bytes(2, "big")


def slip(datagram):
    return END + datagram.replace(b"\xdb", b"\xdb\xdd").replace(b"\xc0", b"\xdb\xdc") + END


def unslip(frame):
    return frame.replace(b"\xdb\xdc", b"\xc0").replace(b"\xdb\xdd", b"\xdb")


class Line:
    """A program whose standard input and output are a SLIP line."""

    def __init__(self, words, errors=None):
        self.program = subprocess.Popen(words, stdin=subprocess.PIPE, stdout=subprocess.PIPE, stderr=errors, bufsize=0)
        self.sent, self.received, self.rest, self.datagrams = b"", b"", b"", 0

    def send(self, protocol, payload):
        self.datagrams += 1
        head = b"\x45\0" + (20 + len(payload)).to_bytes(2, "big")
        head += (self.datagrams & 0xFFFF).to_bytes(2, "big") + bytes([0, 0, 64, protocol])
        text = slip(head + checksum(head + PEER + NODE) + PEER + NODE + payload)
        self.sent += text
        while text:
            text = text[self.program.stdin.write(text):]

    def receive(self):
        """The next datagram of the node: its protocol and payload, after a comparison of its header."""
        while True:
            frame, end, rest = self.rest.partition(END)
            if end:
                self.rest = rest
                if frame:
                    return self.payload(unslip(frame))
                continue
            text = self.program.stdout.read(1 << 16)
            if not text:
                raise Wrong(f"the program ended with status {self.program.wait()}")
            self.rest += text
            self.received += text

    @staticmethod
    def payload(datagram):
        length = int.from_bytes(datagram[2:4], "big")
        if datagram[0] != 0x45 or length != len(datagram) or checksum(datagram[:20]) != b"\0\0" or datagram[12:20] != NODE + PEER:
            raise Wrong(f"a datagram with the header {datagram[:20].hex()}")
        return datagram[9], datagram[20:]

    def close(self):
        self.program.stdin.close()
        self.program.kill()
        self.program.wait()


def ping(line, size, count):
    """Echo requests whose datagrams have this size, one after the other."""
    for number in range(1, count + 1):
        rest = b"\0\x4d" + number.to_bytes(2, "big") + bytes((7 * number + at) & 0xFF for at in range(8, size - 20))
        line.send(1, b"\x08\0" + checksum(b"\x08\0\0\0" + rest) + rest)
        if line.receive() != (1, b"\0\0" + checksum(bytes(4) + rest) + rest):
            raise Wrong(f"no right reply to echo request {number}")


class Connection:
    """One request for a file by HTTP/1.0, from SYN to the last acknowledgement. Each segment with text is acknowledged."""

    def __init__(self, line, number, name, mss):
        self.line, self.port, self.name, self.mss = line, 1024 + number, name, mss
        self.next, self.awaited, self.text = 100003 * number, 0, b""
        self.has_sent_fin = self.is_closed = False
        self.send(SYN, options=b"\2\4" + mss.to_bytes(2, "big"))
        self.next += 1

    def send(self, flags, text=b"", options=b""):
        head = self.port.to_bytes(2, "big") + b"\0\x50" + self.next.to_bytes(4, "big") + self.awaited.to_bytes(4, "big")
        head += bytes([(20 + len(options)) << 2, flags]) + b"\xff\xff"
        total = checksum(PEER + NODE + b"\0\6" + (20 + len(options) + len(text)).to_bytes(2, "big") + head + bytes(4) + options + text)
        self.line.send(6, head + total + bytes(2) + options + text)
        self.next += len(text)

    def take(self, segment):
        """Answers a segment of the node."""
        if checksum(NODE + PEER + b"\0\6" + len(segment).to_bytes(2, "big") + segment) != b"\0\0":
            raise Wrong("a segment with a wrong checksum")
        sequence, acknowledged, flags = int.from_bytes(segment[4:8], "big"), int.from_bytes(segment[8:12], "big"), segment[13]
        text = segment[segment[12] >> 4 << 2:]
        if flags & RST or len(text) > self.mss:
            raise Wrong(f"a segment with the flags {flags} and {len(text)} bytes for {self.name}")
        if flags & SYN and not self.awaited:
            self.awaited = (sequence + 1) & 0xFFFFFFFF
            self.send(ACK)
            self.send(ACK | PSH, f"GET {self.name} HTTP/1.0\r\nHost: 10.0.0.1\r\nUser-Agent: slipload\r\nAccept: */*\r\n\r\n".encode())
        elif sequence != self.awaited:
            self.send(ACK)
        elif text or flags & FIN:
            self.text += text
            self.awaited = (sequence + len(text) + (flags & FIN)) & 0xFFFFFFFF
            self.send(ACK | flags & FIN)
            self.next += flags & FIN
            self.has_sent_fin = bool(flags & FIN)
        elif acknowledged == self.next & 0xFFFFFFFF and self.has_sent_fin:
            self.is_closed = True


def fetch(line, name, expected, mss=1460, times=1, at_once=1, first=1):
    """Fetches a file `times` times, `at_once` of them together. `expected` is its content, or a pattern that it must match. `first` is the
    number of the first connection of this line, from which its port follows."""
    taken = 0
    while taken < times:
        now = [Connection(line, first + taken + number, name, mss) for number in range(min(at_once, times - taken))]
        by_port = {connection.port: connection for connection in now}
        while not all(connection.is_closed for connection in now):
            protocol, segment = line.receive()
            port = int.from_bytes(segment[2:4], "big")
            if protocol != 6 or not 1024 < port < 1024 + first + times:
                raise Wrong(f"a datagram of protocol {protocol} for port {port}")
            if port in by_port:
                by_port[port].take(segment)
        for connection in now:
            compare(connection.text, expected, name)
        taken += len(now)


def compare(reply, expected, name):
    head, empty, content = reply.partition(b"\r\n\r\n")
    if not head.startswith(b"HTTP/1.0 200 ") or not empty:
        raise Wrong(f"the reply to a request for {name} begins with {reply[:40]}")
    if not (expected.fullmatch(content) if isinstance(expected, re.Pattern) else content == expected):
        raise Wrong(f"{name} arrived with another content: {content[:2000]}")
