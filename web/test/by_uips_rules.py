#!/usr/bin/env python3
"""A node by uIP's own rules, on standard input and output: what it sends is not kept, and a text that a program generates is made
anew when it is sent again. So one sequence number may have two bytes, which the page reports.

    python3 by_uips_rules.py [SECONDS]

It answers any request with a page that counts how often it was made, and sends again what is not acknowledged after SECONDS (0.25).
"""
import os
import select
import struct
import sys
import time

END, ESC, ESC_END, ESC_ESC = b"\xc0", b"\xdb", b"\xdb\xdc", b"\xdb\xdd"
FIN, SYN, RST, PSH, ACK = 1, 2, 4, 8, 16


def checksum(data):
    data += b"\0" * (len(data) & 1)
    total = sum(struct.unpack(f"!{len(data) // 2}H", data))
    while total > 0xffff:
        total = (total & 0xffff) + (total >> 16)
    return ~total & 0xffff


def datagram(ours, theirs, ports, seq, ack, flags, text):
    """A segment from us to them, as an IP datagram."""
    head = struct.pack("!HHIIBBHHH", *ports, seq % 2**32, ack % 2**32, 0x50, flags, 1460, 0, 0) + text
    total = checksum(ours + theirs + struct.pack("!HH", 6, len(head)) + head)
    head = head[:16] + struct.pack("!H", total) + head[18:]
    header = struct.pack("!BBHHHBBH", 0x45, 0, 20 + len(head), 0, 0, 64, 6, 0) + ours + theirs
    return header[:10] + struct.pack("!H", checksum(header)) + header[12:] + head


def write(data):
    text = data.replace(ESC, ESC_ESC).replace(END, ESC_END)
    os.write(1, END + text + END)


class Connection:
    """What is kept of a connection: its numbers and its place in the dialogue, and not a byte of what was sent."""
    next_place = {"syn": "request", "page": "end", "end": "over"}

    def __init__(self, addresses, seq):
        self.addresses, self.received, self.acked, self.place, self.made = addresses, seq + 1, 1000, "syn", 0
        self.send_due()

    def send_due(self):
        """Sends what is due at this place, made anew."""
        flags = {"syn": SYN | ACK, "page": PSH | ACK, "end": FIN | ACK}[self.place]
        text = self.page() if self.place == "page" else b""
        self.under_way, self.due = len(text) + (flags & (SYN | FIN) != 0), time.monotonic() + WAIT
        self.send(flags, text)

    def send(self, flags, text=b""):
        write(datagram(*self.addresses, self.acked, self.received, flags, text))

    def page(self):
        self.made += 1
        return b"HTTP/1.0 200 OK\r\nContent-Type: text/plain\r\n\r\nThis text was made %d times.\n" % self.made

    def receive(self, seq, ack, flags, text):
        was = self.place
        if self.under_way and (ack - self.acked) % 2**32 == self.under_way:
            self.acked, self.under_way, self.place = self.acked + self.under_way, 0, self.next_place[self.place]
        if seq == self.received % 2**32:
            self.received += len(text) + (flags & FIN != 0)
            if text and self.place == "request":
                self.place = "page"
        if self.place != was and self.place in ("page", "end"):
            self.send_due()
        elif text or flags & FIN:
            self.send(ACK)

    def tick(self):
        if self.under_way and time.monotonic() > self.due:
            self.send_due()


def receive(frame, connections):
    data = frame.replace(ESC_END, END).replace(ESC_ESC, ESC)
    if len(data) < 40 or data[9] != 6:
        return
    ours, theirs, (theirs_port, our_port) = data[16:20], data[12:16], struct.unpack("!HH", data[20:24])
    seq, ack, offset, flags = struct.unpack("!IIBB", data[24:34])
    key, text = (theirs, theirs_port), data[20 + (offset >> 4) * 4:]
    if checksum(data[:20]) or checksum(theirs + ours + struct.pack("!HH", 6, len(data) - 20) + data[20:]):
        return
    if flags & RST:
        connections.pop(key, None)
    elif flags & SYN:
        connections[key] = Connection((ours, theirs, (our_port, theirs_port)), seq)
    elif key in connections:
        connections[key].receive(seq, ack, flags, text)


def main():
    connections, rest = {}, b""
    while True:
        if select.select([0], [], [], WAIT / 4)[0]:
            data = os.read(0, 4096)
            if not data:
                return
            *frames, rest = (rest + data).split(END)
            for frame in filter(None, frames):
                receive(frame, connections)
        for connection in connections.values():
            connection.tick()


WAIT = float(sys.argv[1]) if len(sys.argv) > 1 else 0.25
main()
