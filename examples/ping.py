#!/usr/bin/env python3
"""Sends an echo request through a program that serves a serial line, and checks the reply.

    python3 examples/ping.py PROGRAM WORD ..        for example: out/uip serve - 10.0.0.1

The program speaks SLIP on standard input and output, and its node has the address 10.0.0.1. The status is 0 if one reply came and is right,
and 1 otherwise; then a line names what is wrong.
"""
import subprocess
import sys

END, ESC, ESC_END, ESC_ESC = 0xC0, 0xDB, 0xDC, 0xDD     # RFC 1055
NODE, PEER = bytes([10, 0, 0, 1]), bytes([10, 0, 0, 2])
NAME = b"\x4c\x6f\x00\x07"                              # identifier and sequence number of the request
ECHO, ECHO_REPLY, ICMP = 8, 0, 1                        # RFC 792, RFC 791
SECONDS = 20


class Wrong(Exception):
    """What is wrong with a reply."""


def checksum(data):
    """The Internet checksum of an even number of bytes (RFC 1071); 0 if they contain their right checksum."""
    total = sum(int.from_bytes(data[at:at + 2], "big") for at in range(0, len(data), 2))
    while total >> 16:
        total = (total & 0xFFFF) + (total >> 16)
    return 0xFFFF - total


def request():
    """An echo request without data, as a SLIP frame."""
    echo = bytes([ECHO, 0, 0, 0]) + NAME
    echo = echo[:2] + checksum(echo).to_bytes(2, "big") + echo[4:]
    head = bytes([0x45, 0, 0, 20 + len(echo), 0, 1, 0, 0, 64, ICMP, 0, 0]) + PEER + NODE
    text = head[:10] + checksum(head).to_bytes(2, "big") + head[12:] + echo
    return bytes([END]) + text.replace(b"\xdb", b"\xdb\xdd").replace(b"\xc0", b"\xdb\xdc") + bytes([END])


def frames(data):
    """The frames of a SLIP line that have bytes, without their escapes."""
    parts = [part for part in data.split(bytes([END])) if part]
    return [part.replace(bytes([ESC, ESC_END]), bytes([END])).replace(bytes([ESC, ESC_ESC]), bytes([ESC])) for part in parts]


def check(data):
    """The number of bytes of the reply in what the program wrote, if it is right."""
    found = frames(data)
    if len(found) != 1:
        raise Wrong(f"{len(found)} frames in place of one reply")
    reply = found[0]
    if len(reply) != 28:
        raise Wrong(f"it has {len(reply)} bytes, and not 28")
    tests = [
        (reply[:1] == b"\x45", "it is not IPv4 without options"),
        (reply[2:4] == b"\x00\x1c", "its length is not 28"),
        (checksum(reply[:20]) == 0, "its IP checksum is wrong"),
        (not reply[6] & 0xBF and not reply[7], "it is a fragment"),
        (reply[8:9] > b"\x00", "its time to live is 0"),
        (reply[9:10] == bytes([ICMP]), "it is not ICMP"),
        (reply[12:20] == NODE + PEER, "its addresses are not 10.0.0.1 and 10.0.0.2"),
        (reply[20:22] == bytes([ECHO_REPLY, 0]), "it is no echo reply"),
        (checksum(reply[20:]) == 0, "its ICMP checksum is wrong"),
        (reply[24:] == NAME, "it answers another request"),
    ]
    for is_right, what in tests:
        if not is_right:
            raise Wrong(what)
    return len(reply)


def main():
    if len(sys.argv) < 2 or sys.argv[1] in ("-h", "--help"):
        print(__doc__)
        sys.exit(0 if len(sys.argv) > 1 else 2)
    try:
        done = subprocess.run(sys.argv[1:], input=request(), stdout=subprocess.PIPE, timeout=SECONDS, check=False)
        if done.returncode:
            raise Wrong(f"the program ended with status {done.returncode}")
        print(f"10.0.0.1 answered 10.0.0.2: {check(done.stdout)} bytes, checksums right")
    except (Wrong, OSError, subprocess.TimeoutExpired) as fault:
        sys.exit(f"ping.py: a wrong reply, or none: {fault}")


if __name__ == "__main__":
    main()
