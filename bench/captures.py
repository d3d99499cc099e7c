#!/usr/bin/env python3
"""Measures dump, pcap and slip on a line of mixed datagrams, and prints the instructions. It asserts nothing.

    python3 bench/captures.py [PROGRAM]

PROGRAM is the built `uipd`, crates/uipd/out/uipd if none is given (`rt run` in crates/uipd builds it). The lines are written to
bench/out: echo requests of 84 and of 1006 bytes, and a mixed line of these, of segments of 1500 bytes and of the bare
acknowledgements between them. The payloads have every byte value. Instructions are those that `valgrind --tool=callgrind` counts,
less those of a run on an empty line.
"""
import os
import re
import shutil
import subprocess
import sys

HERE = os.path.dirname(os.path.abspath(__file__))
OUT = os.path.join(HERE, "out")


def checksum(data):
    data += b"\0" * (len(data) % 2)
    total = sum(int.from_bytes(data[at:at + 2], "big") for at in range(0, len(data), 2))
    while total >> 16:
        total = (total & 0xFFFF) + (total >> 16)
    return (65535 - total).to_bytes(2, "big")


def text_of(size):
    return bytes(at % 256 for at in range(size))


def datagram(protocol, payload):
    head = bytes([0x45, 0]) + (20 + len(payload)).to_bytes(2, "big") + bytes([0, 1, 0, 0, 64, protocol, 0, 0, 10, 0, 0, 2, 10, 0, 0, 1])
    return head[:10] + checksum(head) + head[12:] + payload


def ping(size):
    message = bytes([8, 0, 0, 0, 0, 1, 0, 1]) + text_of(size - 28)
    return datagram(1, message[:2] + checksum(message) + message[4:])


def segment(size):
    text = text_of(size - 40)
    body = bytes([0, 80, 4, 1]) + bytes(8) + bytes([0x50, 0x10, 5, 0xB4, 0, 0, 0, 0]) + text
    pseudo = bytes([10, 0, 0, 2, 10, 0, 0, 1, 0, 6]) + len(body).to_bytes(2, "big")
    return datagram(6, body[:16] + checksum(pseudo + body) + body[18:])


def slip(data):
    return b"\xc0" + data.replace(b"\xdb", b"\xdb\xdd").replace(b"\xc0", b"\xdb\xdc") + b"\xc0"


def record(name, data):
    path = os.path.join(OUT, name)
    with open(path, "wb") as file:
        file.write(data)
    return path


def instructions(program, word, line):
    profile = os.path.join(OUT, "callgrind.out")
    with open(line, "rb") as stdin:
        done = subprocess.run(["valgrind", "--tool=callgrind", "--callgrind-out-file=" + profile, program, word],
                              stdin=stdin, stdout=subprocess.PIPE, stderr=subprocess.PIPE, check=False)
    collected = re.search(rb"Collected : (\d+)", done.stderr)
    if done.returncode or not collected:
        sys.exit(f"captures.py: {program} {word} ended with status {done.returncode}: {done.stderr.decode(errors='replace')[-300:]}")
    return int(collected.group(1)), done.stdout


def main():
    if "--help" in sys.argv or "-h" in sys.argv:
        sys.exit(print(__doc__))
    program = os.path.abspath(sys.argv[1] if len(sys.argv) > 1 else os.path.join(HERE, "..", "crates", "uipd", "out", "uipd"))
    if not os.access(program, os.X_OK):
        sys.exit(f"captures.py: no program at {program}: `rt run` in crates/uipd builds it, or name one")
    if not shutil.which("valgrind"):
        sys.exit("captures.py: no command valgrind here, which counts the instructions")
    os.makedirs(OUT, exist_ok=True)
    count = 1000
    empty = record("empty.slip", b"")
    base = {word: instructions(program, word, empty)[0] for word in ("dump", "pcap", "slip")}

    def spent(word, line):
        counted, written = instructions(program, word, line)
        return counted - base[word], written

    small = spent("dump", record("dump84.slip", slip(ping(84)) * count))[0] / count
    large = spent("dump", record("dump1006.slip", slip(ping(1006)) * count))[0] / count
    print("dump   %8.0f instructions for a datagram of 84 bytes, %.2f for each further byte" % (small, (large - small) / 922))
    text = (slip(ping(84)) + slip(ping(1006)) + (slip(segment(1500)) + slip(segment(40))) * 3) * (count // 4)
    line = record("mixed.slip", text)
    captured, capture = spent("pcap", line)
    print("pcap   %8.2f instructions for each byte of the mixed line" % (captured / len(text)))
    back, again = spent("slip", record("mixed.pcap", capture))
    print("slip   %8.2f instructions for each byte of its capture file" % (back / len(capture)))
    print("what slip writes of what pcap wrote is %s" % ("the line" if again == text else "ANOTHER LINE"))


main()
