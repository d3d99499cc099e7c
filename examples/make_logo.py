#!/usr/bin/env python3
"""Draws examples/site/logo.png: a ring with a bar through it, 32 by 32 points in four greys of a palette.

    python3 examples/make_logo.py
"""
import os
import struct
import zlib

SIZE = 32
PALETTE = [(255, 255, 255), (176, 196, 188), (52, 116, 96), (20, 44, 36)]


def grey(x, y):
    far = ((2 * x - SIZE + 1) ** 2 + (2 * y - SIZE + 1) ** 2) ** 0.5 / 2
    if abs(x - y) <= 1 and far < 15:
        return 3
    if 9.5 <= far < 13.5:
        return 2
    return 1 if far < 15 else 0


def chunk(kind, data):
    return struct.pack(">I", len(data)) + kind + data + struct.pack(">I", zlib.crc32(kind + data))


def row(y):
    points = [grey(x, y) for x in range(SIZE)]
    packed = [a << 6 | b << 4 | c << 2 | d for a, b, c, d in zip(*[iter(points)] * 4)]
    return b"\0" + bytes(packed)


def main():
    head = struct.pack(">IIBBBBB", SIZE, SIZE, 2, 3, 0, 0, 0)
    image = b"\x89PNG\r\n\x1a\n" + chunk(b"IHDR", head) + chunk(b"PLTE", bytes(sum(PALETTE, ())))
    image += chunk(b"IDAT", zlib.compress(b"".join(row(y) for y in range(SIZE)), 9)) + chunk(b"IEND", b"")
    with open(os.path.join(os.path.dirname(os.path.abspath(__file__)), "site", "logo.png"), "wb") as f:
        f.write(image)


main()
