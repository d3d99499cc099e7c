#!/usr/bin/env python3
"""Adds the checksum of the boot stage to the image of an RP2040's flash, and writes the UF2 file for its drive.

    python3 boards/pico/uf2.py FIRMWARE.bin FIRMWARE.uf2

The checksum (datasheet, section 2.8.1.3.1) is the CRC-32 of bytes 0 to 251, with the polynomial 0x04c11db7, from 0xffffffff, not reflected. UF2 is
that of https://github.com/microsoft/uf2: blocks of 256 bytes, each in 512.
"""
import struct
import sys

BOOT, PAYLOAD, FLASH, FAMILY = 252, 256, 0x10000000, 0xE48BFF56
FAMILY_IS_GIVEN = 0x2000


def crc(data):
    value = 0xFFFFFFFF
    for byte in data:
        value ^= byte << 24
        for _ in range(8):
            value = (value << 1 ^ (0x04C11DB7 if value >> 31 else 0)) & 0xFFFFFFFF
    return value


def blocks(image):
    parts = [image[at:at + PAYLOAD].ljust(PAYLOAD, b"\0") for at in range(0, len(image), PAYLOAD)]
    for number, part in enumerate(parts):
        head = struct.pack("<8I", 0x0A324655, 0x9E5D5157, FAMILY_IS_GIVEN, FLASH + number * PAYLOAD, PAYLOAD, number, len(parts), FAMILY)
        yield head + part.ljust(476, b"\0") + struct.pack("<I", 0x0AB16F30)


def main():
    if len(sys.argv) != 3:
        sys.exit(__doc__)
    with open(sys.argv[1], "rb") as file:
        image = file.read()
    image = image[:BOOT] + struct.pack("<I", crc(image[:BOOT])) + image[BOOT + 4:]
    for path, data in ((sys.argv[1], image), (sys.argv[2], b"".join(blocks(image)))):
        with open(path, "wb") as file:
            file.write(data)


if __name__ == "__main__":
    main()
