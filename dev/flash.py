"""The flash of the example board by crate: the sizes of the symbols that the linker placed there.

A function that the compiler built into another one counts for the crate of that other one.
"""
import collections
import os
import re
import struct
import sys

from repository import TOP, Crates

BOARD = "examples/board/out/board.elf"
PROGBITS, SYMTAB, ALLOC, FUNCTION, OBJECT = 1, 2, 2, 2, 1
WRITABLE = 1


class Elf:
    """The sections and symbols of a little-endian ELF file of 32 or 64 bits."""

    def __init__(self, data):
        if data[:4] != b"\x7fELF" or data[5] != 1:
            raise ValueError("no little-endian ELF file")
        self.data, self.is_64 = data, data[4] == 2
        start, size, count = self.take("<40xQ10xHH" if self.is_64 else "<32xI10xHH", 0)
        self.sections = [self.section(start + size * number) for number in range(count)]

    def take(self, form, at):
        return struct.unpack_from(form, self.data, at)

    def section(self, at):
        """Its kind, flags, address, offset, size, link and size of an entry."""
        kind, flags, address, offset, size, link, entry = self.take("<4xIQQQQI12xQ" if self.is_64 else "<4xIIIIII8xI", at)
        return kind, flags, address, offset, size, link, entry

    def symbols(self):
        """The name, address, size, kind and section of each symbol."""
        for kind, _, _, offset, size, link, entry in self.sections:
            if kind != SYMTAB:
                continue
            names = self.sections[link][3]
            for at in range(offset, offset + size, entry):
                if self.is_64:
                    name, info, section, address, length = self.take("<IBxHQQ", at)
                else:
                    name, address, length, info, section = self.take("<IIIBxH", at)
                end = self.data.index(b"\0", names + name)
                yield self.data[names + name:end].decode(errors="replace"), address, length, info & 15, section


def crate_of(name, crates):
    """The crate in a symbol's name: the first that it names, or one of the kit. A name of C has no path; the exports are uip_c's."""
    if "::" not in name:
        return "uip_c" if re.match(r"(module\.|port_)?uip_", name) else "start code, drivers and heap, in C"
    known = next((it for it in re.findall(r"\w+", name) if it in crates), None)
    return known or f"{re.findall(r'[A-Za-z_]+', name)[0]} (of the kit)"


def table_of(elf, crates):
    """The bytes of each crate, those without a symbol, and those of the site's image."""
    is_flash = [kind == PROGBITS and flags & ALLOC and not flags & WRITABLE for kind, flags, *_ in elf.sections]
    whole = sum(section[4] for section, it in zip(elf.sections, is_flash) if it)
    found, seen, marks = collections.Counter(), set(), {}
    for name, address, size, kind, section in elf.symbols():
        marks[name] = address
        is_placed = section < len(is_flash) and is_flash[section] and kind in (FUNCTION, OBJECT)
        if is_placed and size and (address, section) not in seen and not name.startswith("site_image"):
            seen.add((address, section))
            found[crate_of(name, crates)] += size
    if "__flash_end" in marks:      # with the padding at the end, as examples/board/usage.py counts
        whole = marks["__flash_end"] - min(section[2] for section, it in zip(elf.sections, is_flash) if it)
    image = marks.get("site_image_end", 0) - marks.get("site_image", 0)
    return found, whole - image - sum(found.values()), image


def show(path):
    place = path or os.path.join(TOP, BOARD)
    try:
        with open(place, "rb") as file:
            elf = Elf(file.read())
    except OSError as error:
        why = f"the board is not built: no {BOARD}; `sh examples/board/run.sh build` builds it" if path is None else f"{path}: {error.strerror}"
        sys.exit(f"dev.py: {why}")
    except (ValueError, struct.error, IndexError) as error:
        sys.exit(f"dev.py: {place}: {error}")
    found, rest, image = table_of(elf, Crates().below)
    if not found:
        sys.exit(f"dev.py: {place} has no symbols in flash: link it without --strip-all")
    print("| crate | bytes of flash |\n|---|---|")
    for name, size in found.most_common():
        print(f"| {name if ' ' in name else f'`{name}`'} | {size:,} |")
    print(f"| constants without a name, alignment | {rest:,} |\n| sum, beside the site's image of {image:,} | {sum(found.values()) + rest:,} |")
