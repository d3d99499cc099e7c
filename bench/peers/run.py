#!/usr/bin/env python3
"""Measures this stack beside uIP and lwIP: gets their code, builds all three alike, lets one client work with each, and counts.

    python3 bench/peers/run.py                measures all, and writes figures.json and the documents that have its figures
    python3 bench/peers/run.py [ours] [NAME ..]    measures this stack alone, or on these processors alone (x86-64, m4, m0, rv32). The other
                                              figures stay, if compilers and sources are the same

Needs apt-get with a network (the first time), dpkg-source, gcc, valgrind, gcc-arm-none-eabi, gcc-riscv64-unknown-elf, qemu-user,
qemu-system-arm and qemu-system-misc. If crates/uipd/out/uipd is there, its column is measured too. It takes some four processor minutes.
"""
import json
import os
import sys
import time

import build
import client
import measure
import sources
import tables
from measure import counting

UIPD = os.path.join(build.TOP, "crates", "uipd", "out", "uipd")
PEERS = ("uip", "uip_apart", "uip_whole", "lwip")
ONLY = {"uip_apart": ("x86-64", "m4"), "uip_whole": ("m4",)}    # the processors of uIP's other forms


def made_by(found):
    """What the figures depend on, in words."""
    def first(*words):
        return sources.run(words).split("\n")[0]
    compilers = {f"compiler for {processor.title}": processor.compiler() for processor in build.PROCESSORS if processor.name != "m0"}
    return {
        "uIP": f"uIP 1.0 in Debian's open-iscsi {found['uip'][1]} (iscsiuio/src/uip)",
        "lwIP": f"Debian's lwip {found['lwip'][1]}", **compilers,
        "instructions": f"{first('valgrind', '--version')}; {first('qemu-arm', '--version')}",
    }


def write_site(name, image):
    path = os.path.join(sources.OUT, name)
    with open(path, "wb") as file:
        file.write(image)
    return path


def serve_on_x86(image, files):
    """This stack on x86-64 is the program examples/serve.c. The client sends it what bench/lines has."""
    program, site = os.path.join(sources.OUT, "serve"), write_site("serve.img", image)
    sources.run(["gcc", "-O2", os.path.join(build.TOP, "examples", "serve.c"), os.path.join(build.TOP, "dist", "uip.c"), "-o", program])
    words = [program, "serve", site, "10.0.0.1"]
    for name in measure.ON_X86:
        if measure.recorded([*words, "pace", "0"], name, files, measure.LINES[name][1]) != counting.unpacked(name + ".slip"):
            sys.exit(f"peers: the client sends other bytes than bench/lines/{name}.slip.xz")
    return measure.on_lines(words)


def measure_stack(processor, stack, code, figures):
    image = counting.unpacked("site.img")
    files = measure.files_by_text(image)
    print(f"{processor.title}, {build.STACKS[stack]}", flush=True)
    spent = figures["instructions"].setdefault(processor.name, {})
    if stack == "ours" and not processor.board:
        spent[stack] = serve_on_x86(image, files)
        return
    made = build.Build(processor, stack, code)
    objects = made.stack_objects()
    live, counted = made.programs(objects, image)
    if not processor.board:
        spent[stack] = measure.on_x86([live], [counted], files)
        return
    spent[stack] = measure.on_small(processor, (live, counted), files)
    with open(os.path.join(build.TOP, "examples", "site.img"), "rb") as file:
        example = file.read()
    firmware = made.firmware(objects, example)
    measure.served(processor, firmware, measure.files_by_text(example))
    memory = figures["memory"].setdefault(processor.name, {})[stack] = measure.memory_of(processor, made.folder, firmware)
    print("    served every file; " + ", ".join(f"{what} {value:,}" for what, value in memory.items()), flush=True)


def measure_uipd(figures):
    """The program of the kit's compiler, if it is there; else its figures stay, with their date."""
    if not os.access(UIPD, os.X_OK):
        print("no crates/uipd/out/uipd: its figures stay")
        return
    site = write_site("serve.img", counting.unpacked("site.img"))
    print("x86-64, uipd", flush=True)
    figures["instructions"].setdefault("x86-64", {})["uipd"] = measure.on_lines([UIPD, "serve", site, "10.0.0.1"])
    figures["dates"].setdefault("x86-64", {})["uipd"] = time.strftime("%Y-%m-%d")


def measure_processor(processor, stacks, code, figures):
    for stack in stacks:
        if processor.name in ONLY.get(stack, [processor.name]):
            measure_stack(processor, stack, code, figures)
    if not processor.board:
        measure_uipd(figures)
    dates = figures["dates"].setdefault(processor.name, {})
    dates.update({("ours" if stack == "ours" else "peers"): time.strftime("%Y-%m-%d") for stack in stacks})


def main():
    named = set(sys.argv[1:])
    names = {processor.name for processor in build.PROCESSORS}
    if {"-h", "--help"} & named or not named <= {"ours", *names}:
        sys.exit(print(__doc__))
    found = sources.fetch()
    code = {**sources.make_uip(found["uip"][0]), "lwip": found["lwip"][0]}
    sources.make_stubs()
    figures, versions = tables.load(), made_by(found)
    if named and figures["versions"] != versions:
        sys.exit("peers: other compilers or sources than those of figures.json: measure all")
    figures["versions"] = versions
    for processor in build.PROCESSORS:
        if processor.name in named or not named & names:
            measure_processor(processor, ["ours"] if "ours" in named else list(build.STACKS), code, figures)
            sources.write(tables.FIGURES, json.dumps(figures, indent=1) + "\n")
    tables.write_all()


if __name__ == "__main__":
    try:
        counting.report("peers", main)
    except client.Wrong as error:
        sys.exit(f"peers: {error}")
