#!/usr/bin/env python3
"""Tries the demo of the micro:bit under qemu: presses its buttons, and looks at its LEDs and at its page.

    make -C boards BOARD=microbit DEMO=1 run MODEL="-qtest unix:QTEST,server=on,wait=off -monitor unix:MONITOR,server=on,wait=off" \\
        TRY="python3 microbit/try_demo.py QTEST MONITOR"

QTEST and MONITOR are names of sockets. What the firmware writes to its pins is decoded by the circuit of the micro:bit v1: its LEDs lie between
the rows P0.13 to P0.15 (high) and the columns P0.04 to P0.12 (low). qemu has no sensor of temperature, so that value stays empty.
"""
import json
import os
import re
import socket
import sys
import time

sys.dont_write_bytecode = True
sys.path.insert(0, os.path.join(os.path.dirname(os.path.abspath(__file__)), "../../examples"))
import fetch  # noqa: E402

BUTTONS = {"a": 17, "b": 26}
PINS_OUT, PINS_DIRECTION = 0x50000504, 0x50000514
# The schematic: for each row of the circuit and each of its columns the LED that one sees, by its column and row from the upper left.
ROWS, COLUMNS = range(13, 16), range(4, 13)
LEDS = {13: ((0, 0), (2, 0), (4, 0), (4, 3), (3, 3), (2, 3), (1, 3), (0, 3), (1, 2)),
        14: ((4, 2), (0, 2), (2, 2), (1, 0), (3, 0), (3, 4), (1, 4), None, None),
        15: ((2, 4), (4, 4), (0, 4), (0, 1), (1, 1), (2, 1), (3, 1), (4, 1), (3, 2))}
OFF = ".....", ".....", ".....", ".....", "....."
PICTURES = {
    "/heart.html": (".#.#.", "#####", "#####", ".###.", "..#.."),
    "/smile.html": (".#.#.", ".#.#.", ".....", "#...#", ".###."),
    "/duck.html": (".##..", "###..", ".####", ".###.", "....."),
    "/off.html": OFF,
}


def link(path, patience=20):
    """A connection to a socket of qemu, which makes it a moment after its start."""
    end = time.monotonic() + patience
    while True:
        it = socket.socket(socket.AF_UNIX)
        try:
            it.connect(path)
        except OSError:
            it.close()
            if time.monotonic() > end:
                raise
            time.sleep(0.1)
        else:
            it.settimeout(5)
            return it


def set_pin(qtest, pin, level):
    qtest.sendall(f"set_irq_in /machine/nrf51 unnamed-gpio-in {pin} {level}\n".encode())
    answer = qtest.recv(256)
    if not answer.startswith(b"OK"):
        sys.exit(f"qemu refused pin {pin}: {answer}")


def register(monitor, address):
    """A register, as the firmware set it."""
    monitor.sendall(f"x /1wx {address:#x}\n".encode())
    text = b""
    while not (found := re.search(rb"%08x: 0x([0-9a-f]{8})" % address, text)):
        text += monitor.recv(4096)
    return int(found[1], 16)


def seen(monitor):
    """The picture that one sees, from many looks: the firmware shows one row of the circuit at a time."""
    picture = [[" "] * 5 for _ in range(5)]
    for _ in range(200):
        pins = register(monitor, PINS_OUT)
        high = [row for row in ROWS if pins >> row & 1]
        if len(high) > 1:
            return f"rows {high} at once"
        for row in high:
            for column, led in zip(COLUMNS, LEDS[row]):
                if led:
                    picture[led[1]][led[0]] = "." if pins >> column & 1 else "#"
                elif not pins >> column & 1:
                    return f"a LED at row {row} and column {column}, where none is"
    return tuple("".join(row) for row in picture)


def number_of(picture):
    """As the page has it."""
    return str(int("".join(picture).replace(".", "0").replace("#", "1"), 2))


def state():
    return json.loads(fetch.fetch("/state.shtml")[1])


def see(is_good, text):
    print(f"{'ok   ' if is_good else 'WRONG'} {text}")
    return is_good


def main():
    if len(sys.argv) != 3:
        sys.exit(__doc__)
    qtest, monitor = link(sys.argv[1]), link(sys.argv[2])
    for pin in BUTTONS.values():
        set_pin(qtest, pin, 1)
    time.sleep(0.5)
    good = see(state()["a"] == "0" and state()["b"] == "0", "both buttons are up")
    before = state()
    set_pin(qtest, BUTTONS["a"], 0)
    time.sleep(0.5)
    held = state()
    set_pin(qtest, BUTTONS["a"], 1)
    time.sleep(0.5)
    after = state()
    good &= see(held["a"] == "1" and after["a"] == "0" and int(after["na"]) == int(before["na"]) + 1, f"button A was pressed once: {held} {after}")
    good &= see(after["b"] == "0" and after["nb"] == before["nb"] and after["t"] == "", "button B was not, and there is no temperature")
    outputs = register(monitor, PINS_DIRECTION)
    good &= see(all(outputs >> pin & 1 for pin in (*ROWS, *COLUMNS)), f"rows and columns are outputs: {outputs:#010x}")
    for name, picture in PICTURES.items():
        fetch.fetch(name)
        time.sleep(0.5)
        shown = seen(monitor)
        good &= see(shown == picture and state()["leds"] == number_of(picture), f"{name} is on the matrix: {shown}")
    for column, row in ((0, 0), (3, 2), (4, 4)):
        picture = tuple("".join("#" if (x, y) == (column, row) else "." for x in range(5)) for y in range(5))
        fetch.fetch(f"/draw.html?leds={number_of(picture)}")
        time.sleep(0.5)
        shown = seen(monitor)
        good &= see(shown == picture, f"a visitor switches the LED of column {column} and row {row}: {shown}")
    fetch.fetch("/draw.html?leds=33554432")
    fetch.fetch("/draw.html?leds=")
    time.sleep(0.5)
    shown = seen(monitor)
    good &= see(shown == picture, "what is no picture changes nothing")
    fetch.fetch("/off.html")
    for button, name in (("b", "/heart.html"), ("b", "/smile.html"), ("a", "/heart.html"), ("a", "/off.html"), ("a", "/duck.html")):
        set_pin(qtest, BUTTONS[button], 0)
        time.sleep(0.5)
        set_pin(qtest, BUTTONS[button], 1)
        time.sleep(0.5)
        good &= see(seen(monitor) == PICTURES[name], f"button {button} shows {name}")
    sys.exit(0 if good else 1)


main()
