#!/usr/bin/env python3
"""Uses the pages of a door opener (door_pages.c) by Linux's TCP: run.sh runs it. The status is 0 if all is right.

    python3 examples/firmware/door.py PROGRAM LOG      LOG is for the program's standard error

The files of a temporary folder are the flash of the device, and the log shows its lock (pc.c). The program was built with OPEN_MS=2000 and
SET_MS=4000: a token of the button is valid for 2 to 4 seconds, and one of the form for 4 to 8.
"""
import json
import os
import re
import socket
import struct
import subprocess
import sys
import tempfile
import time

count = 0
tags = 0
nodes = []


def expect(what, got, want):
    global count
    if got != want:
        sys.exit(f"door.py: {what}: {got}, and not {want}")
    count += 1


def between(what, got, least, most):
    global count
    if not least <= got <= most:
        sys.exit(f"door.py: {what}: {got}, and not {least} to {most}")
    count += 1


def connected():
    for left in reversed(range(15)):
        try:
            return socket.create_connection(("10.0.0.1", 80), timeout=10)
        except OSError:
            if not left:
                raise
            time.sleep(0.3)


def ask(connection, name):
    connection.sendall(f"GET {name} HTTP/1.0\r\nHost: 10.0.0.1\r\n\r\n".encode())


def reply(connection):
    text = b""
    with connection:
        while piece := connection.recv(4096):
            text += piece
    head, _, body = text.partition(b"\r\n\r\n")
    return head.decode(), body.decode()


def page(name):
    connection = connected()
    ask(connection, name)
    return reply(connection)[1]


def text_of(body, name):
    return re.search(rf'id="{name}">([^<]*)<', body).group(1)


def form():
    """The tokens of the button and of the form, the door and the number."""
    body = page("/door.shtml")
    tokens = re.findall(r'name="n" value="([0-9a-f]{16})', body)
    places = [body.index(it) for it in (tokens[0], tokens[1], 'id="door"', "<button", 'id="seconds"', 'name="s"')]
    expect("the tokens come first, then the state, then the form", places, sorted(places))
    return (*tokens, text_of(body, "door"), text_of(body, "seconds"))


def new_tag():
    global tags
    tags += 1
    return f"{0xa0000000 + tags:x}"


def opening(n, tag):
    return f"/open.shtml?d={tag}&n={n}"


def setting(n, tag, seconds):
    return f"/set.shtml?d={tag}&n={n}&s={seconds}"


def outcome(name):
    return text_of(page(name), "outcome").split(" ")


def door():
    """What the lock did, and when, in milliseconds."""
    with open(log, encoding="utf8") as file:
        return [tuple(map(int, line.split()[1:])) for line in file if line.startswith("door")]


def acts():
    return [is_on for is_on, _ in door()]


def stored():
    """Each number that was stored since the start of the test."""
    with open(log, encoding="utf8") as file:
        return [int(line.split()[1]) for line in file if line.startswith("stored")]


def left():
    """The seconds of the five that are left, rounded up. The clock is that of pc.c."""
    return -(-(door()[-1][1] + 5000 - time.clock_gettime_ns(time.CLOCK_MONOTONIC) // 1000000) // 1000)


def locks():
    """Waits until the door is locked. Returns for how long it was unlocked since the last click."""
    for _ in range(800):
        acted = door()
        if acted[-1][0] == 0:
            return acted[-1][1] - acted[-2][1]
        time.sleep(0.01)
    sys.exit("door.py: the door does not lock")


def refused(what, why, name, tag):
    """The newer outcome is that of this request. The door and the flash stay as they were."""
    before = acts(), stored(), form()[3]
    expect(what, outcome(name)[:2], [tag, why])
    expect(what + ": nothing has changed", (acts(), stored(), form()[3]), before)


def accepted(what, name, tag):
    expect(what, outcome(name)[:2], [tag, "accepted"])


def test_start():
    expect("the first page", "/door.shtml" in page("/"), True)
    expect("the state at the start", form()[2:], ("locked", "5"))
    connection = connected()
    ask(connection, "/state.shtml")
    head, body = reply(connection)
    expect("the type of the state", "application/json" in head, True)
    state = json.loads(body)
    expect("the state", [state["n"] == form()[0], state["door"], state["seconds"]], [True, "locked", "5"])
    expect("the two tokens differ", form()[0] != form()[1], True)
    refused("a request without a query", "old", "/open.shtml", "-")
    refused("no token", "old", "/open.shtml?d=1", "1")
    expect("the lock at the start", acts(), [])


def test_button():
    """The usual number is 5, so that the door is unlocked for 5 seconds."""
    n, tag = form()[0], new_tag()
    body = page(opening(n, tag))
    expect("a click", text_of(body, "outcome").split()[:2], [tag, "accepted"])
    expect("its reply shows the door", text_of(body, "door"), "unlocked 5")
    expect("the lock", acts(), [1])
    accepted("the reply is loaded again", opening(n, tag), tag)
    other = new_tag()
    refused("another click with a token that was used", "old", opening(n, other), other)
    expect("that reply shows both", outcome(opening(n, other)), [other, "old", tag, "accepted"])
    expect("the reply of the first is loaded again after that", outcome(opening(n, tag)), [tag, "accepted", other, "old"])
    expect("the lock has acted once", acts(), [1])
    time.sleep(1.2)
    most = left()
    shown = form()[2]
    between("the seconds that are left, rounded up", int(shown.removeprefix("unlocked ")), left(), most)
    token, second = form()[0], new_tag()
    expect("the next token", token == n, False)
    accepted("a second honest click", opening(token, second), second)
    expect("the lock has acted again", acts(), [1, 1])
    between("the time begins anew", locks(), 5000, 5200)
    expect("the lock", acts(), [1, 1, 0])
    accepted("the reply is loaded again when the door is locked", opening(token, second), second)
    expect("the first click is no longer known", outcome(opening(n, tag))[:2], [tag, "old"])
    expect("the lock", acts(), [1, 1, 0])
    expect("the door", form()[2], "locked")


def test_number():
    """A new number is stored, and holds at once. It ends both tokens. A time that has begun keeps its length."""
    before, n, *_ = form()
    tag, late = new_tag(), new_tag()
    body = page(setting(n, tag, 1))
    expect("a new number", text_of(body, "outcome").split()[:2], [tag, "accepted"])
    expect("its reply shows the number", text_of(body, "seconds"), "1")
    expect("it is stored", (stored(), record()), ([1], 1))
    refused("a button that showed the old number", "old", opening(before, late), late)
    accepted("the reply is loaded again", setting(n, tag, 1), tag)
    refused("another number with a token that was used", "old", setting(n, late, 9), late)
    tag = new_tag()
    accepted("a click", opening(form()[0], tag), tag)
    between("the new number", locks(), 1000, 1200)
    before, n, *_ = form()
    tag, click = new_tag(), new_tag()
    accepted("the same number", setting(n, tag, 1), tag)
    expect("the same number is not stored again", stored(), [1])
    accepted("it ends no token of the button", opening(before, click), click)
    tag = new_tag()
    accepted("a number while the door is unlocked", setting(form()[1], tag, 60), tag)
    between("the time keeps its length", locks(), 1000, 1200)
    expect("60 is stored", (stored(), record(), form()[3]), ([1, 60], 60, "60"))
    tag = new_tag()
    accepted("two seconds", setting(form()[1], tag, 2), tag)
    expect("two seconds are stored", record(), 2)


def record():
    with open("seconds", "rb") as file:
        return struct.unpack("=II", file.read())[0]


def test_range():
    for what, number in (("0", 0), ("61", 61), ("no number", ""), ("a word", "x"), ("a negative number", "-1"),
                         ("ten digits", "4294967297"), ("a number of tenths", "1.5")):
        n, tag, repaired = form()[1], new_tag(), new_tag()
        refused(what, "range", setting(n, tag, number), tag)
        refused(what + ", then repaired with the same token", "old", setting(n, repaired, 7), repaired)
    n, tag = form()[1], new_tag()
    refused("no field of a number", "range", f"/set.shtml?d={tag}&n={n}", tag)
    open("worn", "w", encoding="utf8").close()
    n, tag = form()[1], new_tag()
    refused("a fault of the flash", "flash", setting(n, tag, 7), tag)
    os.remove("worn")


def test_tokens():
    """Each token is of its own kind, and a click of the button leaves that of the form."""
    n, m, *_ = form()
    tag = new_tag()
    wrong = n[:-1] + ("0" if n[-1] != "0" else "1")
    refused("a wrong token", "old", opening(wrong, tag), tag)
    refused("half a token", "old", opening(n[:8], tag), tag)
    refused("the token of the form", "old", opening(m, tag), tag)
    refused("the token of the button", "old", setting(n, tag, 7), tag)
    refused("a query that is too long", "old", opening(n, tag) + "&x=" + "y" * 40, "-")
    tag = new_tag()
    accepted("no refusal has ended the token", opening(n, tag), tag)
    refused("a request without a query after that", "old", "/open.shtml", "-")
    accepted("it comes again", opening(n, tag), tag)
    tag = new_tag()
    accepted("nor has a click that of the form", setting(m, tag, 2), tag)
    n = form()[0]
    locks()
    tag = new_tag()
    accepted("nor has the door that of the button", opening(n, tag), tag)
    locks()


def test_two_browsers():
    """Both have one token, and both requests are sent before a reply is read."""
    n, before = form()[0], acts()
    both = [(connected(), new_tag()) for _ in range(2)]
    for connection, tag in both:
        ask(connection, opening(n, tag))
    words = []
    for connection, tag in both:
        got = text_of(reply(connection)[1], "outcome").split(" ")
        words.append(got[got.index(tag) + 1])
    expect("two browsers with one token", sorted(words), ["accepted", "old"])
    expect("the door was unlocked once", acts(), before + [1])
    locks()


def test_length():
    """A value has at most 32 bytes. A tag of more than 8 characters is cut to its end."""
    n, tag = form()[1], new_tag()
    accepted("a number", setting(n, tag, 2), tag)
    n = form()[1]
    got = text_of(page(setting(n, "x12345678", 61)), "outcome")
    expect("a full text", (got, len(got)), (f"12345678 range {tag} accepted", 32))


def test_without_script():
    n, m, *_ = form()
    before = acts()
    accepted("a click without a tag", opening(n, ""), n[-8:])
    accepted("it comes again", opening(n, ""), n[-8:])
    expect("the lock has acted once", acts(), before + [1])
    accepted("a number without a tag", setting(m, "", 2), m[-4:] + "&amp;s=2")
    refused("another number with that token", "old", setting(m, "", 3), m[-4:] + "&amp;s=3")
    locks()


def test_age():
    """The first two requests use up the tokens, so that new ones are drawn."""
    n, m, *_ = form()
    tag, click = new_tag(), new_tag()
    accepted("a click", opening(n, click), click)
    accepted("a number", setting(m, tag, 2), tag)
    n, m, *_ = form()
    time.sleep(2.2)
    expect("the next token of the button, and not of the form, after 2 seconds", (form()[0] == n, form()[1] == m), (False, True))
    tag = new_tag()
    accepted("a token of the button of 2.2 seconds", opening(n, tag), tag)
    n = form()[0]
    time.sleep(4.2)
    tag = new_tag()
    refused("a token of the button of 4.2 seconds", "old", opening(n, tag), tag)
    expect("the next token of the form after 6.4 seconds", form()[1] == m, False)
    accepted("a token of the form of 6.4 seconds", setting(m, tag, 2), tag)
    m = form()[1]
    time.sleep(8.2)
    tag = new_tag()
    refused("a token of the form of 8.2 seconds", "old", setting(m, tag, 7), tag)


def power_cycle():
    nodes[-1].kill()
    nodes[-1].wait()
    start()


def test_restart():
    n, m, *_ = form()
    power_cycle()
    tag, before = new_tag(), acts()
    expect("the number after a restart", form()[2:], ("locked", "2"))
    expect("the outcomes after a restart", outcome("/open.shtml"), ["-", "old", "-", "none"])
    refused("a click of the time before the restart", "old", opening(n, tag), tag)
    refused("a number of the time before the restart", "old", setting(m, tag, 7), tag)
    accepted("a click", opening(form()[0], tag), tag)
    between("the number holds", locks(), 2000, 2200)
    expect("the lock", acts(), before + [1, 0])


def test_record():
    """A record that is not whole does not count, nor does a number that the form would refuse. Then the number is the usual one."""
    with open("seconds", "rb") as file:
        whole = file.read()
    for what, bad in (("half a record", whole[:4]), ("a wrong checksum", b"\3" + whole[1:]), ("0", struct.pack("=II", 0, 0xffffffff)),
                      ("61", struct.pack("=II", 61, 0xffffffff - 61))):
        with open("seconds", "wb") as file:
            file.write(bad)
        power_cycle()
        expect(what, form()[3], "5")
    with open("seconds", "wb") as file:
        file.write(whole)
    with open("seconds.new", "wb") as file:
        file.write(whole[:3])
    power_cycle()
    expect("a power failure while a record is written", form()[3], "2")


def start():
    with open(log, "a", encoding="utf8") as file:
        nodes.append(subprocess.Popen([program], stdin=subprocess.DEVNULL, stdout=file, stderr=file))


def main():
    start()
    try:
        test_start()
        test_button()
        test_number()
        test_range()
        test_tokens()
        test_two_browsers()
        test_length()
        test_without_script()
        test_age()
        test_restart()
        test_record()
        expect("the device runs", nodes[-1].poll(), None)
        print(f"the door was unlocked once for each click in {count} checks")
    finally:
        nodes[-1].kill()
        nodes[-1].wait()


program, log = (os.path.abspath(name) for name in sys.argv[1:])
open(log, "w", encoding="utf8").close()
with tempfile.TemporaryDirectory() as folder:
    os.chdir(folder)
    main()
    os.chdir("/")
