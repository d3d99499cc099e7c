#!/usr/bin/env python3
"""Changes the address of a device by its pages (settings_pages.c), with Linux's TCP: run.sh runs it. The status is 0 if all is right.

    python3 examples/firmware/settings.py PROGRAM LOG      LOG is for the program's standard error

The files of a temporary folder are the flash and the button of the device (pc.c). The program was built with TOKEN_MS=2000: a token is
valid for 2 to 4 seconds. The interface has the addresses 10.0.0.2/24 and 192.168.7.1/24.
"""
import os
import re
import socket
import subprocess
import sys
import tempfile
import time

USUAL, NEW = "10.0.0.1", "192.168.7.2"
SHOWN = {USUAL: ["10.0.0.1", "24", "10.0.0.254"], NEW: ["192.168.7.2", "24", "192.168.7.1"]}
count = 0
restarted = 0      # how often the device should have ended by `stop`
nodes = []


def expect(what, got, want):
    global count
    if got != want:
        sys.exit(f"settings.py: {what}: {got}, and not {want}")
    count += 1


def connected(host, tries=15, timeout=10):
    for left in reversed(range(tries)):
        try:
            return socket.create_connection((host, 80), timeout=timeout)
        except OSError:
            if not left:
                raise
            time.sleep(0.3)


def request(connection, host, name):
    """The reply, with its end. The connection stays open at this side."""
    connection.sendall(f"GET {name} HTTP/1.0\r\nHost: {host}\r\n\r\n".encode())
    text = b""
    while piece := connection.recv(4096):
        text += piece
    return text.partition(b"\r\n\r\n")[2].decode()


def page(host, name):
    with connected(host) as connection:
        return request(connection, host, name)


def form(host):
    """The token and the three fields of the form."""
    got = re.findall(r'name="[napg]"[^>]* value="([^"\n]*)', page(host, "/settings.shtml"))
    expect("the token's form", bool(re.fullmatch("[0-9a-f]{16}", got[0])), True)
    return got[0], got[1:]


def address(n, own, bits, router):
    return f"/set.shtml?n={n}&a={own}&p={bits}&g={router}"


def outcome(body):
    """Of a reply: the tag, the word, and the address of its link."""
    return [*re.search(r'id="outcome">(.*)\n?</p>', body).group(1).split(" "), re.search(r'href="http://([0-9.]*)\n?/"', body).group(1)]


def flash():
    if not os.path.exists("settings"):
        return None
    with open("settings", "rb") as file:
        return file.read()


def stops():
    with open(log, encoding="utf8") as file:
        return file.read().count("stopped")


def refused(what, why, name, host=USUAL, tag=None):
    """The reply shows why, nothing is stored, and the device runs on. The token is used up, unless it was none."""
    before = flash()
    expect(what, outcome(page(host, name)), [tag, why, host])
    expect(what + ": flash", flash(), before)
    expect(what + ": the device runs", nodes[-1].poll(), None)


def refused_fields(what, why, own, bits, router):
    n = form(USUAL)[0]
    refused(what, why, address(n, own, bits, router), tag=n[:8])
    refused(what + ", then repaired with the same token", "old", address(n, NEW, 24, ""), tag=n[:8])


def test_refusals():
    expect("the first page", "/settings.shtml" in page(USUAL, "/"), True)
    expect("the usual addresses", form(USUAL)[1], SHOWN[USUAL])
    for what, why, *fields in (
            ("a mask of 7 bits", "mask", "10.0.0.3", 7, ""), ("a mask of 31 bits", "mask", "10.0.0.3", 31, ""),
            ("a mask of 33 bits", "mask", "10.0.0.3", 33, ""), ("a mask that is no number", "mask", "10.0.0.3", "x", ""),
            ("no mask", "mask", "10.0.0.3", "", ""),
            ("the network itself", "address", "192.168.7.0", 24, ""), ("the broadcast address", "address", "192.168.7.255", 24, ""),
            ("a loopback address", "address", "127.0.0.1", 24, ""), ("a multicast address", "address", "224.0.0.1", 24, ""),
            ("the address 0.0.0.0", "address", "0.0.0.0", 24, ""), ("a number of 256", "address", "192.168.7.256", 24, ""),
            ("no address", "address", "", 24, ""), ("the broadcast address of a longer mask", "address", "192.168.7.3", 30, ""),
            ("a router of another network", "router", NEW, 24, "192.168.8.1"), ("itself as the router", "router", NEW, 24, NEW),
            ("the broadcast address as the router", "router", NEW, 24, "192.168.7.255"),
            ("the network as the router", "router", NEW, 24, "192.168.7.0"),
            ("a router that is no address", "router", NEW, 24, "192.168.7"),
            ("a router beyond the mask", "router", NEW, 29, "192.168.7.9")):
        refused_fields(what, why, *fields)
    n = form(USUAL)[0]
    refused("no router field", "router", f"/set.shtml?n={n}&a={NEW}&p=24", tag=n[:8])
    n = form(USUAL)[0]
    refused("no query", "old", "/set.shtml", tag="-")
    refused("no token", "old", f"/set.shtml?a={NEW}&p=24&g=", tag="-")
    refused("a query that is too long", "old", address(n, NEW, 24, "") + "&x=" + "y" * 40, tag="-")
    refused("a wrong token", "old", address("0" * 16, NEW, 24, ""), tag="00000000")
    refused("half a token", "old", address(n[:8], NEW, 24, ""), tag=n[:8])
    n = form(USUAL)[0]
    time.sleep(4.5)
    refused("a token of 4.5 s", "old", address(n, NEW, 24, ""), tag=n[:8])
    open("worn", "w", encoding="utf8").close()
    n = form(USUAL)[0]
    refused("a fault of the flash", "flash", address(n, NEW, 24, ""), tag=n[:8])
    os.remove("worn")
    expect("no page has stored anything", flash(), None)


def restarts(seconds):
    """The device ends by `stop`, with the status 0, in place of its reset. Then it starts again. Six ticks take 2.5 to 3 seconds."""
    global restarted
    restarted += 1
    try:
        expect("the status", nodes[-1].wait(timeout=seconds), 0)
    except subprocess.TimeoutExpired:
        sys.exit("settings.py: the device does not restart")
    expect("it was stopped", stops(), restarted)
    start()


def test_change():
    """While the reply is not acknowledged to its end, no other page changes anything, and the device waits for at most six ticks."""
    n = form(USUAL)[0]
    name = address(n, NEW, 24, "192.168.7.1")
    with connected(USUAL) as first:
        got = [n[:8], "stored", NEW]
        expect("the change", outcome(request(first, USUAL, name)), got)
        stored = flash()
        expect("it is stored before the reply", stored is None, False)
        other = form(USUAL)[0]
        expect("a second change meanwhile", outcome(page(USUAL, address(other, "10.0.0.7", 24, ""))), got)
        expect("the second one is not stored", flash(), stored)
        restarts(4)
    expect("the new addresses", form(NEW)[1], SHOWN[NEW])
    try:
        connected(USUAL, 1, 2).close()
        sys.exit("settings.py: the device also has its old address")
    except OSError:
        pass
    refused("the page is loaded again after the restart", "old", name, NEW, n[:8])
    refused("a token of the time before the restart", "old", address(other, "10.0.0.7", 24, ""), NEW, other[:8])


def power_cycle():
    nodes[-1].kill()
    nodes[-1].wait()
    start()


def test_power_failure():
    """A record that was not written whole does not count."""
    stored = flash()
    with open("settings.new", "wb") as file:
        file.write(stored[:5])
    power_cycle()
    expect("a power failure while the record is written", form(NEW)[1], SHOWN[NEW])
    for what, record in (("half a record", stored[:8]), ("a wrong checksum", bytes([stored[0] ^ 1]) + stored[1:])):
        with open("settings", "wb") as file:
            file.write(record)
        power_cycle()
        expect(what, form(USUAL)[1], SHOWN[USUAL])
    with open("settings", "wb") as file:
        file.write(stored)
    power_cycle()
    expect("the record again", form(NEW)[1], SHOWN[NEW])


def test_button():
    stored = flash()
    open("button", "w", encoding="utf8").close()
    power_cycle()
    expect("the button is held at the start", form(USUAL)[1], SHOWN[USUAL])
    expect("the button erases nothing", flash(), stored)
    os.remove("button")
    n, own = form(USUAL)[0], "192.168.7.3"
    expect("an address without a router", outcome(page(USUAL, address(n, own, 29, ""))), [n[:8], "stored", own])
    restarts(2)
    n, fields = form(own)
    expect("the address without a router", fields, [own, "29", "0.0.0.0"])
    expect("the form as it came", outcome(page(own, address(n, *fields))), [n[:8], "stored", own])
    restarts(2)
    expect("the same addresses", form(own)[1], fields)


def start():
    with open(log, "a", encoding="utf8") as file:
        nodes.append(subprocess.Popen([program], stdin=subprocess.DEVNULL, stdout=file, stderr=file))


def main():
    start()
    try:
        test_refusals()
        test_change()
        test_power_failure()
        test_button()
        print(f"the address changed as it should in {count} checks")
    finally:
        nodes[-1].kill()
        nodes[-1].wait()


program, log = (os.path.abspath(name) for name in sys.argv[1:])
open(log, "w", encoding="utf8").close()
with tempfile.TemporaryDirectory() as folder:
    os.chdir(folder)
    main()
    os.chdir("/")
