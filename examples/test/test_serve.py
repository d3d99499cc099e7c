#!/usr/bin/env python3
"""Tests examples/serve.c, examples/ping.py and `make run`. It needs a C compiler and no kit.

    python3 examples/test/test_serve.py [PROGRAM]              PROGRAM is a built examples/serve.c; out/uip, which make builds, if none is given
    python3 examples/test/test_serve.py --lines PROGRAM ..     the recorded lines alone, to each of these programs

The replies on recorded lines are compared with those of the built `uipd` (UIPD names another one), and with a pace, or without `uipd`, with
those of web/node.wasm, if node is here.
"""
import base64
import glob
import json
import lzma
import os
import re
import select
import shutil
import signal
import socket
import struct
import subprocess
import sys
import tempfile
import time
import tty
import urllib.request

HERE = os.path.dirname(os.path.dirname(os.path.abspath(__file__)))      # the folder examples/
sys.dont_write_bytecode = True
sys.path.insert(0, HERE)
import ping  # noqa: E402

TOP = os.path.join(HERE, "..")
PATIENCE = int(os.environ.get("PATIENCE", "1"))       # for a busy machine
UIPD = os.environ.get("UIPD", os.path.join(TOP, "crates/uipd/out/uipd"))
SITE = os.path.join(HERE, "site.img")
# The reply to ping.request(), worked out by hand: RFC 791, 792 and 1071.
REPLY = bytes.fromhex("c0 4500001c00010000400166de 0a0000010a000002 0000b389 4c6f0007 c0")
# A SYN from 10.0.0.2 port 1025 to port 80, sequence number 1, worked out likewise.
SYN = bytes.fromhex("c0 4500002800010000400666cd 0a0000020a000001 040100500000000100000000 50021000878e0000 c0")
BY_WASM = """
import { Device } from "./web/uip.js";
import { readFileSync, writeFileSync } from "fs";
const [site, line, to, pace] = process.argv.slice(1), parts = [], bytes = readFileSync(line), take = text => parts.push(Buffer.from(text));
const device = new Device(new WebAssembly.Module(readFileSync("web/node.wasm")));
device.open(readFileSync(site), [10, 0, 0, 1]);
for (let at = 0, part = pace ? +pace : 4096; at < bytes.length; at += part) {
  device.feed(bytes.subarray(at, at + part), take);
  if (pace && at + part <= bytes.length) device.tick(take);
}
writeFileSync(to, Buffer.concat(parts));
"""
counts = {"passed": 0, "failed": 0}


def see(is_good, what):
    counts["passed" if is_good else "failed"] += 1
    if not is_good:
        print(f"WRONG: {what}")


def words(program, *more, site=SITE):
    return [program, "serve", site, "10.0.0.1", *more]


# ---- ping.py

def refuses(data):
    try:
        ping.check(data)
    except ping.Wrong:
        return True
    return False


def pings(program):
    see(ping.request().startswith(b"\xc0\x45\x00\x00\x1c"), "the request has no 28 bytes")
    see(ping.check(REPLY) == 28, "a right reply is refused")
    for at in range(1, len(REPLY) - 1):
        for bit in range(8):
            wrong = REPLY[:at] + bytes([REPLY[at] ^ 1 << bit]) + REPLY[at + 1:]
            see(refuses(wrong), f"a reply with bit {bit} of byte {at} changed passes")
    for wrong, what in ((b"", "no reply"), (REPLY + REPLY, "two replies"), (REPLY[:-2], "a reply that is cut"), (ping.request(), "the request")):
        see(refuses(wrong), f"{what} passes")
    run = subprocess.run([sys.executable, os.path.join(HERE, "ping.py"), *words(program)], capture_output=True, text=True, check=False)
    see((run.returncode, run.stdout) == (0, "10.0.0.1 answered 10.0.0.2: 28 bytes, checksums right\n"), f"ping.py: {run.stdout}{run.stderr}")
    wrong = REPLY.replace(b"\xb3\x89", b"\xb3\x8a")
    with tempfile.NamedTemporaryFile() as file:
        file.write(wrong)
        file.flush()
        run = subprocess.run([sys.executable, os.path.join(HERE, "ping.py"), "cat", file.name], capture_output=True, text=True, check=False)
        see(run.returncode == 1 and "checksum is wrong" in run.stderr, f"a planted wrong reply: {run.returncode} {run.stdout}")


# ---- recorded lines

def written(command, line):
    with open(line, "rb") as file:
        return subprocess.run(command, stdin=file, stdout=subprocess.PIPE, check=True).stdout


def recorded(programs, room):
    """Every recorded line, to these programs and to another."""
    def unpacked(name):
        path = os.path.join(room, os.path.basename(name)[:-3])
        with lzma.open(name) as packed, open(path, "wb") as file:
            shutil.copyfileobj(packed, file)
        return path
    big = unpacked(os.path.join(TOP, "bench/lines/site.img.xz"))
    lines = [(unpacked(name), big, ()) for name in sorted(glob.glob(os.path.join(TOP, "bench/lines/*.slip.xz")))]
    # [add: counter] fetch.slip: the page that it fetches has all counters
    own = [(os.path.join(HERE, name), SITE, more) for name in ("ping.slip", "fetch.slip") for more in ((), ("pace", "97"), ("pace", "1"))]
    has_uipd, has_node = os.access(UIPD, os.X_OK), shutil.which("node")
    if not has_uipd and not has_node:
        print("skipped: recorded lines: neither uipd nor node is here to compare with")
        return
    # With `pace` the initial sequence numbers are others than those that a recorded line acknowledges. So the guard acts, which uipd has not.
    count = 0
    for line, site, more in lines + own:
        if has_uipd and not more:
            expected = written(words(UIPD, site=site), line)
        elif has_node:
            to = os.path.join(room, "expected")
            subprocess.run(["node", "--input-type=module", "-e", BY_WASM, site, line, to, *more[1:]], cwd=TOP, check=True)
            with open(to, "rb") as file:
                expected = file.read()
        else:
            continue
        count += 1
        for program in programs:
            see(written(words(program, *more, site=site), line) == expected, f"{program}: other bytes for {os.path.basename(line)} {' '.join(more)}")
    with_what = " and ".join(name for name, is_here in (("uipd", has_uipd), ("web/node.wasm", has_node)) if is_here)
    print(f"recorded lines: {count} of {len(lines + own)} compared with {with_what}")


# ---- lines that are open

def heard(line, seconds, ends=2):
    """What arrives until this number of END bytes has, or the time is over."""
    data, until = b"", time.monotonic() + seconds
    while data.count(b"\xc0") < ends and select.select([line], [], [], max(until - time.monotonic(), 0))[0]:
        part = os.read(line, 4096)
        if not part:
            break
        data += part
    return data


def on_terminals(program):
    run = subprocess.Popen(words(program, "pty"), stdout=subprocess.PIPE, text=True)
    name = run.stdout.readline().strip()
    for time_of in ("first", "second"):
        line = os.open(name, os.O_RDWR | os.O_NOCTTY)
        os.write(line, ping.request())
        see(heard(line, 5) == REPLY, f"the {time_of} program at {name} has no reply")
        os.close(line)
    run.kill()
    run.wait()
    ours, other = os.openpty()
    tty.setraw(ours)
    run = subprocess.Popen(words(program, "port", os.ttyname(other), "115200"))
    time.sleep(0.5)
    os.write(ours, ping.request())
    see(heard(ours, 5) == REPLY, "no reply on a serial port")
    os.close(other)
    run.kill()
    run.wait()
    os.close(ours)


def ticks(program):
    """A SYN-ACK that nobody acknowledges is sent again after some ticks of the clock, and by no clock with a pace of 0."""
    for more, is_again in (((), True), (("pace", "0"), False), (("pace", "0", "tty"), True)):
        run = subprocess.Popen(words(program, *more), stdin=subprocess.PIPE, stdout=subprocess.PIPE)
        run.stdin.write(SYN)
        run.stdin.flush()
        first = ping.frames(heard(run.stdout.fileno(), 5))
        see(bool(first) and first[0][33] == 0x12, f"no SYN-ACK: {first}")
        begun = time.monotonic()
        again = ping.frames(heard(run.stdout.fileno(), 4))
        took = time.monotonic() - begun
        see([it[20:] for it in again] == [it[20:] for it in first] and took > 0.9 if is_again else not again, f"{more}: {again} after {took:.1f} s")
        run.kill()
        run.wait()


def statuses(program):
    with tempfile.NamedTemporaryFile() as bad:
        bad.write(b"UIPSITE1\x00")
        bad.flush()
        for status, command in ((1, [program]), (1, words(program, "nonsense")), (1, [program, "serve", SITE, "10.0.0"]), (0, words(program, site="-")),
                                (1, [program, "serve", SITE, "10.0.0.1x"]), (2, words(program, site="/nowhere")), (6, words(program, site=bad.name)),
                                (2, words(program, "port", "/nowhere", "9600")), (1, words(program, "port", "/dev/null", "77"))):
            run = subprocess.run(command, stdin=subprocess.DEVNULL, capture_output=True, check=False)
            see(run.returncode == status and bool(run.stderr) == bool(status), f"{command[1:]} ends with {run.returncode}: {run.stderr}")


# ---- make run

def masked(data):
    """A message of bytes as a browser sends it (RFC 6455 section 5.2), with a mask of zeros."""
    return bytes([0x82, 0x80 | len(data)]) + bytes(4) + data


def by_websocket(port):
    """The answer to a ping that the page would get."""
    with socket.create_connection(("localhost", port), timeout=10) as line:
        key = base64.b64encode(bytes(16)).decode()
        line.sendall((f"GET /line HTTP/1.1\r\nHost: localhost:{port}\r\nOrigin: http://localhost:{port}\r\nUpgrade: websocket\r\n"
                      f"Connection: Upgrade\r\nSec-WebSocket-Version: 13\r\nSec-WebSocket-Key: {key}\r\n\r\n").encode())
        data = b""
        while b"\r\n\r\n" not in data:
            data += line.recv(4096)
        head, _, data = data.partition(b"\r\n\r\n")
        see(b" 101 " in head.split(b"\r\n")[0], f"no WebSocket: {head}")
        line.sendall(masked(ping.request()))
        while len(data) < 2 + len(REPLY):
            data += line.recv(4096)
        return data[2:]


def make_run():
    with socket.socket() as free:
        free.bind(("localhost", 0))
        port = free.getsockname()[1]
    begun = time.monotonic()
    run = subprocess.Popen(["make", "run", f"PORT={port}"], cwd=TOP, stdout=subprocess.PIPE, text=True, start_new_session=True)
    output = ""
    for line in run.stdout:
        output += line
        if "The page is at" in line:
            break
    took = time.monotonic() - begun
    see("10.0.0.1 answered 10.0.0.2: 28 bytes, checksums right" in output and took < 30 * PATIENCE, f"make run after {took:.0f} s: {output}")
    try:
        page = urllib.request.urlopen(f"http://localhost:{port}/", timeout=10).read().decode()
        bridge = re.search(r'name="bridge" content="([^"]*)"', page)
        see(bridge and json.loads(bridge[1].replace("&quot;", '"'))["now"], "the page does not host the program")
        see(by_websocket(port) == REPLY, "the page's line has no reply")
        print(f"make run: served the page after {took:.1f} s")
    except OSError as fault:
        see(False, f"make run: {fault}\n{output}")
    os.killpg(run.pid, signal.SIGINT)
    run.wait()


def main():
    if sys.argv[1:2] == ["--lines"]:
        with tempfile.TemporaryDirectory() as room:
            recorded(sys.argv[2:], room)
        end()
    program = sys.argv[1] if len(sys.argv) > 1 else os.path.join(TOP, "out/uip")
    if not os.access(program, os.X_OK):
        subprocess.run(["make", "-s", "out/uip"], cwd=TOP, check=True)
    with tempfile.TemporaryDirectory() as room:
        pings(program)
        recorded([program], room)
        on_terminals(program)
        ticks(program)
        statuses(program)
        make_run()
    end()


def end():
    print(f"serve.c, ping.py and make run: {counts['passed']} expectations met, {counts['failed']} not")
    sys.exit(1 if counts["failed"] else 0)


if __name__ == "__main__":
    main()
