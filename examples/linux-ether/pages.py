#!/usr/bin/env python3
"""Requests pages of a site from 10.0.0.1 by this machine's own TCP, some at a time, and compares each with its file.

    pages.py FOLDER PAGES CLIENTS

A page of a file that is no script must be the same byte for byte; that of a script as in ../fetch.py. A page that is wrong, cut, or was not
fetched within PATIENCE seconds (120) is a fault. So is a reset, unless the node had received no request for 20 ticks (docs/LIMITS.md): then
the page is requested again, and counted. The status is 0 if there is no fault.
"""
import os
import random
import re
import socket
import sys
import threading
import time

sys.path.insert(0, os.path.join(os.path.dirname(os.path.abspath(__file__)), ".."))
from fetch import SERVER, pattern  # noqa: E402

IDLE = 9    # 20 ticks are 9.5 to 10 s, and a busy machine begins to count late
folder, pages, clients = sys.argv[1], int(sys.argv[2]), int(sys.argv[3])
patience = float(os.environ.get("PATIENCE", "120"))
names = sorted("/" + name for name in os.listdir(folder))
patterns = {name: re.compile(pattern(folder, name), re.S) for name in names}
choice, lock, faults, seconds, again, received = random.Random(7), threading.Lock(), [], [], [], [0]
left = [choice.choice(names) for _ in range(pages)]


def fetch(name):
    """The reply to a request for a name, or None if the node was idle and reset the connection."""
    reply = b""
    with socket.create_connection(SERVER, timeout=patience) as connection:
        begin = time.monotonic()
        try:
            connection.sendall(f"GET {name} HTTP/1.0\r\nHost: {SERVER[0]}\r\n\r\n".encode())
            while piece := connection.recv(4096):
                reply += piece
        except ConnectionResetError:
            idle = time.monotonic() - begin
            if reply or idle < IDLE:
                raise OSError(f"reset after {idle:.1f} s and {len(reply)} bytes") from None
            again.append(f"{name}, reset after {idle:.1f} s without a byte")
            return None
    return reply


def check(name):
    begin = time.monotonic()
    try:
        reply = None
        while reply is None:
            reply = fetch(name)
    except OSError as fault:
        return faults.append((name, str(fault) or repr(fault)))
    head, _, body = reply.partition(b"\r\n\r\n")
    if not head.startswith(b"HTTP/1.0 200 OK\r\n") or not patterns[name].fullmatch(body):
        faults.append((name, f"wrong or cut: {len(body)} bytes"))
    seconds.append(time.monotonic() - begin)
    received[0] += len(body)


def work():
    while True:
        with lock:
            if not left:
                return
            name = left.pop()
        check(name)


start = time.monotonic()
threads = [threading.Thread(target=work) for _ in range(clients)]
for thread in threads:
    thread.start()
for thread in threads:
    thread.join()
print(f"pages: {pages - len(faults)} of {pages} right, {received[0]} bytes, in {time.monotonic() - start:.0f} s; the slowest in "
      f"{max(seconds, default=0):.0f} s; {len(again)} requested again", *again[:5], *faults[:5], sep="\n")
sys.exit(len(faults) != 0)
