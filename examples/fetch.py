#!/usr/bin/env python3
"""Fetches every file of a site from a running server, by this machine's own TCP, and compares it with the file.

    python3 examples/browse.py -- python3 examples/fetch.py [FOLDER]

FOLDER is examples/site if none is given. A file that is no script must be the same byte for byte. The page of a script must be the
script with its includes, and any text in place of each call. Then a name is requested that no file has. The status is 0 if all is
as it should be, else 1.
"""
import os
import re
import socket
import sys

HERE = os.path.dirname(os.path.abspath(__file__))
SERVER = ("10.0.0.1", 80)


def fetch(name):
    """The head and the body of the reply to a request for a name."""
    reply = b""
    with socket.create_connection(SERVER, timeout=60) as connection:
        connection.sendall(f"GET {name} HTTP/1.0\r\nHost: {SERVER[0]}\r\n\r\n".encode())
        while piece := connection.recv(4096):
            reply += piece
    head, _, body = reply.partition(b"\r\n\r\n")
    return head, body


def read(folder, name):
    with open(os.path.join(folder, name.lstrip("/")), "rb") as file:
        return file.read()


def pattern(folder, name):
    """The pattern that the body of a file's page has to match."""
    content = read(folder, name)
    if not name.endswith(".shtml"):
        return re.escape(content)
    parts, at = [], 0
    for directive in re.finditer(rb"%!([^\n]*)(?:\n|\Z)", content):
        parts.append(re.escape(content[at:directive.start()]))
        inner, at = directive.group(1), directive.end()
        parts.append(re.escape(read(folder, inner[1:].split()[0].decode())) if inner.startswith(b":") else rb"[ -~\r\n]*")
    return b"".join(parts) + re.escape(content[at:])


def main():
    if "--help" in sys.argv or "-h" in sys.argv:
        sys.exit(print(__doc__))
    folder = sys.argv[1] if len(sys.argv) > 1 else os.path.join(HERE, "site")
    if not os.path.isdir(folder):
        sys.exit(f"fetch.py: no folder {folder}")
    wrong = 0
    for name in sorted("/" + file for file in os.listdir(folder)):
        head, body = fetch(name)
        good = head.startswith(b"HTTP/1.0 200 OK\r\n") and re.fullmatch(pattern(folder, name), body, re.S) is not None
        wrong += not good
        print("ok   " if good else "WRONG", name, len(body), "bytes")
    good = fetch("/no-such-file")[0].startswith(b"HTTP/1.0 404 Not found\r\n")
    wrong += not good
    print("ok   " if good else "WRONG", "a name that no file has")
    sys.exit(1 if wrong else 0)


if __name__ == "__main__":
    try:
        main()
    except OSError as error:
        sys.exit(f"fetch.py: no server replies at {SERVER[0]}, port {SERVER[1]}: {error.strerror or error}; "
                 "run it by examples/browse.py")
