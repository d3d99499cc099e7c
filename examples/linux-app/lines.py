#!/usr/bin/env python3
"""Speaks with the console of app.c: lines.py CLIENTS LINES. Each client sends its lines, and compares each reply with the one that must come.
Half of the clients send one line at a time, and the other half up to three lines together. It prints how many were right. A reply that does
not come within PATIENCE seconds (120) is a fault. A connection to port 5026, which app.c does not open, must have no reply for three seconds:
neither a SYN-ACK nor a reset."""
import os
import socket
import sys
import threading

HOST, PORT, CLOSED_PORT = "10.0.0.1", 5025, 5026
PATIENCE = float(os.environ.get("PATIENCE", "120"))
clients, count = int(sys.argv[1]), int(sys.argv[2])
wrong, right = [], [0] * clients


def query(client, number):
    return f"line {number} of {client} " + "x" * (number * 7 % 20)


def replies(connection):
    data = b""
    while piece := connection.recv(4096):
        data += piece
        while b"\n" in data:
            line, data = data.split(b"\n", 1)
            yield line.decode()


def converse(client):
    connection = socket.create_connection((HOST, PORT), PATIENCE)
    lines, number, together = replies(connection), 0, 1 + 2 * (client % 2)
    while number < count:
        some = [query(client, n) for n in range(number, min(number + together, count))]
        connection.sendall("".join(line + "\n" for line in some).encode())
        for line in some:
            reply = next(lines, None)
            if reply != "? " + line:
                wrong.append((client, line, reply))
                return
            right[client] += 1
        number += len(some)
    connection.sendall(b"set 42\nget\nquit\n")
    rest = list(lines)
    if len(rest) != 3 or rest[0] != "ok 42" or rest[2] != "bye":
        wrong.append((client, "set, get, quit", rest))


def guarded(client):
    try:
        converse(client)
    except OSError as fault:
        wrong.append((client, right[client], repr(fault)))


def try_closed_port():
    try:
        socket.create_connection((HOST, CLOSED_PORT), 3).close()
        wrong.append("a port that is not open accepted a connection")
    except ConnectionRefusedError:
        wrong.append("a port that is not open sent a reset")
    except OSError:
        pass


threads = [threading.Thread(target=guarded, args=(client,)) for client in range(clients)] + [threading.Thread(target=try_closed_port)]
for thread in threads:
    thread.start()
for thread in threads:
    thread.join()
print(f"console: {sum(right)} of {clients * count} lines right, {len(wrong)} connections with a fault", *wrong[:5], sep="\n")
sys.exit(len(wrong) != 0 or sum(right) != clients * count)
