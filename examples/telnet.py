#!/usr/bin/env python3
"""Types commands to the shell of a desk at 10.0.0.1, one after another, and prints its answers.

    python3 examples/browse.py --desk -- python3 examples/telnet.py help ticks quit
"""
import socket
import sys


def main():
    if len(sys.argv) < 2 or sys.argv[1] in ("-h", "--help"):
        print(__doc__)
        sys.exit(0 if len(sys.argv) > 1 else 2)
    with socket.create_connection(("10.0.0.1", 23), timeout=20) as shell:
        for command in sys.argv[1:]:
            shell.sendall(command.encode() + b"\r\n")
        shell.shutdown(socket.SHUT_WR)
        while data := shell.recv(4096):
            sys.stdout.write(data.decode("ascii", "replace").replace("\r", ""))


if __name__ == "__main__":
    main()
