#!/usr/bin/env python3
"""Sends queries for names to dnsmasq over a line.

    python3 examples/test/resolve.py [UIPD]

In a network namespace of its own it makes a TUN interface (10.0.0.2, the other end is 10.0.0.1), starts dnsmasq at 10.0.0.2 with two
names, starts `UIPD resolve 10.0.0.1 10.0.0.2 1 NAME .. tty` on a pseudo terminal, and carries datagrams between the two as SLIP frames.
The program prints the results on standard error.
"""
import os
import select
import shutil
import subprocess
import sys
import time

sys.path.insert(0, os.path.dirname(os.path.dirname(os.path.abspath(__file__))))
from browse import HERE, Slip, enter_namespace, fail, make_interface, start_server  # noqa: E402

NAMES = ["www.example.test", "MAIL.example.test", "missing.example.test"]
RECORDS = ["--address=/www.example.test/192.0.2.7", "--address=/mail.example.test/192.0.2.25", "--local=/example.test/"]


def start_dns():
    """A server that knows only these names, and forwards no query."""
    words = ["dnsmasq", "--no-daemon", "--conf-file=/dev/null", "--no-resolv", "--no-hosts", "--user=root", "--pid-file=",
             "--listen-address=10.0.0.2", "--bind-interfaces", *RECORDS]
    server = subprocess.Popen(words, stderr=subprocess.DEVNULL)
    time.sleep(0.5)
    if server.poll() is not None:
        fail("dnsmasq did not start")
    return server


def carry(interface, to_program, from_program):
    """Carries datagrams until the program has closed its output."""
    form = Slip()
    while True:
        for ready in select.select([interface, from_program], [], [])[0]:
            if ready == interface:
                os.write(to_program, form.text_of(os.read(interface, 2048)))
                continue
            data = os.read(from_program, 65536)
            if not data:
                return
            for datagram in form.feed(data):
                os.write(interface, datagram)


def main():
    uipd = sys.argv[1] if len(sys.argv) > 1 else os.path.join(HERE, "../crates/uipd/out/uipd")
    if not os.access(uipd, os.X_OK):
        fail(f"no program at {uipd}: `rt run` in crates/uipd builds it")
    if not shutil.which("ip"):
        fail("no command `ip` here: it is in the package iproute2")
    enter_namespace()
    interface = make_interface(False)
    dns = start_dns()
    try:
        program, to_program, from_program = start_server([uipd, "resolve", "10.0.0.1", "10.0.0.2", "1", *NAMES, "tty"])
        carry(interface, to_program, from_program)
        sys.exit(program.wait())
    finally:
        dns.kill()


main()
