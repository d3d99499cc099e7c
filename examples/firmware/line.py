#!/usr/bin/env python3
"""Runs a program of this folder on a pseudo terminal, connects it with Linux's TCP by browse.py, and uses its pages: run.sh runs it.

    python3 examples/firmware/line.py PROGRAM LOG NOTE     LOG is for the program's standard error; NOTE is that of client.py

The status is 0 if the pages are as they should be, and the program ended with 0.
"""
import os
import pty
import subprocess
import sys
import tty

HERE = os.path.dirname(os.path.abspath(__file__))


def main(program, log, note):
    near, far = pty.openpty()
    tty.setraw(far)
    with open(log, "w", encoding="utf8") as file:
        node = subprocess.Popen([program], stdin=near, stdout=near, stderr=file)
    client = [sys.executable, os.path.join(HERE, "client.py"), note]
    words = ["--line", os.ttyname(far), "115200", "--silent", "--", *client]
    status = subprocess.call([sys.executable, os.path.join(HERE, "..", "browse.py"), *words])
    if status == 0:
        status = node.wait(timeout=20)
    node.kill()
    return status


sys.exit(main(*sys.argv[1:]))
