#!/usr/bin/env python3
"""Uses the pages of a program of this folder at 10.0.0.1, as a browser would: run.sh runs it. The status is 0 if all is as it should be.

    python3 examples/firmware/client.py NOTE      NOTE is 1 if another task sets a value (rtos.c and rtos_..), else 0

At the end it restarts the device.
"""
import json
import re
import socket
import sys
import time

count = 0


def reply_to(name, tries=20):
    """The head and the body of the reply to a request."""
    for left in reversed(range(tries)):
        try:
            reply = b""
            with socket.create_connection(("10.0.0.1", 80), timeout=30) as connection:
                connection.sendall(f"GET {name} HTTP/1.0\r\nHost: 10.0.0.1\r\n\r\n".encode())
                while piece := connection.recv(4096):
                    reply += piece
            head, _, body = reply.partition(b"\r\n\r\n")
            return head.decode(), body.decode()
        except OSError:
            if not left:
                raise
            time.sleep(0.5)


def page(name):
    """The status and the body of the reply to a request."""
    head, body = reply_to(name)
    return f"{head.split()[1]} {body}"


def expect(what, pattern, name):
    global count
    text = page(name)
    if not re.search(pattern, text, re.S):
        sys.exit(f"client.py: {what}: {name} gave\n{text}")
    count += 1


def token_now(name):
    token = re.search(r'name="n" value="([0-9a-f]{16})"', page(name))
    if not token:
        sys.exit("client.py: there is no token")
    return token.group(1)


def main(note):
    expect("the first page", r"^200 .*The device", "/")
    expect("a missing page", r"^404 ", "/no.html")
    expect("values at the start", r"It is -5\.5&deg;C\. The lamp is off: ", "/now.shtml?1")
    expect("a button", r"turns on", "/on.html?2")
    expect("the lamp is on", r"The lamp is on: ", "/now.shtml?3")
    expect("the other button", r"turns off", "/off.html?4")
    expect("the lamp is off", r"The lamp is off: ", "/now.shtml?5")
    expect("a setting", r"brightness is 42\.", "/set.shtml?level=42&n=6")
    expect("a setting that is too large", r"brightness is 42\.", "/set.shtml?level=101&n=7")
    expect("a setting that is no number", r"brightness is 42\.", "/set.shtml?level=4x&n=8")
    expect("a setting without its field", r"brightness is 42\.", "/set.shtml?n=9")
    expect("the setting in the form", r'required value="42">', "/now.shtml?10")
    expect("the first button again", r"turns on", "/on.html?11")
    expect("the lamp is on again", r"The lamp is on: ", "/now.shtml?12")
    head, body = reply_to("/state.shtml")
    state = json.loads(body)
    if not head.endswith("\r\nContent-type: application/json"):
        sys.exit(f"client.py: the state as JSON has another type:\n{head}")
    if state["temperature"] != -5.5 or state["lamp"] != "on" or state["n"] != token_now("/now.shtml?13"):
        sys.exit(f"client.py: the state as JSON is {state}")
    if note == "1":
        expect("the value of the other task", r"<p>[0-9]+</p>\s*$", "/now.shtml?14")
    token = token_now("/now.shtml?15")
    expect("a wrong token", r"The page was old", f"/restart.shtml?n={token}1&d=1")
    time.sleep(4)    # meanwhile datagrams.c closes its device, and opens it again
    expect("no restart by a wrong token", r"^200 ", "/now.shtml?13")
    expect("the token", r"The device starts again", f"/restart.shtml?n={token_now('/now.shtml?16')}&d=2")
    print(f"{count} pages are as they should be")


main(sys.argv[1] if len(sys.argv) > 1 else "0")
