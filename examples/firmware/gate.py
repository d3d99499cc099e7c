#!/usr/bin/env python3
"""Plays the gate of gate.c, and uses its pages by Linux's TCP: run.sh runs it. The status is 0 if all is as the rules of gate.h demand.

    python3 examples/firmware/gate.py PROGRAM LOG      LOG is for the program's standard error

By files of a temporary folder it sets the position, blocks the gate, and holds each of the two tasks (pc.c). So each race is forced, and
none is left to chance. The program was built with TOKEN_MS=5000: a token is valid for 5 to 10 seconds.
"""
import json
import os
import re
import socket
import subprocess
import sys
import tempfile
import threading
import time

count = 0
tags = 0
seen, used = set(), set()     # tokens that pages had, and those that must never be valid again


def expect(what, got, want, is_counted=True):
    global count
    if got != want:
        sys.exit(f"gate.py: {what}: {got}, and not {want}")
    count += is_counted


def soon(what, is_so, seconds=5):
    end = time.monotonic() + seconds
    while not is_so():
        if time.monotonic() > end:
            sys.exit(f"gate.py: {what}: it did not come, {motors}")
        time.sleep(0.01)


def write(name, number):
    with open(name + ".new", "w", encoding="utf8") as file:
        file.write(str(number))
    os.replace(name + ".new", name)


def remove(name):
    if os.path.exists(name):
        os.remove(name)


def motor():
    """What the motor did: the list of its directions since the start of the test."""
    with open(log, encoding="utf8") as file:
        return [int(line.split()[1]) for line in file if line.startswith("motor")]


def connected():
    for left in reversed(range(10)):
        try:
            return socket.create_connection(("10.0.0.1", 80), timeout=20)
        except OSError:
            if not left:
                raise
            time.sleep(0.3)


def ask(connection, name):
    connection.sendall(f"GET {name} HTTP/1.0\r\nHost: 10.0.0.1\r\n\r\n".encode())


def reply(connection):
    text = b""
    with connection:
        while piece := connection.recv(4096):
            text += piece
    head, _, body = text.partition(b"\r\n\r\n")
    return head.decode(), body.decode()


def page(name):
    connection = connected()
    ask(connection, name)
    return reply(connection)


def state():
    head, body = page("/state.shtml")
    expect("the type of the state", "application/json" in head, True, False)
    got = json.loads(body)
    expect("a used token is not shown again", got["n"] in used, False, False)
    seen.update({got["n"]} - {""})
    return got


def word():
    return state()["gate"].split()[0]


def token():
    text = state()["n"]
    expect("the token's form", bool(re.fullmatch("[0-9a-f]{16}", text)), True, False)
    return text


def new_tag():
    global tags
    tags += 1
    return f"{tags:x}"


def address(order, n, tag):
    if n:
        used.add(n)
    return f"/command.shtml?n={n}&d={tag}&c={order}"


def outcome_in(body):
    """Of a reply: the tag and the word of the last command that was sent, and those of the last that was refused."""
    return re.search(r'id="outcome">(.*)\n?</p>', body).group(1).split(" ")


def command(order, n, tag):
    return outcome_in(page(address(order, n, tag))[1])


def refused(what, why, order, n, tag):
    """The request is refused at once, the motor does nothing, and what was sent before keeps its outcome."""
    before, motors_before = state()["outcome"].split()[:2], motor()
    got = command(order, n, tag)
    expect(what, got[2:], [tag, why])
    expect(what + ": the command before", got[:2], before)
    time.sleep(0.3)
    expect(what + ": the motor", motor(), motors_before)


def answered(what, answer, tag):
    soon(f"{what}: {answer}", lambda: state()["outcome"].split()[:2] == [tag, answer])
    expect(what, state()["outcome"].split()[2] == tag, False)


def sent(what, answer, order, n=None):
    """The request is sent, and the page that polls shows the answer. Returns its tag and its token."""
    tag, n = new_tag(), n or token()
    got = command(order, n, tag)
    expect(what + ": sent", got[:2] in ([tag, "sent"], [tag, answer]), True)
    answered(what, answer, tag)
    return tag, n


def moves(*directions):
    motors.extend(directions)
    soon(f"the motor, {motors}", lambda: len(motor()) >= len(motors))
    expect("the motor", motor(), motors)


def goes(position, becomes, *directions):
    write("position", position)
    soon(f"the position {position}", lambda: state()["gate"] == f"{becomes} {position // 10}.{position % 10}")
    moves(*directions)


def block(is_blocked):
    write("blocked", is_blocked)
    moves(0)


def hold(task, number=0):
    remove(f"{task}-held")
    write(f"hold-{task}", number)


def is_held(task, number=1):
    def has_number():
        if not os.path.exists(f"{task}-held"):
            return False
        with open(f"{task}-held", encoding="utf8") as file:
            return file.read() == str(number)
    soon(f"{task} is held", has_number)


def release(task):
    remove(f"hold-{task}")


def hold_network():
    """Holds the task that makes the calls, by the first bytes of a request, until the queue of reports has one that is unread."""
    bait = connected()
    hold("network")
    bait.sendall(b"G")
    is_held("network")
    time.sleep(0.3)
    return bait


def release_network(bait):
    release("network")
    bait.close()


def test_once():
    n = token()
    first, body = page("/gate.shtml")
    expect("the page", first.split()[1], "200")
    expect("the page's token", re.search(r'name="n" value="([^"\n]*)', body).group(1), n)
    expect("the page's state", re.search(r'id="gate">(.*)\n?</b>', body).group(1), "closed 0.0")
    expect("the buttons come after the state, and that after the token",
           body.index('name="n"') < body.index('id="gate"') < body.index("<button"), True)
    tag, n = sent("a command", "accepted", "open", n)
    moves(1)
    refused("the reply is loaded again", "old", "open", n, tag)
    refused("another tag with the token that was used", "old", "stop", n, new_tag())
    n = token()
    goes(355, "opening")
    sent("the position is no part of the state", "accepted", "stop", n)
    moves(0)
    expect("the state", state()["gate"], "stopped 35.5")


def test_change_by_itself():
    n = token()
    block(1)
    soon("a fault", lambda: word() == "fault")
    refused("an old page, after a change by the gate itself", "old", "open", n, new_tag())
    tag, n = sent("a command that this state forbids", "cannot", "open")
    refused("the reply is loaded again, in the same state", "old", "open", n, tag)
    block(0)
    soon("no fault", lambda: word() == "stopped")
    refused("the token of the state before the last", "old", "open", n, new_tag())


def test_wrong_requests():
    n = token()
    tag = new_tag()
    wrong = chr(ord("0") + (ord(n[-1]) + 1) % 10)
    refused("a wrong token", "old", "open", n[:-1] + (wrong if wrong != n[-1] else "a"), tag)
    refused("half a token", "old", "open", n[:8], tag)
    refused("an empty token", "old", "open", "", tag)
    for what, name in (("no query", "/command.shtml"), ("an empty query", "/command.shtml?"),
                       ("a long query", f"/command.shtml?n={n}&d=1&c=open&x=" + "y" * 40),
                       ("a query with a byte that is not kept", f"/command.shtml?n={n}&d=1&c=open&x=*")):
        expect(what, outcome_in(page(name)[1])[2:], ["-", "old"])
        refused("between", "old", "open", "0", new_tag())
    connection = connected()
    connection.sendall(f"GET /command.shtml?n={n}&d=1&c=op".encode())
    time.sleep(0.1)
    connection.sendall(b"en HTTP/1.0\r\n\r\n")
    expect("a query in two segments", outcome_in(reply(connection)[1])[2:], ["-", "old"])
    expect("a tag that is too long", command("open", "0", "123456789")[2:], ["-", "old"])
    refused("no such command", "bad", "fly", n, new_tag())
    refused("its reply is loaded again", "old", "fly", n, new_tag())
    moves()


def test_two_browsers():
    """Both requests, and all they bring, are in the receiver before the node takes the first one."""
    for second_order, is_repeated in (("close", False), ("open", True)):
        n, mine, other = token(), new_tag(), new_tag()
        if is_repeated:
            other = mine
        first, second = connected(), connected()
        bait = hold_network()
        ask(first, address("open" if is_repeated else "stop", n, mine))
        time.sleep(0.05)
        ask(second, address(second_order, n, other))
        time.sleep(0.05)
        release_network(bait)
        got, got_second = outcome_in(reply(first)[1]), outcome_in(reply(second)[1])
        answer = "accepted" if is_repeated else "cannot"
        expect("the first of two browsers", got[:2] in ([mine, "sent"], [mine, answer]), True)
        expect("the second of two browsers", got_second[2:], [other, "old"])
        soon("its answer", lambda: state()["outcome"].split() == [mine, answer, other, "old"])
    moves(1)
    sent("stop", "accepted", "stop")
    moves(0)


def test_busy():
    hold("control")
    is_held("control")
    tag, n = new_tag(), token()
    expect("a command while the other task is late", command("close", n, tag)[:2], [tag, "sent"])
    refused("that one is loaded again, and not yet answered", "old", "close", n, tag)
    n = token()
    refused("the queue is full", "busy", "open", n, new_tag())
    refused("the busy one is loaded again", "old", "open", n, new_tag())
    write("hold-control", 1)
    is_held("control", 2)
    n = token()
    refused("the queue is empty, but there is no answer", "busy", "open", n, new_tag())
    release("control")
    soon("the answer to the first", lambda: state()["outcome"].split()[:2] == [tag, "accepted"])
    moves(-1)
    refused("the busy one once more", "old", "open", n, new_tag())
    sent("a command after that", "accepted", "stop")
    moves(0)


def test_change_after_sent():
    hold("control")
    is_held("control")
    tag, n = new_tag(), token()
    expect("a command to a late task", command("open", n, tag)[:2], [tag, "sent"])
    write("blocked", 1)
    release("control")
    answered("the state changed after the command was sent", "changed", tag)
    moves(0)
    block(0)
    soon("no fault", lambda: word() == "stopped")


def test_change_in_queue():
    """The request is held with a report that is unread. Then the newer one, of a fault, comes before the node takes the request."""
    tag, n = new_tag(), token()
    connection = connected()
    hold("network")
    ask(connection, address("open", n, tag))
    is_held("network")
    time.sleep(0.3)
    block(1)
    time.sleep(0.15)
    release("network")
    expect("a change is in the queue", outcome_in(reply(connection)[1])[2:], [tag, "old"])
    block(0)
    soon("no fault", lambda: word() == "stopped")


def test_change_unseen():
    """The gate is blocked, and the other task has not looked yet when the command comes."""
    tag, n = new_tag(), token()
    connection = connected()
    write("blocked", 1)
    ask(connection, address("open", n, tag))
    reply(connection)
    soon("refused", lambda: [tag, "changed"] == state()["outcome"].split()[:2] or [tag, "old"] == state()["outcome"].split()[2:])
    moves(0)
    block(0)
    soon("no fault", lambda: word() == "stopped")


def test_many_reports():
    hold("control")
    is_held("control")
    tag, n = new_tag(), token()
    expect("a command", command("open", n, tag)[:2], [tag, "sent"])
    bait = hold_network()
    release("control")
    moves(1)
    time.sleep(0.5)
    release_network(bait)
    answered("its answer is in each later report", "accepted", tag)
    sent("stop", "accepted", "stop")
    moves(0)


def test_segments_twice():
    write("twice", 1)
    sent("each segment comes twice", "accepted", "close")
    moves(-1)
    sent("each segment comes twice", "accepted", "stop")
    moves(0)
    remove("twice")


def test_order_of_values(name):
    """The state changes after each of the segments of a page. A page that shows the old state has no token that is valid."""
    kinds = set()
    for segments in range(9):
        old = state()
        to = 0 if word() == "fault" else 1
        connection = connected()
        hold("network", segments)
        ask(connection, name)
        replies = []
        reader = threading.Thread(target=lambda: replies.append(reply(connection)[1]), daemon=True)
        reader.start()
        soon("the page, or its segment", lambda: not reader.is_alive() or os.path.exists("network-held"))
        block(to)
        time.sleep(0.15)
        release("network")
        reader.join()
        body = replies[0]
        n = re.search(r'(?:"n": "|name="n" value=")([0-9a-f]{16})', body).group(1)
        shows_old = old["gate"] in body
        soon("the change", lambda: word() == ("fault" if to else "stopped"))
        is_valid = command("fly", n, new_tag())[3] == "bad"
        expect(f"{name}: an old state with a valid token, {segments}", is_valid and shows_old, False)
        kinds.add((is_valid, shows_old))
    expect(f"{name}: each kind of page was seen", kinds, {(False, True), (False, False), (True, False)})
    if word() == "fault":
        block(0)
        soon("no fault", lambda: word() == "stopped")


def test_age():
    n = token()
    soon("the next token in the same state", lambda: token() != n, 10)
    sent("the token of a page that has not asked since", "accepted", "close", n)
    moves(-1)
    goes(0, "closed", 0)
    n = token()
    time.sleep(11)
    refused("a token of 11 s, in the same state", "old", "open", n, new_tag())


def test_restart():
    """No token of the time before the start is valid or shown again, also none that was never used."""
    n = token()
    kill()
    used.update(seen)
    hold("control")
    start()
    is_held("control")
    body = page("/state.shtml")[1]
    expect("no state and no token before the first report", re.sub(r"\s", "", body), '{"n":"","outcome":"-none-none","gate":""}')
    expect("no command", command("open", "", "1")[2:], ["1", "old"])
    release("control")
    soon("the state", lambda: state()["gate"] == "closed 0.0")
    moves(0)
    refused("a token of the time before the start", "old", "open", n, new_tag())
    sent("a command after the start", "accepted", "open")
    moves(1)
    goes(1000, "open", 0)
    sent("a command to close", "accepted", "close")
    moves(-1)
    goes(0, "closed", 0)


def start():
    with open(log, "a", encoding="utf8") as file:
        nodes.append(subprocess.Popen([program], stdin=subprocess.DEVNULL, stdout=file, stderr=file))


def kill():
    nodes[-1].kill()
    nodes[-1].wait()


def main():
    write("position", 0)
    start()
    try:
        soon("the state", lambda: state()["gate"] == "closed 0.0")
        moves(0)
        test_once()
        test_change_by_itself()
        test_wrong_requests()
        test_two_browsers()
        test_busy()
        test_change_after_sent()
        test_change_in_queue()
        test_change_unseen()
        test_many_reports()
        test_segments_twice()
        test_order_of_values("/state.shtml")
        test_order_of_values("/gate.shtml")
        test_age()
        test_restart()
        expect("the node runs", nodes[-1].poll(), None)
        print(f"the gate acted once in each of its {count} checks")
    finally:
        kill()


program, log = (os.path.abspath(name) for name in sys.argv[1:])
motors, nodes = [], []
open(log, "w", encoding="utf8").close()
with tempfile.TemporaryDirectory() as folder:
    os.chdir(folder)
    main()
    os.chdir("/")
