#!/usr/bin/env python3
"""Tries the node of browse.py by this machine's own TCP: pings, every file, the rate of the ticks, a flood, and that all is well after it.

    python3 examples/browse.py .. -- python3 boards/check.py [FOLDER] [--two | --secret]

FOLDER is the site (examples/site). The flood is 30 echo requests of 1,400 bytes at once: more than any ring holds, in both directions. With
--two it tries two clients at once instead, on a line with a rate (browse.py --baud): the node must have counted no damaged datagram. The
ticks and the count are read from /stats.shtml. With --secret it looks at the first sequence number of the node, which is small if it has no
secret, and prints it. The status is 0 if all is as it should be, else 1.
"""
import contextlib
import os
import re
import socket
import struct
import subprocess
import sys
import time

EXAMPLES = os.path.join(os.path.dirname(os.path.abspath(__file__)), "../examples")
sys.dont_write_bytecode = True
sys.path.insert(0, EXAMPLES)
import fetch  # noqa: E402

NODE = fetch.SERVER[0]
FLOOD, FLOOD_LEN = 30, 1400
FIRST_AT_START, FIRST_OF_FLOOD = 100, 1000    # numbers of requests; those of the pings begin at 0
ECHO_REPLY, ECHO = 0, 8
SYN, CLIENT_PORT = 2, 40000           # of the flags of TCP; of --secret
DAMAGED = (3, 4, 6, 8, 14, 17, 18)    # the counters of uip.h that grow if a byte of a datagram was lost
TICKS_FOR = 5                         # seconds


def checksum(data):
    total = sum(struct.unpack(f">{len(data) // 2}H", data))
    total = (total >> 16) + (total & 0xFFFF)
    return ~(total + (total >> 16)) & 0xFFFF


def echo(number, length):
    """An echo request with this number and so many bytes of data (RFC 792)."""
    head, data = struct.pack(">BBHHH", ECHO, 0, 0, os.getpid() & 0xFFFF, number), bytes(length)
    return head[:2] + struct.pack(">H", checksum(head + data)) + head[4:] + data


def is_answered(link, number, length, patience=40):
    """Whether an echo request is answered, before no reply of any kind has come for these seconds."""
    link.sendto(echo(number, length), (NODE, 0))
    end = time.monotonic() + patience
    while (left := end - time.monotonic()) > 0:
        link.settimeout(left)
        try:
            packet = link.recv(2048)
        except TimeoutError:
            break
        end = time.monotonic() + patience
        if packet[20] == ECHO_REPLY and struct.unpack_from(">H", packet, 26)[0] == number:
            return True
    return False


def starts(link, patience=40):
    """Whether the node answers within these seconds. What comes before its port is open is lost, so a request is sent each second."""
    return any(is_answered(link, FIRST_AT_START + number, 56, 1) for number in range(patience))


def pings(link, count=10):
    """How many of some echo requests, one after another, are answered. It ends at the first that is not."""
    good = 0
    while good < count and is_answered(link, good, 56 + 120 * good):
        good += 1
    return good


def files(folder):
    """How many files arrived as they should, and how many there are; the page of a name that no file has is one more."""
    names = sorted("/" + name for name in os.listdir(folder))
    good = 0
    for name in names:
        head, body = fetch.fetch(name)
        good += head.startswith(b"HTTP/1.0 200 OK\r\n") and re.fullmatch(fetch.pattern(folder, name), body, re.S) is not None
    good += fetch.fetch("/no-such-file")[0].startswith(b"HTTP/1.0 404 Not found\r\n")
    return good, len(names) + 1


def statistics():
    """The ticks and the counters that the node shows."""
    body = fetch.fetch("/stats.shtml")[1].decode()
    ticks = int(re.search(r"since the start: +(\d+)", body)[1])
    return ticks, [0, *map(int, re.search(r"<pre>\s(.*?)</pre>", body, re.S)[1].split())]


class Trial:
    def __init__(self):
        self.is_good = True

    def see(self, is_good, text):
        self.is_good &= is_good
        print(f"{'ok   ' if is_good else 'WRONG'} {text}", flush=True)


def try_alone(trial, folder, link):
    answered = pings(link) if starts(link) else 0
    trial.see(answered == 10, f"{answered} of 10 pings")
    good, count = files(folder)
    trial.see(good == count, f"{good} of {count} pages")
    if os.path.exists(os.path.join(folder, "stats.shtml")):
        before, start = statistics()[0], time.monotonic()
        time.sleep(TICKS_FOR)
        ticks, seconds = statistics()[0] - before, time.monotonic() - start
        trial.see(seconds < ticks <= 2 * seconds + 3, f"{ticks} ticks in {seconds:.1f} seconds")    # fewer if this machine is busy
    for number in range(FLOOD):
        with contextlib.suppress(BlockingIOError):    # what this machine has no room for is not sent
            link.sendto(echo(FIRST_OF_FLOOD + number, FLOOD_LEN), socket.MSG_DONTWAIT, (NODE, 0))
    answered = pings(link)
    good, count = files(folder) if answered == 10 else (0, "all")
    trial.see(answered == 10 and good == count, f"after a flood of {FLOOD} pings {answered} of 10 pings, {good} of {count} pages")


def try_two(trial, folder):
    """Two clients at once: fetch.py twice."""
    clients = [subprocess.Popen([sys.executable, os.path.join(EXAMPLES, "fetch.py"), folder], stdout=subprocess.DEVNULL) for _ in range(2)]
    ends = [client.wait() for client in clients]
    counters = statistics()[1]
    damaged = sum(counters[number] for number in DAMAGED)
    trial.see(ends == [0, 0] and damaged == 0, f"two clients at once: statuses {ends}, {damaged} damaged datagrams, {counters[19]} sent again")


def try_secret(trial):
    """Without a secret the node's numbers are counts from its start. With one they also depend on the ports and addresses (RFC 6528), so the port
    of the client is always the same."""
    with socket.socket(socket.AF_INET, socket.SOCK_RAW, socket.IPPROTO_TCP) as seen, \
            socket.create_connection((NODE, 80), timeout=40, source_address=("", CLIENT_PORT)):
        seen.settimeout(5)
        while True:
            segment = seen.recv(2048)[20:]
            if segment[13] & SYN:
                break
    number = struct.unpack_from(">I", segment, 4)[0]
    trial.see(number > 0xFFFF, f"the first sequence number is {number:#010x}")


def main():
    words = [word for word in sys.argv[1:] if word not in ("--two", "--secret")]
    if "--help" in words or "-h" in words or len(words) > 1:
        sys.exit(__doc__)
    folder = words[0] if words else os.path.join(EXAMPLES, "site")
    trial = Trial()
    try:
        if "--two" in sys.argv:
            try_two(trial, folder)
        elif "--secret" in sys.argv:
            try_secret(trial)
        else:
            with socket.socket(socket.AF_INET, socket.SOCK_RAW, socket.IPPROTO_ICMP) as link:
                link.setsockopt(socket.SOL_SOCKET, socket.SO_SNDBUF, 1 << 20)
                try_alone(trial, folder, link)
    except OSError as error:
        trial.see(False, f"a connection failed: {error}")
    sys.exit(0 if trial.is_good else 1)


main()
