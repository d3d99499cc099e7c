#!/usr/bin/env python3
"""Serves the page of this folder on this machine.

    python3 web/serve.py [UIPD] [SITE] [OPTION ..] [-- COMMAND ARG ..]

It prints the page's address. The device of the page is

    (no word)            inside the page; nothing has to be built
    SITE                 inside the page, with this site
    UIPD [SITE]          `UIPD serve SITE 10.0.0.1` on a pseudo terminal, a fresh one for each page that is opened
    --line DEVICE RATE   at the other end of a serial port, as /dev/ttyUSB0 115200
    --board FIRMWARE     a board by qemu, at its serial port
    -- COMMAND ARG ..    any program that speaks SLIP on standard input and output, a fresh one for each page that is opened

SITE is an image (a file that ends in .img) or a folder of files. If it changes, the page loads it again and shows the same path.

    --port N             serves the page at this port, from 1 to 65535 (8080; 0 takes a free one)
    --open               opens the page in this machine's browser
    --page               only the page, even if crates/uipd is built
    --help               prints this text

The page carries bytes to UIPD over a WebSocket (RFC 6455). It fills the silence of the line with idle bytes, so that `pace` is a
clock of half seconds. Only this machine is served, and only the page itself may use the WebSocket.
"""
import argparse
import base64
import glob
import hashlib
import html
import json
import os
import select
import shutil
import signal
import struct
import sys
import tempfile
import threading
import time
import urllib.parse
import webbrowser
from http.server import BaseHTTPRequestHandler, ThreadingHTTPServer

HERE = os.path.dirname(os.path.abspath(__file__))
EXAMPLES = os.path.join(HERE, "../examples")
sys.path[:0] = [EXAMPLES, os.path.join(HERE, "../tools")]
try:
    import browse
    import pack
except ImportError:   # a system without terminals, as Windows
    browse = None

TYPES = {".html": "text/html", ".js": "text/javascript", ".css": "text/css", ".wasm": "application/wasm", ".img": "application/octet-stream"}
TOP = os.path.join(HERE, "..")
DOCUMENTS = ("LICENSE*", "*.md", "*/*.md", "*/*/README.md", "include/*.h", "docs/*.png")   # the page shows them
DOCUMENT_TYPES = {".png": "image/png"}            # others are texts
OURS = ("localhost", "127.0.0.1", "[::1]")
ACCEPT = "258EAFA5-E914-47DA-95CA-C5AB0DC85B11"   # RFC 6455 section 1.3
BINARY, CLOSE, PING, PONG = 2, 8, 9, 10
LONGEST = 1 << 20
CHANGED = "the site has changed"                  # page.js knows this word
FAULT = 1011                                      # RFC 6455 section 7.4.1


def fail(text):
    sys.exit(f"serve.py: {text}")


def status_words(status):
    """An exit status of uipd in words."""
    if status < 0:
        return f"the program was ended by {signal.Signals(-status).name}"
    return f"the program ended with status {status}" + (f": {browse.STATUSES[status]}" if status in browse.STATUSES else "")


def names_in(folder):
    """The names of a folder's files, at any depth, without those that begin with a dot."""
    names = []
    for place, folders, files in os.walk(folder):
        folders[:] = sorted(name for name in folders if not name.startswith("."))
        names += [os.path.relpath(os.path.join(place, name), folder).replace(os.sep, "/") for name in sorted(files) if name[0] != "."]
    return names


def documents():
    """The documents of the repository that are here."""
    return sorted(os.path.relpath(path, TOP).replace(os.sep, "/") for form in DOCUMENTS for path in glob.glob(os.path.join(TOP, form)))


def stamp_of(site):
    """Changes whenever a file of a site does."""
    paths = [os.path.join(site, name) for name in names_in(site)] if os.path.isdir(site) else [site]
    return hashlib.sha256(repr([(path, os.stat(path).st_mtime_ns, os.stat(path).st_size) for path in paths]).encode()).hexdigest()[:16]


def packed(folder, to):
    """Writes the image of a folder, each file with its type."""
    try:
        image = pack.pack(pack.files_in(folder, []))
    except pack.Fault as fault:
        fail(f"cannot pack {folder}: {fault}")
    with open(to, "wb") as file:
        file.write(image)
    return to


class Socket:
    """The server's end of a WebSocket: the bytes of its messages, both ways."""

    def __init__(self, source, sink):
        self.source, self.sink, self.lock, self.is_closed = source, sink, threading.Lock(), False

    def take(self, count):
        data = self.source.read(count)
        if len(data) < count:
            raise ConnectionError
        return data

    def frame(self):
        """The next frame: what it is, and its bytes (RFC 6455 section 5.2)."""
        first, second = self.take(2)
        length = second & 0x7f
        if length >= 126:
            length = int.from_bytes(self.take(2 if length == 126 else 8), "big")
        if length > LONGEST or not second & 0x80:
            raise ConnectionError
        mask, data = self.take(4), self.take(length)
        key = (mask * (length // 4 + 1))[:length]
        return first & 0xf, (int.from_bytes(data, "big") ^ int.from_bytes(key, "big")).to_bytes(length, "big")

    def read(self):
        """The next bytes, or None at the end."""
        while True:
            try:
                kind, data = self.frame()
                if kind == PING:
                    self.write(data, PONG)
            except OSError:
                return None
            if kind == CLOSE:
                self.close()
                return None
            if kind in (0, BINARY):
                return data

    def write(self, data, kind=BINARY):
        size = len(data)
        length = bytes([size]) if size < 126 else struct.pack("!BH", 126, size) if size < 1 << 16 else struct.pack("!BQ", 127, size)
        with self.lock:
            self.sink.write(bytes([0x80 | kind]) + length + data)
            self.sink.flush()

    def close(self, reason=None):
        """Ends it; by a fault, if a reason is given."""
        if self.is_closed:
            return
        self.is_closed = True
        try:
            self.write(b"" if reason is None else struct.pack("!H", FAULT) + reason.encode()[:120], CLOSE)
        except OSError:
            pass


class Program:
    """A program on a pseudo terminal, a fresh one for each page."""

    def __init__(self, name, words, is_filled, is_own=False):
        self.name, self.words, self.is_filled, self.rate, self.has_statuses = name, words, is_filled, browse.LOCAL_RATE, is_own

    def open(self):
        return Line(*browse.start_server(self.words), has_statuses=self.has_statuses)


class Watched:
    """UIPD with a site that may change: a folder is packed for each page, and the line ends when a file has changed."""

    def __init__(self, name, uipd, site):
        self.name, self.uipd, self.site, self.is_filled, self.rate = name, uipd, site, True, browse.LOCAL_RATE

    def open(self):
        then, place = stamp_of(self.site), tempfile.TemporaryDirectory()
        image = packed(self.site, os.path.join(place.name, "site.img")) if os.path.isdir(self.site) else self.site
        words = [self.uipd, "serve", image, "10.0.0.1", "pace", str(browse.LOCAL_RATE // 2), "tty"]
        return WatchedLine(lambda: stamp_of(self.site) != then, *browse.start_server(words), release=place.cleanup, has_statuses=True)


class Board:
    def __init__(self, firmware):
        self.name, self.firmware, self.is_filled, self.rate = "a board by qemu", firmware, False, browse.BOARD_RATE

    def open(self):
        board, line, monitor = browse.start_board(self.firmware)
        return Line(board, line, line, monitor)


class Port:
    """A serial port, which one page at a time has."""

    def __init__(self, device, rate):
        self.name, self.device, self.bits = f"{device} at {rate}", device, rate
        self.is_filled, self.rate, self.is_taken = True, rate // 10, threading.Lock()

    def open(self):
        if not self.is_taken.acquire(blocking=False):
            fail(f"another page has the port {self.device}")
        try:
            port = browse.open_port(self.device, self.bits)
        except SystemExit:
            self.is_taken.release()
            raise
        return Line(None, port, port, release=self.is_taken.release)


class Line:
    """A line to a node that runs: where bytes go in and come out."""
    running = set()

    def __init__(self, process, put, output, kept=None, release=lambda: None, has_statuses=False):
        self.process, self.put, self.output, self.kept, self.release, self.is_over = process, put, output, kept, release, False
        self.has_statuses = has_statuses
        Line.running.add(self)

    def write(self, data):
        while data:
            data = data[os.write(self.put, data[:1024]):]

    def read(self):
        """The next bytes of the node, or nothing if it went away or the line is over."""
        while not self.is_over and not self.has_changed():
            if select.select([self.output], [], [], 0.2)[0]:
                return os.read(self.output, 65536)
        return b""

    def why(self):
        if self.process is None:
            return "the port went away"
        status = self.process.wait()
        return status_words(status) if self.has_statuses or status < 0 else f"the program ended with status {status}"

    def has_changed(self):
        return False

    def close(self):
        self.is_over = True
        if self.process:
            self.process.kill()
            self.process.wait()
        Line.running.discard(self)
        self.release()


class WatchedLine(Line):
    """A line that ends when its site has changed. It looks twice a second."""
    is_changed, then = False, 0

    def __init__(self, look, *words, **more):
        super().__init__(*words, **more)
        self.look = look

    def has_changed(self):
        if time.monotonic() - self.then > 0.5:
            self.then = time.monotonic()
            try:
                self.is_changed = self.look()
            except OSError:
                pass   # a file is being written
        return self.is_changed

    def why(self):
        return CHANGED if self.is_changed else super().why()


def carry_out(line, socket):
    """Carries what the node sends to the page."""
    try:
        while data := line.read():
            socket.write(data)
    except OSError:
        pass
    if not line.is_over:
        socket.close(line.why())


def bridge(node, socket):
    """Carries bytes between a page and a node until one of the two ends."""
    try:
        line = node.open()
    except (SystemExit, OSError) as why:
        return socket.close(str(why))
    out = threading.Thread(target=carry_out, args=(line, socket), daemon=True)
    out.start()
    try:
        while (data := socket.read()) is not None:
            line.write(data)
    except OSError:
        socket.read()   # the node went away: the page answers the close frame
    line.close()
    out.join()
    for descriptor in {line.put, line.output}:
        os.close(descriptor)


class Handler(BaseHTTPRequestHandler):
    protocol_version = "HTTP/1.1"
    disable_nagle_algorithm = True
    node = None
    site = None   # of the device inside the page

    def log_message(self, *_):
        pass

    def answer(self, status, kind, body):
        self.send_response(status)
        for name, value in (("Content-Type", kind), ("Content-Length", str(len(body))), ("Cache-Control", "no-store")):
            self.send_header(name, value)
        self.end_headers()
        if self.command != "HEAD":
            self.wfile.write(body)

    def is_ours(self):
        """Requested by a name of this machine: no other site may point its own name here."""
        return self.headers.get("Host", "").rsplit(":", 1)[0] in OURS

    def do_HEAD(self):
        self.do_GET()

    def do_GET(self):
        path = self.path.split("?")[0]
        if not self.is_ours():
            self.answer(403, "text/plain", b"this machine alone is served\n")
        elif path == "/line":
            self.upgrade()
        elif path == "/folder" or path.startswith("/folder/"):
            self.folder(urllib.parse.unquote(path[len("/folder/"):]))
        elif path[1:] in documents():
            with open(os.path.join(TOP, path[1:]), "rb") as file:
                self.answer(200, DOCUMENT_TYPES.get(os.path.splitext(path)[1], "text/plain; charset=utf-8"), file.read())
        else:
            self.file(path[1:] or "index.html")

    def file(self, name):
        kind = TYPES.get(os.path.splitext(name)[1])
        if kind is None or name not in os.listdir(HERE):
            return self.answer(404, "text/plain", b"not here\n")
        with open(os.path.join(HERE, name), "rb") as file:
            body = file.read()
        self.answer(200, kind, body.replace(b"</head>", self.metas() + b"</head>") if name == "index.html" else body)

    def folder(self, name):
        """The site of the device inside the page: its list of files, or one of them."""
        try:
            if not self.site:
                return self.answer(404, "text/plain", b"no site here\n")
            names = names_in(self.site) if os.path.isdir(self.site) else [os.path.basename(self.site)]
            if not name:
                words = {"names": names, "isImage": not os.path.isdir(self.site), "stamp": stamp_of(self.site)}
                return self.answer(200, "application/json", json.dumps(words).encode())
            if name not in names:
                return self.answer(404, "text/plain", b"not here\n")
            with open(os.path.join(self.site, name) if os.path.isdir(self.site) else self.site, "rb") as file:
                return self.answer(200, "application/octet-stream", file.read())
        except OSError as error:   # a file is being written
            return self.answer(503, "text/plain", f"{error.strerror}\n".encode())

    def metas(self):
        """What the page has to know of the node at the WebSocket, and of its own site."""
        words = {"documents": documents()}
        if self.node:
            words["bridge"] = {"name": self.node.name, "rate": self.node.rate, "fill": self.node.is_filled, "now": self.node.is_asked}
        if self.site:
            words["folder"] = {"name": os.path.basename(os.path.abspath(self.site))}
        return "".join(f'<meta name="{name}" content="{html.escape(json.dumps(of))}">\n' for name, of in words.items()).encode()

    def upgrade(self):
        """The handshake (RFC 6455 section 4.2), with our own page alone."""
        key = self.headers.get("Sec-WebSocket-Key")
        if self.command != "GET" or not self.node or not key or self.headers.get("Origin") != f"http://{self.headers['Host']}":
            return self.answer(403, "text/plain", b"this is for the page of this server\n")
        self.send_response(101)
        accept = base64.b64encode(hashlib.sha1((key + ACCEPT).encode()).digest()).decode()
        for name, value in (("Upgrade", "websocket"), ("Connection", "Upgrade"), ("Sec-WebSocket-Accept", accept)):
            self.send_header(name, value)
        self.end_headers()
        self.close_connection = True
        bridge(self.node, Socket(self.rfile, self.wfile))


class Server(ThreadingHTTPServer):
    daemon_threads = True

    def handle_error(self, request, client_address):
        """A browser that went away in the middle is no news."""
        if not isinstance(sys.exc_info()[1], OSError):
            super().handle_error(request, client_address)


def port_number(text):
    if not text.isdigit() or int(text) > 65535:
        raise argparse.ArgumentTypeError(f"{text} is no port: a number from 0 to 65535")
    return int(text)


def parser():
    """The form of the command line, before the word `--`."""
    words = argparse.ArgumentParser(prog="serve.py", add_help=False, allow_abbrev=False,
                                    usage="python3 web/serve.py [UIPD] [SITE] [OPTION ..] [-- COMMAND ARG ..]; --help explains each")
    words.add_argument("plain", nargs="*")
    words.add_argument("--line", nargs=2, metavar=("DEVICE", "RATE"))
    words.add_argument("--board", metavar="FIRMWARE")
    words.add_argument("--port", type=port_number, default=8080)
    for name in ("--open", "--page", "--help", "-h"):
        words.add_argument(name, action="store_true")
    return words


class Words:
    """What the command line asks for."""

    def __init__(self, words):
        form, at = parser(), words.index("--") if "--" in words else len(words)
        self.command, given = words[at + 1:], form.parse_intermixed_args(words[:at])
        if given.help or given.h:
            sys.exit(print(__doc__))
        if len(given.plain) > 2:
            form.error(f"unknown word {given.plain[2]}")
        if at < len(words) and not self.command:
            form.error("-- is followed by the command of a program")
        if given.line and not given.line[1].isdigit():
            form.error(f"{given.line[1]} is no rate of a port, in bits a second")
        devices = (("UIPD or SITE", given.plain), ("--line", given.line), ("--board", given.board), ("--", self.command))
        ways = [name for name, value in devices if value]
        if len(ways) > 1:
            form.error(f"{ways[0]} and {ways[1]} are two devices: the page has one")
        plain, self.port, self.board, self.is_alone, self.is_opened = given.plain, given.port, given.board, given.page, given.open
        self.line = (given.line[0], int(given.line[1])) if given.line else None
        is_site = len(plain) == 1 and (os.path.isdir(plain[0]) or plain[0].endswith(".img"))
        self.site = plain[0] if is_site else plain[1] if len(plain) > 1 else os.path.join(EXAMPLES, "site.img")
        self.inside = plain[0] if is_site else None
        self.is_asked = bool(plain)
        self.uipd = plain[0] if plain and not is_site else os.path.join(EXAMPLES, "../crates/uipd/out/uipd")

    def node(self):
        """The node at the WebSocket, or None."""
        if self.is_alone or self.inside:
            return None
        is_named = self.line or self.board or self.command or self.is_asked
        if not is_named and (browse is None or not os.path.exists(self.uipd)):
            return None
        if browse is None:
            fail("no examples/browse.py or tools/pack.py here, or no pseudo terminals on this system; without a word the device runs inside the page")
        node = self.named()
        node.is_asked = bool(is_named)   # the page then connects at once
        return node

    def named(self):
        if self.line:
            return Port(*self.line)
        if self.board:
            self.has_to_exist(self.board, "no firmware at {}: `sh examples/board/run.sh build` builds it")
            return Board(self.board)
        if self.command:
            if not shutil.which(self.command[0]):
                fail(f"{self.command[0]} is not executable" if os.path.isfile(self.command[0]) else f"no command {self.command[0]} here")
            return Program(" ".join(self.command), self.command, False)
        self.has_to_exist(self.uipd, "no folder, image or program at {}; `rt run` in crates/uipd builds uipd")
        self.has_to_exist(self.site, "no image and no folder at {}")
        return Watched(f"{os.path.basename(self.uipd)} serve {os.path.basename(os.path.abspath(self.site))}", self.uipd, self.site)

    def device(self, node):
        """The device in words."""
        return node.name if node else f"inside the page, with {self.inside}" if self.inside else "inside the page"

    def has_to_exist(self, path, words):
        if not os.path.exists(path):
            fail(words.format(path))


def main():
    words = Words(sys.argv[1:])
    if words.inside:
        words.has_to_exist(words.inside, "no image and no folder at {}")
    Handler.node, Handler.site = words.node(), words.inside
    try:
        server = Server(("127.0.0.1", words.port), Handler)
    except OSError as error:
        fail(f"no server at port {words.port}: {error.strerror}; --port names another")
    url = f"http://localhost:{server.server_address[1]}/"
    print(f"The page is at {url} (Ctrl-C ends it). The device: {words.device(Handler.node)}.", flush=True)
    if not Handler.node and not words.inside:
        print(f"At {url}#try it starts at once.", flush=True)
    if words.is_opened:
        address = url if Handler.node or words.inside or words.is_alone else f"{url}#try"
        threading.Thread(target=webbrowser.open, args=(address,), daemon=True).start()   # some browsers end only when they are closed
    signal.signal(signal.SIGTERM, lambda *_: sys.exit(0))   # what it started ends with it
    try:
        server.serve_forever()
    except KeyboardInterrupt:
        pass
    finally:
        for line in list(Line.running):
            line.close()


if __name__ == "__main__":
    main()
