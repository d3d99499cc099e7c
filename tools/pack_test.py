#!/usr/bin/env python3
"""Tests tools/pack.py: by the definition in docs/FORMATS.md, by the images that the program packed, by a folder of each type, by a C compiler,
by the library and by the program.

    python3 tools/pack_test.py [CASES]      CASES random damaged images (3,000)

The library (`rt lib` in crates/uip_c) opens every random image, and the program (`rt run` in crates/uipd) checks every hundredth and packs
lists; what is not built is skipped, and the test prints it. Then faults are planted in pack.py: the tests by the definition must find each.
The status is 0 if everything was as expected.
"""
import contextlib
import io
import os
import random
import re
import shutil
import subprocess
import sys
import tempfile
import types

HERE = os.path.dirname(os.path.abspath(__file__))
TOP = os.path.join(HERE, "..")
LIBRARY = os.path.join(TOP, "crates/uip_c/out/libuip_c.a")
UIPD = os.path.join(TOP, "crates/uipd/out/uipd")
HELLO = bytes.fromhex("55495053495445310001" "0b2f696e6465782e68746d6c" "00000006" "68656c6c6f0a")
HELLO_2 = bytes.fromhex("55495053495445320001" "0b2f696e6465782e68746d6c" "00" "00000006" "68656c6c6f0a")
SITE = ["index.html", "stats.shtml", "footer.html", "style.css", "logo.png", "404.html"]
STATE = ["index.html", "state.shtml", "now.shtml", "lamp-on.html", "lamp-off.html", "alarm.shtml", "style.css"]
STATE_TYPES = ["text/html", "application/json", "text/html", "text/html", "text/html", "text/html", "text/css"]
BIG = 1 << 22


def load(change=lambda source: source):
    """pack.py as a module, perhaps with a planted fault."""
    with open(os.path.join(HERE, "pack.py")) as file:
        source = file.read()
    module = types.ModuleType("pack")
    exec(compile(change(source), "pack.py", "exec"), module.__dict__)
    return module


def read(*path):
    with open(os.path.join(TOP, "examples", *path), "rb") as file:
        return file.read()


def answer(pack, action):
    """`good`, or the first fault."""
    try:
        action()
        return "good"
    except pack.Fault as fault:
        return str(fault)


def verdict(pack, image):
    return answer(pack, lambda: pack.read(image))


def listed(pack, files):
    return answer(pack, lambda: pack.pack([pack.File(*file) for file in files]))


# ---- by the definition: each row has what is expected

IMAGES = [
    *((HELLO[:length], "bad site magic 0") for length in range(8)),
    *((HELLO[:length], "bad site cut 0") for length in (8, 9)),
    *((HELLO[:length], "bad site cut 1") for length in range(10, 32)),
    (HELLO, "good"), (HELLO_2, "good"), (b"UIPSITE1\0\0", "good"), (HELLO + b"x", "bad site rest 0"),
    (b"UIPSITE3" + HELLO[8:], "bad site magic 0"), (b"UIPSITE1\x04\x01", "bad site many 0"), (b"UIPSITE1\x04\x00", "bad site cut 1"),
    (b"UIPSITE1\0\1\0", "bad site name 1"), (b"UIPSITE1\0\1\x41", "bad site name 1"), (b"UIPSITE1\0\1\x40", "bad site cut 1"),
    (b"UIPSITE1\0\1\1x\0\0\0\0", "bad site name 1"), (b"UIPSITE1\0\1\3/a?\0\0\0\0", "bad site name 1"),
    (b"UIPSITE1\0\1\3/a \0\0\0\0", "bad site name 1"), (b"UIPSITE1\0\1\3/a\x7f\0\0\0\0", "bad site name 1"),
    (b"UIPSITE1\0\1\2/~\0\0\0\0", "good"), (b"UIPSITE1\0\1\1/\0\0\0\0", "good"),
    (b"UIPSITE1\0\2\2/x\0\0\0\0\2/x", "bad site twice 2"), (b"UIPSITE1\0\2\2/x\0\0\0\0\2/y\0\0\0\1", "bad site cut 2"),
    (b"UIPSITE2\0\1\2/x\x41", "bad site kind 1"), (b"UIPSITE2\0\1\2/x\2\x1fa\0\0\0\0", "bad site kind 1"),
    (b"UIPSITE2\0\1\2/x\2a\x7f\0\0\0\0", "bad site kind 1"), (b"UIPSITE2\0\1\2/x", "bad site cut 1"),
    (b"UIPSITE2\0\1\2/x\2a", "bad site cut 1"), (b"UIPSITE2\0\1\2/x\2 ~\0\0\0\0", "good"),
    (b"UIPSITE2\0\2\2/x\0\0\0\0\0\2/x\x41", "bad site twice 2"),
    (b"UIPSITE1\0\1\x08/a.shtml\0\0\0\6%!:/x\n", "bad site include 1"), (b"UIPSITE1\0\1\x08/a.shtml\0\0\0\x0b%!:/a.shtml", "good"),
    (b"UIPSITE1\0\1\x08/a.shtml\0\0\0\4%!:\n", "bad site include 1"), (b"UIPSITE1\0\1\x08/a.shtml\0\0\0\5%! /x", "good"),
    (b"UIPSITE1\0\1\x08/a.shtml\0\0\0\7%!:  /\r", "bad site include 1"), (b"UIPSITE1\0\1\5/a.sh\0\0\0\5%!:/x", "good"),
    (b"\0" * ((1 << 24) + 1), "bad site long 0"), (b"\0" * (1 << 24), "bad site magic 0"),
]
LISTS = [
    ([], "good"), ([(b"/x", b"")], "good"), ([(b"x", b"")], "bad site name 1"), ([(b"/x", b""), (b"", b"")], "bad site name 2"),
    ([(b"/" + b"x" * 63, b"")], "good"), ([(b"/" + b"x" * 64, b"")], "bad site name 1"),
    ([(b"/x", b""), (b"/y", b""), (b"/x", b""), (b"", b"")], "bad site twice 3"),
    ([(b"/%d" % k, b"") for k in range(1024)], "good"), ([(b"/%d" % k, b"") for k in range(1025)], "bad site many 0"),
    ([(b"", b"")] * 1025, "bad site many 0"), ([(b"", b"x" * (1 << 24))], "bad site long 0"),
    ([(b"/x", b"x" * ((1 << 24) - 17))], "good"), ([(b"/x", b"x" * ((1 << 24) - 16))], "bad site long 0"),
    ([(b"/x", b"", b"x" * 64)], "good"), ([(b"/x", b"", b"x" * 65)], "bad site kind 1"), ([(b"/x", b"", b"\n")], "bad site kind 1"),
    ([(b"/a.shtml", b"%!:/b\n"), (b"", b"")], "bad site name 2"), ([(b"/b.shtml", b""), (b"/a.shtml", b"%!:/c")], "bad site include 2"),
    ([(b"/a.shtml", b"%!:/b\r\n%!:/b\r"), (b"/b", b"")], "good"), ([(b"/a.shtml", b"%!:/b\r\r\n"), (b"/b", b"")], "bad site include 1"),
    ([(b"/a.shtml", b"%!:/b\n" * 255), (b"/b", b"x" * BIG)], "good"),
    ([(b"/a.shtml", b"%!:/b\n" * 256), (b"/b", b"x" * BIG)], "bad site page 1"),
    ([(b"/a.shtml", b"%!:/b\n" * 256 + b"%!:/c"), (b"/b", b"x" * BIG)], "bad site include 1"),
]
PAGES = [    # the greatest length of a page: the texts are in docs/FORMATS.md
    ((b"/index.html", b"hello\n"), 86), ((b"/index.html", b"hello\n", b"text/html; charset=utf-8"), 101), ((b"/x", b""), 95),
    ((b"/a.shtml", b"a%!ticks\nb%!  net-stats  x\r\n%!tcp-connections\n%!file-stats /x\n%!value 1\n%!\n%a"), 80 + 4 + 10 + 220 + 1030 + 10),
]
WARNINGS = [    # the lines with a warning, each with what it must name
    ((b"/a.shtml", b"<p>\n%! ticks\n%!net-stats\n%!  tcp-connections \n%! file-stats /x\n%!: /x\n"), []),
    ((b"/a.shtml", b"%! value 3\r\n%! value-html 3\n%!value-json  15 \r\n%!\n%! ", b"text/javascript"), [(1, "waits"), (2, "waits")]),
    ((b"/a.shtml", b"It is %! value 3 &deg;C\nand %! temperature\n"), [(1, "&deg;C"), (2, "temperature")]),
    ((b"/a.shtml", b"%! value-html 3</p>\n%! value 16\n%! value-json\n%! value 00\n%! value 0 x"),
     [(1, "\"3</p>\""), (2, "\"16\""), (3, "\"\""), (4, "\"00\""), (5, "x")]),
    ((b"/a.shtml", b"\n%! ticks half seconds\n\n%!:/x of it\r\n%! file-stats /x </b>"), [(2, "half seconds"), (4, "of it"), (5, "</b>")]),
    ((b"/a.shtml", b"%! Ticks\n%!value3\n%! : /x\n%! file-stats\t/x"), [(1, "Ticks"), (2, "value3"), (3, ":"), (4, "file-stats\t/x")]),
    ((b"/a.html", b"100%\n!\n% !\n"), []), ((b"/a.html", b"a\nb%! ticks\n%! ticks\n"), [(2, ".shtml")]), ((b"/a.txt", b"%! ticks x\n"), []),
    ((b"/a.HTM", b"%!ticks", b"text/html"), [(1, ".shtml")]), ((b"/xhtml", b"%! ticks x\n", b"text/plain"), []),
    # a type that browsers download
    ((b"/xhtml", b"%! ticks x\n"), [(0, "/xhtml=TYPE")]), ((b"/a.js", b""), [(0, "/a.js=TYPE")]), ((b"/a.JPG", b""), [(0, "/a.JPG=TYPE")]),
    ((b"/a.bin", b"", b"application/octet-stream"), []), ((b"/a.js", b"%! value-json 1", b"text/javascript"), []), ((b"/a.gif", b""), []),
    # value-json where < begins an element
    ((b"/a.shtml", b"<p>\n%! value 1\n%! value-json 2\n%!value-json 3\n"), [(2, "waits"), (3, "waits"), (3, "text/html: a value that others set")]),
    ((b"/a.shtml", b"<p>%! value-json 0", b"Text/HTML; charset=utf-8"), [(1, "/a.shtml=application/json, or use value-html")]),
    ((b"/a.shtml", b"%! value-json 0", b"application/xhtml+xml"), [(1, "value-json")]),
    ((b"/a.shtml", b"%! value-json 0", b"image/svg+xml"), [(1, "svg")]),
    ((b"/a.shtml", b"%! value-json 0", b"application/json"), []), ((b"/a.shtml", b"%! value-json 0", b"text/plain"), []),
    ((b"/a.shtml", b"%! value-html 0\n%! value 1\n value-json 2 %%!: /value-json"), [(1, "waits")]),
    # a call right after a value
    ((b"/a.shtml", b"%! value 1\n%!: /x\n%! value 2\n\n%! ticks\n%! net-stats\n%! value 3\n"), []),
    ((b"/a.shtml", b"\n %! value 1\n%! ticks\n"), [(2, "no text follows")]),
    ((b"/a.shtml", b"a\n%! value-json 0 }"), [(2, "}"), (2, "<")]),
    # JSON that is served as HTML
    ((b"/a.shtml", b"{\"a\": %! value 1\n}"), [(1, "/a.shtml=application/json")]), ((b"/a.shtml", b" \r\n\t[1]", b"text/html"), [(2, "[ begins")]),
    ((b"/a.shtml", b"[]", b"text/html;charset=utf-8"), [(1, "[ begins")]), ((b"/a.shtml", b"[]", b"text/plain"), []),
    ((b"/a.shtml", b"{%! value-json 0\n}"), [(1, "value-html")]), ((b"/a.shtml", b"{}", b"application/json"), []), ((b"/a.shtml", b"<p>{}"), []),
    ((b"/a.html", b"{}"), []), ((b"/a.shtml", b"%! value 0\n{"), []), ((b"/a.shtml", b""), []),
]
# A folder: the type of its own that each file gets, and the words of the command line, which win.
FOLDER = {
    "a.js": "text/javascript", "a.mjs": "text/javascript", "a.json": "application/json", "a.map": "application/json",
    "a.webmanifest": "application/manifest+json", "a.wasm": "application/wasm", "a.xml": "text/xml", "a.csv": "text/csv", "a.md": "text/plain",
    "a.htm": "text/html", "a.svg": "image/svg+xml", "a.ico": "image/x-icon", "a.jpeg": "image/jpeg", "a.webp": "image/webp",
    "a.avif": "image/avif", "a.woff2": "font/woff2", "a.woff": "font/woff", "a.ttf": "font/ttf", "a.pdf": "application/pdf",
    "a.mp3": "audio/mpeg", "a.wav": "audio/wav",
    "A.JS": "text/javascript", "A.PNG": "image/png", "A.HTML": "text/html", "in/b.min.js": "text/javascript",
    "a.html": "", "a.shtml": "", "a.txt": "", "a.css": "", "a.png": "", "a.gif": "", "a.jpg": "",
    "a.bin": "", "js": "", "a.d/c": "", "A.SHTML": "", "js.gz": "",
    "own.js": "text/plain", "own.html": "text/html; charset=utf-8", "own.bin": "application/octet-stream",
    "own.shtml": "application/json", "none.js": "",
    "list.shtml": "application/json", "object.shtml": "application/json", "no.txt": "", "html.shtml": "text/html", "late.shtml": "",
}
LIBRARY_TYPES = {b"/a.html": b"text/html", b"/a.shtml": b"text/html", b"/a.txt": b"text/plain", b"/a.css": b"text/css", b"/a.png": b"image/png",
                 b"/a.gif": b"image/gif", b"/a.jpg": b"image/jpeg", b"/a.js": b"application/octet-stream"}
FOLDER_WORDS = ["/own.js=text/plain", "/own.html=text/html; charset=utf-8", "/own.bin=application/octet-stream", "/own.shtml=application/json",
                "/none.js=", "/html.shtml=text/html"]
FOLDER_CONTENTS = {"a.shtml": "<p>%! value-json 0\n", "own.shtml": "{%! value-json 0\n}", "list.shtml": "[%! value-json 0\n]", "object.shtml": " \n{}",
                   "no.txt": "{}", "html.shtml": "[]", "late.shtml": "<p>{}"}
FOLDER_WARNINGS = [("/A.SHTML:", "download"), ("/a.bin:", "download"), ("/a.d/c:", "download"), ("/a.shtml, line 1:", "value-html"),
                   ("/html.shtml, line 1:", "[ begins"), ("/js:", "download"), ("/js.gz:", "download"), ("/none.js:", "download")]
SOURCES = [(b"UIPSITE1\0\0", 10, 0), (HELLO, 32, 1), (b"UIPSITE1\1\2" + b"".join(b"\4/%03d\0\0\0\0" % k for k in range(258)), 2332, 258)]


def by_definition(pack):
    """The expectations that do not hold."""
    wrong = [f"an image of {len(image)} bytes: {is_so}, expected {expected}" for image, expected in IMAGES
             if (is_so := verdict(pack, image)) != expected]
    wrong += [f"a list of {len(files)}: {is_so}, expected {expected}" for files, expected in LISTS
              if (is_so := listed(pack, files)) != expected]
    wrong += [f"a page of {file[0]!r}: {is_so}, expected {expected}" for file, expected in PAGES
              if (is_so := pack.page_lengths([pack.File(*file)])) != [expected]]
    wrong += [f"the type of {name!r}: {is_so}" for name, kind in LIBRARY_TYPES.items() if (is_so := pack.File(name, b"").content_type()) != kind]
    wrong += [f"warnings of {file[1]!r}: {is_so}, expected {expected}" for file, expected in WARNINGS
              if not agree(is_so := pack.warnings(pack.File(*file)), expected)]
    wrong += [f"C source of {length} bytes" for image, length, files in SOURCES
              if f"enum {{ SITE_IMAGE_LEN = {length}, SITE_IMAGE_FILES = {files} }};" not in pack.source(image).splitlines()]
    site = [pack.File(f"/{name}".encode(), read("site", name)) for name in SITE]
    state = [pack.File(f"/{name}".encode(), read("state", name), kind.encode()) for name, kind in zip(STATE, STATE_TYPES)]
    wrong += [f"{file.name!r} of the examples has a warning: {found}" for file in site + state if (found := pack.warnings(file))]
    wrong += [f"examples/{name} is another image" for name, files in (("site.img", site), ("state.img", state)) if pack.pack(files) != read(name)]
    if pack.pack([pack.File(b"/index.html", b"hello\n")]) != HELLO:
        wrong.append("the image of one file is another")
    return wrong + by_folder(pack)


def run_main(pack, *words):
    """What the command prints on standard error, and its status."""
    errors, sys.argv[1:] = io.StringIO(), words
    with contextlib.redirect_stderr(errors), contextlib.redirect_stdout(io.StringIO()):
        try:
            pack.main()
        except SystemExit as end:
            return errors.getvalue().splitlines(), end.code
    return errors.getvalue().splitlines(), 0


def by_folder(pack):
    """The expectations of a packed folder that do not hold: its types, its warnings, and what `list` makes of one of its files."""
    wrong = []
    with tempfile.TemporaryDirectory() as room:
        folder, image, script = os.path.join(room, "site"), os.path.join(room, "image"), os.path.join(room, "site/a.js")
        for name in FOLDER:
            os.makedirs(os.path.dirname(os.path.join(folder, name)), exist_ok=True)
            with open(os.path.join(folder, name), "w") as file:
                file.write(FOLDER_CONTENTS.get(name, ""))
        printed, status = run_main(pack, folder, image, *FOLDER_WORDS)
        files = pack.read(read(image)) if status == 0 else []
        found = {file.name.decode()[1:]: file.kind.decode() for file in files}
        wrong += [f"{name} of a folder has the type \"{found.get(name)}\"" for name, kind in FOLDER.items() if found.get(name) != kind]
        wrong += [f"a folder has the warnings {printed}"] * (not matches(printed, FOLDER_WARNINGS))
        wrong += [f"check prints {again}" for again, _ in [run_main(pack, "check", image)] if again != printed]
        printed, status = run_main(pack, "list", image, f"/a.js={script}")
        is_plain = status == 0 and read(image) == b"UIPSITE1\0\1\5/a.js\0\0\0\0" and matches(printed, [("/a.js:", "download")])
        wrong += [] if is_plain else [f"list gives a type, or no warning: {printed}"]
    return wrong


def matches(lines, expected):
    return len(lines) == len(expected) and all(
        line.startswith(f"pack.py: warning: {place}") and text in line for line, (place, text) in zip(lines, expected))


def by_tables(pack):
    """The tables of types in docs/FORMATS.md, in --help and in web/site.js that are other ones."""
    rows = re.findall(r"^\| (`\.\w.*) \| (`.*`) \|$", read("../docs/FORMATS.md").decode(), re.M)
    cells = [[re.findall(r"`([^`]*)`", cell) for cell in row] for row in rows]
    table = re.search(r"^const TYPES = \{(.*?)\};", read("../web/site.js").decode(), re.S | re.M)
    tables = {
        "docs/FORMATS.md": {end: kind for ends, kinds in cells for end, kind in zip(ends, kinds * (len(ends) // len(kinds)), strict=True)},
        "--help": {end: kind for kind, ends in re.findall(r"^    (\w+/\S+) +(\..*)$", pack.usage(), re.M) for end in ends.split()},
        "web/site.js": {f".{end}": kind for end, kind in re.findall(r'(\w+): "([^"]*)"', table[1])},
    }
    return [f"{place} has another table of types" for place, types_there in tables.items() if types_there != pack.TYPES_OF_FOLDERS]


def agree(warnings, expected):
    return [line for line, _ in warnings] == [line for line, _ in expected] and all(
        named in text for (_, text), (_, named) in zip(warnings, expected))


# ---- by a C compiler: what the C source defines

PRINTER = """#include <stdio.h>
#include "site.c"
int main(void) { printf("%d %d ", SITE_IMAGE_LEN, SITE_IMAGE_FILES); fwrite(site_image, 1, sizeof site_image, stdout); return 0; }
"""


def by_compiler(pack):
    """The sources that define another image, or None if there is no compiler."""
    cc = os.environ.get("CC", "cc")
    if not shutil.which(cc.split()[0]):
        return None
    wrong = []
    with tempfile.TemporaryDirectory() as folder:
        for image, length, files in [*SOURCES, (read("site.img"), len(read("site.img")), len(SITE))]:
            for name, text in (("site.c", pack.source(image)), ("main.c", PRINTER)):
                with open(os.path.join(folder, name), "w") as file:
                    file.write(text)
            subprocess.run([*cc.split(), "-std=c90", "-Wall", "-Werror", "main.c", "-o", "main"], cwd=folder, check=True)
            if subprocess.run([os.path.join(folder, "main")], stdout=subprocess.PIPE, check=True).stdout != b"%d %d " % (length, files) + image:
                wrong.append(f"C source of an image of {length} bytes")
    return wrong


# ---- by the library and the program: random images

def script(rng):
    words = [b"%!:", b"/a", b"/b.shtml", b" ", b"\n", b"\r\n", b"%! ", b"ticks", b"%", b"!", b"net-stats", b"text"]
    return b"".join(rng.choice(words) for _ in range(rng.randrange(12)))


def random_image(rng, pack):
    """The image of a random list, mostly damaged at some place."""
    is_two = rng.random() < 0.5
    files = []
    for _ in range(rng.randrange(5)):
        name = rng.choice([b"/a", b"/b.shtml", b"/c.shtml", b"/d", b"/e.css", b"/%d" % rng.randrange(5), b"/" + b"n" * rng.randrange(65), b"?"])
        kind = b"k" * rng.choice([0, 0, 1, 64, 65]) if is_two else b""
        files.append(pack.File(name, script(rng), kind))
    image = b"UIPSITE%d" % (1 + is_two) + len(files).to_bytes(2, "big") + b"".join(pack.entry_bytes(it, 1 + is_two) for it in files)
    for _ in range(rng.choice([0, 0, 1, 1, 2])):
        at, how = rng.randrange(len(image) + 1), rng.randrange(4)
        byte = bytes([rng.choice([0, 1, 2, 32, 47, 63, 64, 65, 126, 127, 255, rng.randrange(256)])])
        image = (image[:at], image[:at] + byte + image[at + 1:], image[:at] + byte + image[at:], image[:at] + image[at + 1:])[how]
    return image


def by_library(images, expected):
    """The disagreements with uip_open, or None if the library or a compiler is missing."""
    if not os.path.exists(LIBRARY):
        return None
    with tempfile.TemporaryDirectory() as folder:
        program = os.path.join(folder, "open_images")
        words = [os.environ.get("CC", "cc"), "-O2", f"-I{TOP}/include", f"{HERE}/open_images.c", f"{TOP}/examples/linux-c/heap.c", LIBRARY]
        if subprocess.run([*words, "-o", program]).returncode:
            sys.exit("pack_test.py: no program with the library was built")
        data = b"".join(len(image).to_bytes(4, "big") + image for image in images)
        lines = subprocess.run([program], input=data, stdout=subprocess.PIPE, check=True).stdout.decode().splitlines()
    return [f"{image!r}: {is_so}, uip_open: {line}" for image, is_so, line in zip(images, expected, lines, strict=True) if is_so != line]


def by_program(pack, images, expected):
    """The disagreements with `uipd check` and `uipd pack`, or None if the program is missing."""
    if not os.access(UIPD, os.X_OK):
        return None
    wrong = []
    with tempfile.TemporaryDirectory() as folder:
        path = os.path.join(folder, "image")
        for image, is_so in list(zip(images, expected))[::100]:
            with open(path, "wb") as file:
                file.write(image)
            run = subprocess.run([UIPD, "check", path], stdout=subprocess.PIPE, text=True)
            reported = "good" if run.returncode == 0 else run.stdout.strip()
            if reported != is_so:
                wrong.append(f"{image!r}: {is_so}, uipd check: {reported}")
        with open(path, "wb") as file:
            file.write(b"%!:/x\n")
        for names in (["/a"], ["/a", "/a"], ["a"], ["/x", "/a.shtml"], ["/a.shtml"]):
            run = subprocess.run([UIPD, "pack", *(f"{name}={path}" for name in names)], stdout=subprocess.PIPE)
            is_so = listed(pack, [(name.encode(), b"%!:/x\n") for name in names])
            if (run.returncode == 0) != (is_so == "good"):
                wrong.append(f"{names}: {is_so}, uipd pack ends with {run.returncode}")
    return wrong


# ---- the test of the test

PLANTS = [    # a text of pack.py, and the text that replaces it
    ("1 << 24, 1024, 64, 64", "1 << 25, 1024, 64, 64"), ("1 << 24, 1024,", "1 << 24, 1025,"), ("1024, 64, 64,", "1024, 65, 64,"),
    ("1024, 64, 64,", "1024, 64, 65,"), ("(1 << 30) - 1", "(1 << 31) - 1"), ("HEAD = 53", "HEAD = 52"), ("byte != 0x3F", "True"),
    ('name[:1] == b"/"', "True"), ("0x21 <= byte", "0x20 <= byte"), ("byte <= 0x7E and byte", "byte <= 0x7F and byte"),
    ("0x20 <= byte", "0x1F <= byte"), ("<= 0x7E for", "<= 0x7F for"), ('b"ticks": 10', 'b"ticks": 9'), ('b"net-stats": 220', 'b"net-stats": 22'),
    ('endswith(b".shtml")', 'endswith(b"shtml ")'), ('if part.endswith(b"\\r")', "if False"), ('require(reader.at == len(image), "rest")', "pass"),
    ('require(name not in earlier, "twice", entry)', "pass"), ('require(file.name not in earlier, "twice", entry)', "pass"),
    ('require(name in contents, "include", entry)', "contents.setdefault(name, b'')"), ('require(length <= LONGEST_PAGE, "page", entry)', "pass"),
    ('require(is_type(kind), "kind", entry)', "pass"), ('require(is_type(file.kind), "kind", entry)', "pass"), ("+ len(script) - at", ""),
    ("length += sum(CALLS", "length -= sum(CALLS"), ("1 <= length <= LONGEST_NAME", "2 <= length <= LONGEST_NAME"), ("enumerate(files, 1)", "enumerate(files, 2)"),
    ('require(size <= LONGEST_IMAGE, "long")', "pass"), ('require(len(files) <= MOST_FILES, "many")', "pass"),
    ('b"value": 1', 'b"value": 2'), ('b"net-stats": 0, b"ticks": 0', 'b"net-stats": 0, b"ticks": 2'), ("ignored = words[1:]", "ignored = []"),
    ("words[1 + ARGUMENTS", "words[2 + ARGUMENTS"), ("1 + file.content.count", "file.content.count"), ("if not words:", "if False:"), ("range(16)}", "range(17)}"),
    ('(b".html", b".htm"))', '(b".html",))'), ('(b".html", b".htm"))', '(b"html", b".htm"))'), ("image[8:10]", "image[9:10]"),
    # types: each row of the tables, what wins, and the case of letters
    *((f'"{ending}": "', f'"{ending}": "x') for ending in sorted({os.path.splitext(it)[1] for it in FOLDER if it.startswith("a.")} - {"", ".bin"})),
    (", folder_type(file)))", ', ""))'), ("kinds.get(os.fsdecode(file.name), folder_type(file))", "folder_type(file) or kinds.get(os.fsdecode(file.name), '')"),
    (", folder_type(file)))", ") or folder_type(file))"), ("known.get(ending.lower()", "known.get(ending"),
    ("if file.is_script() and json_start", "if False and json_start"), ("if file.is_script() and json_start", "if json_start"),
    ("if file.is_script() and json_start(file.content)", "if file.is_script()"),
    ("known = {} if ending in TYPES else", "known ="), ("{**TYPES, **TYPES_OF_FOLDERS}", "TYPES_OF_FOLDERS"),
    ('if ending.lower() != ".shtml" else ""', ""), ("os.path.splitext(os.fsdecode(file.name))[1]", '"." + os.fsdecode(file.name).partition(".")[2]'),
    ("return self.kind or next(ends, UNKNOWN)", "return next(ends, UNKNOWN)"),
    # the warnings of types
    ("== UNKNOWN and not file.kind", "== UNKNOWN"), ("if file.content_type() == UNKNOWN and", "if False and"), ("+ type_warning(file)", ""),
    ("if calls and (b", "if False and (b"), ('(b"html" in media or b"xml" in media)', 'b"html" in media'),
    ('(b"html" in media or b"xml" in media)', "True"), ('(b"html" in media or b"xml" in media)', 'media == b"text/html"'),
    (".strip().lower()", ""), ('.split(b";")[0]', ""), ("calls[0], f", "calls[-1], f"), ("is_value_call(part) and first", "first"),
    (' and first_word(part) == b"value-json"', ""), ("and is_value_number(words[1:2])\n", "\n"),
    ("+ close_warnings(file)", ""), ("if is_value_call(part) and words_of", "if words_of"), ('not call.startswith(b":") and is', "is"),
    ("and is_next(file.content, at, after)", ""), ("words_of(call) and not", "not"),
    ('if media == b"text/html" and start', "if False and start"), ('if media == b"text/html" and start', "if start"),
    ("content.lstrip()[:1]", "content[:1]"), ('in (b"{", b"[") else', 'in (b"{",) else'), ('in (b"{", b"[") else', 'in (b"[",) else'),
    ("file.content.find(start)", "0"), ('if line else ""', 'if True else ""'),
    ("    print_warnings(files)\n    print(", "    print("), ("    print_warnings(files)\n    for file, length", "    for file, length"),
]


def missed_plants():
    missed = []
    for old, new in PLANTS:
        def change(source, old=old, new=new):
            if old not in source:
                sys.exit(f"pack_test.py: pack.py does not contain: {old}")
            return source.replace(old, new, 1)
        try:
            if not by_definition(load(change)):
                missed.append(f"missed: {old} -> {new}")
        except Exception:    # a fault that ends in an error was found too
            pass
    return missed


def main():
    if len(sys.argv) > 2 or not all(it.isdigit() for it in sys.argv[1:]):
        sys.exit(__doc__)
    pack, rng = load(), random.Random(1)
    images = [random_image(rng, pack) for _ in range(int(sys.argv[1]) if sys.argv[1:] else 3000)]
    expected = [verdict(pack, image) for image in images]
    wrong = by_definition(pack)
    print(f"by the definition: {len(IMAGES)} images, {len(LISTS)} lists, {len(PAGES)} pages, a folder of {len(FOLDER)} files; wrong: {len(wrong)}")
    sources = by_compiler(pack)
    wrong += by_tables(pack)
    print("skipped: there is no C compiler" if sources is None else f"by the C compiler: {len(SOURCES) + 1} images; wrong: {len(sources)}")
    wrong += sources or []
    for what, found in (("library", by_library(images, expected)), ("program", by_program(pack, images, expected))):
        print(f"skipped: the {what} is not built" if found is None else f"by the {what}: {len(images)} images; wrong: {len(found)}")
        wrong += found or []
    kinds = {word: sum(word in it for it in expected) for word in "good magic cut many name twice kind rest include page long".split()}
    print("the random images:", ", ".join(f"{word} {count}" for word, count in kinds.items()))
    missed = missed_plants()
    print(f"planted faults: {len(PLANTS)}; missed: {len(missed)}")
    for line in (wrong + missed)[:20]:
        print(line)
    sys.exit(1 if wrong or missed else 0)


main()
