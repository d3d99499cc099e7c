#!/usr/bin/env python3
"""Builds the images of the example sites from their files, apart from the program, and compares them with examples/site.img and
examples/state.img, which the program packed, and the first with the copy that a test of crates/cross_tests reads.

    python3 examples/image.py            # compares
    python3 examples/image.py literal    # writes the copy anew from examples/site.img
"""
import os
import sys

HERE = os.path.dirname(os.path.abspath(__file__))
COPY = os.path.join(HERE, "..", "crates", "cross_tests", "src", "example_image.rt")
NAMES = ["index.html", "stats.shtml", "footer.html", "style.css", "logo.png", "404.html"]
STATE_NAMES = ["index.html", "state.shtml", "now.shtml", "lamp-on.html", "lamp-off.html", "alarm.shtml", "style.css"]
STATE_TYPES = ["text/html", "application/json", "text/html", "text/html", "text/html", "text/html", "text/css"]


def read(*path):
    with open(os.path.join(HERE, *path), "rb") as f:
        return f.read()


def part(text, length_bytes):
    return len(text).to_bytes(length_bytes, "big") + text


def built(folder, names, types=()):
    """The image of a folder's files, of version 2 if a content type is given."""
    image = b"UIPSITE%d" % (2 if types else 1) + len(names).to_bytes(2, "big")
    for place, name in enumerate(names):
        image += part(f"/{name}".encode(), 1) + (part(types[place].encode(), 1) if types else b"") + part(read(folder, name), 4)
    return image


def escaped(byte):
    if byte == 10:
        return "\\n"
    if byte in b'"\\':
        return "\\" + chr(byte)
    return chr(byte) if 32 <= byte < 127 else "\\x%02x" % byte


def literal(image):
    lines = ["// The image of the example site in examples/site, which examples/image.py writes and compares.",
             "pub const IMAGE: &[u8] = b\"\\"]
    line = ""
    for byte in image:
        text = escaped(byte)
        if len(line) + len(text) > 100 or line.endswith("\\n") and text != "\\n":
            lines.append(line + "\\")
            line = "\\x20" if text == " " else text
        else:
            line += text
    return "\n".join(lines + [line + "\";"]) + "\n"


def main():
    if "--help" in sys.argv or "-h" in sys.argv:
        sys.exit(print(__doc__))
    if sys.argv[1:] not in ([], ["literal"]):
        sys.exit(f"image.py: unknown word {sys.argv[1]}; --help says which there are")
    image = read("site.img")
    if sys.argv[1:] == ["literal"]:
        with open(COPY, "w") as f:
            f.write(literal(image))
        return
    if image != built("site", NAMES):
        sys.exit("examples/site.img is not the image of examples/site: run examples/pack.sh")
    with open(COPY) as f:
        if f.read() != literal(image):
            sys.exit("the copy in crates/cross_tests is not examples/site.img: run examples/image.py literal")
    if read("state.img") != built("state", STATE_NAMES, STATE_TYPES):
        sys.exit("examples/state.img is not the image of examples/state: run examples/pack.sh")
    print("the example images are those of their files, and so is the copy that is tested")


main()
