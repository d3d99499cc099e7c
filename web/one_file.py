#!/usr/bin/env python3
"""Writes the page as one HTML file, which opens from a folder or a mail and needs no server.

    python3 web/one_file.py TO.html [SITE]

SITE is the image that the device inside the page serves (web/site.img). A file has no service worker: the page then shows the site
in a sandbox (web/plain.js).
"""
import base64
import os
import re
import sys

HERE = os.path.dirname(os.path.abspath(__file__))
STYLE, SCRIPT = '<link rel="stylesheet" href="page.css">', '<script type="module" src="page.js"></script>'
ELSEWHERE = ("page.js", "worker.js")   # page.js is inline, and a file has no worker
ESCAPED = {"%": "%25", "#": "%23", "\n": "%0A", "\r": "%0D", "\t": "%09", '"': "%22", "<": "%3C", "\\": "%5C"}


def read(name):
    with open(os.path.join(HERE, name), encoding="utf-8") as file:
        return file.read()


def bare(text):
    """A module in a data URL has no base URL: it imports by bare names, which the import map resolves. Comments are left out."""
    text = re.sub(r"^ *//.*\n", "", text, flags=re.M)
    return re.sub(r'from "\./([\w.]+)"', r'from "\1"', text)


def data_url(text):
    return "data:text/javascript," + re.sub(r'[%#\n\r\t"<\\]', lambda sign: ESCAPED[sign[0]], text)


def held(name, path):
    """A file that the page holds."""
    try:
        with open(path, "rb") as file:
            return f'<script type="text/plain" id="held-{name}">{base64.b64encode(file.read()).decode()}</script>\n'
    except OSError as error:
        sys.exit(f"one_file.py: cannot read {path}: {error.strerror}")


def page(site):
    names = sorted(name for name in os.listdir(HERE) if name.endswith(".js") and name not in ELSEWHERE)
    imports = ",\n".join(f'"{name}": "{data_url(bare(read(name)))}"' for name in names)
    script = bare(read("page.js")).replace("</script", "<\\/script")
    modules = f'<script type="importmap">{{"imports": {{\n{imports}\n}}}}</script>\n<script type="module">\n{script}</script>'
    text = read("index.html")
    if text.count(STYLE) != 1 or text.count(SCRIPT) != 1:
        sys.exit("one_file.py: index.html does not have exactly one style sheet and one script")
    files = held("node.wasm", os.path.join(HERE, "node.wasm")) + held("site.img", site) + held("state.img", os.path.join(HERE, "state.img"))
    text = text.replace("</body>", f"{files}</body>")
    return text.replace(STYLE, f"<style>\n{read('page.css')}</style>").replace(SCRIPT, modules)


def main():
    if len(sys.argv) not in (2, 3) or sys.argv[1] in ("-h", "--help"):
        sys.exit(print(__doc__))
    text = page(sys.argv[2] if len(sys.argv) > 2 else os.path.join(HERE, "site.img")).encode()
    try:
        with open(sys.argv[1], "wb") as file:
            file.write(text)
    except OSError as error:
        sys.exit(f"one_file.py: cannot write {sys.argv[1]}: {error.strerror}")
    print(f"{sys.argv[1]}: {len(text)} bytes")


if __name__ == "__main__":
    main()
