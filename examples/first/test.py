#!/usr/bin/env python3
"""Tests the first page of docs/PAGES.md and the first program of dist/README.md: the files of this folder are those, and both compile.

    python3 examples/first/test.py             without qemu
    python3 examples/first/test.py BOARD       also builds the firmware of a board, and presses its links under qemu (microbit)
"""
import os
import re
import subprocess
import sys
import tempfile

HERE = os.path.dirname(os.path.abspath(__file__))
TOP = os.path.abspath(os.path.join(HERE, "..", ".."))
ASK = "for page in now on now off; do curl -s http://10.0.0.1/$page.shtml?$$ | sed -n '/lamp is/p'; done"


def read(*path):
    with open(os.path.join(*path), encoding="utf8") as file:
        return file.read()


def indented(text):
    return "".join(f"    {line}\n" if line else "\n" for line in text.splitlines())


def first_on_a_pc():
    """The program of dist/README.md, built by the commands there, answers a ping."""
    text = read(TOP, "dist/README.md")
    code = re.search(r"^    #include <unistd.h>\n(?:    .*\n|\n)*?    }\n(?=\nAt the top)", text, re.M)
    if not code:
        return ["dist/README.md has no program"]
    with tempfile.TemporaryDirectory() as folder:
        with open(os.path.join(folder, "main.c"), "w", encoding="utf8") as file:
            file.write(re.sub("^    ", "", code[0], flags=re.M))
        cc = os.environ.get("CC", "cc")
        for words in ([sys.executable, "tools/pack.py", "examples/site", f"{folder}/site.c"],
                      [cc, "-O1", "-Wall", "-Wextra", "-Werror", "-Idist", f"-I{folder}", f"{folder}/main.c", "dist/uip.c", "-o", f"{folder}/mine"],
                      [sys.executable, "examples/ping.py", f"{folder}/mine"]):
            if subprocess.run(words, cwd=TOP, check=False, stdout=subprocess.DEVNULL).returncode:
                return [f"dist/README.md: {words[0]} {words[1]} failed"]
    return []


def main():
    page, faults = read(TOP, "docs/PAGES.md"), []
    for name in ("pages/index.html", "pages/now.shtml", "first.c"):
        if indented(read(HERE, name)) not in page:
            faults.append(f"docs/PAGES.md has not the text of examples/first/{name}")
    for name in ("on", "off"):
        if read(HERE, f"pages/{name}.shtml") != read(HERE, "pages/now.shtml"):
            faults.append(f"{name}.shtml is no copy of now.shtml")
    words = [os.environ.get("CC", "cc"), "-std=c99", "-Wall", "-Wextra", "-Werror", "-fsyntax-only", "-Iinclude", "-Isupport", "examples/first/first.c"]
    if subprocess.run(words, cwd=TOP, check=False).returncode:
        faults.append("first.c does not compile")
    faults += first_on_a_pc()
    if len(sys.argv) > 1:
        words = ["make", "-C", "boards", f"BOARD={sys.argv[1]}", "run", "SITE=examples/first/pages", "PAGES=examples/first/first.c"]
        words += ['TRY=sh -c "' + ASK.replace("$", "\\$$") + '"']
        out = subprocess.run(words, cwd=TOP, env={**os.environ, "PWD": TOP}, check=False, stdout=subprocess.PIPE, text=True).stdout
        seen = [line[len("<p>The lamp is "):] for line in out.splitlines() if line.startswith("<p>The lamp is ")]
        if seen != ["off.", "on.", "on.", "off."]:
            faults.append(f"the pages show {seen}")
    print("\n".join(faults or ["the first page is that of examples/first"]))
    sys.exit(1 if faults else 0)


if __name__ == "__main__":
    main()
