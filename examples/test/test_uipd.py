#!/usr/bin/env python3
"""Runs each command of docs/UIPD.md, and compares what it prints with what the page has.

    python3 examples/test/test_uipd.py [PAGE]

In a block of code a line that begins with `$ ` is a command, and the lines below it are its output; `..` is any number of lines. A block
without such a line is not run. It needs the built program (`make build`): PROGRAM names another one than crates/uipd/out/uipd. Commands of
examples/browse.py are skipped where /dev/net/tun cannot be opened.
"""
import os
import re
import shutil
import subprocess
import sys
import tempfile

TOP = os.path.join(os.path.dirname(os.path.abspath(__file__)), "../..")
PROGRAM = os.environ.get("PROGRAM", os.path.join(TOP, "crates/uipd/out/uipd"))


def commands(text):
    """Each command of a page with its output, in order."""
    found = []
    is_on = False
    for line in text.splitlines():
        if line.startswith("    $ "):
            found.append((line[6:], []))
            is_on = True
        elif line.startswith("    ") and is_on:
            found[-1][1].append(line[4:].rstrip())
        else:
            is_on = False
    return found


def fits(seen, expected):
    """Whether lines are the expected ones; `..` is any number of lines."""
    pattern = "".join(r"(?:.*\n)*" if line == ".." else re.escape(line) + r"\n" for line in expected)
    return re.fullmatch(pattern, "".join(line.rstrip() + "\n" for line in seen)) is not None


def main():
    page = sys.argv[1] if len(sys.argv) > 1 else os.path.join(TOP, "docs/UIPD.md")
    with open(page, encoding="utf8") as file:
        found = commands(file.read())
    if not os.access(PROGRAM, os.X_OK):
        sys.exit(print(f"skipped: the {len(found)} commands of docs/UIPD.md: no program at {os.path.normpath(PROGRAM)}"))
    has_tun = os.access("/dev/net/tun", os.R_OK | os.W_OK) and shutil.which("ip")
    wrong = skipped = 0
    with tempfile.TemporaryDirectory() as room:
        os.symlink(os.path.abspath(PROGRAM), os.path.join(room, "uipd"))
        environment = {**os.environ, "PATH": f"{room}:{os.environ['PATH']}"}
        for command, expected in found:
            if "browse.py" in command and not has_tun:
                skipped += 1
                continue
            if "browse.py" in command:
                command = command.replace("browse.py", f"browse.py {PROGRAM}")
            done = subprocess.run(["sh", "-c", command], cwd=TOP, env=environment, capture_output=True, text=True, timeout=120, check=False)
            if done.returncode or not fits(done.stdout.splitlines(), expected):
                wrong += 1
                print(f"WRONG: {command}\n{done.stdout}{done.stderr}(status {done.returncode})")
    print(f"docs/UIPD.md: {len(found) - wrong - skipped} commands print what it has, {wrong} do not, {skipped} skipped")
    sys.exit(1 if wrong else 0)


if __name__ == "__main__":
    main()
