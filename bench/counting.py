"""What the scripts of bench/ share: the recorded lines, and the count of a program's instructions."""
import lzma
import os
import re
import subprocess
import sys
import tempfile

HERE = os.path.dirname(os.path.abspath(__file__))
LINES = os.path.join(HERE, "lines")


def unpacked(name):
    with lzma.open(os.path.join(LINES, name + ".xz")) as file:
        return file.read()


def run(words, data=b"", tool=()):
    with tempfile.TemporaryFile() as stdin:
        stdin.write(data)
        stdin.seek(0)
        return subprocess.run([*tool, *words], stdin=stdin, stdout=subprocess.PIPE, stderr=subprocess.PIPE, check=True)


def instructions(words, data=b""):
    """The x86-64 instructions of a program whose standard input is a file with this content."""
    done = run(words, data, ("valgrind", "--tool=callgrind", "--callgrind-out-file=/dev/null"))
    return int(re.search(rb"Collected : (\d+)", done.stderr).group(1))


def figure(value, unit):
    return f"{value:,.1f}" if unit == "byte" else f"{value:,.0f}"


def report(script, main):
    """Runs a script, and names the program that failed."""
    try:
        main()
    except subprocess.CalledProcessError as error:
        text = (error.stderr or b"").decode(errors="replace")[-300:]
        sys.exit(f"{script}: {' '.join(map(str, error.cmd))} ended with status {error.returncode}: {text}")
