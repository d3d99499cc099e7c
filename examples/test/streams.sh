#!/bin/sh
# Runs the built program, and compares what it writes to its real standard output and standard error: the query of `resolve` belongs
# to the one, its report to the other. Then it runs a program whose two streams are exchanged, and fails if it does not find that.
#
#     sh examples/test/streams.sh
#
# It needs python3 and the built program: `rt run` in crates/uipd builds it. UIPD names another program.
case "$1" in -h|--help) sed -n '2,7s/^# \{0,1\}//p' "$0"; exit 0;; esac
here=$(cd "$(dirname "$0")/.." && pwd)
uipd=${UIPD:-$here/../crates/uipd/out/uipd}
[ -x "$uipd" ] || { echo "streams.sh: no program at $uipd: run \`rt run\` in crates/uipd" >&2; exit 1; }
exec python3 - "$uipd" <<'PYTHON'
import subprocess, sys

WORDS = ["resolve", "10.0.0.1", "10.0.0.2", "7", "a.b"]
# The question of RFC 1035, section 4.1.2: the labels `a` and `b`, type A, class IN.
QUESTION = b"\x01a\x01b\x00\x00\x01\x00\x01"


def streams_are_right(command):
    run = subprocess.run(command, stdin=subprocess.DEVNULL, capture_output=True, timeout=20)
    query = run.stdout[:1] == run.stdout[-1:] == b"\xc0" and QUESTION in run.stdout
    return query and run.stdout.count(b"open") == 0 and run.stderr == b"a.b open\n"


program = [sys.argv[1]] + WORDS
exchanged = ["sh", "-c", 'exec "$@" 3>&1 1>&2 2>&3 3>&-', "sh"] + program
joined = ["sh", "-c", 'exec "$@" 2>&1', "sh"] + program
if not streams_are_right(program):
    sys.exit("streams.sh: the query is not on standard output alone, or the report not on standard error alone")
for fault in (exchanged, joined):
    if streams_are_right(fault):
        sys.exit("streams.sh: a program that exchanges or joins its streams was not found")
print("streams.sh: the query is on standard output, the report on standard error; 2 of 2 faults found")
PYTHON
