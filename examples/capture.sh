#!/bin/sh
# Records the line while Linux's TCP fetches a page, and prints the datagrams.
#
#     sh examples/capture.sh [DIR]
#
# It connects the example site to a line (examples/browse.py --record), fetches its first page, and writes to DIR
# (examples/recorded if none is given) the capture file `line.pcap`, which has each datagram at its time and opens in Wireshark,
# the same datagrams as bytes of a line in `line`, and their dump in `dump.txt`. If `tshark` is here, the addresses, ports, flags
# and lengths that it reads are compared with the dump's. UIPD names another program than crates/uipd/out/uipd, which
# `rt run` in crates/uipd builds. It needs what browse.py needs.
case "$1" in -h|--help) sed -n '2,10s/^# \{0,1\}//p' "$0"; exit 0;; esac
here=$(cd "$(dirname "$0")" && pwd)
uipd=${UIPD:-$here/../crates/uipd/out/uipd}
room=${1:-$here/recorded}
[ -x "$uipd" ] || { echo "capture.sh: no program at $uipd: \`rt run\` in crates/uipd builds it" >&2; exit 1; }
mkdir -p "$room" || exit 1
fetch='import sys, urllib.request; print("a page of", len(urllib.request.urlopen("http://10.0.0.1/", timeout=60).read()), "bytes", file=sys.stderr)'
python3 "$here/browse.py" "$uipd" "$here/site.img" --record "$room/line.pcap" -- python3 -c "$fetch" || exit $?
"$uipd" slip <"$room/line.pcap" >"$room/line" || exit $?
"$uipd" dump <"$room/line" >"$room/dump.txt" || exit $?
cat "$room/dump.txt"
if ! command -v tshark >/dev/null; then
    echo "capture.sh: no tshark here, so no other program has read $room/line.pcap" >&2
    exit 0
fi
tshark -r "$room/line.pcap" -T fields -E separator=, -e frame.len -e ip.src -e tcp.srcport -e ip.dst -e tcp.dstport \
    -e tcp.flags -e tcp.len -e tcp.analysis.spurious_retransmission 2>/dev/null | python3 -c '
import sys
letters = (("S", 2), ("A", 16), ("P", 8), ("F", 1), ("R", 4))
read, dumped = [], []
for line in sys.stdin:
    length, source, port, target, to, flags, text, spurious = line.rstrip("\n").split(",")
    set_flags = "".join(letter for letter, bit in letters if flags and int(flags, 16) & bit) or "-"
    read.append([length, f"{source}:{port}", f"{target}:{to}", set_flags, text])
    if spurious:
        sys.exit("capture.sh: tshark reports a spurious retransmission, so the order of the capture is wrong")
for line in open(sys.argv[1]):
    words = line.split()
    dumped.append([words[1], *words[3:6], words[-1]] if words[2] == "tcp" and len(words) == 9 else [words[1]])
for ours, theirs in zip(dumped, read):
    if ours != theirs[:len(ours)]:
        sys.exit(f"capture.sh: the dump has {ours}, but tshark {theirs}")
if len(dumped) != len(read):
    sys.exit(f"capture.sh: the dump has {len(dumped)} lines, but tshark reads {len(read)} datagrams")
print(f"capture.sh: tshark reads the same {len(read)} datagrams", file=sys.stderr)
' "$room/dump.txt"
