#!/bin/sh
# Builds a C program with the library that has pages and an application of the program's own, and connects it with Linux over a TAP
# interface. Three things happen at the same time. Four clients of a console compare a thousand replies. pymodbus writes and reads registers
# in 200 rounds. curl fetches the files of the pages until both have ended; the plain ones must be the same bytes. Then a page must show the
# level that the console set.
#
#     sh examples/linux-both/run.sh
#
# It runs in a network namespace of its own. It needs root, /dev/net/tun, `ip`, `unshare`, curl, python3, a C compiler, and the library that
# `rt lib` builds in crates/uip_both_c. The Modbus part needs python3-pymodbus and python3-serial-asyncio of Debian. What the machine does
# not have is skipped, with a line. CC names another compiler, LIBRARY another library, LINES the lines of each client (250).
case "$1" in -h|--help) sed -n '2,11s/^# \{0,1\}//p' "$0"; exit 0;; esac
here=$(cd "$(dirname "$0")" && pwd)
top=$(cd "$here/../.." && pwd)
library=${LIBRARY:-$top/crates/uip_both_c/out/libuip_both_c.a}
app=$top/examples/linux-app
out=$here/out
lines=${LINES:-250}
fail() { echo "linux-both: $1" >&2; exit 1; }
skip() { echo "skipped: the C program with pages and an application of its own, since there is no $1"; exit 0; }

# ---- inside the namespace

# Fetches each file of the pages, again until there is a file $out/over, and compares the plain ones.
fetch_all() {
    same=0; fetched=0
    while :; do
        for name in $(cd "$top/examples/state" && find . -type f | sed 's/^\.//' | sort); do
            curl -sS --max-time 20 -o "$out/file" "http://10.0.0.1$name" || fail "curl did not fetch $name"
            fetched=$((fetched + 1))
            case "$name" in
            *.shtml) [ -s "$out/file" ] || fail "the page $name is empty";;
            *) cmp "$out/file" "$top/examples/state$name" || fail "$name has other bytes"; same=$((same + 1));;
            esac
        done
        [ ! -f "$out/over" ] || break
    done
    echo "curl, meanwhile: $fetched files, $same of them compared byte for byte"
}

modbus_python() { for p in python3 /usr/bin/python3; do "$p" -c 'from pymodbus.client import ModbusTcpClient' 2>/dev/null && { echo "$p"; return; }; done; }

if [ "$1" = inside ]; then
    ip link set lo up && ip tuntap add dev tap0 mode tap || fail "no TAP interface was made"
    ip link set tap0 address 02:00:00:00:00:02 up && ip addr add 10.0.0.2/24 dev tap0 || fail "the TAP interface was not set up"
    "$out/uip_both" "$top/examples/state.img" tap0 600 >"$out/told" & node=$!
    trap 'kill $node $pages 2>/dev/null' EXIT
    for _ in 1 2 3 4 5 6 7 8 9 10; do ip link show tap0 | grep -q LOWER_UP && break; sleep 0.2; done
    curl -sS --max-time 20 http://10.0.0.1/state.shtml | grep -q '"level": 0,' || fail "the page has no level 0"
    python=$(modbus_python)
    [ -n "$python" ] || echo "skipped: Modbus, since there is no pymodbus"
    rm -f "$out/over"
    fetch_all >"$out/fetched" & pages=$!
    python3 "$app/lines.py" 4 "$lines" >"$out/console" & console=$!
    [ -z "$python" ] || "$python" "$app/modbus.py" 200 || fail "Modbus failed"
    wait $console || fail "a reply of the console was wrong: $(cat "$out/console")"
    : >"$out/over"
    wait $pages || fail "a page was wrong"
    cat "$out/console" "$out/fetched"
    curl -sS --max-time 20 http://10.0.0.1/state.shtml | grep -q '"level": 42,' || fail "the page does not show the level of the console"
    echo "the page shows the level 42 that the console set"
    kill $node; wait $node || fail "the C program failed"
    trap - EXIT
    cat "$out/told"
    exit 0
fi

# ---- outside of it

cc=${CC:-cc}
command -v "$cc" >/dev/null || skip "C compiler $cc"
[ "$(id -u)" = 0 ] || skip "right to make an interface: run it as root"
[ -c /dev/net/tun ] || skip "/dev/net/tun"
for program in ip unshare curl python3; do command -v $program >/dev/null || skip "command $program"; done
unshare -n true 2>/dev/null || skip "right to make a network namespace"
if [ -z "$LIBRARY" ] && { [ ! -f "$library" ] || [ -n "$(find "$top/crates" -name '*.rt' -newer "$library" | head -1)" ]; }; then
    command -v rt >/dev/null || fail "no library of these sources at $library, and no command rt to build it"
    (cd "$top/crates/uip_both_c" && rt lib) >/dev/null || fail "rt lib failed in crates/uip_both_c"
fi
mkdir -p "$out"
"$cc" -O2 -Wall -Wextra -I"$top/include" "$here"/*.c "$app/console.c" "$app/modbus.c" "$top/examples/linux-c/heap.c" "$library" \
    -o "$out/uip_both" || fail "both.c was not built"
exec unshare -n sh "$0" inside
