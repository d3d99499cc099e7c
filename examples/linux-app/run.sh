#!/bin/sh
# Builds a C program with the library of the application of its own, and connects it with Linux over a TAP interface: four clients of a
# console compare a thousand replies, and pymodbus reads and writes registers. Then the same with faults: of the frames in each direction
# 12 % are lost, repeated, exchanged or damaged.
#
#     sh examples/linux-app/run.sh
#
# It runs in a network namespace of its own. It needs root, /dev/net/tun, `ip` and `unshare`, python3, a C compiler, and the library that
# `rt lib` builds in crates/uip_app_c. The Modbus part needs python3-pymodbus and python3-serial-asyncio of Debian. What the machine does
# not have is skipped, with a line. CC names another compiler, LIBRARY another library, LINES the lines of each client (250). BOARD holds
# the words that start qemu with a firmware, which runs in the program's place, without faults. BESIDE holds the words of a command that
# runs beside the four clients, again and again until they have ended; its status must be 0.
case "$1" in -h|--help) sed -n '2,12s/^# \{0,1\}//p' "$0"; exit 0;; esac
here=$(cd "$(dirname "$0")" && pwd)
top=$(cd "$here/../.." && pwd)
library=${LIBRARY:-$top/crates/uip_app_c/out/libuip_app_c.a}
out=$here/out
lines=${LINES:-250}
fail() { echo "linux-app: $1" >&2; exit 1; }
skip() { echo "skipped: the C program with an application of its own, since there is no $1"; exit 0; }

# ---- inside the namespace

# Starts the program, with faults or without.
start() {
    if [ -n "$BOARD" ]; then
        # shellcheck disable=SC2086
        $BOARD -display none -serial null -monitor none -nic tap,ifname=tap0,script=no,downscript=no >"$out/told" & node=$!
    else
        "$out/uip_app" tap0 "$@" >"$out/told" & node=$!
    fi
    for _ in 1 2 3 4 5 6 7 8 9 10; do ip link show tap0 | grep -q LOWER_UP && break; sleep 0.2; done
}

stop() { kill $node; wait $node || fail "the C program failed"; cat "$out/told"; }

# These begin and end the command beside the clients.
begin_beside() {
    [ -n "$BESIDE" ] || return 0
    rm -f "$out/over"
    (while [ ! -f "$out/over" ]; do $BESIDE || exit 1; echo "a run"; done) >"$out/beside" & beside=$!
}

end_beside() {
    [ -n "$BESIDE" ] || return 0
    : >"$out/over"
    wait "$beside" || fail "failed beside the console: $BESIDE: $(tail -3 "$out/beside")"
    echo "beside the console $(grep -c '^a run$' "$out/beside") times, each right: $BESIDE"
}

modbus_python() { for p in python3 /usr/bin/python3; do "$p" -c 'from pymodbus.client import ModbusTcpClient' 2>/dev/null && { echo "$p"; return; }; done; }

if [ "$1" = inside ]; then
    ip link set lo up && ip tuntap add dev tap0 mode tap || fail "no TAP interface was made"
    ip link set tap0 address 02:00:00:00:00:02 up && ip addr add 10.0.0.2/24 dev tap0 || fail "the TAP interface was not set up"
    trap 'kill $node 2>/dev/null' EXIT
    python=$(modbus_python)
    [ -n "$python" ] || echo "skipped: Modbus, since there is no pymodbus"
    start 600
    begin_beside
    python3 "$here/lines.py" 4 "$lines" || fail "a reply of the console was wrong"
    end_beside
    [ -z "$python" ] || "$python" "$here/modbus.py" 200 || fail "Modbus failed"
    if [ -n "$BOARD" ]; then
        kill -0 $node || fail "the board ended early"
        exit 0
    fi
    stop
    echo "with faults:"
    start 600 12 1
    python3 "$here/lines.py" 4 "$lines" || fail "a reply of the console was wrong"
    [ -z "$python" ] || "$python" "$here/modbus.py" 20 || fail "Modbus failed"
    stop
    trap - EXIT
    exit 0
fi

# ---- outside of it

cc=${CC:-cc}
[ -n "$BOARD" ] || command -v "$cc" >/dev/null || skip "C compiler $cc"
[ -z "$BOARD" ] || command -v "${BOARD%% *}" >/dev/null || skip "command ${BOARD%% *}"
[ "$(id -u)" = 0 ] || skip "right to make an interface: run it as root"
[ -c /dev/net/tun ] || skip "/dev/net/tun"
for program in ip unshare python3; do command -v $program >/dev/null || skip "command $program"; done
unshare -n true 2>/dev/null || skip "right to make a network namespace"
if [ -z "$LIBRARY$BOARD" ] && { [ ! -f "$library" ] || [ -n "$(find "$top/crates" -name '*.rt' -newer "$library" | head -1)" ]; }; then
    command -v rt >/dev/null || fail "no library of these sources at $library, and no command rt to build it"
    (cd "$top/crates/uip_app_c" && rt lib) >/dev/null || fail "rt lib failed in crates/uip_app_c"
fi
mkdir -p "$out"
[ -z "$BOARD" ] || exec unshare -n sh "$0" inside
"$cc" -O2 -Wall -Wextra -I"$top/include" "$here/app.c" "$here/console.c" "$here/modbus.c" "$top/examples/linux-c/heap.c" "$library" \
    -o "$out/uip_app" || fail "app.c was not built"
exec unshare -n sh "$0" inside
