#!/bin/sh
# Builds a C program with the library that serves the example site on Ethernet, and connects it with Linux over a TAP interface: Linux's
# ARP finds its hardware address, ping gets each reply, and curl fetches each file of the site. The plain files must be the same bytes. Then
# curl fetches each file from another network, to which this Linux is the router.
#
#     sh examples/linux-ether/run.sh
#
# It runs in network namespaces of its own. It needs root, /dev/net/tun, `ip`, `unshare`, `nsenter`, ping and curl, a C compiler, and the library
# that `rt lib` builds in crates/uip_c. What the machine does not have is skipped, with a line. CC names another compiler, LIBRARY another
# library, PROGRAM a program that is built already, and SECONDS_UP the seconds for which the program runs (20). BOARD holds the words that start
# qemu with a firmware, which runs in the program's place.
case "$1" in -h|--help) sed -n '2,11s/^# \{0,1\}//p' "$0"; exit 0;; esac
here=$(cd "$(dirname "$0")" && pwd)
top=$(cd "$here/../.." && pwd)
library=${LIBRARY:-$top/crates/uip_c/out/libuip_c.a}
site=$top/examples/site.img
out=$here/out
seconds=${SECONDS_UP:-20}
fail() { echo "linux-ether: $1" >&2; exit 1; }
skip() { echo "skipped: the C program on Ethernet, since there is no $1"; exit 0; }

# ---- inside the namespace

# Fetches each file of the site with the command that the words begin, and prints what was compared.
fetch_all() {
    same=0; fetched=0
    for name in $(cd "$top/examples/site" && find . -type f | sed 's/^\.//' | sort); do
        "$@" curl -sS --max-time 10 -o "$out/file" "http://10.0.0.1$name" || fail "curl did not fetch $name"
        fetched=$((fetched + 1))
        case "$name" in
        *.shtml) [ -s "$out/file" ] || fail "the page $name is empty";;
        *) cmp "$out/file" "$top/examples/site$name" || fail "$name has other bytes"; same=$((same + 1));;
        esac
    done
    echo "$fetched files, $same of them compared byte for byte"
}

# Makes a second namespace, 192.168.7.2, beyond this one: its process is $far.
make_far() {
    unshare -n sleep 1000 &
    far=$!
    trap 'kill $node $far 2>/dev/null' EXIT
    echo 1 >/proc/sys/net/ipv4/ip_forward || fail "this namespace does not forward"
    ip link add near0 type veth peer name far0 || fail "no pair of interfaces was made"
    for _ in 1 2 3 4 5 6 7 8 9 10; do [ "$(readlink /proc/$far/ns/net)" != "$(readlink /proc/$$/ns/net)" ] && break; sleep 0.1; done
    ip link set far0 netns $far && ip link set near0 up && ip addr add 192.168.7.1/24 dev near0 || fail "the router was not set up"
    in_far ip link set far0 up && in_far ip addr add 192.168.7.2/24 dev far0 && in_far ip route add default via 192.168.7.1 ||
        fail "the second namespace was not set up"
}

in_far() { nsenter -t "$far" -n "$@"; }

if [ "$1" = inside ]; then
    ip link set lo up && ip tuntap add dev tap0 mode tap || fail "no TAP interface was made"
    ip link set tap0 address 02:00:00:00:00:02 up && ip addr add 10.0.0.2/24 dev tap0 || fail "the TAP interface was not set up"
    if [ -n "$BOARD" ]; then
        # shellcheck disable=SC2086
        timeout "$seconds" $BOARD -display none -serial null -monitor none -nic tap,ifname=tap0,script=no,downscript=no >"$out/told" &
    else
        "${PROGRAM:-$out/uip_tap}" "$site" tap0 "$seconds" >"$out/told" &
    fi
    node=$!
    trap 'kill $node 2>/dev/null' EXIT
    for _ in 1 2 3 4 5 6 7 8 9 10; do ip link show tap0 | grep -q LOWER_UP && break; sleep 0.2; done
    if command -v ping >/dev/null; then
        ping -c 3 -i 0.3 -W 2 10.0.0.1 >"$out/ping" || fail "ping got no reply: $(tail -2 "$out/ping")"
        grep -q ' 0% packet loss' "$out/ping" || fail "a ping was lost: $(tail -2 "$out/ping")"
        echo "ping: $(grep transmitted "$out/ping")"
    else
        echo "skipped: ping, which is not here"
    fi
    fetched=$(fetch_all) || exit 1
    echo "curl: $fetched"
    ip neigh show 10.0.0.1 | grep -q 'lladdr 02:00:00:00:00:01' || fail "Linux's ARP has no hardware address of the node"
    echo "ARP: $(ip neigh show 10.0.0.1)"
    if [ -z "$BOARD" ]; then
        make_far
        fetched=$(fetch_all in_far) || exit 1
        echo "curl from 192.168.7.2, by the router 10.0.0.2: $fetched"
        kill $far
    fi
    wait $node
    case "$?${BOARD:+, of a board}" in 0|"124, of a board") ;; *) fail "the program or the board ended early";; esac    # 124: of timeout
    trap - EXIT
    cat "$out/told"
    exit 0
fi

# ---- outside of it

cc=${CC:-cc}
given=$PROGRAM$BOARD
[ -n "$given" ] || command -v "$cc" >/dev/null || skip "C compiler $cc"
[ -z "$BOARD" ] || command -v "${BOARD%% *}" >/dev/null || skip "command ${BOARD%% *}"
[ "$(id -u)" = 0 ] || skip "right to make an interface: run it as root"
[ -c /dev/net/tun ] || skip "/dev/net/tun"
for program in ip unshare nsenter curl; do command -v $program >/dev/null || skip "command $program"; done
unshare -n true 2>/dev/null || skip "right to make a network namespace"
if [ -z "$LIBRARY$given" ] && { [ ! -f "$library" ] || [ -n "$(find "$top/crates" -name '*.rt' -newer "$library" | head -1)" ]; }; then
    command -v rt >/dev/null || fail "no library of these sources at $library, and no command rt to build it"
    (cd "$top/crates/uip_c" && rt lib) >/dev/null || fail "rt lib failed in crates/uip_c"
fi
mkdir -p "$out"
[ -z "$given" ] || exec unshare -n sh "$0" inside
"$cc" -O2 -Wall -Wextra -I"$top/include" "$here/tap.c" "$top/examples/linux-c/heap.c" "$library" -o "$out/uip_tap" || fail "tap.c was not built"
exec unshare -n sh "$0" inside
