#!/bin/sh
# Connects a C program on Ethernet with two Linux hosts over a bridge and a cable with faults. In each direction 10 % of the frames are
# lost, and of the others 10 % are repeated, exchanged or damaged. One host requests a thousand pages, and one beyond a router a hundred.
# Then a console takes the place of the site, and answers a thousand lines. None may be wrong or cut.
#
#     sh examples/linux-ether/faults.sh             with PAGES and LINES in place of a thousand, and PERCENT in place of 10
#     sh examples/linux-ether/faults.sh both        of one device with both (examples/linux-both): the lines during the thousand pages
#     sh examples/linux-ether/faults.sh planted     with faults that TCP cannot notice: each must be found; `both planted` likewise
#
# It runs in network namespaces of its own, and takes about fifteen minutes. It needs root, /dev/net/tun, `ip` with bridges, `unshare`,
# `nsenter`, python3, a C compiler, and the libraries that `rt lib` builds in crates/uip_c and crates/uip_app_c, or for `both` in
# crates/uip_both_c. What the machine does not have is skipped, with a line. CC names another compiler, LIBRARY, APP_LIBRARY and
# BOTH_LIBRARY other libraries.
case "$1" in -h|--help) sed -n '2,16s/^# \{0,1\}//p' "$0"; exit 0;; esac
here=$(cd "$(dirname "$0")" && pwd)
top=$(cd "$here/../.." && pwd)
library=${LIBRARY:-$top/crates/uip_c/out/libuip_c.a}
app_library=${APP_LIBRARY:-$top/crates/uip_app_c/out/libuip_app_c.a}
both_library=${BOTH_LIBRARY:-$top/crates/uip_both_c/out/libuip_both_c.a}
app=$top/examples/linux-app
out=$here/out
pages=${PAGES:-1000} lines=${LINES:-1000} percent=${PERCENT:-10}
fail() { echo "faults: $1" >&2; exit 1; }
skip() { echo "skipped: the bridge with faults, since there is no $1"; exit 0; }
is_inside='' is_both='' is_planted=''
for word; do
    case "$word" in
    inside) is_inside=1;;
    both) is_both=1;;
    planted) is_planted=1;;
    *) fail "unknown word $word; --help lists them";;
    esac
done

# ---- inside the namespace

# host NAME ADDRESS: another namespace, whose process is $host. Its veth NAME is here, and the other end has the address.
host() {
    unshare -n sleep 10000 &
    host=$!
    hosts="$hosts $host"
    for _ in 1 2 3 4 5 6 7 8 9 10; do [ "$(readlink /proc/$host/ns/net)" != "$(readlink /proc/$$/ns/net)" ] && break; sleep 0.1; done
    ip link add "$1" type veth peer name eth0 netns $host && ip link set "$1" up || fail "no pair of interfaces was made"
    at $host ip link set eth0 up && at $host ip addr add "$2" dev eth0 || fail "the host $2 was not set up"
}

at() { process=$1; shift; nsenter -t "$process" -n "$@"; }

bridge() {
    ip link add "$1" type bridge && ip link set "$1" up || fail "no bridge was made"
    for port in $2; do ip link set "$port" master "$1" up || fail "$port is no port of a bridge"; done
}

# The device is at one end of a cable, and this Linux and the host $near at the other. $far is beyond this Linux, its router.
network() {
    ip link set lo up
    for tap in device cable0 cable1; do ip tuntap add dev $tap mode tap || fail "no TAP interface was made"; done
    host near0 10.0.0.3/24
    near=$host
    host far0 192.168.7.2/24
    far=$host
    bridge inner "device cable0"
    bridge outer "cable1 near0"
    ip addr add 10.0.0.2/24 dev outer && ip addr add 192.168.7.1/24 dev far0 || fail "the router has no addresses"
    echo 1 >/proc/sys/net/ipv4/ip_forward && at $near ip route add default via 10.0.0.2 && at $far ip route add default via 192.168.7.1 ||
        fail "the router was not set up"
}

# with PROGRAM WORDS -- COMMAND: the result of the command, while the program is the device. Then it prints what passed.
with() {
    device=$1 words=$2
    shift 3
    # shellcheck disable=SC2086
    "$out/$device" $words >"$out/told" & node=$!
    "$@"
    result=$?
    kill $node 2>/dev/null
    wait $node || fail "the device failed"
    cat "$out/told"
    return $result
}

run_pages() { at "$1" python3 "$here/pages.py" "$out/site" "$2" "$3"; }
run_lines() { at $near python3 "$app/lines.py" 4 $(($1 / 4)); }

# near_and_far PAGES FAR CLIENTS: pages for the host on the bridge, and then for the one beyond the router.
near_and_far() { run_pages $near "$1" "$3" && { [ "$2" = 0 ] || run_pages $far "$2" 4; }; }

# The same with lines for the host on the bridge at the same time. With six clients for pages all ten connections are in use.
together() {
    run_lines "$3" >"$out/lines" & console=$!
    near_and_far "$1" "$2" 6
    page_result=$?
    wait $console
    line_result=$?
    cat "$out/lines"
}

# try PAGES FAR LINES: the results are $page_result and $line_result.
try() {
    if [ -n "$is_both" ]; then
        with uip_both "$out/site.img device 9000" -- together "$@"
    else
        with uip_tap "$out/site.img device 9000" -- near_and_far "$1" "$2" 8
        page_result=$?
        with uip_app "device 9000" -- run_lines "$3"
        line_result=$?
    fi
}

expect_right() {
    [ $page_result = 0 ] || fail "a page was wrong or cut"
    [ $line_result = 0 ] || fail "a line was wrong or cut"
}

lay() { "$out/cable" cable0 cable1 "$@" >"$out/cable.told" & cable=$!; }
take_away() { kill $cable; wait $cable; cat "$out/cable.told"; }

planted() {
    for plant in byte cut more reset; do
        lay 0 1 $plant
        try 200 0 400 >"$out/found"
        [ $page_result != 0 ] || fail "MISSED $plant in a page"
        [ $line_result != 0 ] || fail "MISSED $plant in a line"
        take_away
        sed -n 's/^\(pages\|console\)/found: &/p' "$out/found"
    done
}

if [ -n "$is_inside" ]; then
    hosts=
    trap 'kill $node $cable $hosts 2>/dev/null' EXIT
    network
    if [ -n "$is_planted" ]; then
        PATIENCE=10
        export PATIENCE
        lay 0 1
        try 100 0 100
        expect_right
        take_away
        planted
        exit 0
    fi
    lay "$percent" 1
    try "$pages" $((pages / 10)) "$lines"
    take_away
    expect_right
    exit 0
fi

# ---- outside of it

cc=${CC:-cc}

# build PROGRAM LIBRARY SOURCE ..: a program with the library and a heap.
build() {
    program=$1 built=$2
    shift 2
    [ -f "$built" ] || fail "no library $built: \`rt lib\` in its crate builds it"
    "$cc" -O2 -Wall -Wextra -I"$top/include" "$@" "$top/examples/linux-c/heap.c" "$built" -o "$out/$program" ||
        fail "$program was not built"
}

command -v "$cc" >/dev/null || skip "C compiler $cc"
[ "$(id -u)" = 0 ] || skip "right to make an interface: run it as root"
[ -c /dev/net/tun ] || skip "/dev/net/tun"
for program in ip unshare nsenter python3; do command -v $program >/dev/null || skip "command $program"; done
unshare -n true 2>/dev/null || skip "right to make a network namespace"
unshare -n ip link add bridge0 type bridge 2>/dev/null || skip "bridge in this kernel"
rm -rf "$out/site"
mkdir -p "$out/site"
cp "$top"/examples/site/* "$out/site"
for size in 300 900; do seq -f "line %g of $size, which has a number and some more bytes" $size >"$out/site/lines-$size.txt"; done
python3 "$top/tools/pack.py" "$out/site" "$out/site.img" || fail "the site was not packed"
"$cc" -O2 -Wall -Wextra "$here/cable.c" -o "$out/cable" || fail "the cable was not built"
if [ -n "$is_both" ]; then
    build uip_both "$both_library" "$top"/examples/linux-both/*.c "$app/console.c" "$app/modbus.c"
else
    build uip_tap "$library" "$here/tap.c"
    build uip_app "$app_library" "$app"/*.c
fi
exec unshare -n sh "$0" inside "$@"
