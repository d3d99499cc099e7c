#!/bin/sh
# Runs the firmware of each board under qemu, with Linux's TCP at the other end of its port: pings, every file, the rate of the ticks, a flood,
# and two clients at once at 115,200 bits a second (check.py). A board of which this qemu has no model is only built.
#
#     sh boards/test.sh [NAME ..]        all, or these: BOARD; BOARD-ether, that board on Ethernet; or one of
#
#         full      a flood with a ring that is full at once: the port of mps2-an386 is then not deaf
#         data      the start code gives variables their initial values
#         small     a firmware that does not fit is refused, and one that may need more stack than it has
#         demo      the demo of the micro:bit
#         secret    the micro:bit begins with another sequence number at each start
#
# Needs what the Makefile needs, qemu-system-arm or qemu-system-misc (riscv32), `ip` and /dev/net/tun. QEMU names another qemu, and WORDS has further
# words for make. planted_test.py shows that these tests find what they are for.
case "$1" in -h|--help) sed -n '2,15s/^# \{0,1\}//p' "$0"; exit 0;; esac
here=$(cd "$(dirname "$0")" && pwd)
wrong=0
value() { sed -n "s/^$1=//p" "$here/$board/board.mk"; }
fail() { echo "FAILED: $1"; wrong=1; }
# shellcheck disable=SC2086
make_it() { make -s -C "$here" BOARD="$board" SITE="$here/../examples/site" $loop $WORDS "$@" 2>&1; }

# try WORDS OF CHECK.PY [WORDS OF MAKE]: sets `found` to what was good.
try() {
    check=$1
    shift
    told=$(make_it run "$@" TRY="python3 $here/check.py $check") || { fail "$name: $(echo "$told" | grep -v '^ok' | tail -3)"; return 1; }
    found="$found$(echo "$told" | sed -n 's/^ok */; /p' | tr -d '\n')"
}

whole() {
    case "$name" in *-ether) board=${name%-ether} loop=LOOP=ether;; *) board=$name loop='';; esac
    [ -f "$here/$board/board.mk" ] || { fail "no board $board"; return; }
    machine=$(value MACHINE)
    qemu=${QEMU:-qemu-system-$(value PROCESSOR)}
    if [ -z "$machine" ] || ! "$qemu" -M help 2>/dev/null | grep -q "^${machine%%,*} "; then
        if told=$(make_it); then echo "built: $name: $qemu has no model of it"; else fail "$name is not built: $told"; fi
        return
    fi
    found='' out=$here/out/test/$name
    try "" "out=$out" && { [ -n "$loop" ] || try --two BAUD=115200 "out=$out" -o "$out/firmware.elf"; } && echo "passed: $name: ${found#; }"
}

# With the loop that waits, each of the flood's replies fills a ring of 64 bytes, so the port's interrupt is turned off and on.
full() {
    board=mps2-an386 loop=LOOP=waits found=''
    try "" RING=64 out="$here/out/full" && echo "passed: $name: ${found#; }"
}

data() {
    board=microbit loop=''
    if told=$(make_it run PAGES="$here/data_test.c" out="$here/out/data"); then echo "passed: variables have their initial values"
    else fail "$name: variables without their initial values: $(echo "$told" | tail -3)"; fi
}

small() {
    board=stm32vldiscovery loop=''
    if ! told=$(make_it out="$here/out/small"); then fail "$name: $told"
    elif make_it RING=2048 out="$here/out/small" >/dev/null; then fail "$name: the linker took more memory than there is"
    elif make_it STACK=2048 out="$here/out/small" >/dev/null; then fail "$name: make took less stack than the firmware may need"
    else echo "passed: a ring of 2,048 bytes and a stack of 2,048 bytes are refused in 8 kB"; fi
}

# The lower half of a number counts the time from the start, so the upper half is compared.
secret() {
    board=microbit loop='' found=''
    for _ in 1 2; do try --secret out="$here/out/secret" || return; done
    # shellcheck disable=SC2046,SC2086
    set -- $(echo "$found" | tr ';' '\n' | sed -n 's/.* \(0x....\)....$/\1/p' | sort -u)
    if [ $# = 2 ]; then echo "passed: the micro:bit has a secret: the first numbers begin with $1 and $2"; else fail "$name: the same number at both starts$found"; fi
}

# Its buttons are pressed, its page and its matrix are looked at.
demo() {
    sockets=$(mktemp -d)
    told=$(make -s -C "$here" BOARD=microbit DEMO=1 run TRY="python3 $here/microbit/try_demo.py $sockets/qtest $sockets/monitor" \
        MODEL="-qtest unix:$sockets/qtest,server=on,wait=off -qtest-log /dev/null -monitor unix:$sockets/monitor,server=on,wait=off" 2>&1)
    result=$?
    rm -r "$sockets"
    if [ $result = 0 ]; then echo "passed: the demo of the micro:bit"; else fail "the demo of the micro:bit: $(echo "$told" | grep -v '^ok' | tail -3)"; fi
}

# shellcheck disable=SC2046
[ $# -gt 0 ] || set -- $(cd "$here" && for it in */board.mk */ether.c; do echo "$it"; done | sed 's|/board.mk||; s|/ether.c|-ether|' | sort) full data small secret demo
for name; do
    case "$name" in full|data|small|secret|demo) $name;; *) whole;; esac
done
exit $wrong
