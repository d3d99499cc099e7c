#!/bin/sh
# Builds the programs of this folder for this machine, with its input and output in the place of a board's (pc.c), and uses their pages
# by Linux's own TCP: buttons, a form, a restart, a gate whose button acts once, a page that changes the address, and a door.
#
#     sh examples/firmware/run.sh
#
# It needs a C compiler, python3, `ip`, `unshare` and /dev/net/tun, and the library that `rt lib` builds in crates/uip_c. What the machine
# does not have is skipped, with a line. CC names another compiler, LIBRARY another library.
case "$1" in -h|--help) sed -n '2,8s/^# \{0,1\}//p' "$0"; exit 0;; esac
here=$(cd "$(dirname "$0")" && pwd)
top=$(cd "$here/../.." && pwd)
library=${LIBRARY:-$top/crates/uip_c/out/libuip_c.a}
out=$here/out
cc=${CC:-cc}
fail() { echo "firmware: $1" >&2; exit 1; }
skip() { echo "skipped: the programs of examples/firmware, since there is no $1"; exit 0; }

# In a network namespace: the program on an interface, tap0 or tun0, and a client.
if [ "$1" = inside ]; then
    kind=tap; [ "$2" != datagrams ] || kind=tun
    ip link set lo up && ip tuntap add dev ${kind}0 mode $kind && ip link set ${kind}0 up && ip addr add 10.0.0.2/24 dev ${kind}0 ||
        fail "no ${kind}0 was made"
    [ "$2" != gate ] || exec python3 "$here/gate.py" "$out/gate" "$out/gate.log"
    [ "$2" != settings ] || { ip addr add 192.168.7.1/24 dev tap0 && exec python3 "$here/settings.py" "$out/settings" "$out/settings.log"; }
    [ "$2" != door ] || exec python3 "$here/door.py" "$out/door" "$out/door.log"
    "$out/$2" 2>"$out/$2.log" &
    python3 "$here/client.py" "$3" || fail "the last line of $2 is: $(tail -1 "$out/$2.log")"
    wait $! || fail "$2 did not end with 0: $(tail -1 "$out/$2.log")"
    exit 0
fi

command -v "$cc" >/dev/null || fail "there is no C compiler $cc"
command -v python3 >/dev/null || skip "python3"
mkdir -p "$out"
python3 "$top/tools/pack.py" "$here/site" "$out/site.c" /state.shtml=application/json || fail "the site was not packed"
strict="-std=c11 -pedantic -Wall -Wextra -Wconversion -Werror"
for name in serial sleep rtos_serial datagrams ether ether_dma ether_loop rtos rtos_dma pages port port_dma port_cdc lines; do
    "$cc" $strict -fsyntax-only -I"$top/include" -I"$out" "$here/$name.c" || fail "$name.c does not compile"
done
mkdir -p "$out/stubs"
for name in FreeRTOS semphr task stm32; do echo '#include "'"$here"'/stubs.h"' > "$out/stubs/$name.h"; done
for name in freertos stm32_ether; do
    "$cc" -std=c11 -Wall -Wextra -Werror -Wno-pointer-to-int-cast -Wno-int-to-pointer-cast -fsyntax-only -I"$top/include" -I"$out/stubs" \
        "$here/$name.c" || fail "$name.c does not compile"
done
"$cc" $strict -DRING=16 -I"$top/include" "$here/dma_test.c" "$here/port_dma.c" -o "$out/dma_test" && "$out/dma_test" ||
    fail "port_dma.c takes other bytes than the DMA wrote"
"$cc" $strict -I"$top/include" "$here/cdc_test.c" "$here/port_cdc.c" -o "$out/cdc_test" && "$out/cdc_test" ||
    fail "port_cdc.c works otherwise than a USB host needs"
for name in ether_dma rtos_dma; do
    for end in FRAME TICK; do
        "$cc" $strict -DTEST_$name -DENDS_BY_$end -I"$top/include" -I"$out" "$here/ether_dma_test.c" "$here/$name.c" "$here/ether_loop.c" \
            -o "$out/ether_dma_test" && "$out/ether_dma_test" || fail "$name.c makes other calls, or breaks the ownership of a buffer"
    done
done
mkdir -p "$out/gate_site"
python3 "$top/tools/pack.py" "$here/gate_site" "$out/gate_site/site.c" /state.shtml=application/json || fail "the site of the gate was not packed"
for name in gate gate_pages gate_control; do
    "$cc" $strict -fsyntax-only -I"$top/include" -I"$out/gate_site" "$here/$name.c" || fail "$name.c does not compile"
done
mkdir -p "$out/settings_site"
python3 "$top/tools/pack.py" "$here/settings_site" "$out/settings_site/site.c" || fail "the site of the settings was not packed"
"$cc" $strict -fsyntax-only -I"$top/include" "$here/settings_pages.c" || fail "settings_pages.c does not compile"
mkdir -p "$out/door_site"
python3 "$top/tools/pack.py" "$here/door_site" "$out/door_site/site.c" /state.shtml=application/json ||
    fail "the site of the door was not packed"
"$cc" $strict -fsyntax-only -I"$top/include" "$here/door_pages.c" || fail "door_pages.c does not compile"
[ -f "$library" ] || skip "library at $library: run rt lib in crates/uip_c"
# build NAME KIND WORDS: a program of this folder, with further files.
build() {
    "$cc" -std=gnu11 -O2 -Wall -Wextra -Werror -D"$2" -pthread -I"$top/include" -I"$out" "$here/$1.c" "$here/pages.c" "$here/pc.c" $3 \
        "$library" -o "$out/$1" || fail "$1 was not built"
}
build serial PC_SERIAL
build sleep PC_SLEEP "$here/port.c $top/support/step.c"
build rtos_serial PC_RTOS_SERIAL "$here/port.c $top/support/step.c"
"$cc" -std=gnu11 -O2 -Wall -Wextra -Werror -DPC_RTOS_SERIAL -DPC_DMA -DRING=2048 -pthread -I"$top/include" -I"$out" "$here/rtos_serial.c" \
    "$here/pages.c" "$here/pc.c" "$here/port_dma.c" "$top/support/step.c" "$library" -o "$out/rtos_serial_dma" ||
    fail "rtos_serial_dma was not built"
"$cc" -std=gnu11 -O2 -Wall -Wextra -Werror -DPC_RTOS_SERIAL -DPC_CDC -pthread -I"$top/include" -I"$out" "$here/rtos_serial.c" "$here/pages.c" \
    "$here/pc.c" "$here/port_cdc.c" "$top/support/step.c" "$library" -o "$out/rtos_serial_cdc" || fail "rtos_serial_cdc was not built"
build datagrams PC_DATAGRAMS
build ether PC_ETHER
build ether_dma PC_ETHER_DMA "$here/ether_loop.c"
build rtos PC_RTOS
build rtos_dma PC_ETHER_DMA "-DPC_RTOS_DMA $here/ether_loop.c"
"$cc" -std=gnu11 -O2 -Wall -Wextra -Werror -DPC_RTOS -DPC_GATE -DTOKEN_MS=5000 -pthread -I"$top/include" -I"$out/gate_site" "$here/gate.c" \
    "$here/gate_pages.c" "$here/gate_control.c" "$here/pc.c" "$library" -o "$out/gate" || fail "gate was not built"
"$cc" -std=gnu11 -O2 -Wall -Wextra -Werror -DPC_ETHER -DPC_SETTINGS -DTOKEN_MS=2000 -pthread -I"$top/include" -I"$out/settings_site" \
    "$here/ether.c" "$here/settings_pages.c" "$here/pc.c" "$library" -o "$out/settings" || fail "settings was not built"
"$cc" -std=gnu11 -O2 -Wall -Wextra -Werror -DPC_ETHER -DPC_DOOR -DOPEN_MS=2000 -DSET_MS=4000 -pthread -I"$top/include" -I"$out/door_site" \
    "$here/ether.c" "$here/door_pages.c" "$here/pc.c" "$library" -o "$out/door" || fail "door was not built"

for command in ip unshare; do command -v $command >/dev/null || skip "command $command"; done
[ -w /dev/net/tun ] || skip "/dev/net/tun that can be opened"
# lamps NAME: what a program did with its lamp (datagrams.c also when it opens again), and that it restarted.
lamps() {
    [ "$(sed -n 's/^lamp //p' "$out/$1.log" | uniq | tr '\n' ' ')" = "0 100 0 42 " ] || fail "$1 switched its lamp otherwise"
    grep -aq '^stopped 0$' "$out/$1.log" || fail "$1 did not restart"
}
for name in serial sleep rtos_serial rtos_serial_dma rtos_serial_cdc; do
    note=0; case $name in rtos_*) note=1;; esac
    python3 "$here/line.py" "$out/$name" "$out/$name.log" $note >"$out/$name.told" 2>&1 || fail "$name: $(cat "$out/$name.told")"
    lamps $name
    [ $name != rtos_serial_cdc ] || grep -aq '^the piece was given up' "$out/$name.log" || fail "$name did not give a piece up"
    [ $name != rtos_serial_cdc ] || grep -aq '^the bus was reset' "$out/$name.log" || fail "there was no bus reset"
    [ $name != sleep ] || grep -aq '^the timer stopped' "$out/sleep.log" || fail "sleep did not stop its timer"
    echo "$name: $(grep -a 'pages are' "$out/$name.told")"
done
for name in datagrams ether ether_dma rtos rtos_dma; do
    note=0; case $name in rtos*) note=1;; esac
    unshare -rn sh "$0" inside $name $note >"$out/$name.told" 2>&1 || fail "$name: $(cat "$out/$name.told")"
    [ $name != datagrams ] || grep -aq '^the link was down 1$' "$out/$name.log" || fail "datagrams was not opened again"
    case $name in *_dma) grep -aq '^a tick sent' "$out/$name.log" || fail "no tick of $name sent a frame";; esac
    lamps $name
    echo "$name: $(grep -a 'pages are' "$out/$name.told")"
done
unshare -rn sh "$0" inside gate >"$out/gate.told" 2>&1 || fail "gate: $(cat "$out/gate.told")"
echo "gate: $(grep -a 'acted once' "$out/gate.told")"
unshare -rn sh "$0" inside settings >"$out/settings.told" 2>&1 || fail "settings: $(cat "$out/settings.told")"
echo "settings: $(grep -a 'address' "$out/settings.told")"
unshare -rn sh "$0" inside door >"$out/door.told" 2>&1 || fail "door: $(cat "$out/door.told")"
echo "door: $(grep -a 'unlocked once' "$out/door.told")"
