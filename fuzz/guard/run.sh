#!/bin/sh
# Attacks a device as a host that is not on the path can, and sends it the packets of known faults of small IP stacks.
#
#     sh fuzz/guard/run.sh                all of this: the C file on this machine, on an ARM of 32 bits and on a Cortex-M4, and web/node.wasm
#     sh fuzz/guard/run.sh bare           devices without a secret: exactly those attacks work that predict a number
#     sh fuzz/guard/run.sh guarded        devices with a secret: each attack must fail
#     sh fuzz/guard/run.sh planted        faults in each rule of the guard, in copies of dist/uip.c: an attack or the fuzzer must find each
#     sh fuzz/guard/run.sh flood          200 SYNs a second while Linux's curl fetches a hundred pages; without the rule on slots it fails
#
# It needs Node.js and a C compiler; the ARM arm-linux-gnueabihf-gcc with its C library and qemu-arm; the Cortex-M4 arm-none-eabi-gcc and
# qemu-system-arm, whose board mps2-an386 it is; flood root or user namespaces, /dev/net/tun and curl. What the machine does not have is
# skipped, with a line. SOURCE names another C file than dist/uip.c, CC another compiler, FAULTS single planted faults.
case "$1" in -h|--help) sed -n '2,12s/^# \{0,1\}//p' "$0"; exit 0;; esac
here=$(cd "$(dirname "$0")" && pwd)
top=$(cd "$here/../.." && pwd)
cc=${CC:-cc}
source=${SOURCE:-$top/dist/uip.c}
out=$here/out
mkdir -p "$out"
status=0
fail() { echo "FAILED: $1" >&2; status=1; }

# library PROGRAM COMPILER ..: the device over the library.
library() { program=$1; shift; "$@" -DUIP_NO_ETHERNET -I"$top/dist" "$here/device.c" "$source" -o "$out/$program" || exit 1; }

# The device as a firmware for a Cortex-M4: device.c with m4.c, and nothing else but the copies of runtime.c.
board() {
    words="-mcpu=cortex-m4 -mthumb -Os -ffreestanding -fno-builtin -ffunction-sections -DM4 -DUIP_NO_ETHERNET -I$top/dist"
    set --
    for file in "$here/device.c" "$here/m4.c" "$top/examples/board/runtime.c" "$source" "$top/dist/heap.c"; do
        object=$out/m4_$(basename "$file" .c).o
        # shellcheck disable=SC2086
        arm-none-eabi-gcc $words "-DUIP_HEAP_SIZE=UIP_MEMORY(64)" -idirafter "$top/examples/board/fallback" -c "$file" -o "$object" || exit 1
        set -- "$@" "$object"
    done
    for place in flash_at=0 flash_len=4M ram_at=0x20000000 ram_len=4M stack_len=16K; do set -- "$@" "-Wl,--defsym=$place"; done
    arm-none-eabi-gcc -mcpu=cortex-m4 -mthumb -nostdlib -T "$top/boards/link.ld" -Wl,--gc-sections "$@" -lgcc -o "$out/device_m4" || exit 1
}

# both WORD NAME [PROGRAM]: the attacks and the packets; what they print is kept.
both() {
    word=$1 name=$2
    shift 2
    for test in attacks known; do
        node "$here/$test.mjs" "$word" "$@" >"$out/$test.txt" || { cat "$out/$test.txt"; fail "$name: $test, $word"; }
        echo "$name, $word: $(tail -1 "$out/$test.txt")"
    done
}

devices() {
    # shellcheck disable=SC2086
    library device $cc -O1
    both "$1" "this machine" "$out/device"
    if command -v arm-linux-gnueabihf-gcc >/dev/null && command -v qemu-arm >/dev/null; then
        library device_arm arm-linux-gnueabihf-gcc -static -Os -mthumb
        both "$1" "ARM, Thumb-2" "qemu-arm $out/device_arm"
    else
        echo "skipped: ARM: no arm-linux-gnueabihf-gcc or no qemu-arm"
    fi
    if command -v arm-none-eabi-gcc >/dev/null && command -v qemu-system-arm >/dev/null; then
        board
        both "$1" "Cortex-M4, qemu's mps2-an386" \
            "qemu-system-arm -M mps2-an386 -display none -monitor none -serial stdio -kernel $out/device_m4"
    else
        echo "skipped: Cortex-M4: no arm-none-eabi-gcc or no qemu-system-arm"
    fi
    both "$1" web/node.wasm
}

# by_attack MODE, by_fuzzer SET: whether the file with a fault passes; what was found is in works.txt.
by_attack() {
    # shellcheck disable=SC2086
    $cc -w -O1 -DUIP_NO_ETHERNET -I"$top/dist" "$here/device.c" "$out/faulty.c" -o "$out/faulty" || { echo "it was not built" >&2; return 0; }
    node "$here/attacks.mjs" "$1" "$out/faulty" >"$out/works.txt" 2>&1
}

by_fuzzer() {
    LIBRARY=c SOURCE=$out/faulty.c OUT=$out/fuzz sh "$top/fuzz/run.sh" "$1" 20000000 1 >"$out/told.txt" 2>&1 && return 0
    grep -a FINDING "$out/told.txt" >"$out/works.txt" && return 1
    cat "$out/told.txt" >&2    # it was not built
}

planted() {
    for fault in ${FAULTS:-$(python3 "$here/planted.py" list | cut -d " " -f 1)}; do
        by=$(python3 "$here/planted.py" list | sed -n "s/^$fault //p")
        python3 "$here/planted.py" "$fault" "$source" "$out/faulty.c" || { fail "$fault was not planted"; continue; }
        case "$by" in
        guarded) by_attack quiet;;
        bare) by_attack bare;;
        *) by_fuzzer "$by";;
        esac && { fail "MISSED $fault"; continue; }
        echo "found $fault, $by: $(tail -1 "$out/works.txt")"
    done
}

flood() {
    python3 "$here/flood.py" --source "$source" || fail "a page did not come"
    python3 "$here/planted.py" nothing-is-given-up "$source" "$out/faulty.c" || exit 1
    if python3 "$here/flood.py" --source "$out/faulty.c" --pages 2 --limit 8 --tries 1; then fail "MISSED nothing-is-given-up"
    else echo "found nothing-is-given-up, by the flood"; fi
}

case "${1:-all}" in
all) devices bare && devices guarded && planted && flood;;
bare|guarded) devices "$1";;
planted|flood) "$1";;
*) echo "run.sh: no such word: $1" >&2; exit 2;;
esac
exit $status
