#!/bin/sh
# Builds the firmware of a board without an operating system (qemu's "virt", aarch64), starts it, and connects this machine's TCP to its
# serial port.
#
#     sh examples/board/run.sh                 builds it, starts it, and prints how to open the pages
#     sh examples/board/run.sh build           only builds it
#     sh examples/board/run.sh -- COMMAND ..   runs a command beside it, and ends with its status
#     sh examples/board/run.sh usage           fetches every file, and prints what flash and memory the firmware used
#     sh examples/board/run.sh map             compares what the processor's map of memory allows with what it should
#     sh examples/board/run.sh early           sends bytes before the port is open
#     sh examples/board/run.sh line            two clients at once over a line of 19,200 bits a second without flow control
#     sh examples/board/run.sh stack           fetches every file, and prints how far the stack pointer went
#     sh examples/board/run.sh ether           links a firmware on Ethernet with a controller that does nothing, and prints its flash and its stack
#     sh examples/board/run.sh calls           prints how much stack each call of the library needs
#     sh examples/board/run.sh state [..]      the same with the firmware of a device with a state (state.c), and its site
#
# Needs qemu-system-aarch64 (Debian: qemu-system-arm), python3, `ip` and /dev/net/tun, and clang and ld.lld, which the kit of rt has: CLANG,
# LLD and QEMU name others. If the library is not there, rt builds it; LIBRARY names another.
case "$1" in -h|--help) sed -n '2,20s/^# \{0,1\}//p' "$0"; exit 0;; esac
here=$(cd "$(dirname "$0")" && pwd)
top=$(cd "$here/../.." && pwd)
out=$here/out
library=${LIBRARY:-$out/libuip_c.a}
if [ "$1" = state ]; then shift; name=state main=state pages=$top/examples/state; else name=board main=main pages=$top/examples/site; fi
site=${SITE:-$pages.img}
kit=${KIT:-/opt/rattle}/toolchain/bin
fail() { echo "board: $1" >&2; exit 1; }
# The first of these programs that is there.
tool() { for name; do command -v "$name" && return; done; }
clang=$(tool "${CLANG:-clang}" "$kit/clang") || fail "no clang here: it is in the kit of rt, and in the package clang"
lld=$(tool "${LLD:-ld.lld}" "$kit/ld.lld") || fail "no ld.lld here: it is in the kit of rt, and in the package lld"
mkdir -p "$out"
[ -n "$LIBRARY" ] || sh "$top/ports/aarch64.sh" uip_c "$library" || exit 1

# The heap is an array of just the memory that a device with so many files needs; the image stays in flash.
heap="-DUIP_HEAP_SIZE=UIP_MEMORY($(od -An -j8 -N2 -tu1 "$site" | awk '{ print $1 * 256 + $2 }'))"
compile() {
    "$clang" --target=aarch64-none-elf -ffreestanding -fno-builtin -Os -fomit-frame-pointer -Wall -Wextra \
        -ffunction-sections -fdata-sections -I"$top/include" -I"$here" -idirafter "$here/fallback" -c "$@" || fail "clang failed"
}
compile "$here/start.S" -o "$out/start.o"
compile "$here/$main.c" -o "$out/$main.o"
for part in board ring runtime; do compile -mgeneral-regs-only -DLOOP_WAITS "$here/$part.c" -o "$out/$part.o"; done
compile "$heap" "$top/support/heap.c" -o "$out/heap.o"
compile -DSITE="\"$site\"" "$here/site.S" -o "$out/site.o"
# A firmware by its name, of the object files that it has of its own.
link() {
    to=$out/$1; shift
    set -- -T "$top/boards/link.ld" --defsym flash_at=0 --defsym flash_len=2M --defsym ram_at=0x800000 --defsym ram_len=64K \
        --defsym stack_len=8K --gc-sections \
        "$out/start.o" "$@" "$out/ring.o" "$out/runtime.o" "$out/heap.o" "$out/site.o" "$library"
    "$lld" -Map="$to.map" -o "$to.elf" "$@" && "$lld" --oformat binary -o "$to.bin" "$@" || fail "ld.lld failed"
}
if [ "$1" = ether ]; then
    compile "$here/ether.c" -o "$out/ether.o"
    compile "$top/ports/no_mac.c" -o "$out/no_mac.o"
    compile "$(echo "$heap" | sed s/UIP_MEMORY/UIP_MEMORY_ETHER/)" "$top/support/heap.c" -o "$out/heap.o"
    link ether "$out/board.o" "$out/ether.o" "$out/no_mac.o"
    exec python3 "$here/usage.py" "$out/ether"
fi
if [ "$1" = calls ]; then exec python3 "$here/depths.py" "$library" "$out/runtime.o" "$out/heap.o"; fi
link $name "$out/board.o" "$out/$main.o"
python3 "$here/usage.py" "$out/$name" || exit 1
[ "$1" = build ] && exit 0

qemu=${QEMU:-qemu-system-aarch64}
command -v "$qemu" >/dev/null || fail "no $qemu here: qemu-system-aarch64 is in the package qemu-system-arm"
browse() { python3 "$top/examples/browse.py" --board "$@"; }
case "$1" in
usage)
    browse "$out/$name.bin" --memory "$out/memory" -- python3 "$top/examples/fetch.py" "$pages" || exit 1
    exec python3 "$here/usage.py" "$out/$name" "$out/memory";;
map)
    compile "$here/map_test.c" -o "$out/map_test.o"
    link map_test "$out/board.o" "$out/map_test.o"
    exec python3 "$here/map.py" "$out" "$qemu";;
early)
    exec python3 "$here/early.py" "$out/$name.bin";;
line)
    compile -mgeneral-regs-only -DLOOP_WAITS -DLINE_RATE=1920 "$here/board.c" -o "$out/slow_board.o"
    link slow "$out/slow_board.o" "$out/$main.o"
    fetch="python3 $top/examples/fetch.py $pages"
    browse "$out/slow.bin" --baud 19200 -- sh -c "$fetch & one=\$!; $fetch && wait \$one" >"$out/line.txt"; status=$?
    cat "$out/line.txt"
    grep -q '^the line lost 0 of' "$out/line.txt" || fail "bytes were lost while a text went out"
    exit $status;;
stack)
    exec python3 "$here/stack.py" "$out/$name" "$qemu" python3 "$top/examples/fetch.py" "$pages";;
esac
exec python3 "$top/examples/browse.py" --board "$out/$name.bin" "$@"
