#!/bin/sh
# Prints how many bytes of code and constants the calls of uip_app.h need on aarch64, with all that they call: linked with --gc-sections,
# without a main, drivers, start code and heap.
#
#     sh examples/linux-app/flash.sh          those of uip_app.h
#     sh examples/linux-app/flash.sh both     those of uip_both.h
#
# It needs the command rt, and ld.lld and llvm-size or size, which the kit of rt has: LLD and SIZE name others. LIBRARY names a library.
case "$1" in -h|--help) sed -n '2,8s/^# \{0,1\}//p' "$0"; exit 0;; esac
here=$(cd "$(dirname "$0")" && pwd)
top=$(cd "$here/../.." && pwd)
out=$here/out
kit=${KIT:-/opt/rattle}/toolchain/bin
fail() { echo "flash: $1" >&2; exit 1; }
tool() { for name; do command -v "$name" && return; done; }
lld=$(tool "${LLD:-ld.lld}" "$kit/ld.lld") || fail "no ld.lld here"
size=$(tool "${SIZE:-llvm-size}" "$kit/llvm-size" size) || fail "no llvm-size here"
mkdir -p "$out"
case "$1" in
both) crate=uip_both_c prefix=uip
    calls="open_ether input_frame_area periodic_frame set_value hits query ticks counter is_idle connection close listen read write";;
*) crate=uip_app_c prefix=uip_app calls="open listen input_frame_area periodic_frame read write close";;
esac
library=${LIBRARY:-$out/lib${crate}_aarch64.a}
[ -n "$LIBRARY" ] || sh "$top/ports/aarch64.sh" $crate "$library" || exit 1
set --
for call in $calls; do set -- "$@" -u "${prefix}_$call"; done
"$lld" -m aarch64linux --gc-sections -e "${prefix}_close" --unresolved-symbols=ignore-all "$@" -o "$out/flash.elf" "$library" || fail "ld.lld failed"
"$size" -A "$out/flash.elf" | awk '$1 ~ /^\.(text|rodata|data\.rel\.ro|eh_frame)/ { print $1, $2; if ($1 !~ /eh_frame/) sum += $2 } END { print "code and constants:", sum }'
