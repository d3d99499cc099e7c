#!/bin/sh
# Builds the library for a processor from dist/uip.c, and a firmware with it, and tests both. Makes dist/ from the proved modules.
#
#     sh ports/run.sh TARGET                       builds the library and the firmware, and prints what flash and memory they need
#     sh ports/run.sh TARGET fetch                 runs the firmware under qemu; Linux's TCP fetches every file of the site
#     sh ports/run.sh TARGET usage                 the same, and prints what memory that run used
#     sh ports/run.sh TARGET state                 the same for the firmware of a device with a state (examples/board/state.c)
#     sh ports/run.sh m4 ether                     builds a firmware on Ethernet, and runs it: Linux's ARP finds it, ping and curl try it (root)
#     sh ports/run.sh TARGET ether-usage           links that firmware with a controller that does nothing, and prints its flash and its stack;
#                                                  not for wasm
#     sh ports/run.sh TARGET calls                 prints how much stack each call of libuip_c.a and of libuip_c_ether.a needs (not for wasm);
#                                                  app-calls and both-calls do so for the libraries of uip_app.h and uip_both.h
#     sh ports/run.sh TARGET same [CALLS [SEED]]   makes CALLS random calls of the library for this machine and of this one: every
#                                                  status, number, byte and call of the heap must be the same
#     sh ports/run.sh TARGET same-app [CALLS [SEED]]    the same for the library of uip_app.h
#     sh ports/run.sh TARGET same-both [CALLS [SEED]]   the same for the library of uip_both.h
#     sh ports/run.sh TARGET speed                 counts the instructions of pings, ARP, a small file and ticks on each link, of full segments
#                                                  and of opening (not for wasm)
#     sh ports/run.sh m4 app                       builds a firmware with an application of its own (uip_app.h), and runs it: four clients of
#                                                  its console compare each reply (root)
#     sh ports/run.sh m4 both                      builds a firmware with pages and such an application (uip_both.h), and tries it as `ether`
#                                                  and as `app`, with the pages fetched beside the console (root)
#     sh ports/run.sh TARGET library               builds the library alone: ports/out/TARGET/libuip_c.a, and with the calls for
#                                                  Ethernet libuip_c_ether.a
#     sh ports/run.sh TARGET app-library           builds the library of uip_app.h alone: ports/out/TARGET/libuip_app_c.a
#     sh ports/run.sh TARGET both-library          builds that of uip_both.h alone: ports/out/TARGET/libuip_both_c.a
#     sh ports/run.sh targets                      lists the targets
#     sh ports/run.sh dist                         makes dist/ from the proved modules; dist-compare compares it with what is there, and
#                                                  dist-test tests it
#     sh ports/run.sh c same [CALLS [SEED [HOST ..]]]   the same random calls with dist/uip.c, by each compiler and processor of hosts.sh
#
# TARGET is m0 (Cortex-M0+), m3, m4, m7, m33, rv32 (rv32imac), rv64 (rv64imac), aarch64-small (compiled for size, beside the library of
# `rt lib`) or wasm (WebAssembly of 32 bits, for a browser or node).
# `sh ports/run.sh --toolchain DIR TARGET ..` compiles with the programs of DIR/bin: clang, ld.lld, wasm-ld, llvm-ar, llvm-nm and llvm-objdump
# of LLVM 22; without it with those of the kit.
#
# Variables: LIBRARY_CC names another compiler for the library, with its words for the target; OPT its words for optimization; FLOAT
# another floating-point ABI than -mfloat-abi=soft; SITE another image; TO another folder; SOURCE another uip.c.
#
# Needs python3; for `same` and for dist the kit of `rt`, whose first run proves the library (module.sh); for fetch, usage and state
# qemu-system-arm or qemu-system-misc, `ip` and /dev/net/tun; for same qemu-user and a C compiler for this machine; for wasm node.
case "$1" in
-h|--help|"") sed -n '2,44s/^# \{0,1\}//p' "$0"; exit 0;;
dist*|c) exec sh "$(dirname "$0")/dist.sh" "$@";;
esac
ports=$(cd "$(dirname "$0")" && pwd)
top=$(cd "$ports/.." && pwd)
example=$top/examples/board
out=$ports/out
fail() { echo "ports: $1" >&2; exit 1; }
# shellcheck source=/dev/null
for part in targets.sh wasm.sh same/run.sh; do . "$ports/$part"; done
if [ "$1" = --toolchain ]; then
    [ -x "$2/bin/clang" ] || fail "no bin/clang in the toolchain $2"
    toolchain=$(cd "$2/bin" && pwd)
    shift 2
fi
[ "$1" != targets ] || { echo "$TARGETS"; exit 0; }
target=$1
choose_target "$target"
work=${2:-build}
case "$work" in
build|library|app-library|both-library|fetch|usage|state|ether|ether-usage|calls|app-calls|both-calls|app|both|same|same-app|same-both|speed) ;;
*) fail "no work $work; --help lists what there is";;
esac
case "$work-$target" in ether-usage-wasm|*calls-wasm) fail "no $work for wasm";; esac

# ---- the tools

case "$work" in
app*|same-app) crate=uip_app_c;;
both*|same-both) crate=uip_both_c;;
*) crate=uip_c;;
esac
mkdir -p "$out/tools"
if [ -z "$toolchain" ]; then
    real=$(command -v rt) && real=$(dirname "$(dirname "$(readlink -f "$real")")")/toolchain/bin/ld.lld
    [ -x "$real" ] || fail "no kit of rt here: --toolchain DIR names another LLVM 22"
    for tool in clang ld.lld wasm-ld llvm-ar llvm-nm llvm-objdump; do ln -sf "$(readlink -f "$real")" "$out/tools/$tool"; done
    toolchain=$out/tools
fi
PATH=$toolchain:$PATH
to=${TO:-$out/$target}
mkdir -p "$to"

# ---- the library

opt=${OPT:--Os}
source=${SOURCE:-$top/dist/uip.c}
sections="-ffunction-sections -fdata-sections -fomit-frame-pointer"
# shellcheck disable=SC2086
c_code() {
    clang $words $c_words -ffreestanding -fno-builtin $sections -Wall -Wextra -DUIP_SOURCE -I"$top/include" -I"$to" -I"$ports/same" \
        -I"$example" -idirafter "$example/fallback" -c "$@" || fail "clang failed"
}
# archive NAME OBJECT WORD ..: the library of one set of calls.
# shellcheck disable=SC2086
archive() {
    name=$1 object=$2
    shift 2
    ${LIBRARY_CC:-clang $words -idirafter $example/fallback} $c_words $opt -ffreestanding $sections -Wall -Wextra -I"$(dirname "$source")" "$@" \
        -c "$source" -o "$to/$object.o" || fail "$source was not compiled"
    rm -f "$to/$name"
    llvm-ar rcsD "$to/$name" "$to/$object.o" || fail "llvm-ar failed"
}
case "$crate" in
uip_c) archive libuip_c_ether.a module && archive libuip_c.a serial -DUIP_NO_ETHERNET;;
uip_app_c) archive libuip_app_c.a app_module -DUIP_APP;;
*) archive libuip_both_c.a both_module -DUIP_BOTH;;
esac
# How much stack each call needs. The heap and the copies are linked as a firmware has them.
# shellcheck disable=SC2086
calls() {
    c_code -Os "$example/runtime.c" -o "$to/runtime.o"
    c_code -Os -include uip.h -DUIP_HEAP_SIZE=8000 "$top/support/heap.c" -o "$to/heap.o"
    for file; do
        echo "$file"
        python3 "$example/depths.py" "$to/$file" "$to/runtime.o" "$to/heap.o" || exit 1
    done
}
case "$work" in
app-library|both-library) exit 0;;
calls) calls libuip_c.a libuip_c_ether.a; exit;;
app-calls) calls libuip_app_c.a; exit;;
both-calls) calls libuip_both_c.a; exit;;
esac
[ "$work" != library ] || [ "$target" = wasm ] || exit 0

# ---- the firmware, or the node of the page

main=main site=$top/examples/site.img link=serial driver=board loop=WAITS
case "$work" in
state) main=state site=$top/examples/state.img;;
ether-usage) main=ether link=no_mac;;
ether|app|both) [ "$target" = m4 ] || fail "the one board with a driver for its Ethernet controller is that of m4"
    main=$work driver=ether loop=ETHER link=$work;;
esac
site=${SITE:-$site}
firmware() {
    set --
    files=$(od -An -j8 -N2 -tu1 "$site" | awk '{ print $1 * 256 + $2 }')
    case "$link" in
    serial) set -- "$example/ring.c"; linked=libuip_c.a heap="UIP_MEMORY($files)";;
    ether) linked=libuip_c_ether.a heap="UIP_MEMORY_ETHER($files)";;
    no_mac) set -- "$example/ring.c" "$ports/no_mac.c"; linked=libuip_c_ether.a heap="UIP_MEMORY_ETHER($files)";;
    app) linked=libuip_app_c.a heap="UIP_APP_MEMORY";;
    both) linked=libuip_both_c.a heap="UIP_BOTH_MEMORY($files)";;
    esac
    case "$link" in app|both) set -- "$example/answer.c" "$top/examples/linux-app/console.c" "$top/examples/linux-app/modbus.c";; esac
    set -- "$@" "$example/runtime.c" "$top/boards/$board/$driver.c" "$example/$main.c"
    for source; do
        object=$to/$(basename "$source" .c).o
        case "$source" in "$top"/boards/*) object=$to/driver.o;; esac
        c_code -Os -DLOOP_$loop "$source" -o "$object"
        shift
        set -- "$@" "$object"
    done
    c_code -Os -include uip_both.h "-DUIP_HEAP_SIZE=$heap" "$top/support/heap.c" -o "$to/heap.o"
    c_code -DSITE="\"$site\"" "$example/site.S" -o "$to/site.o"
    set -- -T "$top/boards/link.ld" --defsym "flash_at=$flash" --defsym flash_len=2M --defsym "ram_at=$ram" --defsym ram_len=64K \
        --defsym stack_len=8K --discard-locals --gc-sections "$@" "$to/heap.o" "$to/site.o" "$to/$linked"
    ld.lld -Map="$to/board.map" -o "$to/board.elf" "$@" && ld.lld --oformat binary -o "$to/board.bin" "$@" || fail "ld.lld failed"
    case "$board" in
    virt-*) run=$to/flash.bin; cp "$to/board.bin" "$run" && truncate -s 32M "$run";;    # the size of the board's flash
    *) run=$to/board.elf;;
    esac
}
usage() { python3 "$example/usage.py" "$to/board" "$@" || exit 1; }
# The firmware under qemu, with a client beside it.
browse() {
    command -v "${machine%% *}" >/dev/null || fail "no ${machine%% *} here: it is in qemu-system-arm or qemu-system-misc"
    python3 "$top/examples/browse.py" --board "$run" --machine "$machine" --memory-at "$memory_at" --memory "$to/memory" -- python3 "$@" || exit 1
}

case "$work" in
same|same-app|same-both) same "${3:-1000000}" "${4:-1}"; exit;;
speed) speed; exit;;
esac
case "$target" in
wasm) wasm "$work"; exit;;
aarch64-small)
    linked=libuip_c.a
    case "$work" in
    build) words=build;;
    state) words="state -- python3 $top/examples/state.py 200";;
    ether-usage) words=ether linked=libuip_c_ether.a;;
    *) words=usage;;
    esac
    # shellcheck disable=SC2086
    LIBRARY=$to/$linked exec sh "$example/run.sh" $words;;
esac
firmware
case "$work" in
build|ether-usage) usage; exit;;
fetch|usage) browse "$top/examples/fetch.py";;
state) browse "$top/examples/state.py" 200;;
ether|app|both)
    usage
    BOARD=$(echo "$machine" | sed "s|{}|$run|")
    [ "$work" != both ] || BESIDE="python3 $top/examples/fetch.py"
    export BOARD BESIDE
    if [ "$work" != app ]; then sh "$top/examples/linux-ether/run.sh" || exit 1; fi
    if [ "$work" != ether ]; then sh "$top/examples/linux-app/run.sh" || exit 1; fi
    exit;;
esac
[ "$work" = fetch ] || usage "$to/memory"
