#!/bin/sh
# Tests the archive of a release as one who has the archive alone: unpacks it into an empty folder, builds its examples there, and fetches each
# file of the site from them by Linux's TCP.
#
#     sh ports/archive/test.sh              makes the archive twice (sh release.sh), which must give the same bytes, and tests it
#     sh ports/archive/test.sh ARCHIVE      tests this archive
#
# The client is examples/browse.py with fetch.py. What the machine lacks is skipped, with a line. The status is 0 if nothing failed.
case "$1" in -h|--help) sed -n '2,9s/^# \{0,1\}//p' "$0"; exit 0;; esac
top=$(cd "$(dirname "$0")/../.." && pwd)
room=$(mktemp -d) || exit 1
trap 'rm -rf "$room"' EXIT
trap 'exit 1' INT TERM
wrong=0

# try WHAT COMMAND ..: runs a command and prints its result; if it fails also the end of its output.
try() {
    tried=$1; shift
    if "$@" >"$room/log" 2>&1; then echo "passed: $tried"; return; fi
    tail -5 "$room/log"
    echo "FAILED: $tried"
    wrong=1
    return 1
}
# has PROGRAM WHAT: whether a program is here; else prints what is skipped.
has() { command -v "$1" >/dev/null || { echo "skipped: $2: no command $1 here"; false; }; }

archive=$1
if [ -z "$archive" ]; then
    for run in one two; do try "release.sh, run $run" sh "$top/release.sh" "$room/$run" || exit 1; done
    archive=$(echo "$room"/one/*.tar.gz)
    try "two runs give the same bytes" cmp "$archive" "$(echo "$room"/two/*.tar.gz)"
fi
mkdir "$room/alone" && tar -xzf "$archive" -C "$room/alone" || exit 1
cd "$room"/alone/* || exit 1
echo "$(basename "$archive"): $(wc -c <"$archive") bytes, $(find . -type f | wc -l) files"

# ---- what is in it

# The calls for frames are in the library that README names for them, and in that alone.
calls() { "${NM:-nm}" "$1" 2>/dev/null | grep -cE ' T uip_(open_ether|input_frame_area|periodic_frame)$'; }
frame_calls() {
    for folder in lib/*; do
        case "$folder" in lib/wasm|lib/cmake|lib/pkgconfig) continue;; esac
        ether=$folder/libuip_c_ether.a plain=0
        [ -f "$ether" ] || { ether=$folder/libuip_c.a; plain=3; }
        echo "$folder: $(calls "$folder/libuip_c.a") and $(calls "$ether")"
        [ "$(calls "$folder/libuip_c.a")" = "$plain" ] && [ "$(calls "$ether")" = 3 ] || return 1
    done
}
# only NAME COUNT CALLS: in each folder but that for WebAssembly the library of this name has these calls, this number of them, and no others.
only() {
    for folder in lib/*; do
        case "$folder" in lib/cmake|lib/pkgconfig) continue;; esac
        echo "$folder/$1"
        [ -f "$folder/$1" ] || return 1
        [ "$folder" != lib/wasm ] || continue
        [ "$("${NM:-nm}" "$folder/$1" 2>/dev/null | grep -cE " T uip_($3)$")" = "$2" ] || return 1
        [ "$("${NM:-nm}" "$folder/$1" 2>/dev/null | grep -cE ' T uip_')" = "$2" ] || return 1
    done
}
both_calls='open_ether|input_frame_area|periodic_frame|set_value|hits|query|ticks|counter|is_idle|connection|close|listen|read|write'
try "each file has its SHA-256" sha256sum --quiet -c SHA256SUMS
try "README.md names libuip_c_ether.a" grep -q 'libuip_c_ether\.a' README.md
has "${NM:-nm}" "the calls for frames" && try "the calls for frames" frame_calls &&
    try "the calls of uip_app.h" only libuip_app_c.a 7 'app_(open|listen|input_frame_area|periodic_frame|read|write|close)' &&
    try "the calls of uip_both.h" only libuip_both_c.a 14 "$both_calls"
has cc "pack.py" && try "pack.py packs the site as an array of C" sh -c 'python3 tools/pack.py examples/site site.c && cc -Wall -Werror -Wno-unused-const-variable -c site.c'

# ---- the firmware

# fetches EXAMPLE COMPILER WORD ..: builds a firmware with the words for make, and fetches each file from it.
fetches() {
    example=$1 what="$1 by $2"; shift 2
    rm -f "examples/$example"/*.elf
    try "$what: built" make -C "examples/$example" "$@" || return
    case "$example" in
    m4) machine="qemu-system-arm -M mps2-an386 -kernel {}" image=firmware.elf;;
    rv32) machine="qemu-system-riscv32 -M virt -bios none -drive if=pflash,unit=0,format=raw,readonly=on,file={}" image=flash.bin
        objcopy=$(command -v riscv64-unknown-elf-objcopy || command -v llvm-objcopy) || { echo "skipped: $what: no objcopy here"; return; }
        "$objcopy" -O binary examples/rv32/firmware.elf examples/rv32/flash.bin && truncate -s 32M examples/rv32/flash.bin;;
    esac
    has "${machine%% *}" "$what: every file" || return
    try "$what: every file" python3 "$top/examples/browse.py" --board "examples/$example/$image" --machine "$machine" -- \
        python3 "$top/examples/fetch.py" examples/site
    [ "$example" = m4 ] || return
    on_ethernet "$what: every file on Ethernet, by ARP" ether linux-ether
    on_ethernet "$what: the console and Modbus of an application of its own" app linux-app
    on_ethernet "$what: every file of a device with pages and such an application" both linux-ether
    on_ethernet "$what: its console and Modbus" both linux-app
}
# on_ethernet WHAT FIRMWARE TEST: runs the test of a folder of examples with this firmware.
on_ethernet() {
    try "$1" env BOARD="qemu-system-arm -M mps2-an386 -kernel $PWD/examples/m4/$2.elf" SECONDS_UP="${SECONDS_UP:-10}" LINES=50 sh "$top/examples/$3/run.sh"
}
has arm-none-eabi-gcc "m4 by gcc" && fetches m4 arm-none-eabi-gcc
has riscv64-unknown-elf-gcc "rv32 by gcc" && fetches rv32 riscv64-unknown-elf-gcc
if has clang "firmware by clang" && has ld.lld "firmware by clang"; then
    fetches m4 clang CC="clang --target=thumbv7em-none-eabi -fuse-ld=lld"
    fetches rv32 clang CC="clang --target=riscv32-unknown-elf -fuse-ld=lld" ARCH=rv32imac
fi

# ---- programs for this machine

serves() { python3 "$top/examples/browse.py" "$1" web/site.img -- python3 "$top/examples/fetch.py" examples/site; }
with_pkg_config() {
    words=$(PKG_CONFIG_PATH=$1/pkgconfig pkg-config --cflags --libs uip_c) || return 1
    # shellcheck disable=SC2086
    cc -O2 examples/serve.c examples/linux/heap.c $words -o by_pkg_config && serves "$PWD/by_pkg_config" || return 1
    words=$(PKG_CONFIG_PATH=$1/pkgconfig pkg-config --define-variable=libdir="$PWD/lib/m4" --define-variable=library=uip_c_ether --libs uip_c)
    case "$words " in "-L$PWD/lib/m4 -luip_c_ether "*) ;; *) echo "$words"; return 1;; esac
    words=$(PKG_CONFIG_PATH=$1/pkgconfig pkg-config --define-variable=library=uip_both_c --cflags --libs uip_c) || return 1
    # shellcheck disable=SC2086
    cc -O2 -include uip_both.h examples/linux/tap.c examples/linux/heap.c $words -o both_by_pkg_config
}
# The folder of the package, and the library that cmake should find there for m4.
with_cmake() {
    rm -rf by_cmake && mkdir by_cmake
    cat >by_cmake/CMakeLists.txt <<END
cmake_minimum_required(VERSION 3.10)
project(serve C)
find_package(uip_c CONFIG REQUIRED)
add_executable(serve ../examples/serve.c ../examples/linux/heap.c)
target_link_libraries(serve uip_c::uip_c)
add_executable(tap ../examples/linux/tap.c ../examples/linux/heap.c)
target_link_libraries(tap uip_c::uip_c_ether)
add_executable(both ../examples/linux/tap.c ../examples/linux/heap.c)
target_link_libraries(both uip_c::uip_both_c)
if(NOT TARGET uip_c::uip_app_c)
    message(FATAL_ERROR "no uip_c::uip_app_c")
endif()
END
    cmake -S by_cmake -B by_cmake/out -DCMAKE_PREFIX_PATH="$1" && cmake --build by_cmake/out && serves "$PWD/by_cmake/out/serve" || return 1
    echo 'get_target_property(is uip_c::uip_c_ether IMPORTED_LOCATION)
message(FATAL_ERROR "for m4 ${is}.")' >>by_cmake/CMakeLists.txt
    cmake -S by_cmake -B by_cmake/m4 -DCMAKE_PREFIX_PATH="$1" -DUIP_C_TARGET=m4 2>&1 | grep "for m4 $2\."
}
both_tap() {
    make -C examples/linux clean uip_tap LIBRARY=../../lib/x86_64/libuip_both_c.a &&
        PROGRAM="$PWD/examples/linux/uip_tap" SECONDS_UP="${SECONDS_UP:-8}" sh "$top/examples/linux-ether/run.sh"
}
installs() {
    make -C "$top" install DESTDIR="$room/root" PREFIX=/usr "$@" || return 1
    with_pkg_config "$room/root/usr/lib" && with_cmake "$room/root/usr" "$room/root/usr/lib/libuip_c.a"
}
if has cc "programs for Linux"; then
    try "the programs for Linux: built" make -C examples/linux && try "uip_serve: every file" serves examples/linux/uip_serve
    try "uip_tap: every file, by ARP" env PROGRAM="$PWD/examples/linux/uip_tap" SECONDS_UP="${SECONDS_UP:-8}" sh "$top/examples/linux-ether/run.sh"
    try "uip_tap with libuip_both_c.a: every file, by ARP" both_tap
    has pkg-config "pkg-config" && try "pkg-config: two programs, and the library for m4" with_pkg_config "$PWD/lib"
    has cmake "cmake" && try "cmake: three programs, and the library for m4" with_cmake "$PWD" "$PWD/lib/m4/libuip_c_ether.a"
    what="make install DESTDIR="
    built=1
    for library in uip_c uip_app_c uip_both_c; do [ -f "$top/crates/$library/out/lib$library.a" ] || built=0; done
    if [ -x "$top/crates/uipd/out/uipd" ] && [ $built = 1 ]; then
        has pkg-config "$what" && has cmake "$what" && try "$what: a program by pkg-config, and by cmake" installs
    else
        echo "skipped: $what: \`make\` has not built the program and the libraries"
    fi
fi
exit $wrong
