#!/bin/sh
# Tests the packages: each is made, installed into an empty folder and used as one who has it alone. What this machine lacks is skipped.
#
#     sh packaging/test.sh
case "$1" in -h|--help) sed -n '2,4s/^# \{0,1\}//p' "$0"; exit 0;; esac
top=$(cd "$(dirname "$0")/.." && pwd)
cd "$top" || exit 1
room=$(mktemp -d) || exit 1
trap 'rm -rf "$room"' EXIT
trap 'exit 1' INT TERM
cc=${CC:-cc} cxx=${CXX:-c++}
version=$(sh packaging/version.sh)
wrong=0

# try WHAT COMMAND ..: runs a test, and prints its result; if it fails also the end of its output.
try() {
    what=$1; shift
    if "$@" >"$room/log" 2>&1; then echo "passed: $what"; return; fi
    tail -8 "$room/log"
    echo "FAILED: $what"
    wrong=1
    return 1
}
# has WHAT PROGRAM ..: whether these programs are here.
has() {
    what=$1; shift
    for program; do command -v "$program" >/dev/null || { echo "skipped: $what: no $program here"; return 1; }; done
}
answers() { python3 examples/ping.py "$@" | grep -q 'checksums right'; }

# ---- one version

# The header has it. The program, its page and the packages have the same.
one_version() {
    short=${version%.*}
    grep -q "\"uipd $short\\\\n\"" crates/uipd/src/help.rt || { echo "crates/uipd/src/help.rt has not uipd $short"; return 1; }
    grep -q "^\.TH UIPD 1 \"\" \"Lowunbisa $short" crates/uipd/uipd.1 || { echo "crates/uipd/uipd.1 has not $short"; return 1; }
    grep -q "^## .*$short" CHANGELOG.md || { echo "CHANGELOG.md has no heading with $short"; return 1; }
    for part in MAJOR MINOR PATCH; do
        [ "$(grep "UIP_VERSION_$part" include/uip.h)" = "$(grep "UIP_VERSION_$part" dist/uip.h)" ] || { echo "dist/uip.h differs"; return 1; }
    done
    [ "$(echo "$version" | tr . ' ' | wc -w)" = 3 ]
}

# ---- make install, pkg-config, CMake

installs() { make install DESTDIR="$room/root" PREFIX=/usr CC="$cc"; }
example() { sed 's|"../dist/|"|' examples/serve.c >"$room/serve.c"; }
by_pkg_config() {
    export PKG_CONFIG_PATH="$room/root/usr/lib/pkgconfig"
    [ "$(pkg-config --modversion uip_c)" = "$version" ] && pkg-config --exists "uip_c >= $version" || return 1
    ! pkg-config --exists "uip_c > $version" || return 1
    example
    # shellcheck disable=SC2046
    "$cc" -O2 "$room/serve.c" $(pkg-config --cflags --libs uip_c) -o "$room/by_pkg_config" && answers "$room/by_pkg_config" serve - 10.0.0.1
}
# finds VERSION: a project that asks for this version.
finds() {
    rm -rf "$room/cmake" && mkdir "$room/cmake" && example
    cat >"$room/cmake/CMakeLists.txt" <<END
cmake_minimum_required(VERSION 3.10)
project(serve C)
find_package(uip_c $1 REQUIRED CONFIG)
add_executable(serve ../serve.c)
target_link_libraries(serve uip_c::uip_c)
if(NOT TARGET uip_c::uip_app_c OR NOT TARGET uip_c::uip_both_c)
    message(FATAL_ERROR "a library is missing")
endif()
END
    cmake -S "$room/cmake" -B "$room/cmake/out" -DCMAKE_PREFIX_PATH="$room/root/usr" -DCMAKE_C_COMPILER="$cc"
}
by_cmake() {
    major=${version%%.*}
    for asked in "$version" "$major" "${version%.*}" "$version EXACT"; do finds "$asked" || { echo "$asked is refused"; return 1; }; done
    cmake --build "$room/cmake/out" && answers "$room/cmake/out/serve" serve - 10.0.0.1 || return 1
    for other in $((major + 1)) "$major.99" $((major - 1)).0; do ! finds "$other" || { echo "$other is found"; return 1; }; done
}
# The calls of each library are those that its header declares.
calls() {
    for pair in uip_c:uip.h uip_app_c:uip_app.h uip_both_c:uip_both.h; do
        nm "$room/root/usr/lib/lib${pair%:*}.a" | sed -n 's/.* T \(uip_.*\)/\1/p' | sort >"$room/has"
        echo "${pair%:*}: $(wc -l <"$room/has") calls"
        for call in $(cat "$room/has"); do
            grep -q "\b$call(" "$room/root/usr/include/${pair#*:}" "$room/root/usr/include/uip.h" || { echo "$call is not in ${pair#*:}"; return 1; }
        done
    done
    nm "$room/root/usr/lib/libuip_app_c.a" | grep -q ' T uip_app_open$' && nm "$room/root/usr/lib/libuip_both_c.a" | grep -q ' T uip_listen$'
}
packs() {
    "$room/root/usr/bin/uip-pack" examples/site "$room/site.img" && "$room/root/usr/bin/uip-pack" check "$room/site.img" | grep -q '^files 6$'
}
pages() {
    folder=$room/root/usr/share/man
    for page in "$folder"/man1/* "$folder"/man3/*; do
        LC_ALL=C.UTF-8 MANWIDTH=80 man --warnings -E UTF-8 -l -Tutf8 -Z "$page" 2>>"$room/warnings" >/dev/null || return 1
    done
    if [ -s "$room/warnings" ]; then cat "$room/warnings"; return 1; fi
    # Each call that the header declares outside a comment has a page.
    sed '/^\/\*/,/\*\//d' include/uip.h | sed -n 's/^[a-zU].*[ *]\(uip_[a-z_]*\)(uip_device .*/\1/p' | sort -u | grep -v _area >"$room/calls"
    [ "$(wc -l <"$room/calls")" -gt 15 ] || return 1
    while read -r call; do [ -f "$folder/man3/$call.3" ] || { echo "no page for $call"; return 1; }; done <"$room/calls"
}

# ---- Debian, Arduino, PlatformIO

deb() {
    make deb CC="$cc" || return 1
    package=$(echo out/liblowunbisa-dev_"$version"_*.deb)
    dpkg-deb -x "$package" "$room/deb" && example || return 1
    "$cc" -O2 -I"$room/deb/usr/include" "$room/serve.c" "$room/deb/usr/lib/libuip_c.a" -o "$room/by_deb" && answers "$room/by_deb" serve - 10.0.0.1 || return 1
    sum=$(sha256sum "$package") && sh packaging/deb.sh out && [ "$sum" = "$(sha256sum "$package")" ]
}
lint() { lintian --allow-root --fail-on error --tag-display-limit 0 out/liblowunbisa-dev_"$version"_*.deb; }
arduino() {
    sh packaging/arduino.sh "$room" || return 1
    library=$room/arduino/Lowunbisa core=packaging/arduino/core
    for field in name version author maintainer sentence paragraph category url architectures; do
        grep -q "^$field=." "$library/library.properties" || { echo "library.properties has no $field"; return 1; }
    done
    grep -q "^version=$version$" "$library/library.properties" || return 1
    words="-Wall -Wextra -Werror -Os -I$library/src -I$core"
    # shellcheck disable=SC2086
    "$cc" $words -c "$library/src/uip.c" -o "$room/uip.o" &&
        "$cxx" -std=gnu++11 -fno-exceptions -fno-rtti $words -I"$library/examples/Site" -include Arduino.h -x c++ "$library/examples/Site/Site.ino" \
            "$library/src/Lowunbisa.cpp" "$core/core.cpp" -x none "$room/uip.o" -o "$room/sketch" && answers "$room/sketch"
}
platformio() {
    sh packaging/platformio.sh "$room" || return 1
    library=$room/platformio/Lowunbisa
    python3 - "$library/library.json" "$version" <<'END' || return 1
import json, sys
with open(sys.argv[1], encoding="utf8") as file:
    about = json.load(file)
sys.exit(0 if about["version"] == sys.argv[2] and all(about.get(it) for it in ("name", "description", "keywords", "license", "authors")) else 1)
END
    printf '#include "uip.h"\n#include "site.c"\n#define UIP_HEAP_SIZE UIP_MEMORY(SITE_IMAGE_FILES)\n#include "heap.c"\n#include "step.h"\n%s\n' \
        'static uip_device it = UIP_INIT; int main(void) { return (int)uip_open(&it, site_image, SITE_IMAGE_LEN, (const unsigned char *)"\12\0\0\1").status; }' \
        >"$room/main.c"
    python3 tools/pack.py examples/site "$room/site.c" &&
        "$cc" -O1 -I"$library/src" -I"$room" "$room/main.c" "$library/src/uip.c" -o "$room/by_platformio" && "$room/by_platformio"
}

# ---- what is made of the header, the fuzzer, README's program

reference() { sh packaging/reference.sh "$room/reference" && grep -q 'uip_set_value' "$room"/reference/html/group__section*.html; }
fuzzes() {
    clang -O1 -fsanitize=fuzzer,address fuzz/libfuzzer/entry.c dist/uip.c -o "$room/libfuzzer" || return 1
    (cd "$room" && ./libfuzzer -max_len=2048 -len_control=10 -max_total_time="${FUZZ_SECONDS:-10}" -print_final_stats=1)
}
# The program of README compiles, and links with the C file.
readme() {
    {
        printf '#include <stddef.h>\nstatic size_t uart_read(unsigned char *bytes, size_t room) { (void)bytes; (void)room; return 0; }\n'
        printf 'static void uart_write(void *to, const unsigned char *bytes, size_t len) { (void)to; (void)bytes; (void)len; }\n'
        printf 'static unsigned milliseconds(void) { return 0; }\n'
        sed -n '/^## From C/,/^## /s/^    //p' README.md
    } >"$room/readme.c"
    grep -q uip_feed_all "$room/readme.c" && python3 tools/pack.py examples/site "$room/site.c" &&
        "$cc" -std=c11 -pedantic -Wall -Wextra -Werror -Idist -Isupport -I"$room" -c "$room/readme.c" -o "$room/readme.o" &&
        "$cc" "$room/readme.o" dist/uip.c -o "$room/readme"
}

try "one version, $version" one_version
try "README's program in C" readme
if try "make install" installs; then
    has "pkg-config" pkg-config && try "pkg-config: a program" by_pkg_config
    has "CMake" cmake && try "CMake: a program, and which versions are found" by_cmake
    has "the calls of each library" nm && try "the calls of each library" calls
    try "uip-pack" packs
    has "the manual pages" man groff && try "the manual pages" pages
    if has "the Debian package" dpkg-deb strip && try "the Debian package: a program, and the same bytes twice" deb; then
        has "lintian" lintian && try "lintian finds no error" lint
    fi
fi
has "the Arduino library" "$cxx" && try "the Arduino library: its sketch answers" arduino
try "the PlatformIO library" platformio
has "the reference by Doxygen" doxygen && try "the reference by Doxygen" reference
has "TypeScript declarations" node && try "web/uip.d.ts declares what web/uip.js has" node packaging/declarations.mjs
has "libFuzzer" clang && try "libFuzzer: ${FUZZ_SECONDS:-10} seconds" fuzzes
exit $wrong
