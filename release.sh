#!/bin/sh
# Makes the archive of a release, lowunbisa-VERSION.tar.gz, and a file with its SHA-256 beside it.
#
#     sh release.sh [FOLDER]      FOLDER is where they go; out/ if none is given
#
# The archive has the headers, the libraries for all targets, the program (if rt run in crates/uipd has built it), the page with a node
# inside, tools/pack.py, examples that build against the archive alone, files for pkg-config and CMake, documents and checksums. Two runs
# for one commit give the same bytes: the files have the time of the commit (SOURCE_DATE_EPOCH names another). Needs what
# `sh ports/run.sh` needs to build, GNU tar and git.
case "$1" in -h|--help) sed -n '2,9s/^# \{0,1\}//p' "$0"; exit 0;; esac
top=$(cd "$(dirname "$0")" && pwd)
fail() { echo "release: $1" >&2; exit 1; }
cd "$top" || exit 1
version=$(sh packaging/version.sh)
name=lowunbisa-$version
mkdir -p "${1:-out}" || exit 1
out=$(cd "${1:-out}" && pwd)
made=$out/$name
umask 022
rm -rf "$made"
mkdir -p "$made" || exit 1

# put TO FILE ..: copies files into a folder of the archive.
put() {
    folder=$made/$1
    shift
    mkdir -p "$folder" && cp "$@" "$folder/" || fail "not copied: $*"
}
# If a file is there: put TO FILE.
put_if() { [ ! -e "$2" ] || put "$1" "$2"; }

libraries() {
    for target in $(sh ports/run.sh targets); do
        sh ports/run.sh "$target" library || fail "no library for $target"
        put "lib/$target" "ports/out/$target/libuip_c.a"
        put "lib/$target" "ports/out/$target/libuip_c_ether.a"
        for kind in app both; do
            sh ports/run.sh "$target" $kind-library || fail "no libuip_${kind}_c.a for $target"
            put "lib/$target" "ports/out/$target/libuip_${kind}_c.a"
        done
    done
    mkdir -p ports/out/aarch64
    for library in uip_c uip_app_c uip_both_c; do
        sh ports/aarch64.sh $library "ports/out/aarch64/lib$library.a" || fail "no lib$library.a for aarch64"
        put lib/aarch64 "ports/out/aarch64/lib$library.a"
        put lib/x86_64 "ports/out/$library.a"
        mv "$made/lib/x86_64/$library.a" "$made/lib/x86_64/lib$library.a"
    done
    put include include/uip.h include/uip_app.h include/uip_both.h
    put lib/cmake/uip_c packaging/uip_c-config.cmake
    sed "s|@VERSION@|$version|; s|@MAJOR@|${version%%.*}|" packaging/uip_c-config-version.cmake.in >"$made/lib/cmake/uip_c/uip_c-config-version.cmake"
    mkdir -p "$made/lib/pkgconfig"
    # shellcheck disable=SC2016
    sed "s|@VERSION@|$version|"'; s|@LIBDIR@|${prefix}/lib/x86_64|' packaging/uip_c.pc.in >"$made/lib/pkgconfig/uip_c.pc"
}

program() {
    if [ ! -x crates/uipd/out/uipd ]; then
        echo "release: bin/uipd is left out: rt run in crates/uipd has not built it"
        return
    fi
    put bin crates/uipd/out/uipd
    put share/man/man1 crates/uipd/uipd.1
}

# The page without its tests; node.wasm and the site lie beside it.
page() {
    for file in $(git ls-files web | grep -v '^web/test/'); do put "$(dirname "$file")" "$file"; done
    put web ports/out/wasm/node.wasm examples/site.img
}

examples() {
    put examples examples/browse.py support/heap.c support/step.c support/step.h support/text.h support/ticks.h \
        support/token.h support/outcome.h
    put tools tools/pack.py
    put examples/site examples/site/*
    put examples/firmware examples/firmware/*.[ch]
    put examples/firmware/site examples/firmware/site/*
    put examples/firmware/gate_site examples/firmware/gate_site/*
    put examples/firmware/settings_site examples/firmware/settings_site/*
    put examples/firmware/door_site examples/firmware/door_site/*
    put examples/common examples/board/main.c examples/board/state.c examples/board/ether.c examples/board/app.c examples/board/both.c \
        examples/board/answer.c examples/board/answer.h examples/board/alarm.h examples/board/board.h examples/board/ring.h \
        examples/board/ring.c examples/board/runtime.c examples/board/site.S \
        examples/linux-app/console.c examples/linux-app/modbus.c
    put examples/common/fallback examples/board/fallback/string.h
    put examples boards/shared.h boards/cortex_m.h boards/riscv.h boards/link.ld
    put examples/m4 ports/archive/m4/Makefile boards/mps2-an386/board.c boards/mps2-an386/ether.c
    put examples/rv32 ports/archive/rv32/Makefile boards/virt-rv32/board.c
    put examples/linux ports/archive/linux/Makefile examples/linux-c/heap.c examples/linux-ether/tap.c
    put dist dist/*
    put examples examples/serve.c
}

documents() {
    sed "s|@VERSION@|$version|" ports/archive/README.md.in >"$made/README.md" || fail "no README.md"
    put docs docs/FIRMWARE.md docs/PAGES.md docs/FORMATS.md docs/LIMITS.md
    cp ports/README.md "$made/docs/PORTS.md" || fail "no ports/README.md"
    put_if . CHANGELOG.md
    for file in LICENSE LICENSE-*; do put_if . "$file"; done
}

archive() {
    (cd "$made" && find . -type f ! -name SHA256SUMS | LC_ALL=C sort | xargs sha256sum >SHA256SUMS) || fail "no checksums"
    find "$made" -type d -exec chmod 755 {} + && find "$made" -type f -exec chmod a+r,go-w {} +
    time=${SOURCE_DATE_EPOCH:-$(git log -1 --format=%ct)}
    tar --sort=name --format=ustar --owner=0 --group=0 --numeric-owner --mtime="@$time" -C "$out" -cf "$out/$name.tar" "$name" || fail "tar failed"
    gzip -9 -n -f "$out/$name.tar" || fail "gzip failed"
    (cd "$out" && sha256sum "$name.tar.gz" | tee "$name.tar.gz.sha256")
}

libraries
program
page
examples
documents
archive
