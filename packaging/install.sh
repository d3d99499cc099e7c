#!/bin/sh
# Installs the C library, its headers, sources and manual pages, and the files for pkg-config and CMake. `make install` compiles the
# libraries and calls it. If the program uipd is built, it is installed too.
#
#     sh packaging/install.sh DESTDIR PREFIX
[ $# = 2 ] || { sed -n '2,5s/^# \{0,1\}//p' "$0"; exit 2; }
cd "$(dirname "$0")/.." || exit 1
to=$1$2
version=$(sh packaging/version.sh)
fail() { echo "install: $1" >&2; exit 1; }
# put MODE FOLDER FILE ..: copies files into a folder of the prefix.
put() {
    mode=$1 folder=$to/$2; shift 2
    install -d "$folder" && install -m "$mode" "$@" "$folder/" || fail "not installed: $*"
}
# filled FILE FOLDER NAME: the same with a file that has places for the version and the library's folder.
filled() {
    install -d "$to/$2" || fail "no folder $to/$2"
    # shellcheck disable=SC2016
    sed "s|@VERSION@|$version|; s|@MAJOR@|${version%%.*}|"'; s|@LIBDIR@|${prefix}/lib|' "packaging/$1" >"$to/$2/$3" ||
        fail "not written: $3"
    chmod 644 "$to/$2/$3"
}

put 644 lib out/libuip_c.a out/libuip_app_c.a out/libuip_both_c.a
put 644 include dist/uip.h dist/uip_app.h dist/uip_both.h
put 644 share/lowunbisa dist/uip.c dist/heap.c support/step.c support/step.h support/ticks.h support/text.h support/token.h \
    support/outcome.h
filled uip_c.pc.in lib/pkgconfig uip_c.pc
put 644 lib/cmake/uip_c packaging/uip_c-config.cmake
filled uip_c-config-version.cmake.in lib/cmake/uip_c uip_c-config-version.cmake
install -d "$to/bin" && install -m 755 tools/pack.py "$to/bin/uip-pack" || fail "not installed: uip-pack"
filled uip-pack.1.in share/man/man1 uip-pack.1
install -d "$to/share/man/man3" &&
    python3 packaging/header.py man "$to/share/man/man3" "$version" include/uip.h >/dev/null || fail "no manual pages"
if [ -x crates/uipd/out/uipd ]; then
    put 755 bin crates/uipd/out/uipd
    put 644 share/man/man1 crates/uipd/uipd.1
fi
echo "Lowunbisa $version is in $to: cc main.c \$(pkg-config --cflags --libs uip_c); man 3 uip"
