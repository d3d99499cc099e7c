#!/bin/sh
# Makes the Debian package liblowunbisa-dev of this machine's architecture: the C library, its headers, sources and manual pages, and
# uip-pack. `make deb` calls it. The same commit gives the same bytes.
#
#     sh packaging/deb.sh FOLDER
[ $# = 1 ] || { sed -n '2,5s/^# \{0,1\}//p' "$0"; exit 2; }
mkdir -p "$1" || exit 1
out=$(cd "$1" && pwd)
cd "$(dirname "$0")/.." || exit 1
fail() { echo "deb: $1" >&2; exit 1; }
command -v dpkg-deb >/dev/null || fail "no dpkg-deb here"
version=$(sh packaging/version.sh)
machine=$(dpkg --print-architecture) || fail "no architecture"
name=liblowunbisa-dev
root=$out/deb
SOURCE_DATE_EPOCH=${SOURCE_DATE_EPOCH:-$(git log -1 --format=%ct 2>/dev/null || date +%s)}
export SOURCE_DATE_EPOCH
umask 022
rm -rf "$root"
sh packaging/install.sh "$root" /usr >/dev/null || fail "not installed"
rm -f "$root/usr/bin/uipd" "$root/usr/share/man/man1/uipd.1"      # it is not of the C file
doc=$root/usr/share/doc/$name
mkdir -p "$doc/examples" "$root/DEBIAN"
sed -i '1s|^#!.*|#!/usr/bin/python3|' "$root/usr/bin/uip-pack"
strip --strip-debug --remove-section=.comment --remove-section=.note "$root"/usr/lib/*.a || fail "not stripped"
cp examples/serve.c "$doc/examples/" && sed -i 's|"../dist/uip.h"|"uip.h"|' "$doc/examples/serve.c" || fail "no example"
find "$root/usr/share/man" -type f -exec gzip -9 -n {} +
{
    printf 'Format: https://www.debian.org/doc/packaging-manuals/copyright-format/1.0/\nUpstream-Name: Lowunbisa\n\nFiles: *\n'
    printf 'Copyright: 2026 The Lowunbisa authors\nLicense: Apache-2.0 or Expat\n'
    printf 'Comment:\n'
    sed -n '/^Of the run-time/,/^$/p' LICENSE | sed '/^$/d; s/^/ /'
    printf '\nLicense: Apache-2.0\n On Debian systems the text is in /usr/share/common-licenses/Apache-2.0.\n\nLicense: Expat\n'
    sed '1,/^Copyright/d; s/^$/./; s/^/ /' LICENSE-MIT | sed '/./,$!d'
} >"$doc/copyright"
gzip -9 -n >"$doc/changelog.gz" <<END
$name ($version) unstable; urgency=medium

  * The version $version: see CHANGELOG.md of the sources.

 -- The Lowunbisa authors <authors@lowunbisa.invalid>  $(LC_ALL=C date -u -R -d "@$SOURCE_DATE_EPOCH")
END
cat >"$root/DEBIAN/control" <<END
Package: $name
Version: $version
Architecture: $machine
Maintainer: The Lowunbisa authors <authors@lowunbisa.invalid>
Installed-Size: $(du -sk "$root/usr" | cut -f1)
Depends: python3:any
Suggests: gcc-arm-none-eabi
Section: libdevel
Priority: optional
Description: TCP/IP stack with a web server for small devices, as a C library
 A device shows a few values in a browser, and has a few buttons there. The
 library serves a folder of pages over a serial line, datagrams or Ethernet,
 without an operating system. Its source is proved; the translation to C and
 the compiled code are tested.
 .
 The package has the library for this machine, the sources for firmware in
 /usr/share/lowunbisa, and uip-pack, which packs a folder of pages.
END
(cd "$root" && find usr -type f | LC_ALL=C sort | xargs md5sum >DEBIAN/md5sums)
dpkg-deb --root-owner-group --build "$root" "$out/${name}_${version}_$machine.deb" >/dev/null || fail "dpkg-deb failed"
rm -rf "$root"
echo "$out/${name}_${version}_$machine.deb"
