#!/bin/sh
# Builds a library for C for aarch64 by `rt lib`, and leaves that for this machine in its place.
#
#     sh ports/aarch64.sh CRATE FILE.a     CRATE is uip_c, uip_app_c or uip_both_c; what rt printed is in FILE.a.log
#
# It does nothing if the file is newer than the sources of the crates. Needs the command rt.
case "$1" in -h|--help|"") sed -n '2,6s/^# \{0,1\}//p' "$0"; exit 0;; esac
top=$(cd "$(dirname "$0")/.." && pwd)
built=$top/crates/$1/out/lib$1.a
fail() { echo "aarch64: $1" >&2; exit 1; }
[ ! -f "$2" ] || [ -n "$(find "$top/crates" -name '*.rt' -newer "$2" | head -1)" ] || exit 0
command -v rt >/dev/null || fail "no library of these sources at $2, and no command rt to build it"
host=$2.host.$$    # the library for this machine
put_back() { if [ -f "$host" ]; then mv "$host" "$built"; fi; }
trap put_back EXIT
trap 'exit 1' INT TERM
if [ -f "$built" ]; then mv "$built" "$host"; fi
(cd "$top/crates/$1" && rt lib --target aarch64-unknown-linux-gnu) >"$2.log" 2>&1 || { tail -5 "$2.log" >&2; fail "rt lib failed in crates/$1"; }
mv "$built" "$2"
