#!/bin/sh
# Sends queries for names to a DNS server, dnsmasq, over a line, and prints the results.
#
#     sh examples/test/resolve.sh
#
# It needs Linux, /dev/net/tun, `ip`, python3 and dnsmasq, and the built program: `rt run` in crates/uipd builds it.
case "$1" in -h|--help) sed -n '2,6s/^# \{0,1\}//p' "$0"; exit 0;; esac
here=$(cd "$(dirname "$0")" && pwd)
command -v dnsmasq >/dev/null || { echo "resolve.sh: no dnsmasq here (the package dnsmasq-base), so no query is sent"; exit 0; }
exec python3 "$here/resolve.py" "$@"
