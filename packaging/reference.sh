#!/bin/sh
# Writes the reference of uip.h, from its comments: HTML by Doxygen into FOLDER/html.
#
#     sh packaging/reference.sh FOLDER
case "$1" in ''|-h|--help) sed -n '2,4s/^# \{0,1\}//p' "$0"; exit 0;; esac
mkdir -p "$1" || exit 1
out=$(cd "$1" && pwd)
cd "$(dirname "$0")/.." || exit 1
command -v doxygen >/dev/null || { echo "reference.sh: no doxygen here" >&2; exit 1; }
VERSION=$(sh packaging/version.sh) OUT=$out HEADER=include/uip.h doxygen packaging/doxygen/Doxyfile && echo "$out/html/index.html"
