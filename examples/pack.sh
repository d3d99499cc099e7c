#!/bin/sh
# Packs the example site into examples/site.img, and the site of a device with a state into examples/state.img, by the program, and
# lists the files of the images.
#
#     sh examples/pack.sh
#
# It needs the built program: `rt run` in crates/uipd proves and builds it. UIPD names another program.
case "$1" in -h|--help) sed -n '2,7s/^# \{0,1\}//p' "$0"; exit 0;; esac
here=$(cd "$(dirname "$0")" && pwd)
uipd=${UIPD:-$here/../crates/uipd/out/uipd}
[ -x "$uipd" ] || { echo "pack.sh: no program at $uipd: \`rt run\` in crates/uipd builds it" >&2; exit 1; }
cd "$here/site" || exit 1
"$uipd" pack /index.html=index.html /stats.shtml=stats.shtml /footer.html=footer.html \
    /style.css=style.css /logo.png=logo.png /404.html=404.html >"$here/site.img" || exit $?
"$uipd" check "$here/site.img" || exit $?

# A script whose page is not HTML names its content type, which an image of version 2 has.
plain=$(mktemp) || exit 1
trap 'rm -f "$plain"' EXIT
cd "$here/state" || exit 1
"$uipd" pack /index.html=index.html /state.shtml=state.shtml /now.shtml=now.shtml /lamp-on.html=lamp-on.html \
    /lamp-off.html=lamp-off.html /alarm.shtml=alarm.shtml /style.css=style.css >"$plain" || exit $?
"$uipd" upgrade "$plain" /state.shtml=application/json >"$here/state.img" || exit $?
"$uipd" check "$here/state.img"
