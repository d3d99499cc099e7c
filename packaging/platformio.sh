#!/bin/sh
# Makes the PlatformIO library: the folder Lowunbisa with library.json and sources, to be put into lib/ of a project. It has no Arduino
# class: for a project with the framework arduino take the folder of packaging/arduino.sh, which PlatformIO reads too.
#
#     sh packaging/platformio.sh FOLDER
[ $# = 1 ] || { sed -n '2,5s/^# \{0,1\}//p' "$0"; exit 2; }
mkdir -p "$1" || exit 1
library=$(cd "$1" && pwd)/platformio/Lowunbisa
cd "$(dirname "$0")/.." || exit 1
rm -rf "$library"
mkdir -p "$library/src" || exit 1
sed "s|@VERSION@|$(sh packaging/version.sh)|" packaging/library.json.in >"$library/library.json"
cp dist/uip.c dist/uip.h dist/uip_app.h dist/uip_both.h dist/heap.c support/step.c support/step.h support/ticks.h support/text.h \
    support/token.h support/outcome.h "$library/src/" && cp LICENSE LICENSE-MIT LICENSE-APACHE "$library/" || exit 1
echo "$library"
