#!/bin/sh
# Makes the Arduino library: the folder Lowunbisa and its .zip, which the IDE takes by Sketch, Include Library, Add .ZIP Library. It has
# sources alone, so it is for each board of 32 bits. `make arduino` calls it.
#
#     sh packaging/arduino.sh FOLDER
[ $# = 1 ] || { sed -n '2,5s/^# \{0,1\}//p' "$0"; exit 2; }
mkdir -p "$1" || exit 1
out=$(cd "$1" && pwd)/arduino
cd "$(dirname "$0")/.." || exit 1
library=$out/Lowunbisa
fail() { echo "arduino: $1" >&2; exit 1; }
rm -rf "$out"
mkdir -p "$library/src" "$library/examples/Site" || exit 1
sed "s|@VERSION@|$(sh packaging/version.sh)|" packaging/arduino/library.properties.in >"$library/library.properties"
cp dist/uip.c dist/uip.h packaging/arduino/Lowunbisa.h packaging/arduino/Lowunbisa.cpp "$library/src/" || fail "no sources"
cp packaging/arduino/Site.ino "$library/examples/Site/" && cp LICENSE LICENSE-MIT LICENSE-APACHE "$library/" || fail "no sketch"
python3 tools/pack.py packaging/arduino/site "$library/examples/Site/site.h" || fail "the site was not packed"
python3 - "$out" <<'END' || fail "no archive"
import sys, zipfile, os
out = sys.argv[1]
with zipfile.ZipFile(os.path.join(out, "Lowunbisa.zip"), "w", zipfile.ZIP_DEFLATED) as archive:
    for place, folders, files in os.walk(os.path.join(out, "Lowunbisa")):
        folders.sort()
        for name in sorted(files):
            path = os.path.join(place, name)
            entry = zipfile.ZipInfo(os.path.relpath(path, out).replace(os.sep, "/"))
            entry.compress_type = zipfile.ZIP_DEFLATED
            with open(path, "rb") as file:
                archive.writestr(entry, file.read())
END
echo "$out/Lowunbisa.zip"
