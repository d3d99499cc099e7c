#!/bin/sh
# Tests the tests of module.sh. A kit of its own takes the place of the real one and breaks one habit of `rt` after the other: module.sh must
# name the habit. Nothing is proved.
#
#     sh ports/module_test.sh      needs what a run of module.sh left in ports/out
case "$1" in -h|--help) sed -n '2,5s/^# \{0,1\}//p' "$0"; exit 0;; esac
ports=$(cd "$(dirname "$0")" && pwd)
out=$ports/out
fail() { echo "module_test: $1" >&2; exit 1; }
[ -f "$out/uip_c/clang.words" ] || fail "ports/out has no module: sh ports/module.sh makes it"
room=$(mktemp -d) || exit 1
trap 'rm -rf "$room"' EXIT
mkdir -p "$room/ports" "$room/crates/uip_c" "$room/kit/bin" "$room/kit/toolchain/bin"
cp "$ports/module.sh" "$room/ports/"
ln -s "$(readlink -f "$out/kit/toolchain/bin/ld.lld")" "$room/kit/toolchain/bin/clang"
: >"$room/kit/bin/rtlib.py"
words=$(sed "s|^--sysroot=.*||; s|^module.o$|out/module.o|; s|^module.bc$|out/module.bc|" "$out/uip_c/clang.words" | tr '\n' ' ')
library="cp $out/uip_c.a out/libuip_c.a"
wrong=0

# expect MESSAGE COMMANDS: an rt of these commands, which run in the crate's folder with the clang of its kit; the last line of module.sh.
expect() {
    { echo '#!/bin/sh'; echo 'clang=$(cd "$(dirname "$0")/../toolchain/bin" && pwd)/clang'; echo 'mkdir -p out'; echo "$2"; } >"$room/kit/bin/rt"
    chmod +x "$room/kit/bin/rt"
    last=$(KIT=$room/kit sh "$room/ports/module.sh" 2>&1 | tail -1)
    case "$last" in
    *"$1"*) echo "as expected: $last";;
    *) echo "WRONG: $last; expected: $1"; wrong=1;;
    esac
}
expect "rt lib failed" 'exit 1'
expect "habit 1" "$library"
expect "habit 2" "\"\$clang\" --version; $library"
expect "habit 2" "for at in 1 2; do cp $out/uip_c/module.bc out/module.bc; \"\$clang\" $words; done; $library"
expect "habit 3" "cp $out/uip_c/module.bc out/module.bc; \"\$clang\" -O1 -fPIC --target=x86_64-unknown-linux-gnu -c -x ir out/module.bc -o out/module.o; $library"
expect "the verdict" "cp $out/uip_c/module.bc out/module.bc; \"\$clang\" $words; $library; echo the verdict"
exit $wrong
