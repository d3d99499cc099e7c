#!/bin/sh
# Tries dist/uip.c with each compiler that is here, and needs no kit.
#
#     sh ports/run.sh dist-compilers [WORD ..]       all, or the tests whose line has one of the words
#
#     messages     each set of calls compiles without a message by gcc and clang, as C99 and as C++11, and by tcc; cppcheck has none
#     lines        examples/serve.c with it, by each compiler, writes on each recorded line what the built uipd does (UIPD names it), or
#                  else what web/node.wasm does
#     firmware     one of a Cortex-M4F with hard floating point serves every file under qemu, and the Arduino sketch does
#
# A line reports each test: passed, FAILED, or skipped with what this machine lacks. The status is 0 if none failed.
case "$1" in -h|--help) sed -n '2,11s/^# \{0,1\}//p' "$0"; exit 0;; esac
top=$(cd "$(dirname "$0")/.." && pwd)
room=$(mktemp -d) || exit 1
trap 'rm -r "$room"' EXIT
trap 'exit 1' INT TERM
asked=$*
failed=0 passed=0 skipped=0 programs=''

# is_asked LINE: whether the words of the command line name it.
is_asked() {
    [ -n "$asked" ] || return 0
    for word in $asked; do case "$1" in *"$word"*) return 0;; esac; done
    return 1
}
skip() { echo "skipped: $1: $2"; skipped=$((skipped + 1)); }
# try LINE PROGRAMS COMMAND ..: runs a test that needs these programs. Its output is shown if it fails.
try() {
    line=$1 needs=$2
    shift 2
    is_asked "$line" || return 1
    for program in $needs; do command -v "$program" >/dev/null || { skip "$line" "no $program here"; return 1; }; done
    if "$@" >"$room/told" 2>&1; then
        passed=$((passed + 1)); echo "passed: $line"
    else
        failed=$((failed + 1)); tail -15 "$room/told"; echo "FAILED: $line"; return 1
    fi
}
# silent COMMAND ..: whether a command ends well and writes nothing.
silent() { "$@" >"$room/said" 2>&1 && [ ! -s "$room/said" ] || { cat "$room/said"; return 1; }; }

# ---- no message

# shellcheck disable=SC2086
for set in UIP_ALL_CALLS UIP_NO_ETHERNET UIP_APP UIP_BOTH; do    # the first is no definition of the file
    strict="-pedantic -Wall -Wextra -Wconversion -O2 -D$set -I$top/dist -c $top/dist/uip.c -o $room/uip.o"
    try "messages: $set: gcc -std=c99" gcc silent gcc -std=c99 $strict
    try "messages: $set: gcc -std=c99 -m32" gcc silent gcc -std=c99 -m32 $strict
    try "messages: $set: clang -std=c99" clang silent clang -std=c99 $strict
    try "messages: $set: g++ -std=c++11" g++ silent g++ -std=c++11 -x c++ $strict
    try "messages: $set: clang++ -std=c++11" clang++ silent clang++ -std=c++11 -x c++ $strict
    try "messages: $set: tcc" tcc silent tcc -Wall -D$set "-I$top/dist" -c "$top/dist/uip.c" -o "$room/uip.o"
    try "messages: $set: cppcheck" cppcheck silent cppcheck --quiet --error-exitcode=1 --enable=warning,portability --std=c99 -D$set \
        "-I$top/dist" "$top/dist/uip.c"
done

# ---- recorded lines

# program NAME COMMAND ..: builds examples/serve.c, to be tried below.
program() {
    name=$1
    shift
    try "lines: built by $*" "$1" "$@" "$top/examples/serve.c" "$top/dist/uip.c" -o "$room/$name" && programs="$programs $room/$name"
}
checked="-g -O1 -fsanitize=undefined,address -fno-sanitize-recover=all"
program cc cc -O2
program gcc gcc -O2
program m32 gcc -m32 -O2
program clang clang -O2
program tcc tcc -DUIP_MALLOC
# shellcheck disable=SC2086
{
program gcc_checked gcc $checked
program clang_checked clang $checked
}
# shellcheck disable=SC2086
[ -z "$programs" ] || try "lines: what each of these programs writes" python3 python3 "$top/examples/test/test_serve.py" --lines $programs

# ---- firmware

# The firmware of a Cortex-M4F: its work between the bytes has floating point in it.
hard_float() {
    cat >"$room/pages.c" <<'END'
#define work lamp_work
#include "first.c"
#undef work
static volatile float half = 0.5f;
void work(void) { half = half * 3.0f - 1.0f; if (half == 0.5f) lamp_work(); }
END
    make -s -C "$top/boards" BOARD=mps2-an386 STACK=4096 "PAGES=$room/pages.c" "out=$room/board" \
        MORE="-mfloat-abi=hard -mfpu=fpv4-sp-d16 -I$top/examples/first" run &&
        arm-none-eabi-readelf -A "$room/board/firmware.elf" | grep -q "Tag_ABI_VFP_args: VFP registers"
}
if [ -w /dev/net/tun ]; then
    try "firmware: Cortex-M4F, hard floating point" "arm-none-eabi-gcc qemu-system-arm python3 make ip" hard_float
    try "firmware: the Arduino sketch, on a core of its own" "arm-none-eabi-g++ qemu-system-arm python3 ip" sh "$top/boards/arduino_test/run.sh"
else
    skip firmware "/dev/net/tun cannot be opened"
fi
echo "each compiler: $passed passed, $failed failed, $skipped skipped"
[ $failed = 0 ]
