#!/bin/sh
# Builds C programs with the library on this machine, and makes each call of the library, from C and from C++. Compares what a
# program writes for recorded lines with what uipd writes, with a heap over malloc and with one over an array of UIP_MEMORY bytes.
# Also builds a program that shows this machine's load in its pages.
#
#     sh examples/linux-c/run.sh
#
# It needs a C compiler, the library that `rt lib` builds in crates/uip_c, and the program that `rt run` builds in crates/uipd. If one
# is not built and rt is on the path, it is built first, which takes some minutes. CC and CXX name other compilers, LIBRARY and UIPD
# another library and another program.
case "$1" in -h|--help) sed -n '2,11s/^# \{0,1\}//p' "$0"; exit 0;; esac
here=$(cd "$(dirname "$0")" && pwd)
top=$(cd "$here/../.." && pwd)
library=${LIBRARY:-$top/crates/uip_c/out/libuip_c.a}
uipd=${UIPD:-$top/crates/uipd/out/uipd}
site=$top/examples/site.img
fail() { echo "linux-c: $1" >&2; exit 1; }
cc=${CC:-cc}
cxx=${CXX:-c++}
command -v "$cc" >/dev/null || fail "there is no C compiler $cc"
if [ -z "$LIBRARY" ] && { [ ! -f "$library" ] || [ -n "$(find "$top/crates" -name '*.rt' -newer "$library" | head -1)" ]; }; then
    command -v rt >/dev/null || fail "no library of these sources at $library, and no command rt to build it"
    (cd "$top/crates/uip_c" && rt lib) >/dev/null || fail "rt lib failed in crates/uip_c"
fi
mkdir -p "$here/out"
strict="-pedantic -Wall -Wextra -Wconversion -Werror"
# The header, and a use of its inline functions, in each standard of a language.
compiles() {
    compiler=$1 language=$2
    shift 2
    for standard; do
        printf '#include "uip.h"\nunsigned t(uip_device *d, unsigned char *o, uip_sink s);\n%s\n' \
            'unsigned t(uip_device *d, unsigned char *o, uip_sink s) { return uip_tick_all(d, o, UIP_MIN_OUT, s, 0); }' |
            "$compiler" "-std=$standard" $strict -I"$top/include" -x "$language" -fsyntax-only - \
            || fail "the header does not compile as $standard"
    done
}
compiles "$cc" c c90 gnu90 c99 c11 c17
"$cc" -std=c99 $strict -I"$top/include" -fsyntax-only "$top/support/step.c" || fail "support/step.c does not compile"
! command -v "$cxx" >/dev/null || compiles "$cxx" c++ c++98 c++11 c++14 c++17
# build NAME HEAP OUTPUT WORDS: a program, with the words for its compiler.
build() { "$cc" -O2 -Wall -Wextra -I"$top/include" $4 "$here/$1.c" "$2" "$library" -o "$here/out/$3" || fail "$3 was not built"; }
build ../serve "$here/heap.c" uip_serve
build state "$here/heap.c" uip_state
"$cc" -O2 -Wall -Wextra -I"$top/include" "$here/text_test.c" -o "$here/out/text_test" && "$here/out/text_test" || fail "support/text.h does not do what it states"
"$cc" -O2 -Wall -Wextra -I"$top/include" "$here/token_test.c" -o "$here/out/token_test" && "$here/out/token_test" || fail "support/token.h does not do what it states"
"$cc" -O2 -Wall -Wextra -I"$top/include" "$here/outcome_test.c" -o "$here/out/outcome_test" && "$here/out/outcome_test" ||
    fail "support/outcome.h does not do what it states"
build step "$here/heap.c" uip_step "$top/support/step.c"
build each_call "$here/heap.c" uip_each_call
build each_call "$top/support/heap.c" uip_each_call_array "-DUIP_HEAP_SIZE=UIP_MEMORY(1)"
"$here/out/uip_each_call" || fail "a call has an unexpected result"
"$here/out/uip_each_call_array" || fail "a call has an unexpected result, with a heap of one array"
if command -v "$cxx" >/dev/null; then
    "$cc" -O2 -I"$top/include" -c "$here/heap.c" -o "$here/out/heap.o" || fail "the heap was not built"
    "$cxx" -std=c++11 $strict -I"$top/include" -x c++ "$here/each_call.c" -x none "$here/out/heap.o" "$library" -o "$here/out/uip_each_call_cxx" \
        || fail "the C++ program was not built"
    "$here/out/uip_each_call_cxx" || fail "a call has an unexpected result from C++"
    "$cxx" -std=c++11 $strict -I"$top/include" -x c++ -fsyntax-only "$top/support/heap.c" || fail "support/heap.c is not C++"
else
    echo "skipped: the C++ program, since there is no compiler $cxx"
fi
# The site in an array of UIP_MEMORY bytes, and of 64 bytes less.
files=$(od -An -j8 -N2 -tu1 "$site" | awk '{ print $1 * 256 + $2 }')
build ../serve "$top/support/heap.c" uip_serve_array "-DUIP_HEAP_SIZE=UIP_MEMORY($files)"
build ../serve "$top/support/heap.c" uip_serve_short "-DUIP_HEAP_SIZE=UIP_MEMORY($files)-64"
"$here/out/uip_serve_short" serve "$site" 10.0.0.1 </dev/null 2>"$here/out/short" && fail "a device was opened in 64 bytes less than UIP_MEMORY"

if [ ! -x "$uipd" ]; then
    command -v rt >/dev/null || fail "there is no program $uipd to compare with, and no command rt to build it"
    (cd "$top/crates/uipd" && rt run) >/dev/null
    [ -x "$uipd" ] || fail "rt run failed in crates/uipd"
fi
# compare LINE WORDS: a recorded line, with the words after the address.
compare() {
    line=$1; shift
    "$uipd" serve "$site" 10.0.0.1 "$@" <"$line" >"$here/out/by_uipd" || fail "uipd failed on $line"
    for program in uip_serve uip_serve_array; do
        "$here/out/$program" serve "$site" 10.0.0.1 "$@" <"$line" >"$here/out/by_c" || fail "$program failed on $line"
        cmp "$here/out/by_uipd" "$here/out/by_c" || fail "$program writes other bytes than uipd for $line $*"
    done
    echo "the same $(wc -c <"$here/out/by_c") bytes for $(basename "$line") $*"
}
compare "$top/examples/ping.slip"
# [add: counter] fetch.slip: the page that it fetches has all counters
compare "$top/examples/fetch.slip"
# The loop of support/step.c, with pieces of random sizes, and a port that is busy for a random time.
"$uipd" serve "$site" 10.0.0.1 <"$top/examples/fetch.slip" >"$here/out/by_uipd" || fail "uipd failed on fetch.slip"
for seed in 1 2 3 4 5 6 7 8 9; do
    "$here/out/uip_step" serve "$site" 10.0.0.1 $seed <"$top/examples/fetch.slip" >"$here/out/by_c" || fail "uip_step failed on fetch.slip"
    cmp "$here/out/by_uipd" "$here/out/by_c" || fail "uip_step writes other bytes than uipd for fetch.slip, with seed $seed"
done
echo "the same bytes by the loop of step.c"
compare "$top/examples/fetch.slip" pace 97
compare "$top/examples/fetch.slip" pace 1
echo "The site by the C program: python3 examples/browse.py examples/linux-c/out/uip_serve -- python3 examples/fetch.py"
echo "This machine's load in a page: python3 examples/browse.py examples/linux-c/out/uip_state examples/state.img"
