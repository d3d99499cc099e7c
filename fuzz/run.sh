#!/bin/sh
# Makes the calls of the libraries for C in random ways, and looks whether each returns what its header and the formats foretell.
#
#     sh fuzz/run.sh [SECONDS] [SEED]     so long in all, a minute where none is named; then lines recorded for uipd are compared
#     sh fuzz/run.sh calls CALLS SEED [mixed]    CALLS calls; with `mixed` of both kinds of link on one device
#     sh fuzz/run.sh asan CALLS SEED [mixed]     the same, with the harness under the address and undefined-behaviour sanitizers
#     sh fuzz/run.sh planted              puts faults between the harness and the library, and sees that each is found
#     sh fuzz/run.sh app CALLS SEED       CALLS calls of include/uip_app.h; app-asan and app-planted as above
#     sh fuzz/run.sh both CALLS SEED      CALLS calls of include/uip_both.h; both-asan and both-planted as above
#
# It needs a C compiler on Linux, the library as `rt lib` in crates/uip_c builds it (for app: in crates/uip_app_c, for both: in
# crates/uip_both_c), and the program as `rt run` in crates/uipd does: what is not built there is not built here. With LIBRARY=c the
# library is dist/uip.c, which needs no kit: SOURCE names another C file, LIBRARY_CC its compiler with all its words (cc -O2). CC names
# another compiler, LIBRARY and UIPD another library and another program, OUT another folder than fuzz/out, and FAULTS single numbers of
# planted faults.
case "$1" in -h|--help) sed -n '2,16s/^# \{0,1\}//p' "$0"; exit 0;; esac
here=$(cd "$(dirname "$0")" && pwd)
top=$(cd "$here/.." && pwd)
case "$1" in app*) name=uip_app_c set=-DUIP_APP;; both*) name=uip_both_c set=-DUIP_BOTH;; *) name=uip_c set='';; esac
library=${LIBRARY:-$top/crates/$name/out/lib$name.a}
uipd=${UIPD:-$top/crates/uipd/out/uipd}
cc=${CC:-cc}
out=${OUT:-$here/out}
fail() { echo "fuzz: $1" >&2; exit 1; }
command -v "$cc" >/dev/null || fail "no C compiler $cc here"
mkdir -p "$out"
if [ "$library" = c ]; then
    library=$out/$name.o
    # shellcheck disable=SC2086
    ${LIBRARY_CC:-$cc -O2} $set -I"$top/dist" -c "${SOURCE:-$top/dist/uip.c}" -o "$library" || fail "the C file was not compiled"
fi
[ -f "$library" ] || fail "no library at $library: \`rt lib\` in crates/$name builds it"
# The harness by its name and the compiler's words.
words="-std=gnu11 -g -Wall -Wextra -I$top/include"
# shellcheck disable=SC2086
build() { built=$1; shift; "$cc" $words "$@" "$library" -o "$out/$built" || fail "no $built was built"; }
# The sources of the harness for uip_app.h.
app="$here/app/*.c"
shared="random report areas heap wire link arp model guard forged"
for part in $shared; do app="$app $here/$part.c"; done
# And for uip_both.h: those with the pages, and the clients that request them.
both="-DBOTH $here/both/pages.c"
for part in calls main node peers program; do both="$both $here/app/$part.c"; done
for part in $shared sites values requests clients reads; do both="$both $here/$part.c"; done
# planted COUNT SOURCES FILE CALLS WORDS: the faults 1 to COUNT of a file, in the place of these calls; the words follow the seconds.
planted() {
    faults=$1 sources=$2 file=$3 calls=$4 missed=0
    shift 4
    wraps=$(for call in $calls; do printf ' -Wl,--wrap=%s' "$call"; done)
    kind=${sources%%[ /]*}    # -DBOTH, or nothing
    rm -rf "$out/parts"
    mkdir "$out/parts"
    # shellcheck disable=SC2086
    (cd "$out/parts" && "$cc" $words -O1 -c $sources) || fail "the harness was not compiled"
    for plant in ${FAULTS:-$(seq "$faults")}; do
        # shellcheck disable=SC2086
        build planted -O1 $kind -DPLANT="$plant" $wraps "$out"/parts/*.o "$here/planted/$file"
        if "$out/planted" 20 "$@" >"$out/planted.txt"; then
            echo "MISSED $plant"
            missed=1
        else
            echo "$plant $(grep -a FINDING "$out/planted.txt")"
        fi
    done
    exit $missed
}
case "$1" in
calls)
    build fuzz -O2 "$here"/*.c
    exec "$out/fuzz" 1000000 "${2:-1000000}" "${3:-1}" $4;;
asan)
    build fuzz_asan -O1 -fsanitize=address,undefined -fno-sanitize-recover=all "$here"/*.c
    exec "$out/fuzz_asan" 1000000 "${2:-1000000}" "${3:-1}" $4;;
planted)
    calls="open open_ether feed periodic drain input periodic_datagram input_frame_area periodic_frame counter"
    calls="$calls set_value hits query is_idle connection close protect guard_counter"
    planted 49 "$here/*.c" planted.c "$(printf 'uip_%s ' $calls)" 3000000 1 mixed;;
app)
    # shellcheck disable=SC2086
    build fuzz_app -O2 $app
    exec "$out/fuzz_app" 1000000 "${2:-1000000}" "${3:-1}";;
app-asan)
    # shellcheck disable=SC2086
    build fuzz_app_asan -O1 -fsanitize=address,undefined -fno-sanitize-recover=all $app
    exec "$out/fuzz_app_asan" 1000000 "${2:-1000000}" "${3:-1}";;
app-planted)
    calls="open protect guard_counter listen input_frame_area periodic_frame read write close"
    planted 71 "$app" app.c "node_writes node_listens $(printf 'uip_app_%s ' $calls)" 3000000 1;;
both)
    # shellcheck disable=SC2086
    build fuzz_both -O2 $both
    exec "$out/fuzz_both" 1000000 "${2:-1000000}" "${3:-1}";;
both-asan)
    # shellcheck disable=SC2086
    build fuzz_both_asan -O1 -fsanitize=address,undefined -fno-sanitize-recover=all $both
    exec "$out/fuzz_both_asan" 1000000 "${2:-1000000}" "${3:-1}";;
both-planted)
    calls="open_ether protect guard_counter listen input_frame_area periodic_frame read write close set_value hits query is_idle"
    calls="$calls connection ticks counter"
    planted 103 "$both" both.c "node_writes node_listens node_receives $(printf 'uip_%s ' $calls)" 3000000 1;;
esac

seconds=${1:-60}
seed=${2:-$(date +%s)}    # the report tells it
build fuzz -O2 "$here"/*.c
"$out/fuzz" $((seconds * 2 / 5)) 1000000000000 "$seed" || exit 1
"$out/fuzz" $((seconds * 2 / 5)) 1000000000000 "$seed" mixed || exit 1
[ -x "$uipd" ] || { echo "skipped: no line was compared with uipd, since it is not at $uipd"; exit 0; }
rm -rf "$out/lines"
mkdir "$out/lines"
"$out/fuzz" $((seconds / 10 + 1)) 400000 "$seed" record "$out/lines" || exit 1
count=0
for words in "$out"/lines/*.words; do
    name=${words%.words}
    # shellcheck disable=SC2046
    "$uipd" serve "$name.site" $(cat "$words") <"$name.line" >"$name.by_uipd" || fail "uipd failed on $name"
    cmp "$name.by_uipd" "$name.said" || fail "uipd writes other bytes than the library for $name"
    count=$((count + 1))
done
bytes() { cat "$out"/lines/*."$1" | wc -c; }
echo "uipd serve writes the same for $count recorded lines, $(bytes line) bytes in and $(bytes said) out"
