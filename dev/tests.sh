#!/bin/sh
# The tests that need no kit: of the C file, of the scripts, of the page and of the packages. `make test` runs them where the kit is not,
# and .ci/run after the gate.
#
#     sh dev/tests.sh [WORD ..]      all, or those whose name has one of the words
#
# PATIENCE=4 waits four times as long for each, for a busy machine.
# A line reports each: passed, passed in part if it skipped something, FAILED with the end of its output, or skipped with what this machine
# lacks. The status is 0 if none failed.
case "$1" in -h|--help) sed -n '2,9s/^# \{0,1\}//p' "$0"; exit 0;; esac
cd "$(dirname "$0")/.." || exit 1
log=$(mktemp) || exit 1
trap 'rm -f "$log"' EXIT
trap 'exit 1' INT TERM
begun=$(date +%s)
passed=0 partly=0 failed=0 skipped=0
words=$*

# has WHAT PROGRAM ..: whether these programs are here; else reports WHAT as skipped.
has() {
    what=$1; shift
    for program; do
        command -v "$program" >/dev/null || { echo "skipped: $what: no $program here"; skipped=$((skipped + 1)); return 1; }
    done
}
# is_asked WHAT: whether the words of the command line name it.
is_asked() {
    [ -n "$words" ] || return 0
    for word in $words; do case "$1" in *"$word"*) return 0;; esac; done
    return 1
}
# try SECONDS WHAT PROGRAMS COMMAND ..: runs a test that needs these programs, for at most these seconds.
try() {
    limit=$(($1 * ${PATIENCE:-1})) what=$2 needs=$3; shift 3
    is_asked "$what" || return 0
    # shellcheck disable=SC2086
    has "$what" $needs || return 0
    then=$(date +%s)
    [ ! -t 2 ] || printf 'running: %s\r' "$what" >&2
    timeout "$limit" "$@" >"$log" 2>&1; result=$?
    took=$(($(date +%s) - then))
    whole=
    if grep '^skipped' "$log"; then whole=" in part"; fi
    if [ $result = 0 ]; then
        passed=$((passed + 1)); [ -z "$whole" ] || partly=$((partly + 1)); echo "passed$whole: $what ($took s)"
    else
        failed=$((failed + 1)); tail -15 "$log"; echo "FAILED: $what: status $result after $took s"
    fi
}

cc=${CC:-cc}
try 60 "the C file: it compiles, and answers a ping" "python3 make $cc" make answers CC="$cc"
try 120 "the C file: recorded lines, terminals, the clock, make run" "python3 make $cc" python3 examples/test/test_serve.py
try 60 "the C file: as a library" "make $cc" make out/libuip_c.a CC="$cc"
try 400 "the C file: the programs of examples/firmware, with Linux's TCP" "python3 $cc ip unshare" \
    env LIBRARY="$PWD/out/libuip_c.a" sh examples/firmware/run.sh
try 300 "the packages" "python3 make $cc" sh packaging/test.sh
try 120 "tools/pack.py, with planted faults" python3 python3 tools/pack_test.py
try 30 "bench/peers: the figures in the documents, with planted faults" python3 python3 bench/peers/test.py
try 150 "examples/browse.py with a small node" python3 python3 examples/test/test_browse.py
try 300 "the page: its client, with the device inside" node \
    env INSIDE=1 node --test --test-force-exit --test-concurrency=1 web/test/wire.test.mjs web/test/sequence.test.mjs web/test/parts.test.mjs \
    web/test/inside.test.mjs
try 90 "docs/PAGES.md and dist/README.md: the first page and program" "python3 $cc" env CC="$cc" python3 examples/first/test.py
try 200 "docs/UIPD.md: each command, if uipd is built" python3 python3 examples/test/test_uipd.py
try 120 "the documents against the sources" python3 python3 dev.py docs
try 200 "dev.py finds what is planted" python3 python3 dev/test.py
echo "tests without the kit: $passed passed, $partly of them in part, $failed failed, $skipped skipped in $(($(date +%s) - begun)) s"
[ $failed = 0 ]
