#!/bin/sh
# Tests the page of web/. Reports what it skipped, and ends with 0 if nothing failed.
#
#     sh web/test/run.sh            all: the client under node, the page in the browsers, planted faults that need no browser
#     sh web/test/run.sh client     the client alone, also beside a device with a secret; browser: the page alone
#     sh web/test/run.sh quick      the planted faults that need no browser; planted: all planted faults
#     sh web/test/run.sh inside     what needs no program: the device inside, under node and in the browsers
#
# It needs node 20.14 or later and python3, and for the page Chromium or Firefox (CHROMIUM and FIREFOX name others). If crates/uipd is
# not built (UIPD names another program), node.wasm takes its place, and tests that need the program are skipped. PATIENCE=4 waits four
# times as long for the page, for a busy machine.
case "$1" in -h|--help) sed -n '2,11s/^# \{0,1\}//p' "$0"; exit 0;; esac
cd "$(dirname "$0")/../.." || exit 1
command -v node >/dev/null || { echo "web: no node here: nothing was tested"; exit 1; }
log=$(mktemp) || exit 1
trap 'rm -f "$log"' EXIT
status=0

# Runs the tests of some files in at most LIMIT seconds. Reports how many passed, what failed, and why tests were skipped.
tests() {
    name=$1; limit=$(($2 * ${PATIENCE:-1})); shift 2
    timeout "$limit" node --test --test-force-exit --test-concurrency=1 --test-reporter=spec "$@" >"$log" 2>&1
    result=$?
    [ "$result" = 0 ] || { status=1; grep -A12 '^✖' "$log"; }
    if [ "$result" = 124 ]; then echo "web: $name: ended after $limit s, with $(grep -c '^ *✔' "$log") passed"; return; fi
    sed -n 's/^﹣.* # /skipped: /p' "$log" | sort | uniq -c | sed 's/^ *\([0-9]*\) skipped:/skipped: \1 tests of the page:/'
    count() { sed -n "s/^ℹ $1 //p" "$log"; }
    seconds=$(count duration_ms)
    echo "web: $name: $(count pass) passed, $(($(count fail) + $(count cancelled))) failed in $((${seconds%%.*} / 1000)) s"
}

suites() { for suite in "$@"; do printf 'web/test/%s.test.mjs ' "$suite"; done; }

# shellcheck disable=SC2046
client() {
    if [ -x "${UIPD:-crates/uipd/out/uipd}" ]; then
        tests "the client under node, with uipd" 600 $(suites wire scripted line sequence parts stalls transfer many inside)
        more="transfer many"
    else
        echo "web: uipd is not built: the device inside takes its place"
        more="wire scripted line sequence parts stalls transfer many inside"
    fi
    export INSIDE=1
    # shellcheck disable=SC2086
    tests "the client under node, with the device inside" 600 $(suites $more)
    export PROTECTED=1
    tests "the client under node, with a device that has a secret" 600 $(suites parts stalls transfer many inside)
    unset INSIDE PROTECTED
}
# shellcheck disable=SC2046
inside() {
    export INSIDE=1
    tests "the device inside, under node" 400 $(suites parts stalls transfer many inside)
    unset INSIDE
    tests "the device inside the page" 900 web/test/page.test.mjs
}
browser() {
    tests "the page with a node at its line" 600 web/test/browser.test.mjs
    tests "the page with the device inside" 900 web/test/page.test.mjs
}
# All, or with --quick those that need no browser, in at most $1 seconds.
planted() { timeout "$(($1 * ${PATIENCE:-1}))" node web/test/planted.mjs $2 || { echo "web: a planted fault was not found, or not all were tried in time"; status=1; }; }

case "${1:-all}" in
    client) client;;
    inside) inside;;
    browser) browser;;
    quick) planted 900 --quick;;
    planted) planted 4000;;
    all) client; browser; planted 900 --quick;;
    *) echo "run.sh: unknown word $1; --help lists them" >&2; exit 2;;
esac
exit $status
