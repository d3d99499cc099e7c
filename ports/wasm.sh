# shellcheck shell=sh disable=SC2154,SC2086
# The target wasm, for run.sh: node.wasm, a node for a page or for node. It exports the calls of uip.h, except those for Ethernet, which no
# page makes, and what wasm.c lists.
UIP_CALLS="open protect feed periodic drain input periodic_datagram ticks counter guard_counter is_idle connection set_value hits query close"

wasm_link() { wasm-ld --no-entry --gc-sections --strip-all -O2 --stack-first "$@" || fail "wasm-ld failed"; }

# The stack is lowest in the memory: one that grows too far traps.
node_wasm() {
    c_code -Os "$ports/wasm.c" -o "$to/wasm.o"
    c_code -Os "$example/runtime.c" -o "$to/runtime.o"
    exports=$(for call in $UIP_CALLS; do printf ' --export=uip_%s' "$call"; done)
    for name in image device in out own result; do exports="$exports --export=$name"; done
    wasm_link -z stack-size=16384 $exports "$to/serial.o" "$to/wasm.o" "$to/runtime.o" -o "$to/node.wasm"
}

wasm() {
    node_wasm
    echo "$to/node.wasm: $(wc -c <"$to/node.wasm") bytes, $(gzip -9 -n -c "$to/node.wasm" | wc -c) by gzip"
    case "$1" in
    build|library|usage) return;;
    state) set -- "$top/examples/state.img" "$top/examples/fetch.py" "$top/examples/state";;
    *) set -- "$site" "$top/examples/fetch.py";;
    esac
    image=$1
    shift
    command -v node >/dev/null || fail "no node here: it is in the package nodejs"
    printf '#!/bin/sh\nexec node "%s" "%s" "$@"\n' "$ports/serve.mjs" "$to/node.wasm" >"$to/serve"
    chmod +x "$to/serve"
    python3 "$top/examples/browse.py" "$to/serve" "$image" -- python3 "$@"
}
