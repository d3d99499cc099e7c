# shellcheck shell=sh disable=SC2154,SC2086
# The same calls, for run.sh: the fuzzer runs on this machine with the library of the proof run, record.c writes each of its calls and
# results to a pipe, and replay.c makes them again on the target. record_app.c and replay_app.c are those of uip_app.h. For uip_both.h the
# first two are compiled with BOTH.
RECORDED_BOTH="open_ether protect guard_counter input_frame_area periodic_frame ticks counter is_idle connection set_value hits query close"
RECORDED="open feed periodic drain input periodic_datagram $RECORDED_BOTH"
RECORDED_APP="open protect guard_counter listen input_frame_area periodic_frame read write close"

# The words for the linker that put the recorder between the fuzzer and these calls: wrapped PREFIX CALL ..
wrapped() {
    prefix=$1
    shift
    for call; do printf ' -Wl,--wrap=%s_%s' "$prefix" "$call"; done
}

recorder() {
    if [ ! -f "$out/$crate.a" ] || [ -n "$(find "$top/crates" -name '*.rt' -newer "$out/$crate.a" | head -1)" ]; then
        sh "$ports/module.sh" "$crate" || exit 1
    fi
    record=$out/record-$crate
    if [ -x "$record" ] && [ -z "$(find "$ports/same" "$top/fuzz" "$top/include" "$out/$crate.a" -name '*.[ach]' -newer "$record")" ]; then
        return
    fi
    case "$crate" in
    uip_c)
        wraps="$(wrapped uip $RECORDED) -Wl,--wrap=make_site"
        set -- "$top"/fuzz/*.c "$ports/same/record.c";;
    uip_app_c)
        wraps=$(wrapped uip_app $RECORDED_APP)
        set -- "$top"/fuzz/app/*.c "$ports/same/record_app.c";;
    uip_both_c)
        wraps="$(wrapped uip $RECORDED_BOTH listen read write) -Wl,--wrap=make_site"
        set -- -DBOTH "$top/fuzz/both/pages.c" "$ports/same/record.c"
        for part in calls main node peers program; do set -- "$@" "$top/fuzz/app/$part.c"; done
        for part in sites values requests clients reads; do set -- "$@" "$top/fuzz/$part.c"; done;;
    esac
    if [ "$crate" != uip_c ]; then
        for part in random report areas heap wire link arp model guard forged; do set -- "$@" "$top/fuzz/$part.c"; done
    fi
    "${CC:-cc}" -std=gnu11 -O2 -I"$top/include" -I"$ports/same" -I"$top/fuzz" $wraps -Wl,--wrap=rattle_alloc -Wl,--wrap=rattle_dealloc \
        "$@" "$out/$crate.a" -o "$record" || fail "the recorder was not built"
}

replayer() {
    case "$crate" in
    uip_c) replay_source=replay module=module;;
    uip_app_c) replay_source=replay_app module=app_module;;
    uip_both_c) replay_source=replay_both module=both_module;;
    esac
    case "$replay_source" in
    replay_both) c_code -O2 -DBOTH "$ports/same/replay.c" -o "$to/$replay_source.o";;
    *) c_code -O2 "$ports/same/$replay_source.c" -o "$to/$replay_source.o";;
    esac
    c_code -O2 "$example/runtime.c" -o "$to/replay_runtime.o"
    set -- "$to/$replay_source.o" "$to/replay_runtime.o" "$to/$module.o"
    case "$target" in
    wasm) replay=$to/$replay_source.wasm
        wasm_link --export=main --allow-undefined --initial-memory=67108864 "$@" -o "$replay";;
    *) replay=$to/$replay_source
        ld.lld -e _start "$@" -o "$replay" || fail "ld.lld failed";;
    esac
}

# The instructions of speed.c, by qemu's log.
speed() {
    command -v "${user%% *}" >/dev/null || fail "no ${user%% *} here: it is in the package $package"
    [ "$target" != wasm ] || fail "instructions are not counted for wasm"
    c_code -Os "$ports/speed.c" -o "$to/speed.o"
    c_code -Os -DETHERNET "$ports/speed.c" -o "$to/speed_ether.o"
    c_code -Os "$example/runtime.c" -o "$to/runtime.o"
    ld.lld -e _start --gc-sections "$to/speed.o" "$to/runtime.o" "$to/libuip_c.a" -o "$to/speed" &&
        ld.lld -e _start --gc-sections "$to/speed_ether.o" "$to/runtime.o" "$to/libuip_c_ether.a" -o "$to/speed_ether" || fail "ld.lld failed"
    python3 "$ports/speed.py" "$user" "$to/speed" "$to/speed_ether"
}

# same CALLS SEED: once with both kinds of link on devices of their own, once mixed on one device; of the libraries with one kind, once.
same() {
    command -v "${user%% *}" >/dev/null || fail "no ${user%% *} here: it is in the package $package"
    recorder
    replayer
    status=0
    for kind in "" mixed; do
        { "$record" 1000000 "$1" "$2" $kind 3>&1 >"$to/record.txt"; } | $user "$replay" 2>"$to/replay.txt"
        now=$?
        [ $now = 0 ] || status=1
        grep -q "^seed" "$to/record.txt" || status=1
        head -1 "$to/record.txt"
        if [ -s "$to/replay.txt" ]; then head -3 "$to/replay.txt"; else echo "the replay ended with $now"; fi
        [ "$crate" = uip_c ] || break
    done
    return $status
}
