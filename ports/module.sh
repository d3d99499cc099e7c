#!/bin/sh
# Proves a library for C and keeps the LLVM module from which it is compiled.
#
#     sh ports/module.sh [CRATE]     CRATE is uip_c, uip_app_c or uip_both_c; writes ports/out/CRATE.ll, the module as text, ports/out/CRATE.json, what the
#                                    proof says of it beside, and ports/out/CRATE.a, the library for this machine
#
# `rattle build --toolchain DIR` compiles the module with the clang of the directory DIR, as its help states. Here DIR is a directory of links
# to the toolchain of the kit, with a clang of its own: it copies the module and its words, and then runs the kit's clang. `rt` has no option
# for DIR, so it runs from a kit of links in ports/out/kit. The real kit is not changed. KIT names another kit than that of the `rt` on the
# path.
#
# Three habits of `rt` and `rattle` are not documented. Each run tests them, and fails with a message if one does not hold:
#     1. `rt` uses the toolchain of the kit from which it runs.
#     2. The module is passed to clang as one file FILE.bc.
#     3. The library consists of what clang made from that file.
case "$1" in
-h|--help) sed -n '2,16s/^# \{0,1\}//p' "$0"; exit 0;;
""|uip_c|uip_app_c|uip_both_c) crate=${1:-uip_c};;
*) echo "module.sh: unknown word $1" >&2; exit 2;;
esac
here=$(cd "$(dirname "$0")" && pwd)
top=$(cd "$here/.." && pwd)
out=$here/out
kept=$out/$crate
library=$top/crates/$crate/out/lib$crate.a
fail() { echo "ports: $1" >&2; exit 1; }
rt=$(command -v rt) || [ -n "$KIT" ] || fail "no command rt on the path, and KIT names no kit"
kit=${KIT:-$(dirname "$(dirname "$(readlink -f "$rt")")")}
[ -x "$kit/toolchain/bin/clang" ] || fail "no toolchain/bin/clang in the kit $kit"
real=$kit/toolchain/bin/clang

# A kit of links, except for `rt` and its module, which look for the kit around their own place, and for clang.
make_kit() {
    rm -rf "$out/kit"
    mkdir -p "$out/kit/bin" "$out/kit/toolchain/bin"
    for folder in . bin toolchain toolchain/bin; do
        for file in "$kit/$folder"/*; do
            [ -e "$out/kit/$folder/${file##*/}" ] || ln -s "$file" "$out/kit/$folder/"
        done
    done
    for file in rt rtlib.py; do rm "$out/kit/bin/$file" && cp "$kit/bin/$file" "$out/kit/bin/" || return 1; done
    rm "$out/kit/toolchain/bin/clang"
    cat >"$out/kit/toolchain/bin/clang" <<END
#!/bin/sh
echo call >>"$kept/clang.calls"
for word; do
    case "\$word" in *.bc)
        echo module >>"$kept/clang.calls"
        cp "\$word" "$kept/module.bc" && printf '%s\n' "\$@" >"$kept/clang.words" || exit 1;;
    esac
done
exec "$real" "\$@"
END
    chmod +x "$out/kit/toolchain/bin/clang"
}

# Habit 3: the kept words and the kept module give an object whose code is in the library.
compare_with_library() {
    set --
    skip=''
    while read -r word; do
        case "$skip$word" in
        -o) skip=1;;
        1*) skip='';;
        *.bc) set -- "$@" "$kept/module.bc";;
        *) set -- "$@" "$word";;
        esac
    done <"$kept/clang.words"
    "$real" "$@" -o "$kept/again.o" || fail "the kept module was not compiled again"
    ln -sf "$real" "$kept/llvm-ar"    # one program with several names
    "$kept/llvm-ar" p "$out/$crate.a" >"$kept/members" || fail "the library was not read"
    cmp -s "$kept/again.o" "$kept/members" || fail "the library is not what clang makes of the kept module (habit 3 above)"
}

# lib RT: runs `rt lib` with this rt.
lib() { (cd "$top/crates/$crate" && "$1" lib) >"$kept/lib.log" 2>&1 || { tail -5 "$kept/lib.log" >&2; fail "rt lib failed in crates/$crate"; }; }

# The rt of the kit proves first: it begins with what it keeps beside the kit for all checkouts, and a kit of links has no such place. The rt
# of the links then loads what that run has proved in this checkout.
mkdir -p "$kept"
lib "$kit/bin/rt"
make_kit || fail "no kit of links was made in $out/kit"
rm -f "$kept/module.bc" "$kept/clang.calls" "$kept/clang.words" "$out/$crate.ll" "$library"
lib "$out/kit/bin/rt"
[ -f "$kept/clang.calls" ] || fail "rt did not run the clang of the kit from which it runs (habit 1 above)"
[ "$(grep -c module "$kept/clang.calls")" = 1 ] || fail "clang did not receive one module as FILE.bc (habit 2 above): see $kept/clang.calls"
cp "$library" "$out/$crate.a" || exit 1
compare_with_library
"$real" -S -emit-llvm -Xclang -disable-llvm-passes -x ir "$kept/module.bc" -o "$out/$crate.ll" || fail "the module was not printed as text"
python3 "$here/proved.py" "$kit" "$top/crates" "$out/$crate.ll" "$out/$crate.json" || fail "what the proof says of the module was not noted"
tail -1 "$kept/lib.log"
