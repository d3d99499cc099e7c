#!/usr/bin/env python3
"""Plants a fault in one rule of the guard, in a copy of the C file.

    python3 fuzz/guard/planted.py list                     each fault, with the test that must find it
    python3 fuzz/guard/planted.py FAULT UIP.c FAULTY.c     plants one

The test is `guarded` or `bare`, if an attack finds it (attacks.mjs), else `calls`, `app` or `both`: the fuzzer with this set of calls.
Each edit is a pattern that has to fit exactly once in its function, as the C file has it, or one of several, since compilers of that file
differ. It ends with 1 if none does.
"""
import re
import sys

TAKE, RANK, RANK_OF_BOTH, OUT = "guarded_node_input_take_arrived", "slot_guard_choice_rank", "slot_guard_choice_rank_3", "guarded_node_input_put_out"
PUT, PERIODIC = "segment_guard_lens_put_number", "guarded_node_input_guarded_periodic"
NAME = r"\w+"
INSIDE = r"\((?:[^()]|\((?:[^()]|\([^()]*\))*\))*\)"      # what is in one pair of parentheses
# The test of the source: 224 and above, 127, 0, and the comparison with the own address.
SOURCE = rf"\(({NAME} > 223)\) \|\| \(\(({NAME} == 127)\) \|\| \(\(({NAME} == 0)\) \|\| ({INSIDE})\)\)"
# The tests of a segment of a connection.
FLAGS = rf"if \(!\(\(\(u8\)\(({NAME}) & 18\) != 16\) \|\| ({NAME})\)\) \{{"
TEXT = rf"if \(\(\({NAME} - {NAME}\) \+ ({NAME})\) <= \(\1 \+ 65535\)\) \{{"
BARE = rf"if \(!\(\((\({NAME} - {NAME}\) > 1461u)\) \|\| \((\({NAME} - {NAME}\) > \(u32\){NAME})\)\)\) \{{"
RESET = rf"flag ({NAME}) = ({NAME}) != ({NAME});(.*?)\}} else \{{(\s*)if \(!\1\) \{{"
# A SYN to a port that is served, which belongs to no connection.
SYN = rf"if \(\(({NAME} == 20480)\) && \(({NAME}) == 2\)\) \{{"
# Whether the checksum of a segment is right: by a call, or in the function itself.
SUM = (rf"(= tcp_segment_received_checksum\(({NAME}),[^;]*\);\s*)if \(({NAME}) == 0\) \{{",
       rf"if \((\(\(\({NAME} >> 16\) \+ {NAME}\) & 65535\)) == 65535u\) \{{(\s*u16 {NAME} = bswap16\(get2u\(({NAME})\)\);\s*"
       rf"u16 {NAME} = get2u\({NAME} \+ 22\);)")
# Whether there is a secret: the first line of the lens, where it reads and where it writes.
KEY_IN = rf"if \({NAME} == 1\) \{{(\s*u8 \*{NAME} = \(u8 \*\)\(size_t\)get8\(a1 \+ 8\);)"
KEY_OUT = rf"if \({NAME}\[0\] == 1\) \{{(\s*u8 \*{NAME} = \(u8 \*\)\(size_t\)get8\(a0 \+ 8\);)"
# The count by a verdict: that of what was dropped is 32 bytes into the guard, that of what was given up 36.
COUNT = rf"put4\(({NAME}), get4\(\1\) \+ 1\);"
COUNT_DROPPED = rf"u8 \*({NAME}) = a0 \+ 32;\s*put4\(\1, get4\(\1\) \+ 1\);"
# Whether the host of a connection is that of the SYN.
OWN_HOST = (rf"flag ({NAME}) = [^;]*;(\s*)if \(\(a2 == 0\) \|\| \1\)", rf"flag ({NAME}) = [^;]*;(\s*)if \(\1\)")


def source_without(part):
    """The test of the source without one of its four parts."""
    def edit(found):
        kept = [found[number] if number != part else "0" for number in (1, 2, 3, 4)]
        return " || ".join(f"({text})" for text in kept)
    return TAKE, SOURCE, edit, "guarded"


def reset_if(test, by):
    """A RST passes by another test."""
    def edit(found):
        passes = test.format(seq=found[2], rcv=found[3])
        return f"flag {found[1]} = {found[2]} != {found[3]};{found[4]}}} else {{{found[5]}if ({passes}) {{"
    return TAKE, RESET, edit, by


# Each fault: the function, the pattern or several, what is put in the place of each, and what finds it.
FAULTS = {
    # The numbers
    "numbers-not-shifted": ("sip_hash_hash_of_12", r"\) \{", ") { return 0;", "guarded"),
    "what-is-sent-is-not-shifted": (OUT, KEY_OUT, r"if (0) {\1", "guarded"),
    "what-arrives-is-not-shifted": (TAKE, KEY_IN, r"if (0) {\1", "guarded"),
    "only-segments-with-ACK-are-shifted": (TAKE, rf"if \(({NAME})\[9\] == 6\) \{{", r"if (\1[9] == 6 && \1[33] & 16) {", "guarded"),
    "the-checksum-stays": (PUT, rf"put2u\({NAME}, [^;]*\);", "", "guarded"),
    "numbers-are-shifted-without-a-secret": (OUT, KEY_OUT, r"if (1) {\1", "bare"),
    # The sources
    "a-multicast-source-passes": source_without(1),
    "a-loopback-source-passes": source_without(2),
    "the-source-0-passes": source_without(3),
    "the-own-address-passes": source_without(4),
    # A RST
    "a-RST-in-the-window-passes": reset_if("{seq} - {rcv} <= 1461u", "guarded"),
    "any-RST-passes": reset_if("1", "guarded"),
    "a-RST-at-RCV.NXT-is-dropped": reset_if("0", "calls"),
    # What passes otherwise
    "a-bare-ACK-passes-anywhere": (TAKE, BARE, "if (1) {", "guarded"),
    "a-bare-ACK-has-any-sequence-number": (TAKE, BARE, r"if (!(\2)) {", "guarded"),
    "a-bare-ACK-acknowledges-anything": (TAKE, BARE, r"if (!(\1)) {", "calls"),
    "a-bare-ACK-one-beyond-the-window-passes": (TAKE, "> 1461u", "> 1462u", "calls"),
    "a-bare-ACK-at-the-end-of-the-window-is-dropped": (TAKE, "> 1461u", "> 1460u", "calls"),
    "text-may-acknowledge-anything": (TAKE, TEXT, "if (1) {", "guarded"),
    "text-may-acknowledge-one-older": (TAKE, rf"<= \(({NAME}) \+ 65535\)\)", r"<= (\1 + 65536))", "calls"),
    "text-may-not-acknowledge-the-oldest": (TAKE, rf"<= \(({NAME}) \+ 65535\)\)", r"<= (\1 + 65534))", "calls"),
    "text-needs-no-ACK": (TAKE, FLAGS, r"if (!((\1 & 2) || \2)) {", "guarded"),
    "a-SYN-at-RCV.NXT-passes": (TAKE, FLAGS, r"if ((\1 & 2) || !(((u8)(\1 & 18) != 16) || \2)) {", "guarded"),
    "TIME-WAIT-is-told-of-bare-ACKs": (TAKE, FLAGS, r"if (!((u8)(\1 & 18) != 16)) { (void)\2;", "guarded"),
    # Which connection is given up
    "nothing-is-given-up": (TAKE, rf"(= tcp_table_slot_for_syn\({NAME}\);\s*)if \({NAME}\.f0 != 1\)", r"\1if (0)", "guarded"),
    "the-slot-is-predictable": (TAKE, rf"\(u32\){NAME} % 10", "0", "guarded"),
    "before-the-checksum": (TAKE, SUM, (r"\1if (\3 == 0 || \2[13] == 2) {", r"if (\1 == 65535u || \3[13] == 2) {\2"), "guarded"),
    "for-a-port-that-is-not-served": (TAKE, SYN, r"if (\2 == 2) {", "guarded"),
    "for-a-SYN-with-other-flags": (TAKE, SYN, r"if ((\1) && (\2 & 2)) {", "guarded"),
    "no-finished-one-gives-way": (RANK, rf"{NAME} = \(u32\)a3\[26\] \| 0x20000u;", "return 0;", "guarded"),
    "no-half-open-one-gives-way": (RANK, r"(case 1: \{\s*\w+ =) [^;]*;", r"\1 0;", "guarded"),
    "half-open-ones-go-before-finished-ones": (RANK, "0x20000u", "1u", "guarded"),
    "the-youngest-half-open-one-goes": (RANK, r"\(u8\)\(a3\[26\] \^ 255u\)", "a3[26]", "guarded"),
    "the-tries-of-a-SYN-ACK-do-not-count": (RANK, r"\(u32\)a3\[27\] << 8", "0", "guarded"),
    "the-newest-finished-one-goes": (RANK, r"\(u32\)a3\[26\] \|", "(255u - a3[26]) |", "guarded"),
    "no-host-gives-way": (RANK, rf"if \({NAME} > 3\)", "if (0)", "guarded"),
    "a-host-with-three-gives-way": (RANK, rf"if \({NAME} > 3\)", "if (1)", "guarded"),
    "the-host-of-the-SYN-gives-way": (RANK, OWN_HOST, (r"flag \1 = 0;\2if ((a2 == 0) || \1)", r"flag \1 = 1;\2if (\1)"), "guarded"),
    "a-served-one-goes-before-an-idle-one": (RANK, r"\? 2u : 1u", "? 1u : 2u", "guarded"),
    "one-of-an-application-gives-way": (RANK_OF_BOTH, r"\(get2u\(a3 \+ 8\) == get2\(a0 \+ 6\)\)", "1", "both"),
    # The counts
    "what-is-dropped-is-not-counted": (TAKE, (COUNT_DROPPED, COUNT), ("", ""), "calls"),
    "what-is-dropped-counts-as-given-up": (TAKE, (rf"({NAME}) = 32;(\s*{NAME} = 0u;)", r"= a0 \+ 32;"), (r"\1 = 36;\2", "= a0 + 36;"), "calls"),
    "what-is-given-up-counts-as-dropped": (TAKE, (rf"({NAME}) = 36;", r"= a0 \+ 36;"), (r"\1 = 32;", "= a0 + 32;"), "calls"),
}
# With these another edit goes along, since a test after it would refuse the segment.
ALSO = {"text-needs-no-ACK": "text-may-acknowledge-anything", "a-SYN-at-RCV.NXT-passes": "text-may-acknowledge-anything"}


def planted(text, fault):
    function, pattern, edit, _ = FAULTS[fault]
    start = re.search(rf"^static \w+ \*?{function}\([^;{{]*\) \{{\n", text, re.M)
    if not start:
        sys.exit(f"planted.py: no function {function}")
    end = text.index("\n}\n", start.start())
    body = text[start.start():end]
    patterns, edits = (pattern, edit) if isinstance(pattern, tuple) else ((pattern,), (edit,))
    most = 1 if fault == "numbers-not-shifted" else 0      # the head of that function alone
    for pattern, edit in zip(patterns, edits):
        changed, count = re.subn(pattern, edit, body, count=most, flags=re.S)
        if count == 1:
            return text[:start.start()] + changed + text[end:]
    sys.exit(f"planted.py: {fault}: no pattern fits once")


def main():
    words = sys.argv[1:]
    if words == ["list"]:
        print("\n".join(f"{name} {fault[3]}" for name, fault in FAULTS.items()))
        return
    if len(words) != 3 or words[0] not in FAULTS:
        sys.exit(__doc__)
    with open(words[1], encoding="utf8") as file:
        text = planted(file.read(), words[0])
    if words[0] in ALSO:
        text = planted(text, ALSO[words[0]])
    with open(words[2], "w", encoding="utf8") as file:
        file.write(text)


if __name__ == "__main__":
    main()
