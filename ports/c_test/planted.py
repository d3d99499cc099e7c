#!/usr/bin/env python3
"""Plants faults in the translation, one at a time: the modules of cases/ and random modules must find each.

    python3 ports/c_test/planted.py CLANG [MODULES [WORD ..]]      MODULES random modules at most for each fault (20); only faults with one of
                                                                 these words
"""
import itertools
import os
import shutil
import subprocess
import sys
import tempfile

sys.path.insert(0, os.path.dirname(os.path.dirname(os.path.abspath(__file__))))

from c_test.run import HERE, HOSTS, QUICK, Wrong, compared, modules

PORTS = os.path.dirname(HERE)
FAULTS = [    # the fault, the file in to_c/, its text, and the text that replaces it
    ("an address that is data is never carried as a number", "wide.py", "self.values = (data & kept) - self.known", "self.values = set()"),
    ("data is not followed into a call", "wide.py", "                self.flows.append(((name, value), (it.callee, parameter)))", "                pass"),
    ("data is not followed out of a call", "wide.py", "            self.flows.append(((it.callee, None), (name, it.result)))", "            pass"),
    ("the variables of a block are set one after the other", "branches.py",
     "free = [it for it in todo if not any(it[0] in other[2].reads for other in todo if other is not it)]", "free = todo"),
    ("a block's variable is not set on one branch", "branches.py", "if text.text != local:", "if text.text != local and len(todo) < 1:"),
    ("a switch has the first case of each branch alone", "branches.py", "{' '.join(cases)}", "{cases[0]}"),
    ("a condition keeps its sign where the branches are swapped", "branches.py",
     "condition, first, first_falls, second, second_falls = opposite,", "condition, first, first_falls, second, second_falls = condition,"),
    ("a load is written after a later store", "memory.py", '        address = self.value(it.base, "ptr")\n        self.flush("*")',
     '        address = self.value(it.base, "ptr")'),
    ("a load is written after a call", "memory.py", '        text = Text(f"{self.names[it.callee]}({\', \'.join(texts)})", True)\n        self.flush("*")',
     '        text = Text(f"{self.names[it.callee]}({\', \'.join(texts)})", True)'),
    ("a load is written after a move", "memory.py", '        self.flush("*")\n        if found := re.fullmatch(r"(\\d+)ull", length.text):',
     '        if found := re.fullmatch(r"(\\d+)ull", length.text):'),
    ("a variable is read after its next value", "memory.py", "            self.flush(local)\n", ""),
    ("an offset is counted in bytes whatever its unit", "memory.py", "scale, base = bits(it.unit) // 8,", "scale, base = 1,"),
    ("an unaligned number is read as an aligned one", "memory.py", 'is_aligned = known >= size_of(kind) and kind != "i48"', "is_aligned = True"),
    ("signed numbers are compared as unsigned", "arithmetic.py", "        if is_signed:\n", "        if False:\n"),
    ("a sign is not extended", "arithmetic.py", "(({wide.text} ^ {half}) - {half})", "({wide.text})"),
    ("a small number keeps its carry", "arithmetic.py", 'return Text(f"({c_type(it.kind)})({prefix}{out})", is_unary=True)', "return Text(out)"),
    ("a number of 48 bits is not cut", "arithmetic.py", 'return Text(out if it.how in ("and", "or", "xor", "lshr") else f"({out}) & {mask}")', "return Text(out)"),
    ("an offset of several bits is a bit", "arithmetic.py", '"shl": "<<", "lshr": ">>"', '"shl": "<<", "lshr": "<<"'),
    ("the choices of a select are swapped", "arithmetic.py", "{condition.operand()} ? {one.operand()} : {other.operand()}",
     "{condition.operand()} ? {other.operand()} : {one.operand()}"),
    ("a sum is bounded by one of its parts", "narrow.py", '"add": one + other', '"add": one'),
    ("a product is bounded by one of its factors", "narrow.py", '"mul": one * other', '"mul": one'),
    ("a load of 64 bits is below 2^32", "narrow.py", "return SIZE if ADDRESS in it.line else FULL", "return SIZE"),
    ("a difference that wraps bounds what it takes away", "narrow.py", "if it.form == \"binary\" and it.kind == \"i64\" and it.is_upward and",
     "if it.form == \"binary\" and it.kind == \"i64\" and"),
    ("a step down from any number is one that does not wrap", "narrow.py", '"ne": int(other) == 0 and by == 1', '"ne": by == 1'),
    ("a field is that of the first branch", "narrow.py", "for value in it.sources.values() if value not in seen | {whole}), default=-1)",
     "for value in list(it.sources.values())[:1]), default=-1)"),
    ("each sum with an address is an address", "narrow.py", "for name in becomes if self.made[name]", "for name in is_number if self.made[name]"),
    ("what a branch of a function needs, each call gives", "narrow.py", "return place == self.shape.first and how", "return not isinstance(place, tuple) and how"),
    ("no call needs the upper half of a result", "narrow.py", "            whole = self.whole_results()\n", "            whole = set()\n"),
    ("a number is below a difference from it", "narrow.py", "bound = min(bound, limit + self.of(less))", "bound = min(bound, limit)"),
    ("a fact of one place holds everywhere", "narrow.py", "        return self.shape.dominates(place, label)\n\n    def of(", "        return True\n\n    def of("),
    ("all numbers are compared as sizes", "arithmetic.py", 'is_small = it.kind == "i64" and not is_whole and self.is_small(it, it.one) and self.is_small(it, it.other)',
     'is_small = it.kind == "i64" and not is_whole'),
    ("the least of all numbers is that of sizes", "memory.py", ' and all(self.is_small(it, value) for _, value in it.arguments)', ""),
    ("a condition is forgotten with an assumption", "module.py", "            unused -= {name for it in self.instructions() for name in it.operands()}\n", ""),
    ("a short clearing ends too early", "head.c", "{ CLEAR16(at); put4(at + 16, 0); }", "{ CLEAR16(at); }"),
    ("a sum of the compiler's own is noted too", "proved.py", 'facts[name]["sums"] = facts[name]["sums"] == count', 'facts[name]["sums"] = facts[name]["sums"] is not None'),
    ("a slice of what may have no size has a length", "proved.py", '"Param" in element and re.search(r"::<i\\d+>$", instance)', '"Param" in element'),
    ("an unknown parameter takes no place", "proved.py", "            if parts is None or first < 0 or", "            parts = parts or ([], False)\n            if first < 0 or"),
    ("a result in memory takes no place", "proved.py", 'has_place = result == "void" and', "has_place = False and"),
    ("any copy is apart", "proved.py", '"apart": is_apart and path == COPY', '"apart": path == COPY'),
    ("a shift to the right needs no upper half", "narrow.py", 'MODULAR = ("add",', 'MODULAR = ("lshr", "add",'),
    ("a comparison needs no upper half", "narrow.py", 'if it.form == "offset" or', 'if it.form in ("offset", "compare") or'),
    ("a loop that wraps at 2^64 counts in 32 bits", "narrow.py", ' or not step.is_upward \\\n', ' \\\n'),
    ("two structs that are made of one share a variable", "memory.py", "if it.value in self.built and self.uses[it.value] == 1:", "if it.value in self.built:"),
    ("slots that are in use at once share memory", "slots.py", "if not any(conflicts[name] & self.bit[other] for other in group):", "if True:"),
    ("an address has the alignment of its best choice", "alignment.py", "modulus = min(one[0], other[0])", "modulus = max(one[0], other[0])\n    return modulus, 0"),
    ("an offset does not change an alignment", "alignment.py", "return fact and (fact[0], (fact[1] + by) % fact[0])", "return fact"),
    ("a big-endian processor keeps its order", "head.c", "__builtin_bswap##bits(n)", "(n)"),
    ("a carry of 128 bits is lost", "head.c", "+ (n.low + more.low < n.low)", "+ 0"),
    ("a difference wraps", "head.c", "(u##bits)(a - (a < b ? a : b))", "(u##bits)(a - b)"),
    ("a sum wraps", "head.c", "(u##bits)(a + b) < a ?", "(u##bits)(a + b) < 0 ?"),
    ("a move begins at its start", "head.c", "#define MEMMOVE __builtin_memmove", "#define MEMMOVE __builtin_memcpy"),
    ("a goto leads over a declaration", "body.py", "        self.hoist()\n", ""),
    ("a number of 128 bits is shifted without its middle", "head.c", "n.high << by | n.low >> (64 - by)", "n.high << by"),
]


def found_in_notes(room):
    """What the test of proved.py finds in a copy, or None."""
    done = subprocess.run([sys.executable, os.path.join(HERE, "proved_test.py"), room], capture_output=True, text=True, check=False)
    return f"proved_test.py: {done.stdout.splitlines()[:1] or done.stderr.splitlines()[-1:]}" if done.returncode else None


def copied(room, file, old, new):
    """The to_c.py of a copy with this fault."""
    for name in ("to_c.py", "scalar.py"):
        shutil.copy(os.path.join(PORTS, name), room)
    shutil.copytree(os.path.join(PORTS, "to_c"), os.path.join(room, "to_c"), ignore=shutil.ignore_patterns("__pycache__"))
    os.makedirs(os.path.join(room, "..", "crates"), exist_ok=True)
    shutil.copy(os.path.join(PORTS, "..", "crates.txt"), os.path.join(room, ".."))
    path = os.path.join(room, "to_c", file)
    with open(path, encoding="utf8") as source:
        text = source.read()
    if text.count(old) != 1:
        sys.exit(f"planted.py: {file} does not contain this text once: {old}")
    with open(path, "w", encoding="utf8") as source:
        source.write(text.replace(old, new))
    return os.path.join(room, "to_c.py")


def found_by(fault, clang, count):
    """What finds a fault, or None. The quick hosts try all modules first."""
    with tempfile.TemporaryDirectory() as room:
        os.mkdir(os.path.join(room, "ports"))
        to_c = copied(os.path.join(room, "ports"), *fault[1:])
        if fault[1] == "proved.py":
            return found_in_notes(os.path.dirname(to_c))
        for hosts, (name, text) in itertools.product((QUICK, HOSTS), list(modules(count, 1))):
            if text.startswith("; refused"):
                continue
            try:
                compared(text, clang, room, to_c, hosts)
            except (Wrong, subprocess.TimeoutExpired) as why:
                return f"{name}: {why}"
    return None


def main():
    if len(sys.argv) < 2:
        sys.exit(__doc__)
    missed, words = 0, sys.argv[3:]
    faults = [fault for fault in FAULTS if not words or any(word in " ".join(fault[:2]) for word in words)]
    for fault in faults:
        how = found_by(fault, sys.argv[1], int(sys.argv[2]) if sys.argv[2:] else 20)
        missed += how is None
        print(f"{fault[0]}: {how or 'MISSED'}", flush=True)
    print(f"{len(faults)} faults; missed: {missed}")
    sys.exit(1 if missed else 0)


main()
