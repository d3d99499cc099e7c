"""What the proof states of a kept module, and its text does not: which sums do not wrap, which numbers are lengths, and which copies are apart.

The kit keeps the code of each library that it has proved, with its types, as MIR (mir.json in the library). There a sum that is proved not to wrap
is `Add`, and one that may wrap is `WrapAdd`; a slice is a struct `&[]` of an address and a length. The functions here note this for each
function of the module, and write it into the module, where clang and narrow.py read it."""
import glob
import json
import os
import re

from .forms import require

SUMS = {"add": "Add", "sub": "Sub", "mul": "Mul"}
BINARY = re.compile(r"(  %[\w.-]+ = (add|sub|mul)) (i\d+ \S+, \S+)")
HEAD = re.compile(r'define (?:internal )?(?:fastcc )?(?:\w+ )*?(void|ptr|i\d+|\{[^}]*\}) @("[^"]*"|[\w.]+)\((.*)\) [^()]*\{')
PARAMETER = re.compile(r"(ptr|i\d+|\{[^}]*\})(?: \w+| align \d+)* (%[\w.-]+)")
# The greatest length of an object, in an assumption: clang knows nothing of it, and narrow.py knows it for processors of 32 bits.
LIMIT = "ptrtoint (ptr @uip_limit to i64)"

# The kit's copy, whose contract requires the two areas apart. Its code asks whether they are, since the compiler knows no contract.
COPY, COPY_SOURCE = "core::ptr::copy_drop::copy_bits", "rattle/core/src/ptr/copy_drop.rt"
COPY_CONTRACT = "requires* places { sem 𝓛 (fsep (bits_at T.row g.0 src g.1) (uninit_at (Array T.row count) dst)) }"
MOVE = "@llvm.memmove.p0.p0.i64"
INLINED = "uip_wire::copying::copy_bytes"    # not inlined by its source, since it would be a loop each time; with such a copy it is one call
QUESTION = re.compile(r"  br i1 \S+, label %inside\.\d+, label (%apart\.\d+)")


def mir_of(kit, crates, text):
    """The functions of the libraries of which the module has functions, as MIR, by path."""
    functions = {}
    for name in sorted(set(re.findall(r'@"(\w+)::', text))):
        for path in glob.glob(f"{kit}/rlibs/{name}.rlib/toolchain/mir.json") + glob.glob(f"{crates}/{name}/out/rlib/{name}.rlib/toolchain/mir.json"):
            with open(path, encoding="utf8") as file:
                functions.update(json.load(file))
    return functions


def operations(code, found):
    """Counts the operations of MIR with two operands, by name; a signed one has the name `Signed`."""
    if isinstance(code, dict):
        if "Op2" in code:
            name = code["Op2"][0]
            name = name if isinstance(name, str) else next(iter(name)) if "Unsigned" in name.values() else "Signed"
            found[name] = found.get(name, 0) + 1
        for part in code.values():
            operations(part, found)
    elif isinstance(code, list):
        for part in code:
            operations(part, found)
    return found


def kinds_of(kind, instance):
    """The types that a parameter has in the module, and whether it is a slice whose elements have a size; None if that is not known."""
    if kind in ("Ptr", "Unit"):
        return (["ptr"] if kind == "Ptr" else []), False
    if not isinstance(kind, dict):
        return None
    if "Int" in kind:
        return [f"i{kind['Int']}"], False
    if "Ref" in kind:
        return ["ptr"], False
    if "Struct" in kind and kind["Struct"][0] == "&[]":
        element = kind["Struct"][1][0].get("Ref", [None] * 3)[2]
        is_sized = isinstance(element, dict) and ("Int" in element or "Param" in element and re.search(r"::<i\d+>$", instance))
        return ["ptr", "i64"], bool(is_sized)
    return None


def lengths(mir, instance, result, kinds):
    """The places of a function's parameters in the module that are lengths of slices: of those whose place is known from the first or the last."""
    known = [kinds_of(local["ty"], instance) for local in mir["locals"][1:mir["params"] + 1]]
    has_place = result == "void" and mir["locals"][0]["ty"] != "Unit"    # its result goes to memory
    found = set()
    for at, step in ((int(has_place), 1), (len(kinds), -1)):
        for parts in known[::step]:
            first = at if step > 0 or parts is None else at - len(parts[0])
            if parts is None or first < 0 or kinds[first:first + len(parts[0])] != parts[0]:
                break
            if parts[1]:
                found.add(first + 1)
            at += step * len(parts[0])
    return sorted(found)


def facts_of(text, mir, kit):
    """By the name of a function in the module: whether all its sums are proved not to wrap, which parameters are lengths, whether it is a copy."""
    facts, count, name = {}, {}, None
    with open(os.path.join(kit, COPY_SOURCE), encoding="utf8") as file:
        is_apart = COPY_CONTRACT in file.read()
    for line in text.split("\n"):
        if found := HEAD.fullmatch(line):
            name, kinds = found[2].strip('"'), [it[0] for it in PARAMETER.findall(found[3])]
            path = re.sub(r"::<.*", "", name)
            if path not in mir:
                name = None
                continue
            done = operations(mir[path]["body"], {})
            may_wrap = any(it in done for it in ("WrapAdd", "WrapSub", "WrapMul", "Signed"))
            facts[name] = {"sums": None if may_wrap else {how: done.get(word, 0) for how, word in SUMS.items()},
                           "lengths": lengths(mir[path], name, found[1], kinds), "apart": is_apart and path == COPY}
            count = {how: 0 for how in SUMS}
        elif line == "}" and name:
            facts[name]["sums"] = facts[name]["sums"] == count    # any other sum is one that the compiler has added
            name = None
        elif name and (found := BINARY.fullmatch(line)):
            count[found[2]] += 1
    return {name: fact for name, fact in facts.items() if any(fact.values())}


def noted(text, facts):
    """The module with these facts: `nuw` at the sums, an assumption about each length, and copies that do not ask."""
    out, fact, at_start = [], {}, []
    usual = re.search(r"^attributes (#\d+) = \{ nounwind ", text, re.M)
    has_copies = any(fact.get("apart") for fact in facts.values())
    for line in text.split("\n"):
        if found := HEAD.fullmatch(line):
            fact = facts.get(found[2].strip('"'), {})
            names = [it[1] for it in PARAMETER.findall(found[3])]
            at_start = [names[at] for at in fact.get("lengths", ())]
            if has_copies and found[2].strip('"') == INLINED:
                line = re.sub(r" #\d+ \{$", f" {usual[1]} {{", line)
        elif line == "}":
            fact, at_start = {}, []
        elif fact.get("sums") and (found := BINARY.fullmatch(line)):
            line = f"{found[1]} nuw {found[3]}"
        elif fact.get("apart") and (found := QUESTION.fullmatch(line)):
            line = f"  br label {found[1]}"
        elif fact.get("apart") and MOVE in line:
            line = line.replace(MOVE, MOVE.replace("memmove", "memcpy"))
        out.append(line)
        if at_start and re.fullmatch(r"[\w.-]+:.*", line):
            for name in at_start:
                out += [f"  %is.{len(out)} = icmp ule i64 {name}, {LIMIT}", f"  call void @llvm.assume(i1 %is.{len(out)})"]
            at_start = []
    text = "\n".join(out)
    require(" nuw nuw " not in text, "a sum that is marked already")
    text += "\n@uip_limit = external global i8\n"
    needed = {"@llvm.assume": "(i1)", MOVE.replace("memmove", "memcpy"): "(ptr, ptr, i64, i1)"}
    return text + "".join(f"\ndeclare void {name}{kinds}\n" for name, kinds in needed.items() if not re.search(rf"declare .*{name}\(", text))
