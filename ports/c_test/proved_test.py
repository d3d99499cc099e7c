#!/usr/bin/env python3
"""Tests what is noted of a kept module from MIR (to_c/proved.py): each row is a function, its MIR, and what must be noted of it.

    python3 ports/c_test/proved_test.py [PORTS]      PORTS has to_c/ (that above this folder)
"""
import os
import sys
import tempfile

HERE = os.path.dirname(os.path.abspath(__file__))
sys.path.insert(0, sys.argv[1] if sys.argv[1:] else os.path.dirname(HERE))

from to_c import proved

INT, REF = {"Int": 64}, {"Ref": ["Erased", "Imm", {"Int": 8}]}
BYTES, ITEMS = {"Struct": ["&[]", [REF, INT]]}, {"Struct": ["&[]", [{"Ref": ["Erased", "Imm", {"Param": 0}]}, INT]]}
NAMED = {"Named": [{"name": "it"}, []]}
ADD, WRAP, SIGNED = [{"Add": "Unsigned"}, "a", "b"], ["WrapAdd", "a", "b"], [{"Add": "Signed"}, "a", "b"]


def mir(result, parameters, *sums):
    return {"params": len(parameters), "locals": [{"ty": it} for it in (result, *parameters)], "body": [{"Op2": it} for it in sums]}


def function(name, result, parameters, *lines):
    heads = ", ".join(f"{kind} noundef %a{at}" for at, kind in enumerate(parameters))
    return "\n".join([f'define internal {result} @"{name}"({heads}) #0 {{', "start:", *(f"  {it}" for it in lines), "  ret void", "}"])


SUM, SUM2 = "%r1 = add i64 %a0, %a1", "%r2 = add i64 %r1, %a1"
ROWS = [    # the name, its text, its MIR, whether its sums are marked, its lengths
    ("m::sum", function("m::sum", "i64", ["i64", "i64"], SUM), mir(INT, [INT, INT], ADD), True, []),
    ("m::wraps", function("m::wraps", "i64", ["i64", "i64"], SUM), mir(INT, [INT, INT], WRAP), False, []),
    ("m::both", function("m::both", "i64", ["i64", "i64"], SUM, SUM2), mir(INT, [INT, INT], ADD, WRAP), False, []),
    ("m::signed", function("m::signed", "i64", ["i64", "i64"], SUM), mir(INT, [INT, INT], SIGNED), False, []),
    ("m::one_more", function("m::one_more", "i64", ["i64", "i64"], SUM, SUM2), mir(INT, [INT, INT], ADD), False, []),
    ("m::bytes", function("m::bytes", "i64", ["ptr", "i64", "i64"]), mir(INT, [BYTES, INT]), True, [1]),
    ("m::to_memory", function("m::to_memory", "void", ["ptr", "ptr", "i64"]), mir(NAMED, [BYTES]), True, [2]),
    ("m::first", function("m::first", "void", ["ptr", "ptr", "i64", "ptr"]), mir(NAMED, [BYTES, NAMED]), True, [2]),
    ("m::unknown", function("m::unknown", "void", ["ptr", "i64", "ptr", "i64"]), mir("Unit", [NAMED, BYTES, NAMED]), True, []),
    ("m::last", function("m::last", "void", ["ptr", "ptr", "i64"]), mir("Unit", [NAMED, BYTES]), True, [2]),
    ("m::number", function("m::number", "i64", ["ptr", "i64"]), mir(INT, [REF, INT]), True, []),
    ("m::items::<i16>", function("m::items::<i16>", "i64", ["ptr", "i64"]), mir(INT, [ITEMS]), True, [1]),
    ("m::items::<#0>", function("m::items::<#0>", "i64", ["ptr", "i64"]), mir(INT, [ITEMS]), True, []),
    ("unknown", function("unknown", "i64", ["i64", "i64"], SUM), None, False, []),
]
COPY = function(f"{proved.COPY}::<i8>", "void", ["ptr", "ptr", "i64"], "br i1 %r20, label %inside.1, label %apart.2",
                f"call void {proved.MOVE}(ptr %a1, ptr %a0, i64 %a2, i1 false)")
OTHER = COPY.replace(proved.COPY, "core::ptr::other")


def noted(functions, known, contract):
    """The module of these functions, noted, and the facts."""
    with tempfile.TemporaryDirectory() as kit:
        path = os.path.join(kit, proved.COPY_SOURCE)
        os.makedirs(os.path.dirname(path))
        with open(path, "w", encoding="utf8") as file:
            file.write(contract)
        text = "\n".join(["attributes #0 = { nounwind }", *functions])
        facts = proved.facts_of(text, known, kit)
        return proved.noted(text, facts), facts


def main():
    wrong = []
    known = {name.split("::<")[0]: it for name, _, it, _, _ in ROWS if it}
    for name, text, _, is_marked, lengths in ROWS:
        module, facts = noted([text], known, proved.COPY_CONTRACT)
        names = [name for name, fact in facts.items() if fact["sums"]]
        if (name in names) != is_marked or facts.get(name, {"lengths": []})["lengths"] != lengths:
            wrong.append(f"{name}: {facts}")
        if module.count(" nuw ") != (text.count("= add ") if is_marked else 0):
            wrong.append(f"{name}: its sums are not as noted")
        if [f"ule i64 %a{at}, {proved.LIMIT}" in module for at in range(4)] != [at in lengths for at in range(4)]:
            wrong.append(f"{name}: its lengths are not as noted")
    for text, contract, is_apart in ((COPY, proved.COPY_CONTRACT, True), (COPY, "requires sizes", False), (OTHER, proved.COPY_CONTRACT, False)):
        module, _ = noted([text], {proved.COPY: mir("Unit", []), "core::ptr::other": mir("Unit", [])}, contract)
        if ("  br label %apart.2" in module) != is_apart or (proved.MOVE + "(ptr %a1" in module) == is_apart:
            wrong.append(f"the copy is {'not ' if is_apart else ''}apart")
    print(*wrong, f"{len(ROWS) + 3} notes; wrong: {len(wrong)}", sep="\n")
    sys.exit(1 if wrong else 0)


main()
