"""The forms of a module's lines, and its types. Anything of another form is refused."""
import re

MODULE_LAYOUT = "e-m:e-p270:32:32-p271:32:32-p272:64:64-i64:64-i128:128-f80:128-n8:16:32:64-S128"

INT = r"i\d+"
BYTES = r"\[\d+ x i8\]"
STRUCT = r"\{ [\w{}, ]+ \}"
ANY = rf"(?:{STRUCT}|{INT}|ptr)"
NAME = r"%[\w.-]+"
GLOBAL = r"@[\w.]+"
NUMBER_OF_GLOBAL = rf"ptrto(?:int|addr) \(ptr {GLOBAL} to i64\)"
VALUE = rf"(?:{NAME}|{GLOBAL}|-?\d+|true|false|null|poison|zeroinitializer|{NUMBER_OF_GLOBAL}|\{{ [^{{}}]* \}})"
META = r"(?:, ![\w.]+ !\d+)*"    # what clang may assume beside
PARAMETER_WORD = (r"(?:noundef|zeroext|noalias|nonnull|readonly|writeonly|readnone|returned|nofree|captures\([^)]*\)|align \d+|range\([^)]*\)"
                  r"|dereferenceable\(\d+\)|dead_on_return|initializes\((?:\([-\d, ]*\)(?:, )?)*\))")
FLAGS = r"(?:(?:nuw|nsw|nneg|exact|disjoint|samesign|inbounds) )*"    # a promise, which C does not need
ATTRIBUTES = r"(?: #\d+)?"
RESULT = rf"(?P<result>{NAME})"
KIND = rf"(?P<kind>{ANY})"


def value(name):
    return rf"(?P<{name}>{VALUE})"


FORMS = {    # the forms of an instruction; the groups are what the translation needs
    "alloca": rf"{RESULT} = alloca (?P<kind>{INT}|{BYTES}|ptr), align (?P<align>\d+)",
    "load": rf"{RESULT} = load {KIND}, ptr {value('base')}, align (?P<align>\d+){META}",
    "store": rf"store {KIND} {value('value')}, ptr {value('base')}, align (?P<align>\d+)",
    "offset": rf"{RESULT} = getelementptr {FLAGS}(?P<unit>i8|i16|i32|i64), ptr {value('base')}, i64 (?P<by>{NAME}|-?\d+)",
    "number": rf"{RESULT} = (?:ptrtoint|ptrtoaddr) ptr {value('value')} to i64",
    "address": rf"{RESULT} = inttoptr i64 {value('value')} to ptr",
    "compare": rf"{RESULT} = icmp {FLAGS}(?P<how>\w+) (?P<kind>{INT}|ptr) {value('one')}, {value('other')}",
    "cast": rf"{RESULT} = (?P<how>zext|sext|trunc) {FLAGS}(?P<kind>{INT}) {value('value')} to (?P<new>{INT})",
    "binary": (rf"{RESULT} = (?P<how>add|sub|mul|udiv|urem|and|or|xor|shl|lshr|ashr) {FLAGS}(?P<kind>{INT})"
               rf" {value('one')}, {value('other')}"),
    "field": rf"{RESULT} = extractvalue (?P<kind>{STRUCT}) (?P<value>{NAME}), (?P<index>\d+)",
    "insert": rf"{RESULT} = insertvalue (?P<kind>{STRUCT}) {value('value')}, (?P<part>{ANY}) {value('given')}, (?P<index>\d+)",
    "phi": rf"{RESULT} = phi {KIND} (?P<sources>\[ .* \])",
    "select": rf"{RESULT} = select i1 {value('condition')}, {KIND} {value('one')}, {ANY} {value('other')}",
    "freeze": rf"{RESULT} = freeze {KIND} {value('value')}",
    "call": (rf"(?:{RESULT} = )?(?:tail )?call (?:fastcc )?(?:{PARAMETER_WORD} )*(?P<kind>void|{ANY}) (?P<callee>{GLOBAL})\((?P<given>.*)\)"
             rf"{ATTRIBUTES}{META}"),
    "leave": rf"ret (?:void|{KIND} {value('value')})",
    "unreachable": r"unreachable",
    "jump": rf"br label (?P<to>{NAME}){META}",
    "branch": rf"br i1 {value('condition')}, label (?P<yes>{NAME}), label (?P<no>{NAME}){META}",
    "switch": rf"switch (?P<kind>{INT}) {value('value')}, label (?P<default>{NAME}) \[(?P<cases>(?: {INT} -?\d+, label {NAME})*) ?\]{META}",
}
COMPILED = {form: re.compile(pattern) for form, pattern in FORMS.items()}
ENDS = ("leave", "unreachable", "jump", "branch", "switch")
OPERANDS = {    # the groups that are values
    "load": ("base",), "store": ("value", "base"), "offset": ("base", "by"), "number": ("value",), "address": ("value",),
    "compare": ("one", "other"), "cast": ("value",), "binary": ("one", "other"), "field": ("value",), "insert": ("value", "given"),
    "select": ("condition", "one", "other"), "freeze": ("value",), "leave": ("value",), "branch": ("condition",), "switch": ("value",),
}


class Unsupported(Exception):
    """A line of the module, or a use of a value, that the translation does not know."""


def require(is_so, why):
    if not is_so:
        raise Unsupported(why)


def split(text):
    """The parts between the commas outside all brackets."""
    parts, depth, part = [], 0, ""
    for sign in text:
        depth += (sign in "({[<") - (sign in ")}]>")
        if sign == "," and depth == 0:
            parts.append(part.strip())
            part = ""
        else:
            part += sign
    return parts + ([part.strip()] if part.strip() else [])


# ---- the types

def is_struct(kind):
    return kind.startswith("{")


def bits(kind):
    return int(kind[1:])


def size_of(kind):
    """The size in bytes of a plain type in the module's layout, which is its alignment."""
    if kind == "ptr":
        return 8
    require(re.fullmatch(INT, kind) and bits(kind) in (8, 16, 32, 48, 64, 128), f"the layout of {kind}")
    return bits(kind) // 8


def parts_of(kind):
    """The types of a struct's fields."""
    return split(kind[1:-1])


def fields_of(kind):
    """The fields of a struct, each with its type and its offset in the module's layout."""
    fields, at = [], 0
    for part in parts_of(kind):
        size = size_of(part)
        at = (at + size - 1) // size * size
        fields.append((part, at))
        at += size
    return fields


def c_type(kind):
    if is_struct(kind):
        return "pair_" + "_".join(parts_of(kind))
    if kind in ("ptr", "void", "i1", "size"):
        return {"ptr": "u8 *", "void": "void", "i1": "flag", "size": "size_t"}[kind]
    require(bits(kind) <= 64 or bits(kind) == 128, f"a number of type {kind}")
    return f"u{next(width for width in (8, 16, 32, 64, 128) if width >= bits(kind))}"


def is_odd(kind):
    """Whether a number has fewer bits than its C type. Its upper bits there are 0."""
    return kind not in ("ptr", "i1") and bits(kind) not in (8, 16, 32, 64, 128)


def declared(kind, name):
    text = c_type(kind)
    return f"{text}{name}" if text.endswith("*") else f"{text} {name}"


def is_constant(name):
    """Whether the name of a value is a number."""
    return re.fullmatch(r"-?\d+", name) is not None
