"""Public calls that nothing uses: neither a caller, nor a test, nor an edit that must be refused; and types with one name.

A call is a `pub fn` that lib.rt passes on, or a method of a type that it passes on. A caller is a line of a source of the
crate, or of a crate above it, that writes the call; a test is such a line of a test, or of a C program. An edit counts for
the function whose text it changes. A namesake is no caller: a free call counts in a file that imports it, or in the module
that defines it, and a method that several types have counts in a crate that names its type.
"""
import collections
import os
import re

from repository import read, tracked

# Calls that are right without a caller, a test and an edit, each with the reason.
EXCEPTIONS = {
    "tcp_segment::Segment::has_psh": "one of five readers of flags; no call here depends on PSH",
    "uip_node::Node::input_in_place": "as `input`, for a node without a guard whose datagrams are decoded into its packet",
    "uip_edge::NullSink::new": "the interface has it; a run that needs no output takes the sink",
    "uip_device::Device::ticks": "a reader of any device; the libraries for C read by `node_row` and the like",
    "uip_device::Device::is_idle": "as `ticks`",
    "uip_device::Device::row": "as `ticks`",
    "uip_device::Device::counter": "as `ticks`",
}
CALL = re.compile(r"^(\s*)pub (?:unsafe )?(?:extern \"C\" )?fn (\w+)")
OWNER = re.compile(r"^(?:pub(?:\(\w+\))? )?(?:impl(?:<[^{]*?>)?\s+(?:[^{]*?\bfor\s+)?|trait\s+)(\w+)")
IMPL = re.compile(r"^impl(?:<[^{]*?>)?\s+(?:[^{]*?\bfor\s+)?(\w+)")


class Call:
    """A public function: its crate, file, type (none: it is free) and name, the lines of its text, and whether C can call it."""

    def __init__(self, crate, path, owner, name, first, last, is_for_c):
        self.crate, self.path, self.owner, self.name, self.first, self.last, self.is_for_c = crate, path, owner, name, first, last, is_for_c

    def full(self):
        return f"{self.crate}::{self.owner + '::' if self.owner else ''}{self.name}"


def exported(crate, sources):
    """The names that lib.rt (or main.rt) passes on, and whether it passes on whole modules."""
    top = sources.get(f"crates/{crate}/src/lib.rt", "")
    names = set()
    for items in re.findall(r"^pub use ([^;]*);", top, re.M):
        names.update(it.split(" as ")[0].strip().rpartition("::")[2] for it in re.findall(r"[\w:]+(?: as \w+)?", items))
    return names, set(re.findall(r"^pub mod (\w+);", top, re.M))


def calls_of(crate, sources):
    """The public calls of a crate."""
    names, modules = exported(crate, sources)
    for path, text in sources.items():
        if not path.startswith(f"crates/{crate}/src/") or is_test(path, text):
            continue
        is_open = os.path.basename(path)[:-3] in modules
        lines, owner = text.split("\n"), None
        for number, line in enumerate(lines, 1):
            if line and not line[0].isspace():
                found = IMPL.match(line)
                owner = found[1] if found else None if line.startswith("}") else owner
            found = CALL.match(line)
            if found and not is_law(lines, number) and (is_open or (owner if found[1] else found[2]) in names):
                owned = owner if found[1] else None
                yield Call(crate, path, owned, found[2], number, end_of(lines, number, found[1]), 'extern "C"' in line)


def end_of(lines, number, indent):
    """The number of the line that closes a function."""
    return next((at for at in range(number, len(lines) + 1) if re.match(rf"{indent}\{{?.*\}}$", lines[at - 1])
                 and (lines[at - 1].startswith(indent + "}") or lines[at - 1].endswith("{}"))), number)


def is_law(lines, number):
    """Whether a function has no parameters and an empty body: its contract is a statement, and nobody calls it."""
    return lines[number - 1].endswith("()") and lines[end_of(lines, number, "") - 1] == "{}"


def is_test(path, text):
    return path.startswith("crates/cross_tests/") or bool(re.search(r"tests?\.rt$", path)) or "#[test]" in text


class Uses:
    """The lines of all sources, by the names that are called in them."""

    def __init__(self, crates):
        self.sources = {it: read(it) for it in tracked() if re.match(r"crates/\w+/src/.*\.rt$", it)}
        self.above = {name: set(crates.above([name])) for name in crates.below}
        self.aliases = collections.defaultdict(set)
        self.owners = collections.defaultdict(set)   # the name of a method: the types that have one of this name
        self.named = {}                              # a crate: the words of its sources
        self.at = collections.defaultdict(list)      # name: (path, line number, text)
        for path, text in self.sources.items():
            for alias, name in re.findall(r"^\s*(?:pub(?:\(\w+\))? )?type (\w+)[^=;]*=\s*(\w+)", text, re.M):
                self.aliases[name].add(alias)
            for name, alias in re.findall(r"\b([A-Z]\w*) as ([A-Z]\w*)", text):
                self.aliases[name].add(alias)
            self.named.setdefault(path.split("/")[1], set()).update(re.findall(r"\w+", re.sub(r"//[^\n]*", "", text)))
            owner = None
            for number, line in enumerate(text.split("\n"), 1):
                head = OWNER.match(line)
                owner = head[1] if head else owner if line[:1].isspace() or not line else None if line.startswith("}") else owner
                for name in re.findall(r"^\s+(?:pub(?:\(\w+\))? )?(?:unsafe )?fn (\w+)", line):
                    self.owners[name].add(owner)
                for name in set(re.findall(r"\b(\w+)(?:::<[^>]*>)?\(", line.partition("//")[0])):
                    self.at[name].append((path, number, line))
        others = [it for it in tracked() if it.endswith((".c", ".h")) and not it.startswith("include/")]
        self.c_words = {word for it in others for word in re.findall(r"\w+", read(it))}

    def is_used(self, call):
        """Whether a line writes the call, by its type or on a value."""
        for path, number, line in self.at[call.name]:
            is_own = path == call.path and call.first <= number <= call.last
            is_above = path.split("/")[1] in self.above[call.crate] and not is_own and not re.search(rf"\bfn {call.name}\b", line)
            if is_above and (self.is_of_type(call, path, line) if call.owner else self.is_free(call, path, line)):
                return True
            if re.search(rf"\$\w+::{call.name}\(", line) and any(call.owner in self.named[it] for it in self.above[call.crate] - {call.crate}):
                return True     # a macro calls it of each type that a line passes to it
        return call.is_for_c and call.name in self.c_words

    def is_of_type(self, call, path, line):
        """Whether a line writes a method by its type, or on a value that can have this type."""
        types = {call.owner, *self.aliases[call.owner]}
        by_type = rf"\b(?:{'|'.join(types)}{'|Self' if path == call.path else ''})(?:::<[^>]*>)?::{call.name}\b"
        if re.search(by_type, line):
            return True
        is_one = len(self.owners[call.name]) < 2 or types & self.named[path.split("/")[1]]
        return bool(is_one and re.search(rf"\.{call.name}\b", line))

    def is_free(self, call, path, line):
        """Whether a line writes a free function that its file imports, or that the module defines which it names."""
        module = os.path.basename(call.path)[:-3]
        if re.search(rf"\b(?:{module}|{call.crate})::{call.name}\b(?:::<[^>]*>)?\(", line):
            return True
        text = self.sources[path]
        imported = rf"^\s*(?:pub )?use [^;]*\b(?:{call.crate}|crate|super|self)::[^;]*(?:\b{call.name}\b|\*)[^;]*;"
        is_here = path == call.path or re.search(imported, text, re.M)
        is_other = path != call.path and re.search(rf"^\s*(?:pub(?:\(\w+\))? )?fn {call.name}\b", text, re.M)
        return bool(is_here) and not is_other and bool(re.search(rf"(?<![.\w:]){call.name}\b(?:::<[^>]*>)?\(", line))

    def edited(self, crates, name):
        """For each file of a crate the numbers of the lines that its edits change."""
        found = collections.defaultdict(set)
        for edit in crates.edits(name):
            path = ""
            for line in read(edit).split("\n"):
                if line.startswith("file: "):
                    path = f"crates/{name}/{line[6:].strip()}"
                elif line.startswith("old: ") and path in self.sources:
                    before, _, _ = self.sources[path].partition(line[5:])
                    found[path].add(before.count("\n") + 1)
        return found


def unused(crates):
    """The public calls without a caller, a test and an edit."""
    uses = Uses(crates)
    for name in crates.below:
        edited = uses.edited(crates, name)
        for call in calls_of(name, uses.sources):
            is_edited = any(call.first <= number <= call.last for number in edited[call.path])
            if not is_edited and not uses.is_used(call):
                yield call


def faults(crates):
    found = {call.full(): call for call in unused(crates)}
    lost = [f"{call.path}:{call.first}: {name} has neither a caller, nor a test, nor an edit" for name, call in found.items() if name not in EXCEPTIONS]
    return lost + [f"dev/calls.py:1: remove the exception {name}, which is not needed" for name in EXCEPTIONS if name not in found]


def type_names():
    """The public types of src/ that two crates define."""
    places = collections.defaultdict(set)
    for path in tracked():
        if re.match(r"crates/\w+/src/.*\.rt$", path):
            for name in re.findall(r"^pub (?:struct|enum|trait) (\w+)", read(path), re.M):
                places[name].add(path)
    for name, found in sorted(places.items()):
        if len({it.split("/")[1] for it in found}) > 1:
            print(f"{name}: {', '.join(sorted(found))}")
