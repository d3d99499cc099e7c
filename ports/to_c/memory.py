"""Loads, stores, addresses, stack slots and calls."""
import re

from .forms import bits, fields_of, is_constant, is_struct, parts_of, require, size_of
from .module import is_lifetime
from .text import Text, reads_of
from .values import Values

PURE = re.compile(r"@llvm\.(umin|umax|smin|smax|usub\.sat|uadd\.sat|bswap)\.(i\d+)$")
FUNNEL = "@llvm.fshl.i64"    # of one number with itself it is a rotation
MOVES = re.compile(r"@llvm\.(memset\.p0|memmove\.p0\.p0|memcpy\.p0\.p0)\.i64$")


def byte_at(address):
    """The byte at an address, as a place."""
    if address.base is not None and re.fullmatch(r"\w+", address.base):
        return f"{address.base}[{address.by or address.offset}]"
    if address.base is None and address.is_name():
        return f"{address.text}[0]"
    return f"(*({address.text}))"


def suffix(kind, align, at):
    """How the functions of head.c for this type and address end."""
    known = min(align, at & -at) if at else align
    require(kind != "i128" or known >= 8, "a number of 128 bits at any address")
    is_aligned = known >= size_of(kind) and kind != "i48" or kind == "i128"
    return ("p" if kind == "ptr" else str(size_of(kind))) + ("" if is_aligned else "u")


class Memory(Values):
    """Each method writes the instruction of its name."""

    def loaded(self, kind, base, align, at=0):
        address = self.address_at(base, at)
        text = byte_at(address) if kind == "i8" else f"get{suffix(kind, align, at)}({address.text})"
        return Text(text, True, address.reads | {"*"})

    def stored(self, kind, value, base, align, at=0):
        address = self.address_at(base, at)
        if kind == "i8":
            return f"{byte_at(address)} = {value.text};"
        return f"put{suffix(kind, align, at)}({address.text}, {value.text});"

    def alloca(self, it):
        slot = self.slots[it.result]
        if slot.name in self.promoted:
            local = self.local(slot.name)
            self.at_top(slot.kind, local)
            self.values[slot.name] = Text(local, True)
            return
        group = self.shares.get(slot.name, [slot.name])
        if slot.name in self.values:    # declared with one that it shares memory with
            return
        unit = max(min(self.slots[name].align, 8) for name in group)
        local, length = self.local(group[0]), self.slots[group[0]].length
        self.top.append(f"u{8 * unit} {local}[{max(1, (length + unit - 1) // unit)}];")
        base = local if unit == 1 else f"(u8 *){local}"
        self.slot_texts.add(base)
        for name in group:
            self.values[name] = Text(base, unit == 1, base=base, is_unary=True)

    def load(self, it):
        kind = "i64" if it.result in self.wide else it.kind
        if it.base in self.promoted:
            local = self.values[it.base].text
            text = Text(local, True, frozenset({local}))
            self.give(it, kind, text.cast("size_t").cast("u64") if kind != it.kind else text)
            return
        address = self.value(it.base, "ptr")
        if not is_struct(kind):
            self.give(it, kind, self.loaded(kind, address, int(it.align)))
        elif self.uses[it.result]:
            address, local = self.fixed(address), self.whole(it)
            for index, (part, at) in enumerate(fields_of(kind)):
                self.line(f"{local}.f{index} = {self.loaded(part, address, int(it.align), at).text};")

    def whole(self, it):
        """The new variable of a result that is a struct."""
        local = self.local(it.result)
        self.kinds[it.result] = it.kind
        self.at_top(it.kind, local)
        self.values[it.result] = Text(local, True)
        return local

    def fixed(self, address):
        """An address that may be written twice."""
        if address.is_atom or address.base is not None and re.fullmatch(r"(\(u8 \*\))?\w+", address.base):
            return address
        local = self.local("%at")
        self.at_top("ptr", local)
        self.line(f"{local} = {address.text};")
        return Text(local, True)

    def store(self, it):
        if it.value == "poison":
            return
        kind = it.kind
        if it.value in self.wide and it.base not in self.promoted:
            kind, given = "i64", self.number_of(it.value)
        else:
            given = self.value(it.value, kind)
        if it.base in self.promoted:
            local = self.values[it.base].text
            self.flush(local)
            self.line(f"{local} = {given.text};")
            return
        address = self.value(it.base, "ptr")
        self.flush("*")
        if not is_struct(kind):
            self.line(self.stored(kind, given, address, int(it.align)))
            return
        address = self.fixed(address)
        for index, (part, at) in enumerate(fields_of(kind)):
            self.line(self.stored(part, Text(f"{given.text}.f{index}", True), address, int(it.align), at))

    def offset(self, it):
        scale, base = bits(it.unit) // 8, self.value(it.base, "ptr")
        if is_constant(it.by):
            self.give(it, "ptr", self.address_at(base, int(it.by) * scale))
            return
        by = self.value(it.by, "i64")
        by_text = by.size().operand()
        if scale > 1:
            by_text = f"{scale} * {by_text}"
        self.give(it, "ptr", Text(f"{base.operand()} + {by_text}", False, base.reads | by.reads, base=base.text, by=by_text))

    def number(self, it):
        self.give(it, "i64", self.number_of(it.value))

    def address(self, it):
        value = self.value(it.value, "i64")
        is_wide = it.result in self.wide
        self.give(it, "i64" if is_wide else "ptr", value if is_wide else self.pointer(value))

    def insert(self, it):
        """A value in which one field is new: a variable of its own, or that of a value which no other instruction uses."""
        text = self.value(it.given, it.part)
        old = None if it.value == "poison" else self.value(it.value, it.kind)
        if it.value in self.built and self.uses[it.value] == 1:
            self.values[it.result], self.kinds[it.result] = old, it.kind
        else:
            local = self.whole(it)
            if old:
                self.line(f"{local} = {old.text};")
        self.built.add(it.result)
        self.line(f"{self.values[it.result].text}.f{it.index} = {text.text};")

    def field(self, it):
        whole, kind = self.value(it.value, it.kind), parts_of(it.kind)[int(it.index)]
        require(whole.is_atom, "a field of a value without a name")
        text = Text(f"{whole.text}.f{it.index}", True)
        is_wide = it.result in self.wide
        self.give(it, "i64" if is_wide else kind, text.cast("size_t").cast("u64") if is_wide else text)

    def call(self, it):
        if it.callee.startswith("@llvm."):
            self.intrinsic(it)
            return
        texts = [self.argument(it, index, *argument).text for index, argument in enumerate(it.arguments)]
        text = Text(f"{self.names[it.callee]}({', '.join(texts)})", True)
        self.flush("*")
        if it.result is None or self.uses[it.result] == 0:
            self.line(f"{text.text};")
            return
        self.kinds[it.result] = kind = self.kind_of(it.result, it.kind)
        is_number = (it.callee, None) in self.facts.wide.values
        if is_number and kind == "ptr":
            text = self.pointer(text)
        elif kind == "size":
            text = Text(text.text, True, is_size=it.callee in self.facts.narrow.results).size()
        elif kind != it.kind and not is_number:
            text = text.cast("size_t").cast("u64")
        self.declare(it.result, text)

    def argument(self, it, index, kind, value):
        """What a call gives; an address that is carried as a number if the callee takes it so."""
        callee = self.facts.module.functions.get(it.callee)
        if callee and (it.callee, callee.names[index]) in self.facts.wide.values:
            return self.number_of(value)
        text = self.value(value, kind)
        return text.size() if callee and kind == "i64" and callee.names[index] in self.facts.narrow.of(it.callee) else text

    def intrinsic(self, it):
        if is_lifetime(it):
            return
        if found := PURE.match(it.callee):
            self.pure(it, found[1].replace(".", ""), found[2])
            return
        texts = [self.value(value, kind) for kind, value in it.arguments]
        if it.callee == FUNNEL:
            (_, first), (_, second), (_, count) = it.arguments
            require(first == second and count.isdigit() and 0 < int(count) < 64, f"the intrinsic {it.callee} but for a rotation")
            self.give(it, "i64", Text(f"rotl64({texts[0].text}, {count})", True, reads_of(texts[0])))
        elif it.callee == "@llvm.trap":
            self.line("TRAP();")
        elif it.callee != "@llvm.assume":
            found = MOVES.match(it.callee)
            require(found and len(texts) == 4 and it.arguments[3][1] == "false", f"the intrinsic {it.callee}")
            self.move(found[1].split(".")[0].upper(), it.aligned, *texts[:3])

    def pure(self, it, how, kind):
        """A function of numbers alone; of two numbers below 2^32 it is that of sizes."""
        is_small = kind == "i64" and how in ("umin", "umax", "usubsat") and all(self.is_small(it, value) for _, value in it.arguments)
        texts = [self.value(value, kind) for kind, value in it.arguments]
        texts = [text.size() for text in texts] if is_small else texts
        text = f"{how}{'_size' if is_small else bits(kind)}({', '.join(text.text for text in texts)})"
        self.give(it, kind, Text(text, True, reads_of(*texts), is_size=is_small))

    def move(self, how, aligned, to, what, length):
        """A move or a clearing; one of fixed length states which addresses are aligned."""
        self.flush("*")
        if found := re.fullmatch(r"(\d+)ull", length.text):
            length = Text(found[1], True)
            if how == "MEMSET" and what.text in ("0", "0u") and found[1] in ("16", "20", "24", "32") and aligned[0] >= 4:
                self.line(f"CLEAR{found[1]}({to.text});")
                return
            to = self.marked(to, aligned[0])
            what = self.marked(what, aligned[1]) if how != "MEMSET" else what
        else:
            length = length.size()
        self.line(f"{how}({to.text}, {what.text}, {length.text});")

    def marked(self, address, align):
        """An address with a mark of its alignment, if the compiler does not see it."""
        is_slot = address.base is not None and address.base in self.slot_texts
        return Text(f"AT{align}({address.text})", True, address.reads) if align >= 4 and not is_slot else address
