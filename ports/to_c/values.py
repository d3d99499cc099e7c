"""The names and the texts of a function's values."""
import collections
import re

from .forms import GLOBAL, bits, declared, is_constant, is_struct, parts_of, require
from .slots import Sharing, plain, slots_of
from .text import LONGEST, Line, Text, number

KEYWORDS = frozenset("""auto break case char const continue default do double else enum extern float for goto if inline int long register restrict
return short signed sizeof static struct switch typedef union unsigned void volatile while main
alignas alignof and asm bool catch class concept constexpr delete export false friend mutable namespace new not nullptr operator or private
protected public template this throw true try typename using virtual xor""".split())


class Values:
    """A value with one use, in its block, is written where it is used: until then its text is in `pending`. Any other has a variable."""

    def __init__(self, function, shape, facts, names, reserved):
        self.function, self.shape, self.facts, self.names = function, shape, facts, names
        self.wide, self.sized = facts.wide.of(function.name), facts.narrow.of(function.name)
        self.lines, self.depth, self.top = [], 1, []    # `top` has the declarations at the start
        self.values, self.pending, self.slot_texts, self.built = {}, {}, set(), set()
        self.kinds = {name: self.kind_of(name, kind) for name, kind in zip(function.names, function.kinds)}
        self.taken = set(names.values()) | reserved
        self.count_uses()
        self.slots = slots_of(function, self.shape.first)
        self.promoted = plain(self.slots, function)
        self.shares = {name: group for group in Sharing(self.slots, self.shape, facts.module.functions).groups() for name in group}
        for name in function.names:
            self.values[name] = Text(self.local(name), True, is_size=name in self.sized)
        self.phis = {label: [it for it in block.body if it.form == "phi"] for label, block in self.shape.blocks.items()}
        for it in (it for phis in self.phis.values() for it in phis):
            local, kind = self.local(it.result), self.kind_of(it.result, it.kind)
            self.kinds[it.result] = kind
            self.at_top(kind, local)
            self.values[it.result] = Text(local, True, frozenset({local}), is_size=kind == "size")

    def count_uses(self):
        self.uses, self.home, self.users = collections.Counter(), {}, collections.defaultdict(set)
        for label, block in self.shape.blocks.items():
            for it in block.body:
                if it.result:
                    self.home[it.result] = label
                used = [(name, label) for name in it.operands()]
                if it.form == "phi":
                    used = [(name, source) for source, name in it.sources.items() if source in self.shape.rank]
                for name, place in used:
                    self.uses[name] += 1
                    self.users[name].add(place)

    def local(self, name):
        """A new C name, short, that still has the register's."""
        text = re.match(r"\w*", name[1:])[0] or "v"
        text = f"v{text}" if text[0].isdigit() else text
        unique, count = text, 1
        while unique in self.taken:
            count += 1
            unique = f"{text}_{count}"
        self.taken.add(unique)
        return unique

    # -- lines

    def line(self, text):
        self.lines.append(Line(self.depth, text))

    def at_top(self, kind, name):
        self.top.append(f"{declared(kind, name)};")

    def kind_of(self, name, kind):
        return "i64" if name in self.wide else "size" if kind == "i64" and name in self.sized else kind

    def flush(self, of):
        """Writes the pending values that depend on this variable, or on memory."""
        for name in [name for name, text in self.pending.items() if of in text.reads]:
            self.declare(name, self.pending.pop(name))

    def declare(self, name, text):
        """Gives a value a variable of its own."""
        kind, local = self.kinds[name], self.local(name)
        if self.users[name] <= self.shape.in_scope(self.home[name]):    # each use is where a declaration here is in scope
            self.lines.append(Line(self.depth, f"{text.text};", declares=declared(kind, local)))
        else:
            self.at_top(kind, local)
            self.line(f"{local} = {text.text};")
        self.values[name] = Text(local, True, is_size=kind == "size")

    def give(self, it, kind, text):
        """Keeps the text of a result until its use, or declares a variable for it."""
        if kind == "i64" and it.result in self.sized:
            kind, text = "size", text.size()
        self.kinds[it.result] = kind
        if self.uses[it.result] == 0:
            return
        once = self.uses[it.result] == 1 and self.users[it.result] == {self.home[it.result]}
        if once and len(text.text) < LONGEST:
            self.pending[it.result] = text
        elif re.fullmatch(r"(0x)?[0-9a-f]+u?l*", text.text):
            self.values[it.result] = text
        else:
            self.declare(it.result, text)

    # -- operands

    def number_of(self, name):
        """The text of an address as a number of 64 bits."""
        if name in self.wide:
            return self.value(name, "i64")
        if name in ("null", "poison"):
            return Text("0ull", True)
        return Text(f"(u64)(size_t){(text := self.value(name, 'ptr')).operand()}", False, text.reads, is_unary=True)

    def value(self, name, kind):
        """The text of an operand. One that was still to be written is taken."""
        if name in self.wide and kind == "ptr":
            return self.pointer(self.value(name, "i64"))
        if name in self.pending:
            return self.pending.pop(name)
        if name in self.values:
            return self.values[name]
        if name.startswith(("@", "ptrto")):
            return self.global_value(name)
        if name in ("true", "false"):
            return Text("1" if name == "true" else "0", True)
        if is_struct(kind):
            return Text(self.struct(kind, name), True)
        if name in ("null", "poison"):    # any value will do
            return {"ptr": Text("(u8 *)0", is_unary=True), "i128": Text("pair128(0, 0)", True)}.get(kind, Text("0", True))
        require(is_constant(name), f"the value {name}")
        if kind == "i128":
            require(int(name) >= 0, "a constant of 128 bits")
            return Text(f"pair128({int(name) % 2**64}u, {int(name) // 2**64}u)", True)
        return Text(number(int(name), bits(kind)), True)

    def is_small(self, it, name):
        """Whether an operand of 64 bits is below 2^32 where an instruction uses it."""
        if is_constant(name):
            return 0 <= int(name) < 2**32
        return self.facts.narrow.is_small(self.function.name, name, self.home[it.result])

    @staticmethod
    def pointer(text):
        """A number as an address."""
        if text.is_atom and text.text.startswith("get8"):
            return Text(f"getp{text.text[4:]}", True, text.reads)
        return Text(f"(u8 *){text.size().operand()}", False, text.reads, is_unary=True)

    def global_value(self, name):
        if found := re.fullmatch(r"(@.*)\.plus\.(\d+)", name):
            return self.address_at(self.global_value(found[1]), int(found[2]))
        if found := re.fullmatch(rf"ptrto(?:int|addr) \(ptr ({GLOBAL}) to i64\)", name):
            return Text(f"(u64)(size_t){self.names[found[1]]}", is_unary=True)
        text = f"(u8 *){self.names[name]}"
        return Text(text, base=text, is_unary=True)

    def struct(self, kind, name):
        """A variable with a constant of a struct type."""
        local = self.local("%constant")
        self.at_top(kind, local)
        if name == "zeroinitializer":
            name = f"{{{', '.join(f'{part} ' + ('null' if part == 'ptr' else '0') for part in parts_of(kind))}}}"
        if name != "poison":
            for index, part in enumerate(parts_of(name)):
                part_kind, value = part.split(" ")
                if value != "poison":
                    self.line(f"{local}.f{index} = {self.value(value, part_kind).text};")
        return local

    def address_at(self, base, offset=0):
        """The text of an address with an offset in bytes."""
        if offset == 0:
            return base
        root = base.atom()
        if base.base is not None and base.by is None:
            root, offset = base.base, base.offset + offset
        if offset == 0:
            return Text(root, False, base.reads, base=root)
        return Text(f"{root} {'+' if offset > 0 else '-'} {abs(offset)}", False, base.reads, base=root, offset=offset)
