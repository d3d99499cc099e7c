"""Numbers: arithmetic, comparisons and casts."""
from .forms import bits, c_type, is_constant, is_odd, require
from .memory import Memory
from .text import Text, number, reads_of

OPERATORS = {"add": "+", "sub": "-", "mul": "*", "udiv": "/", "urem": "%", "and": "&", "or": "|", "xor": "^", "shl": "<<", "lshr": ">>"}
COMPARISONS = {"eq": "==", "ne": "!=", "lt": "<", "le": "<=", "gt": ">", "ge": ">="}
MODULAR = ("add", "sub", "mul", "and", "or", "xor", "shl")
OPPOSITE = {"==": "!=", "!=": "==", "<": ">=", ">=": "<", ">": "<=", "<=": ">"}


def biased(name, text, width):
    """A signed number, plus half its range: unsigned numbers are in the same order."""
    if is_constant(name):
        return number(int(name) + 2**(width - 1), width)
    return f"({text.atom()} ^ {number(2**(width - 1), width)})"


def small(name, text):
    """An operand: a small constant without the mark of its type."""
    return str(int(name)) if is_constant(name) and 0 <= int(name) < 2**16 else text.operand()


class Arithmetic(Memory):
    """Each method writes the instruction of its name."""

    def select(self, it):
        condition, is_wide = self.value(it.condition, "i1"), it.result in self.wide
        one, other = [self.number_of(name) if is_wide else self.value(name, it.kind) for name in (it.one, it.other)]
        is_size = it.kind == "i64" and it.result in self.sized
        one, other = (one.size(), other.size()) if is_size else (one, other)
        if it.kind == "i1" and it.other == "false":
            text = f"{condition.operand()} && {one.operand()}"
        elif it.kind == "i1" and it.one == "true":
            text = f"{condition.operand()} || {other.operand()}"
        else:
            text = f"{condition.operand()} ? {one.operand()} : {other.operand()}"
        is_size = is_size and not (is_constant(it.one) and is_constant(it.other))    # two constants are an int
        self.give(it, "i64" if is_wide else it.kind, Text(text, False, reads_of(condition, one, other), is_size=is_size))

    def freeze(self, it):
        is_wide = it.result in self.wide
        self.give(it, "i64" if is_wide else it.kind, self.number_of(it.value) if is_wide else self.value(it.value, it.kind))

    def phi(self, it):
        """A variable, which each branch to the block sets."""

    def compare(self, it):
        is_signed, is_equality = it.how.startswith("s"), it.how in ("eq", "ne")
        sign = COMPARISONS[it.how if is_equality else it.how[1:]]
        if it.kind == "ptr" and (it.one in self.wide or it.other in self.wide):
            left, right = self.number_of(it.one), self.number_of(it.other)
        else:
            left, right = self.pair(it, is_signed)
        if is_signed:
            texts = [biased(name, text, bits(it.kind)) for name, text in ((it.one, left), (it.other, right))]
        elif it.kind == "ptr" and not is_equality:
            texts = [text.cast("size_t").text for text in (left, right)]
        else:
            texts = [left.operand(), self.compared(it, right)]
        self.give(it, "i1", Text(f"{texts[0]} {sign} {texts[1]}", False, reads_of(left, right),
                                 opposite=f"{texts[0]} {OPPOSITE[sign]} {texts[1]}"))

    def pair(self, it, is_whole):
        """The two operands, both as sizes if both are below 2^32 here."""
        is_small = it.kind == "i64" and not is_whole and self.is_small(it, it.one) and self.is_small(it, it.other)
        texts = [self.value(name, it.kind) for name in (it.one, it.other)]
        return [text.size() for text in texts] if is_small else texts

    @staticmethod
    def compared(it, text):
        """The second operand of a comparison: a constant as short as its type allows."""
        if it.kind == "ptr" or not is_constant(it.other):
            return text.operand()
        value = int(it.other)
        if bits(it.kind) < 64:
            return str(value % 2**bits(it.kind)) + ("u" if bits(it.kind) == 32 else "")
        return str(value) if 0 <= value < 2**16 else text.operand()

    def cast(self, it):
        text = self.value(it.value, it.kind)
        if "i128" in (it.kind, it.new):
            self.cast_of_128(it, text)
        elif it.how == "sext":
            self.extend_sign(it, text)
        elif is_odd(it.new) and it.how == "trunc":
            mask = number(2**bits(it.new) - 1, 64 if bits(it.new) > 32 else 32)
            self.give(it, it.new, Text(f"{text.cast(c_type(it.new)).text} & {mask}", False, text.reads))
        elif it.new == "i1":
            self.give(it, it.new, Text(f"({text.operand()} & 1) != 0", False, text.reads))
        else:
            self.give(it, it.new, text.cast(c_type(it.new)))

    def cast_of_128(self, it, text):
        if it.new == "i128":
            require(it.how == "zext", it.how)
            self.give(it, it.new, Text(f"pair128({text.text}, 0)", True, text.reads))
            return
        require(it.new == "i64" and it.how == "trunc" and text.is_atom, f"{it.how} of i128")
        self.give(it, it.new, Text(f"{text.text}.low", True, text.reads))

    def extend_sign(self, it, text):
        new = c_type(it.new)
        require(not is_odd(it.kind) and not is_odd(it.new), "a signed number of odd width")
        if it.kind == "i1":
            self.give(it, it.new, Text(f"({new})(({new})0 - {text.operand()})", False, text.reads, is_unary=True))
            return
        half, wide = number(2**(bits(it.kind) - 1), bits(it.new)), text.cast(new)
        self.give(it, it.new, Text(f"({new})(({wide.text} ^ {half}) - {half})", False, text.reads, is_unary=True))

    def binary(self, it):
        left, right = self.pair(it, it.result not in self.sized)
        if it.kind == "i1":
            text = self.logical(it, left, right)
        elif it.kind == "i128":
            text = self.of_128(it, left, right)
        elif it.kind == "i64":
            text = self.of_64(it, left, right)
        else:
            text = self.unsigned(it, left, right)
        text.reads = reads_of(left, right)
        self.give(it, it.kind, text)

    def of_64(self, it, left, right):
        """As a size_t if that can carry the result, and what it is computed from."""
        is_shift, is_known = it.how in ("shl", "lshr", "ashr"), left.is_size and (right.is_size or is_constant(it.other))
        can = is_constant(it.other) and int(it.other) < 32 and not is_constant(it.one) if is_shift else True
        if it.result in self.sized and can and (it.how in MODULAR or it.how in ("lshr", "udiv", "urem") and is_known):
            text = self.unsigned(it, left.size(), right if is_shift else right.size())
            text.is_size = True
            return text
        if left.is_size and (is_shift or is_known):
            left = left.cast("u64")
        return self.unsigned(it, left, right)

    @staticmethod
    def unsigned(it, left, right):
        width = bits(it.kind)
        if it.how in ("shl", "lshr", "ashr") and not is_constant(it.other):
            right = Text(f"{right.operand()} & {width - 1}")    # where it would be too much, no result is used
        by = small(it.other, right)
        if it.how == "ashr":
            require(width in (32, 64), "a signed shift of few bits")
            return Text(f"down{width}({left.text}, {right.text if by == right.operand() else by})", True)
        out = f"{left.operand()} {OPERATORS[it.how]} {by}"
        if it.how == "add" and is_constant(it.other) and -2**16 < int(it.other) < 0 and width >= 32:
            out = f"{left.operand()} - {-int(it.other)}"
        if is_odd(it.kind):
            require(width > 16 and it.how in ("and", "or", "xor", "lshr", "shl", "add", "sub", "mul"), f"{it.how} of odd width")
            mask = number(2**width - 1, 64 if width > 32 else 32)
            return Text(out if it.how in ("and", "or", "xor", "lshr") else f"({out}) & {mask}")
        if width >= 32:
            return Text(out)
        prefix = {"mul": "1u * ", "shl": "(u32)"}.get(it.how, "")
        return Text(f"({c_type(it.kind)})({prefix}{out})", is_unary=True)

    @staticmethod
    def of_128(it, left, right):
        """What the checksums do with numbers of 128 bits."""
        by = int(it.other) if is_constant(it.other) else 0
        if it.how in ("add", "or"):
            text = f"{it.how}128({left.text}, {right.text})"
        elif it.how == "lshr" and by == 64 and left.is_atom:
            text = f"pair128({left.text}.high, 0)"
        elif it.how == "and" and by == 2**64 - 1 and left.is_atom:
            text = f"pair128({left.text}.low, 0)"
        elif it.how == "shl" and 0 < by < 64:
            text = f"shift128({left.text}, {by})"
        elif it.how == "mul" and 1 < by < 2**63 and by & by - 1 == 0:
            text = f"shift128({left.text}, {by.bit_length() - 1})"
        else:
            require(it.how in ("udiv", "urem") and by == 2**64 and left.is_atom, f"{it.how} of i128")
            text = f"pair128({left.text}.{'high' if it.how == 'udiv' else 'low'}, 0)"
        return Text(text, True)

    @staticmethod
    def logical(it, left, right):
        if it.how == "xor" and it.other == "true":
            return Text(left.opposite or f"!{left.operand()}", opposite=left.text)
        signs = {"and": "&&", "or": "||", "xor": "!=", "add": "!=", "sub": "!="}
        require(it.how in signs, f"{it.how} of i1")
        return Text(f"{left.operand()} {signs[it.how]} {right.operand()}")
