"""The C text of values and lines."""
import re

WIDEST = 140    # columns of a line
LONGEST = 80    # of the text of a value that is written where it is used


class Text:
    """The C text of a value. `reads` has the variables that it depends on, and "*" if it depends on memory. `opposite` is the text of the
    opposite condition. An address has its base and either an offset in bytes or the text of one, `by`. An atom needs no brackets anywhere, and
    a unary none beside an operator with two operands. The type of a size is size_t."""

    def __init__(self, text, is_atom=False, reads=frozenset(), *, opposite=None, base=None, offset=0, by=None, is_unary=False, is_size=False):
        self.text, self.is_atom, self.reads, self.opposite, self.base, self.offset, self.by = text, is_atom, reads, opposite, base, offset, by
        self.is_unary, self.is_size = is_atom or is_unary, is_size

    def atom(self):
        return self.text if self.is_atom else f"({self.text})"

    def operand(self):
        """The text as an operand of an operator with two."""
        return self.text if self.is_unary else f"({self.text})"

    def cast(self, kind):
        """The value as another type."""
        return Text(f"({kind}){self.operand()}", False, self.reads, is_unary=True)

    def size(self):
        """The number as a size_t: it fits, or its upper half does not count."""
        if self.is_size:
            return self
        if found := re.fullmatch(r"(\d+|0x[0-9a-f]{1,8})ull", self.text):
            return Text(found[1] + ("u" if int(found[1], 0) >= 2**15 else ""), True, is_size=True)
        text = self.text[5:] if self.is_unary and self.text.startswith("(u64)") else self.operand()
        text = text if text.startswith("(size_t)") else f"(size_t){text}"
        return Text(text, False, self.reads, is_unary=True, is_size=True)

    def is_name(self):
        return re.fullmatch(r"\w+", self.text) is not None


def number(value, width):
    """A constant of this width, as C text whose type is at least that of the width."""
    value %= 2**width
    text = str(value) if value < 100000 else hex(value)
    return f"{text}ull" if width == 64 else f"{text}u"


def reads_of(*texts):
    return frozenset().union(*(text.reads for text in texts))


class Line:
    """A line of a body. `declares` has the type and the name of a variable that it declares with its first value, `label` the block whose
    label it is."""

    def __init__(self, depth, text, declares=None, label=None):
        self.depth, self.text, self.declares, self.label = depth, text, declares, label

    def written(self):
        return "    " * self.depth + (f"{self.declares} = {self.text}" if self.declares else self.text)


def wrapped(text, indent="    ", widest=WIDEST):
    """The text as lines that are no wider than allowed."""
    if len(text) <= widest:
        return [text]
    lines, line = [], ""
    start = text[:len(text) - len(text.lstrip())]
    for word in text.lstrip().split(" "):
        if line and len(line) + 1 + len(word) > widest:
            lines.append(line)
            line = start + indent + word
        else:
            line = f"{line} {word}" if line else start + word
    return [*lines, line]
