"""A module as text, taken apart: its constants, its functions, and their instructions."""
import re

from .forms import (ANY, ATTRIBUTES, BYTES, COMPILED, ENDS, GLOBAL, INT, META, MODULE_LAYOUT, NAME, OPERANDS, PARAMETER_WORD, VALUE,
                    Unsupported, bits, require, split)

HEAD = re.compile(rf"(?P<word>define|declare) (?P<linkage>internal )?(?:fastcc )?(?:{PARAMETER_WORD} )*(?P<kind>void|{ANY}|<.*?>)"
                  rf" (?P<name>{GLOBAL})\((?P<parameters>.*)\)(?: unnamed_addr| local_unnamed_addr)?{ATTRIBUTES}(?: align \d+)?"
                  rf"{META.replace(', ', ' ')}(?: \{{)?")
PARAMETER = re.compile(rf"(?P<kind>{ANY}|<.*?>)(?: {PARAMETER_WORD})*(?: (?P<name>{NAME}))?")
ARGUMENT = re.compile(rf"(?P<kind>{ANY})(?: {PARAMETER_WORD})* (?P<value>{VALUE})")
CALLEE = re.compile(rf" call (?:fastcc )?(?:{PARAMETER_WORD} )*(?:void|{ANY}) ({GLOBAL})\(")
CONSTANT = re.compile(rf'(?P<name>{GLOBAL}) = private unnamed_addr constant (?P<kind>{BYTES}|{INT}|\[\d+ x {INT}\])'
                      rf' (?P<value>c"[^"]*"|zeroinitializer|-?\d+|\[[^\[\]]*\]), align (?P<align>\d+)')


class Instruction:
    """An instruction: its form, and the groups of that form as its members."""
    result = None

    def __init__(self, line):
        for form, pattern in COMPILED.items():
            if found := pattern.fullmatch(line):
                self.line, self.form = line, form
                self.is_upward = " nuw " in line    # an offset or a difference that is not negative
                self.__dict__.update(found.groupdict())
                break
        else:
            raise Unsupported("an instruction of unknown form")
        if form == "call":
            self.arguments = [ARGUMENT.fullmatch(argument) for argument in split(self.given)]
            require(all(self.arguments), "the arguments of a call")
            self.arguments = [(it["kind"], it["value"]) for it in self.arguments]
        elif form == "phi":
            self.sources = {label: value for value, label in re.findall(rf"\[ ({VALUE}), ({NAME}) \]", self.sources)}
        elif form == "switch":
            self.cases = [(int(case), label) for case, label in re.findall(rf"{INT} (-?\d+), label ({NAME})", self.cases)]

    def operands(self):
        """The values that the instruction uses."""
        if self.form == "call":
            return [value for _, value in self.arguments]
        if self.form == "phi":
            return list(self.sources.values())
        return [value for value in (getattr(self, it) for it in OPERANDS.get(self.form, ())) if value]

    def targets(self):
        """The blocks to which the end of a block may go."""
        if self.form == "jump":
            return [self.to]
        if self.form == "branch":
            return [self.yes, self.no]
        if self.form == "switch":
            return [self.default, *(label for _, label in self.cases)]
        return []

    def redirect(self, new):
        """Renames the blocks to which the end of a block may go."""
        if self.form == "jump":
            self.to = new(self.to)
        elif self.form == "branch":
            self.yes, self.no = new(self.yes), new(self.no)
        elif self.form == "switch":
            self.default, self.cases = new(self.default), [(case, new(label)) for case, label in self.cases]


def is_lifetime(it):
    return it.form == "call" and it.callee.startswith("@llvm.lifetime.")


class Block:
    """Instructions, the last of which leaves the block."""

    def __init__(self, label):
        self.label, self.body = label, []

    @property
    def end(self):
        return self.body[-1]

    def is_ended(self):
        return bool(self.body) and self.end.form in ENDS


class Function:
    """A function: its type, the names of its parameters, its lines, and after `parse` its blocks."""

    def __init__(self, found, kinds, names):
        self.name, self.result, self.kinds, self.names = found["name"], found["kind"], kinds, names
        self.is_export = found["word"] == "define" and found["linkage"] is None
        self.lines, self.blocks, self.first = [], {}, None

    def callees(self):
        return [name for line in self.lines for name in CALLEE.findall(line)]

    def instructions(self):
        return [it for block in self.blocks.values() for it in block.body]

    def parse(self):
        if self.blocks:
            return
        lines, block = iter(self.lines), None
        for line in lines:
            try:
                if found := re.fullmatch(r"([\w.-]+):( +; .*)?", line):
                    require(block is None or block.is_ended(), "a block without an end")
                    block = self.add(Block(f"%{found[1]}"))
                elif line.strip():
                    require(line.startswith("  "), "a line in a function")
                    line = line.strip()
                    while line.count("[") > line.count("]"):
                        line += " " + next(lines).strip()
                    block = block or self.add(Block(f"%{sum(name is None or name[1:].isdigit() for name in self.names)}"))
                    require(not block.is_ended(), "an instruction after the end of a block")
                    block.body.append(Instruction(line))
            except Unsupported as why:
                raise Unsupported(f"{self.name}: {why}: {line}") from None
        self.skip_empty()

    def forget_assumptions(self):
        """Takes out what clang may assume, and the conditions that only that needs."""
        unused = {it.arguments[0][1] for it in self.instructions() if it.form == "call" and it.callee == "@llvm.assume"}
        for block in self.blocks.values():
            block.body = [it for it in block.body if not (it.form == "call" and it.callee == "@llvm.assume")]
        while unused:
            unused -= {name for it in self.instructions() for name in it.operands()}
            gone = [it for it in self.instructions() if it.result in unused and it.form in ("compare", "binary", "cast", "offset", "field")]
            for block in self.blocks.values():
                block.body = [it for it in block.body if it not in gone]
            unused = {name for it in gone for name in it.operands()}

    def add(self, block):
        self.blocks[block.label] = block
        self.first = self.first or block.label
        return block

    def skip_empty(self):
        """Lets no branch go to a block that only goes on to another."""
        named = {label for it in self.instructions() if it.form == "phi" for label in it.sources}

        def final(label):
            seen = set()
            while len(self.blocks[label].body) == 1 and self.blocks[label].end.form == "jump" and label not in seen and label not in named:
                seen.add(label)
                label = self.blocks[label].end.to
            return label
        for block in self.blocks.values():
            block.end.redirect(final)


class Module:
    """A module's functions, imports and constants, by name."""

    def __init__(self, text):
        self.functions, self.imports, self.constants = {}, {}, {}
        function = None
        for number, line in enumerate(text.split("\n"), 1):
            line = line.rstrip()
            try:
                if function is None:
                    function = self.top(line)
                elif line == "}":
                    function = None
                else:
                    function.lines.append(line)
            except Unsupported as why:
                raise Unsupported(f"near line {number}: {why}: {line}") from None

    def top(self, line):
        """Takes a line outside all functions. Returns the function that it begins."""
        if line.startswith(("define ", "declare ")):
            return self.head(line)
        if line.startswith("target datalayout"):
            require(line == f'target datalayout = "{MODULE_LAYOUT}"', "the data layout of the module")
        elif line.startswith("@") and not line.startswith("@uip_limit ="):    # which only assumptions name
            found = CONSTANT.fullmatch(line)
            require(found, "a constant of unknown form")
            self.constants[found["name"]] = (bytes_of(found["kind"], found["value"]), int(found["align"]))
        else:
            known = line == "" or line.startswith((";", "@uip_limit = external global i8", "source_filename", "!", "target triple", "attributes "))
            require(known, "a line of unknown form")
        return None

    def head(self, line):
        found = HEAD.fullmatch(line)
        require(found, "the head of a function")
        if found["name"].startswith("@llvm."):
            return None
        parameters = [PARAMETER.fullmatch(parameter) for parameter in split(found["parameters"])]
        require(all(parameters), "the parameters")
        for it in parameters:    # clang may pass eight bytes of data as an address: it must not
            require(it["name"] is None or re.fullmatch(r"%(a\d+|\w)", it["name"]), f"a parameter that clang has made: {it[0]}")
        function = Function(found, [it["kind"] for it in parameters], [it["name"] for it in parameters])
        function.forgets = {it["name"] for it in parameters if " captures(none)" in it[0]}    # what it keeps nowhere
        if found["word"] == "declare":
            self.imports[function.name] = function
            return None
        self.functions[function.name] = function
        return function

    def exports(self):
        return [name for name, it in self.functions.items() if it.is_export]

    def needed(self):
        """The functions that the exports need, callees first, in an order that depends on the module alone."""
        order, seen = [], set()

        def visit(name):
            if name in seen or name not in self.functions:
                return
            seen.add(name)
            for callee in self.functions[name].callees():
                visit(callee)
            order.append(name)
        for name in self.exports():
            visit(name)
        return order


def bytes_of(kind, value):
    """The bytes of a constant, least byte of a number first."""
    if not kind.startswith("["):
        return (int(value) % 2**bits(kind)).to_bytes(bits(kind) // 8, "little")
    if value.startswith("["):
        return b"".join(bytes_of(*it.split(" ")) for it in split(value[1:-1]))
    length = int(kind[1:].split()[0])
    if value == "zeroinitializer":
        require(kind.endswith(" i8]"), "a constant of zeros")
        return bytes(length)
    text = re.sub(r"\\(\\|[0-9A-Fa-f]{2})", lambda it: "\\" if it[1] == "\\" else chr(int(it[1], 16)), value[2:-1]).encode("latin-1")
    require(len(text) == length, "the length of a constant")
    return text
