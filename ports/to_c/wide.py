"""The addresses that are carried as numbers of 64 bits.

clang may move eight bytes of any kind as an address, which has four on a processor of 32 bits. An address may be data if it is from memory, and is
not used as an address at once. If it then goes to memory, is compared, or is made a number, all eight bytes count: so it is carried as a number,
also through the arguments and results of calls."""
from .forms import is_constant, parts_of

CHOICES = ("phi", "select", "freeze")


def is_address(it):
    """Whether the result is an address from elsewhere: from memory, or chosen, or from a call."""
    return it.result and (it.form == "address" or it.form in (*CHOICES, "load", "call") and it.kind == "ptr"
                          or it.form == "field" and parts_of(it.kind)[int(it.index)] == "ptr")


class Wide:
    """For a module: `values` has the addresses that are numbers, as (function, value); the value None is the result of the function."""

    def __init__(self, module, order, shapes):
        self.module, self.order, self.shapes = module, order, shapes
        self.flows = []    # (function, value) to (function, value)
        self.known, self.sources, self.sinks = set(), set(), set()
        for name in order:
            for label, block in shapes[name].blocks.items():
                for it in block.body:
                    self.note(name, label, it)
        self.know_addresses()
        data = self.spread(self.sources, self.flows)
        kept = self.spread(self.sinks, [(to, what) for what, to in self.flows])
        self.values = (data & kept) - self.known

    def note(self, name, label, it):
        if it.form in CHOICES and it.kind == "ptr":
            self.flows += [((name, value), (name, it.result)) for value in it.operands() if value.startswith("%")]
        elif it.form == "call":
            self.note_call(name, it)
        elif it.form in ("address", "load") and is_address(it):
            self.sources.add((name, it.result))
        elif it.form == "leave" and it.kind == "ptr":
            self.flows.append(((name, it.value), (name, None)))
        if it.form == "number" or it.form == "store" and it.kind == "ptr":
            self.sinks.add((name, it.value))
        elif it.form == "compare" and it.kind == "ptr":
            self.sinks |= {(name, it.one), (name, it.other)}

    def note_call(self, name, it):
        callee = self.module.functions.get(it.callee)
        if callee is None:
            return
        for parameter, (kind, value) in zip(callee.names, it.arguments):
            if kind == "ptr":
                self.flows.append(((name, value), (it.callee, parameter)))
        if it.result and it.kind == "ptr":
            self.flows.append(((it.callee, None), (name, it.result)))

    def know_addresses(self):
        """The values that are used as an address in the block that makes them, and the parameters so used in the first block."""
        count = -1
        while count < len(self.known):
            count = len(self.known)
            for name in self.order:
                function, shape = self.module.functions[name], self.shapes[name]
                for label, block in shape.blocks.items():
                    made = {it.result for it in block.body if it.result} | (set(function.names) if label == shape.first else set())
                    self.known |= {(name, it) for it in self.used_in(block) if it in made}

    def used_in(self, block):
        """What is used as an address in a block, by a constant offset."""
        bases = {it.result: it.base for it in block.body if it.form == "offset" and is_constant(it.by)}
        for it in block.body:
            used = [it.base] if it.form in ("load", "store") else []
            if it.form == "call" and it.callee in self.module.functions:
                names = self.module.functions[it.callee].names
                used = [value for parameter, (_, value) in zip(names, it.arguments) if (it.callee, parameter) in self.known]
            for name in used:
                while name in bases:
                    name = bases[name]
                yield name

    @staticmethod
    def spread(start, flows):
        """What is reached from the start."""
        after = {}
        for what, to in flows:
            after.setdefault(what, []).append(to)
        reached, todo = set(start), list(start)
        while todo:
            for to in after.get(todo.pop(), ()):
                if to not in reached:
                    reached.add(to)
                    todo.append(to)
        return reached

    def of(self, name):
        """The values of a function, and whether its result is a number."""
        return {value for function, value in self.values if function == name}
