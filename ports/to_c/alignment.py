"""Which addresses are known to be multiples of 2, 4 or 8: from the slots, from other accesses of the same object, and from all callers."""
from .forms import is_constant, size_of
from .module import is_lifetime

WIDEST = 8
NOTHING = (1, 0)    # a fact is (modulus, rest): the address leaves this rest


def both(one, other):
    """What two facts about an address give together."""
    return max(one, other)


def either(one, other):
    """What is so if one of two facts is. None is the fact of what is not yet known, which agrees with all."""
    if one is None or other is None:
        return one or other
    modulus = min(one[0], other[0])
    while (one[1] - other[1]) % modulus:
        modulus //= 2
    return modulus, one[1] % modulus


def moved(fact, by):
    return fact and (fact[0], (fact[1] + by) % fact[0])


def alignment_of(fact):
    modulus, rest = fact
    return min(rest & -rest, modulus) if rest else modulus


class Facts:
    """What is known about the addresses of one function."""

    def __init__(self, function, shape):
        self.function, self.shape = function, shape
        self.made = {it.result: it for it in function.instructions() if it.result}
        self.parameters = {name: None for name, kind in zip(function.names, function.kinds) if kind == "ptr"}
        self.phis = {}
        self.accesses = {}    # by root: (block, fact)
        for label, block in shape.blocks.items():
            for it in block.body:
                if it.form in ("load", "store"):
                    root, by = self.root(it.base)
                    self.accesses.setdefault(root, []).append((label, moved((min(int(it.align), WIDEST), 0), -by)))

    def root(self, name):
        """The address from which this one is computed by constants, and the offset."""
        by = 0
        while (it := self.made.get(name)) and it.form == "offset" and is_constant(it.by):
            by += int(it.by) * size_of(it.unit)
            name = it.base
        return name, by

    def at(self, name, label):
        """The fact about an address in a block."""
        root, by = self.root(name)
        fact = self.of_root(root, label)
        for place, other in self.accesses.get(root, ()):
            if fact and other > fact and self.shape.dominates(place, label):
                fact = both(fact, other)
        return moved(fact, by)

    def of_root(self, name, label):
        if name in self.parameters:
            return self.parameters[name]
        it = self.made.get(name)
        if it is None:
            return NOTHING
        if it.form == "alloca":
            return min(int(it.align), WIDEST), 0
        if it.form == "offset":
            base, step = self.at(it.base, label), min(self.step(it.by) * size_of(it.unit), WIDEST)
            return base and either(base, (step, base[1] % step))
        if it.form == "phi":
            return self.phis.get(name)
        if it.form in ("select", "freeze"):
            one = self.at(it.one if it.form == "select" else it.value, label)
            return either(one, self.at(it.other, label)) if it.form == "select" else one
        return NOTHING

    def step(self, name, depth=4):
        """A power of two of which a number is a multiple."""
        if is_constant(name):
            return int(name) & -int(name) or WIDEST
        it = self.made.get(name)
        if it is None or depth == 0 or it.form not in ("binary", "cast"):
            return 1
        if it.form == "cast":
            return self.step(it.value, depth - 1) if it.how != "sext" else 1
        if it.how == "shl" and is_constant(it.other):
            return min(self.step(it.one, depth - 1) << int(it.other), WIDEST)
        one, other = self.step(it.one, depth - 1), self.step(it.other, depth - 1)
        return {"mul": min(one * other, WIDEST), "and": max(one, other), "add": min(one, other), "sub": min(one, other)}.get(it.how, 1)

    def improve_phis(self):
        """Takes what the branches to a block bring. Returns whether anything changed."""
        changed = False
        for name, it in self.made.items():
            if it.form != "phi" or it.kind != "ptr":
                continue
            fact = None
            for source, value in it.sources.items():
                if source in self.shape.rank and value != "poison":
                    fact = either(fact, self.at(value, source) if value != "null" else (WIDEST, 0))
            if fact != self.phis.get(name):
                self.phis[name] = fact
                changed = True
        return changed


class Alignments:
    """The facts of all functions of a module. `improve` writes them into the instructions."""

    def __init__(self, module, order, shapes):
        self.functions = {name: Facts(module.functions[name], shapes[name]) for name in order}
        for name, facts in self.functions.items():
            if module.functions[name].is_export:
                facts.parameters = {it: NOTHING for it in facts.parameters}
        while self.round():
            pass

    def round(self):
        changed, given = False, {}
        for facts in self.functions.values():
            while facts.improve_phis():
                changed = True
            for label, block in facts.shape.blocks.items():
                for it in block.body:
                    if it.form == "call" and it.callee in self.functions:
                        self.note(given, facts, label, it)
        for (name, parameter), fact in given.items():
            if self.functions[name].parameters[parameter] != fact:
                self.functions[name].parameters[parameter] = fact
                changed = True
        return changed

    def note(self, given, facts, label, it):
        """What a call gives for each parameter that is an address."""
        callee = self.functions[it.callee]
        for parameter, (kind, value) in zip(callee.function.names, it.arguments):
            if kind == "ptr" and not callee.function.is_export:
                fact = facts.at(value, label)
                key = (it.callee, parameter)
                given[key] = either(given.get(key), fact)

    def improve(self):
        for facts in self.functions.values():
            for label, block in facts.shape.blocks.items():
                for it in block.body:
                    if it.form in ("load", "store"):
                        it.align = str(max(int(it.align), alignment_of(facts.at(it.base, label) or NOTHING)))
                    elif it.form == "call" and not is_lifetime(it):
                        it.aligned = [alignment_of(facts.at(value, label) or NOTHING) if kind == "ptr" else 1 for kind, value in it.arguments]
