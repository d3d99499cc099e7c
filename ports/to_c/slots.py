"""The stack slots of a function: which are plain variables, and which share memory because they are never in use at once."""
import collections

from .forms import require, size_of
from .module import is_lifetime

LEAST_SHARED = 24    # bytes; a smaller slot stays a variable of its own, which a compiler may keep in registers


class Slot:
    """A slot: its type, its length in bytes and its alignment."""

    def __init__(self, it):
        self.name, self.kind, self.align = it.result, it.kind, int(it.align)
        require(self.align <= 16, "the alignment of a stack slot")
        self.length = int(it.kind[1:].split()[0]) if it.kind.startswith("[") else size_of(it.kind)


def slots_of(function, first):
    """The slots by name. All are in the first block."""
    slots = {}
    for label, block in function.blocks.items():
        for it in block.body:
            if it.form == "alloca":
                require(label == first, "a stack slot outside the first block")
                slots[it.result] = Slot(it)
    return slots


def plain(slots, function):
    """The names of those that are only loaded and stored as a whole."""
    names = {name for name, slot in slots.items() if not slot.kind.startswith("[")}
    for it in function.instructions():
        if is_lifetime(it):
            continue
        for name in it.operands():
            if name in names and not (it.form == "load" and it.kind == slots[name].kind
                                      or it.form == "store" and it.kind == slots[name].kind and it.value != name):
                names.discard(name)
    return names


class Sharing:
    """Which slots share memory: two do only if at no place both are in use. A slot is in use where it may have been accessed before and may be
    accessed later; its marks, `lifetime.start` and `lifetime.end`, end both. A slot whose address is kept elsewhere may be accessed at any
    later place."""

    def __init__(self, slots, shape, functions):
        self.slots, self.shape, self.functions = slots, shape, functions
        self.names = [name for name, slot in slots.items() if slot.length >= LEAST_SHARED]
        self.bit = {name: 1 << at for at, name in enumerate(self.names)}
        self.derived, self.kept = dict(self.bit), 0
        self.derive()
        self.steps = {label: [self.step(it) for it in block.body] for label, block in shape.blocks.items()}
        self.masks = self.in_use()

    def derive(self):
        """The slots to which each address may belong."""
        changed = True
        while changed:
            changed = False
            for label in self.shape.order:
                for it in self.shape.blocks[label].body:
                    if it.result and it.form in ("offset", "phi", "select", "freeze"):
                        mask = self.of(it.operands())
                        if mask & ~self.derived.get(it.result, 0):
                            self.derived[it.result] = self.derived.get(it.result, 0) | mask
                            changed = True

    def of(self, names):
        mask = 0
        for name in names:
            mask |= self.derived.get(name, 0)
        return mask

    def step(self, it):
        """What an instruction does to slots: begins, ends or accesses them."""
        if is_lifetime(it):
            mask = self.of([it.arguments[-1][1]])
            return ("begin" if it.callee.startswith("@llvm.lifetime.start") else "end"), mask
        if it.form in ("number", "leave", "address") or it.form == "store":
            self.kept |= self.of([it.value] if it.value else [])
        elif it.form == "call" and not it.callee.startswith("@llvm."):
            self.kept |= self.of([value for index, (_, value) in enumerate(it.arguments) if self.keeps(it.callee, index)])
        elif it.form in ("insert", "compare"):
            self.kept |= self.of(it.operands()) if it.form == "insert" else 0
        return "access", self.of(it.operands())

    def keeps(self, callee, index):
        function = self.functions.get(callee)
        return function is None or function.names[index] not in function.forgets

    def in_use(self):
        """The sets of slots that are in use at the same time."""
        order, after = self.shape.order, {label: block.end.targets() for label, block in self.shape.blocks.items()}
        before = self.flow(order, self.shape.before, lambda label: self.steps[label], "end", 0)
        later = self.flow(order[::-1], after, lambda label: self.steps[label][::-1], "begin", self.kept)
        masks = set()
        for label in order:
            had, used = self.joined(before, self.shape.before[label]), []
            for how, mask in self.steps[label]:
                had = had & ~mask if how == "end" else had | mask if how == "access" else had
                used.append(had | mask)
            will = self.joined(later, after[label]) | self.kept
            for (how, mask), so_far in zip(self.steps[label][::-1], used[::-1]):
                masks.add(so_far & (will | mask))
                will = will & ~mask if how == "begin" else will | mask if how == "access" else will & ~mask
        return masks

    @staticmethod
    def joined(masks, labels):
        joined = 0
        for label in labels:
            joined |= masks.get(label, 0)
        return joined

    def flow(self, order, sources, steps, ends, always):
        """What holds at the end of each block, in one direction."""
        out, changed = {}, True
        while changed:
            changed = False
            for label in order:
                mask = self.joined(out, sources[label]) | always
                for how, slots in steps(label):
                    mask = mask | slots if how == "access" else mask & ~slots if how == ends else mask
                if mask != out.get(label):
                    out[label], changed = mask, True
        return out

    def groups(self):
        """The groups of slots that share memory, each with its largest slot first."""
        conflicts = collections.defaultdict(int)
        for mask in self.masks:
            for name, bit in self.bit.items():
                if mask & bit:
                    conflicts[name] |= mask & ~bit
        groups = []
        for name in sorted(self.names, key=lambda it: (-self.slots[it].length, self.names.index(it))):
            for group in groups:
                if not any(conflicts[name] & self.bit[other] for other in group):
                    group.append(name)
                    break
            else:
                groups.append([name])
        return groups
