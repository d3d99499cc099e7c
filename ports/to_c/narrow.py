"""Which numbers of 64 bits a size_t can carry: on a processor of 32 bits they are below 2^32, or only their lower half counts.

An upper bound is derived for each number, where an address is below 2^32, an object has fewer than 2^31 bytes, and a program passes lengths as
size_t. It comes from the operation, from the branches that lead to a place, and from what is read and written before it or beside it. A number
whose upper half no use needs may be cut: an offset of an address, a length of a move, and sums of such."""
from .forms import bits, is_constant, parts_of
from .module import is_lifetime
from .prepare import ADDRESS
from .proved import LIMIT

FULL, SIZE, OBJECT = 2**64 - 1, 2**32 - 1, 2**31 - 1
STEPS = (0, 1, 2**8 - 1, 2**16 - 1, 2**24, OBJECT, OBJECT + 2**16, OBJECT + 2**24, SIZE, FULL)    # a bound that rises takes one of these
OPPOSITE = {"eq": "ne", "ne": "eq", "ult": "uge", "uge": "ult", "ugt": "ule", "ule": "ugt"}
SWAPPED = {"eq": "eq", "ne": "ne", "ult": "ugt", "ugt": "ult", "uge": "ule", "ule": "uge"}
MODULAR = ("add", "sub", "mul", "and", "or", "xor", "shl")    # the lower half of the result depends on the lower halves


def stepped(bound):
    return next(step for step in STEPS if bound <= step)


class Bounds:
    """The upper bounds of one function's numbers; -1 is that of a number which is never made."""

    def __init__(self, name, module, shape, all_bounds):
        self.function, self.shape, self.all, self.wide = module.functions[name], shape, all_bounds, all_bounds.wide.of(name)
        self.made = {it.result: it for it in self.function.instructions() if it.result}
        self.home = {it.result: label for label, block in shape.blocks.items() for it in block.body if it.result}
        start = SIZE if self.function.is_export else -1
        self.bounds = {it: start for it, kind in zip(self.function.names, self.function.kinds) if kind == "i64"}
        self.result = {}    # by field; None is that of a result that is a number
        self.find_addresses()
        self.facts = {}     # by name: (block, comparison, other); also by (name, block, next block), on that branch
        self.differences = {}    # by name: (what is left, what is taken away)
        for label, block in shape.blocks.items():
            self.note_branch(label, block.end)
            for it in block.body:
                self.note_use(label, it)
        self.ends = {}      # by the next number of a loop that counts up: what it becomes at the end
        for label, inside in shape.loops.items():
            self.note_counting(label, inside)

    def find_addresses(self):
        """The sums of an address and an offset that become an address: as the module computes an address it is below 2^32."""
        self.addresses, after = set(), {}
        for it in self.made.values():
            for name in it.operands() if it.form in ("address", "phi", "select", "freeze") or it.form == "binary" and it.how == "add" else ():
                after.setdefault(name, []).append(it)
        is_number = {name for name, it in self.made.items() if it.form == "number" and it.value not in self.wide
                     or it.form == "load" and ADDRESS in it.line}
        todo = list(is_number)
        while todo:
            for it in after.get(todo.pop(), ()):
                if it.form != "address" and it.result not in is_number and it.kind == "i64":
                    is_number.add(it.result)
                    todo.append(it.result)
        becomes, changed = set(), True
        while changed:
            changed = False
            for name in is_number - becomes:
                if any(it.form == "address" and it.result not in self.wide or it.result in becomes for it in after.get(name, ())):
                    becomes.add(name)
                    changed = True
        self.addresses = {name for name in becomes if self.made[name].form == "binary"}

    # -- facts of places

    def note_counting(self, label, inside):
        """Notes the loops that count up until a number equals another. They pass over that only if a sum wraps, which `nuw` excludes."""
        made = {it.result for place in inside for it in self.shape.blocks[place].body}
        for phi in self.shape.blocks[label].body:
            for source, value in phi.sources.items() if phi.form == "phi" and phi.kind == "i64" else ():
                step = self.made.get(value)
                if source not in inside or step is None or step.form != "binary" or step.how != "add" or not step.is_upward \
                        or step.one != phi.result or not is_constant(step.other) or int(step.other) <= 0:
                    continue
                for place, how, other in self.facts.get(value, ()):
                    is_here = place == (source, label) if isinstance(place, tuple) else self.shape.dominates(place, source)
                    if how == "ne" and is_here and other not in made:
                        self.ends[value] = other

    def note_branch(self, label, end):
        if end.form == "branch" and end.yes != end.no:
            for to, is_so in ((end.yes, True), (end.no, False)):
                place = to if self.shape.before[to] == [label] else (label, to)
                self.note_condition(place, end.condition, is_so)
        elif end.form == "switch":
            for case, to in end.cases:
                if self.shape.before[to] == [label]:
                    self.note(end.value, to, "eq", str(case))

    def note_condition(self, to, name, is_so):
        it = self.made.get(name)
        if it is None:
            return
        if it.form == "compare" and it.kind == "i64" and it.how in OPPOSITE:
            how = it.how if is_so else OPPOSITE[it.how]
            self.note(it.one, to, how, it.other)
            self.note(it.other, to, SWAPPED[how], it.one)
        elif it.form == "binary" and it.how == ("and" if is_so else "or"):
            self.note_condition(to, it.one, is_so)
            self.note_condition(to, it.other, is_so)
        elif it.form == "select" and (it.other == "false" if is_so else it.one == "true"):
            self.note_condition(to, it.condition, is_so)
            self.note_condition(to, it.one if is_so else it.other, is_so)

    def note(self, name, place, how, other):
        if not is_constant(name):
            self.facts.setdefault(name, []).append((place, how, other))

    def note_use(self, label, it):
        """An offset into an object, and the length of a move, are below the length of the object. What a difference takes away, and the parts
        of a sum, are not above the whole, where neither wraps."""
        if it.form == "binary" and it.kind == "i64" and it.is_upward and it.how in ("add", "sub"):
            for name, whole in ((it.other, it.one),) if it.how == "sub" else ((it.one, it.result), (it.other, it.result)):
                self.note(name, label, "ule", whole)
        if it.form == "binary" and it.kind == "i64" and it.how == "sub" and not is_constant(it.one):
            self.differences.setdefault(it.one, []).append((it.result, it.other))
        used = [it.base] if it.form in ("load", "store") else []
        if it.form == "call" and it.callee == "@llvm.assume":
            self.note_condition(label, it.arguments[0][1], True)
        if it.form == "call" and it.callee.startswith("@llvm.mem"):
            self.note(it.arguments[2][1], label, "ule", str(OBJECT))
        elif it.form == "call":    # what a call is given is an address in an object
            used = [name for kind, name in it.arguments if kind == "ptr" and name in self.made and " inbounds " in self.made[name].line]
        for name in used:
            while (at := self.made.get(name)) and at.form == "offset":
                if at.is_upward:
                    self.note(at.by, label, "ule", str(OBJECT))
                if not (at.is_upward or is_constant(at.by)):
                    break
                name = at.base

    def limits(self):
        """The parameters that are bounded wherever the function is called, since its first block would do what no module does."""
        return {name: min(self.of(other) for place, how, other in self.facts[name] if self.is_at_start(place, how, other))
                for name in self.function.names if any(self.is_at_start(*fact) for fact in self.facts.get(name, ()))}

    def is_at_start(self, place, how, other):
        return place == self.shape.first and how == "ule" and (is_constant(other) or other == LIMIT)

    # -- bounds

    def at(self, name, label, to=None):
        """The bound of a number in a block, or where it branches to a second one."""
        return self.limited(name, self.of(name), label, to)

    def limited(self, name, bound, label, to=None):
        """The bound of a number, and what the facts of a place add: of the number, and of a difference from it."""
        for difference, less in self.differences.get(name, ()):
            limit = self.limited(difference, FULL, label, to)
            if limit <= SIZE and 0 <= self.of(less) <= SIZE:
                bound = min(bound, limit + self.of(less))
        for place, how, other in self.facts.get(name, ()):
            if bound > 0 and how in ("eq", "ult", "ule") and self.holds(place, other, label, to):
                limit = self.of(other)
                bound = min(bound, limit - (how == "ult" and limit > 0)) if limit >= 0 else bound
        return bound

    def holds(self, place, other, label, to):
        """Whether a fact of a place holds in a block, or on a branch. In the place itself it does if what it compares with was made before it."""
        if isinstance(place, tuple):
            return place == (label, to)
        if place == label:
            return is_constant(other) or self.home.get(other) != label or to is not None
        return self.shape.dominates(place, label)

    def of(self, name):
        if is_constant(name):
            return int(name) % 2**64
        if name in ("poison", "undef"):
            return 0
        if name.startswith("ptrto"):
            return OBJECT if name == LIMIT else SIZE
        return self.bounds.get(name, -1 if name in self.made else FULL)

    def computed(self, label, it):
        """The bound of what an instruction makes."""
        if it.form == "cast":
            return 2**bits(it.kind) - 1 if it.how == "zext" else FULL
        if it.form == "binary":
            bound = self.of_binary(it, self.at(it.one, label), self.at(it.other, label))
            bound = self.at(it.one, label) if self.is_step_down(it, label) else bound
            bound = min(bound, SIZE) if it.result in self.addresses else bound
            return min(bound, self.of(self.ends[it.result])) if it.result in self.ends else bound
        if it.form == "number":
            return FULL if it.value in self.wide else SIZE
        if it.form == "load":
            return SIZE if ADDRESS in it.line else FULL
        if it.form == "phi":
            return max((self.at(value, source, label) for source, value in it.sources.items() if source in self.shape.rank), default=-1)
        if it.form == "select":
            return max(self.at(it.one, label), self.at(it.other, label))
        if it.form == "freeze":
            return self.at(it.value, label)
        if it.form == "call":
            return self.of_call(label, it)
        if it.form == "field":
            return self.of_field(it.value, it.index, frozenset())
        return FULL

    def of_field(self, whole, index, seen):
        """The bound of a field of a struct that calls give, or of one that is chosen from such."""
        it = self.made.get(whole)
        if it is None or it.form not in ("call", "phi", "insert"):
            return FULL
        if it.form == "call":
            return self.all.result_of(it.callee, int(index))
        if it.form == "insert":
            return self.of_field(it.value, index, seen) if it.index != index else self.at(it.given, self.home[whole])
        return max((self.of_field(value, index, seen | {whole}) for value in it.sources.values() if value not in seen | {whole}), default=-1)

    def is_step_down(self, it, label):
        """Whether a number is taken away from one that is not below it."""
        if it.how == "add" and is_constant(it.other) and int(it.other) < 0:
            by = -int(it.other)
        elif it.how == "sub" and is_constant(it.other) and int(it.other) > 0:
            by = int(it.other)
        else:
            return False
        return any(is_constant(other) and self.holds(place, other, label, None)
                   and {"ne": int(other) == 0 and by == 1, "eq": int(other) >= by, "ugt": int(other) + 1 >= by >= 0 <= int(other),
                        "uge": int(other) >= by}.get(how, False) for place, how, other in self.facts.get(it.one, ()))

    @staticmethod
    def of_binary(it, one, other):
        if one < 0 or other < 0:
            return -1
        by = int(it.other) % 2**64 if is_constant(it.other) else 0    # 0: not known
        whole = 2**max(one.bit_length(), other.bit_length()) - 1
        bound = {"add": one + other, "mul": one * other, "and": min(one, other), "udiv": one // max(by, 1), "urem": min(one, max(other - 1, 0)),
                 "lshr": one >> min(by, 63), "shl": one << by if 0 < by < 64 else FULL, "or": whole, "xor": whole,
                 "sub": one if it.is_upward else FULL}.get(it.how, FULL)
        return min(bound, FULL)

    def of_call(self, label, it):
        values = [self.at(value, label) for kind, value in it.arguments if kind == "i64"]
        if it.callee.endswith("umin.i64"):
            return min(values)
        if it.callee.endswith("umax.i64"):
            return max(values)
        if it.callee.endswith("usub.sat.i64"):
            return values[0]
        return self.all.result_of(it.callee, None)

    def round(self):
        """Raises the bounds. Returns whether one has risen."""
        changed = False
        for label, block in self.shape.blocks.items():
            for it in block.body:
                if it.result and self.kind_of(it) == "i64":
                    bound = self.limited(it.result, self.computed(label, it), label)
                    if bound > self.bounds.get(it.result, -1):
                        self.bounds[it.result] = stepped(bound) if it.form == "phi" else bound
                        changed = True
                elif it.form == "call":
                    changed |= self.all.raise_parameters(self, label, it)
            changed |= self.raise_result(label, block.end)
            for it in block.body:
                if it.form == "call" and it.result:
                    changed |= self.all.raise_parameters(self, label, it)
        return changed

    @staticmethod
    def kind_of(it):
        if it.form == "cast":
            return it.new
        if it.form == "number":
            return "i64"
        if it.form == "field":
            return parts_of(it.kind)[int(it.index)]
        return getattr(it, "kind", None) if it.form not in ("compare", "offset", "address", "alloca") else None

    def raise_result(self, label, end):
        if end.form != "leave" or end.value is None:
            return False
        if end.kind == "i64":
            return self.raise_field(None, self.at(end.value, label))
        changed, whole = False, self.made.get(end.value)
        fields = {}
        while whole is not None and whole.form == "insert":
            fields.setdefault(int(whole.index), (whole.part, whole.given))
            whole = self.made.get(whole.value)
        for index, part in enumerate(parts_of(end.kind) if end.kind.startswith("{") else ()):
            if part == "i64":
                value = fields.get(index, (None, None))[1]
                changed |= self.raise_field(index, FULL if value is None else self.at(value, label))
        return changed

    def raise_field(self, field, bound):
        if bound <= self.result.get(field, -1):
            return False
        self.result[field] = stepped(bound)
        return True


class Narrow:
    """For a module: `of` has the numbers of a function that a size_t can carry, `results` the functions whose result it can carry."""

    def __init__(self, module, order, shapes, wide):
        self.module, self.wide = module, wide
        self.functions = {}
        for name in order:
            self.functions[name] = Bounds(name, module, shapes[name], self)
            module.functions[name].forget_assumptions()
        self.note_limits()
        changed = True
        while changed:
            changed = False
            for bounds in reversed(self.functions.values()):
                while bounds.round():
                    changed = True
        self.cut = {name: set() for name in order}
        self.results = {name for name, bounds in self.functions.items() if not bounds.function.is_export and None in bounds.result}
        self.find_cut()

    def note_limits(self):
        """Notes at each call what the callee needs of its numbers. The functions are in an order that has callees first."""
        for bounds in self.functions.values():
            for label, block in bounds.shape.blocks.items():
                for it in block.body:
                    callee = self.functions.get(it.callee) if it.form == "call" else None
                    limits = callee.limits() if callee else {}
                    for name, (_, value) in zip(callee.function.names if callee else (), it.arguments if callee else ()):
                        if name in limits:
                            bounds.note(value, label, "ule", str(limits[name]))

    def result_of(self, callee, field):
        """The bound of a function's result."""
        if callee in self.functions:
            return self.functions[callee].result.get(field, -1)
        return SIZE if callee in self.module.imports else FULL

    def raise_parameters(self, bounds, label, it):
        callee = self.functions.get(it.callee)
        if callee is None or callee.function.is_export:
            return False
        changed = False
        for name, (kind, value) in zip(callee.function.names, it.arguments):
            if kind == "i64" and (bound := bounds.at(value, label)) > callee.bounds[name]:
                callee.bounds[name] = stepped(bound)
                changed = True
        return changed

    def find_cut(self):
        """The numbers whose upper half no use needs: begins with all, and takes away until nothing changes."""
        for name, bounds in self.functions.items():
            self.cut[name] = {it for it in bounds.bounds if not bounds.function.is_export or it in bounds.made}
        changed = True
        while changed:
            changed = False
            for name, bounds in self.functions.items():
                needed = {value for label, block in bounds.shape.blocks.items() for it in block.body
                          for value, place in self.needed(name, it, label) if value in self.cut[name] and bounds.at(value, *place) > SIZE}
                if needed:
                    self.cut[name] -= needed
                    changed = True
            whole = self.whole_results()
            if whole:
                self.results -= whole
                changed = True

    def whole_results(self):
        """The functions whose result is not below 2^32, and which a call needs as a whole."""
        return {it.callee for name, bounds in self.functions.items() for block in bounds.shape.blocks.values() for it in block.body
                if it.form == "call" and it.callee in self.results and it.result and self.functions[it.callee].result[None] > SIZE
                and bounds.bounds[it.result] > SIZE and it.result not in self.cut[name]}

    def needed(self, name, it, label):
        """What an instruction needs as a whole, each with the place where it does."""
        if it.form == "phi":
            return [] if it.result in self.cut[name] else [(value, (source, label)) for source, value in it.sources.items()
                                                           if source in self.functions[name].shape.rank]
        return [(value, (label,)) for value in self.needs(name, it)]

    def needs(self, name, it):
        """The values whose upper half an instruction needs."""
        cut = self.cut[name]
        if it.form == "leave" and name in self.results:
            return []
        if it.form == "address":
            return [it.value] if it.result in self.functions[name].wide else []
        if it.form == "offset" or is_lifetime(it) or it.form == "cast" and it.how == "trunc" and bits(it.new) <= 32:
            return []
        if it.form in ("phi", "select", "freeze") and it.kind == "i64" and it.result in cut:
            return [it.condition] if it.form == "select" else []
        if it.form == "binary" and it.kind == "i64" and it.how in MODULAR and it.result in cut:
            return [it.other] if it.how == "shl" else []
        if it.form == "call" and it.callee.startswith("@llvm.mem"):
            return []
        if it.form == "call" and it.callee in self.functions:
            callee = self.functions[it.callee]
            return [value for parameter, (kind, value) in zip(callee.function.names, it.arguments)
                    if kind == "i64" and parameter not in self.cut[it.callee]]
        return it.operands()

    def is_small(self, name, value, label):
        """Whether a number is below 2^32 where a block uses it."""
        return self.functions[name].at(value, label) <= SIZE

    def of(self, name):
        bounds = self.functions[name]
        return {it for it, bound in bounds.bounds.items() if bound <= SIZE} | self.cut[name]
