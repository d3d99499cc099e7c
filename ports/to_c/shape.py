"""The nesting of a function's branches: its dominators, its loops, and where each block is written."""
import collections

from .forms import require

SHORT = 8    # instructions of an end that is written in a loop instead of after it


class Shape:
    """A block is written in the branch that goes to it, after the block that dominates it, or after a loop. `above` has the immediate
    dominator of each block, `loops` the blocks of each loop by its first one, and `inline`, `merged` and `after` the places."""

    def __init__(self, function):
        self.first = function.first
        self.order = reverse_postorder(function)
        self.blocks = function.blocks = {label: function.blocks[label] for label in self.order}
        self.rank = {label: at for at, label in enumerate(self.order)}
        self.before = collections.defaultdict(list)
        for label in self.order:
            for target in self.blocks[label].end.targets():
                self.before[target].append(label)
        self.above = {self.first: self.first}
        self.find_dominators()
        self.loops = {}
        self.find_loops()
        self.children = collections.defaultdict(list)
        for label in self.order[1:]:
            self.children[self.above[label]].append(label)
        self.inline, self.merged, self.after = set(), collections.defaultdict(list), collections.defaultdict(list)
        for label in self.order[1:]:
            self.place(label)

    def find_dominators(self):
        changed = True
        while changed:
            changed = False
            for label in self.order[1:]:
                new = None
                for other in self.before[label]:
                    if other in self.above:
                        new = other if new is None else self.common(new, other)
                if self.above.get(label) != new:
                    self.above[label] = new
                    changed = True

    def common(self, one, other):
        """The lowest block that dominates both."""
        while one != other:
            while self.rank[one] > self.rank[other]:
                one = self.above[one]
            while self.rank[other] > self.rank[one]:
                other = self.above[other]
        return one

    def dominates(self, upper, lower):
        while self.rank[lower] > self.rank[upper]:
            lower = self.above[lower]
        return lower == upper

    def find_loops(self):
        for label in self.order:
            for target in self.blocks[label].end.targets():
                if self.rank[target] > self.rank[label]:
                    continue
                require(self.dominates(target, label), "branches that do not nest")
                inside, todo = self.loops.setdefault(target, {target}), [label]
                while todo:
                    it = todo.pop()
                    if it not in inside:
                        inside.add(it)
                        todo += self.before[it]

    def place(self, label):
        above = self.above[label]
        forward = {it for it in self.before[label] if self.rank[it] < self.rank[label]}
        left = self.left_between(above, label)
        if len(forward) == 1 and (left is None or self.is_short_end(label)):
            self.inline.add(label)
        elif left is not None:
            self.after[left].append(label)
        else:
            self.merged[above].append(label)

    def left_between(self, above, label):
        """The outermost loop that has one block and not the other, by its first block."""
        left, it = None, above
        while True:
            if it in self.loops and above in self.loops[it] and label not in self.loops[it]:
                left = it
            if it == self.first:
                return left
            it = self.above[it]

    def is_short_end(self, label):
        """Whether all that follows is a few instructions and a return."""
        todo, count = [label], 0
        while todo:
            it = todo.pop()
            count += len(self.blocks[it].body)
            targets = self.blocks[it].end.targets()
            if count > SHORT or any(not self.dominates(label, target) or self.rank[target] <= self.rank[it] for target in targets):
                return False
            todo += self.children[it]
        return True

    def in_scope(self, label):
        """The blocks that are written in the scope of a block: those it dominates, without what is written after a loop around it."""
        around = {header for header, inside in self.loops.items() if label in inside}
        out, todo = set(), [label]
        while todo:
            it = todo.pop()
            out.add(it)
            todo += [child for child in self.children[it] if not any(child in self.after[header] for header in around)]
        return out


def reverse_postorder(function):
    """The blocks that can be reached, each before those it goes to except by a loop."""
    order, seen = [], {function.first}
    stack = [(function.first, iter(function.blocks[function.first].end.targets()))]
    while stack:
        label, targets = stack[-1]
        for target in targets:
            if target not in seen:
                seen.add(target)
                stack.append((target, iter(function.blocks[target].end.targets())))
                break
        else:
            order.append(label)
            stack.pop()
    return order[::-1]
