"""A function as lines of C."""
import re

from .branches import Branches
from .text import Line, wrapped


class Body(Branches):
    """Writes the body of a function."""

    def write(self):
        self.tree(self.function.first, None, None, None)
        self.lines = [line for line in self.lines if line.label is None or line.label in self.used_labels]
        labels = {line.label: f"L{count}" for count, line in enumerate((it for it in self.lines if it.label), 1)}
        for line in self.lines:
            if line.label:
                line.text = f"{labels[line.label]}:;"
            elif found := re.fullmatch(r"goto \{(.*)\};", line.text):
                line.text = f"goto {labels[found[1]]};"
        self.hoist()
        unused = [f"(void){self.values[name].text};" for name in self.function.names if self.uses[name] == 0]
        top = [line for text in [*self.top, *unused] for line in wrapped(f"    {text}")]
        return [*top, *[text for line in self.lines for text in wrapped(line.written())]]

    def hoist(self):
        """Moves declarations to the start over which a goto leads: C++ refuses such a goto."""
        closed_at = self.ends_of_blocks()
        places = {line.text[:-2]: at for at, line in enumerate(self.lines) if line.label}
        jumps = [(at, places[line.text[5:-1]]) for at, line in enumerate(self.lines) if line.text.startswith("goto ")]
        for at, line in enumerate(self.lines):
            if line.declares and any(at < to < closed_at[at] and not at < start < closed_at[at] for start, to in jumps):
                self.top.append(f"{line.declares};")
                name = re.search(r"\w+$", line.declares)[0]
                line.declares, line.text = None, f"{name} = {line.text}"

    def ends_of_blocks(self):
        """For each line, the place where the block around it ends."""
        ends, opened = [len(self.lines)] * len(self.lines), [[]]
        for at, line in enumerate(self.lines):
            if line.text.startswith("}"):
                for inside in opened.pop():
                    ends[inside] = at
            opened[-1].append(at)
            if line.text.endswith("{"):
                opened.append([])
        return ends
