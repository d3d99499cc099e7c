"""The definitions of specs/, word for word, and which of them a definition names."""
import collections
import glob
import os
import re

from repository import TOP

CRATES = os.path.join(TOP, "crates")
NAME = re.compile(r"[A-Za-z_◌][\w'◌\-]*(?:\.[A-Za-z_][\w'\-]*)*")
HEAD = re.compile(r"^\s{0,2}(?:(?:abbrev|unfoldable)(?: pub)?|pub (?:record|data)|record|data|pub)\s+([^\s:({]+)")
IMPORT = re.compile(r"^(?:unfoldable )?(?:pub |ghost )?use (Rattle\.[^\s{;]+?)(?:\.\{([^}]*)\}| as (\S+?))?;?\s*$", re.M)


class Definition:
    """One definition of specs/: its lines, and the comment above it."""

    def __init__(self, module, name, path, start, comment):
        self.module, self.name, self.path, self.start, self.comment, self.lines = module, name, path, start, comment, []

    def body(self):
        return "\n".join(re.sub(r"--.*", "", line) for line in self.lines)

    def place(self):
        """Its file as documents name it: `uip_node/Node` is crates/uip_node/specs/Node.antt."""
        return self.path.replace("/specs/", "/").replace(".antt", "")

    def text(self):
        """Its comment and its lines, without the words that make it visible to other files, and without the tags of `dev.py add`."""
        lines = [re.sub(r"^abbrev |^unfoldable ", "", line) for line in self.comment + self.lines]
        text = "\n".join(re.sub(r"^(\s*)(?:abbrev |unfoldable )?pub ", r"\1", line) for line in lines)
        return re.sub(r"[ \t]*\[add: [a-z, -]*\]", "", text)


def imports_of(text):
    """The names that a text imports, and the modules that it gives a name of its own."""
    names, modules = {}, {}
    for path, items, alias in IMPORT.findall(text):
        path = path[len("Rattle."):]
        if alias:
            modules[alias] = path
        for item in filter(None, re.split(r",\s*", items.strip())):
            parts = item.split(" as ")
            names[parts[-1].strip()] = path + "." + parts[0].strip()
    return names, modules


class Sources:
    def __init__(self):
        self.definitions, self.imports = {}, {}
        for path in sorted(glob.glob(CRATES + "/*/specs/**/*.antt", recursive=True)):
            self.read(path)

    def read(self, path):
        place = os.path.relpath(path, CRATES)
        module = place[:-len(".antt")].replace("/", ".")
        with open(path, encoding="utf8") as file:
            text = file.read()
        self.imports[module] = imports_of(text)
        current, comment, all_lines = None, None, text.split("\n")
        for number, line in enumerate(all_lines, 1):
            if not line.strip() or re.match(r"(pub )?use |(pub )?mod |pub mod", line):
                current, comment = None, None
                continue
            if line.lstrip().startswith("--") and current is None:
                comment = comment or number
                continue
            found = HEAD.match(line)
            if found and not re.match(r"^  pub \S+ :", line):
                current = Definition(module, found.group(1), place, comment or number, all_lines[(comment or number) - 1:number - 1])
                self.definitions[(module, current.name)] = current
                comment = None
            if current is not None:
                current.lines.append(line)
                made = re.match(r"^\s+(?:pub )?([A-Z]\w*) :", line)
                if made and re.match(r"^\s*(pub )?data", current.lines[0]):
                    self.definitions.setdefault((module + "." + current.name, made.group(1)), current)
                    self.definitions.setdefault((module, made.group(1)), current)

    def resolve(self, path, seen=()):
        module, _, name = path.rpartition(".")
        if (module, name) in self.definitions:
            return self.definitions[(module, name)]
        names = self.imports.get(module, ({}, {}))[0]
        if name in names and path not in seen:
            return self.resolve(names[name], (*seen, path))
        return None

    def named(self, text, module, names, modules):
        """The definitions that a text names, in the order in which it names them."""
        found = {}
        for word in NAME.findall(text):
            head, _, rest = word.partition(".")
            if rest and head in modules:
                found[self.resolve(modules[head] + "." + rest)] = None
                continue
            for candidate in dict.fromkeys((word, head)):
                if (module, candidate) in self.definitions:
                    found[self.definitions[(module, candidate)]] = None
                elif candidate in names:
                    found[self.resolve(names[candidate])] = None
        for name, path in names.items():
            if "◌" in name and name.replace("◌", "") in text:
                found[self.resolve(path)] = None
        found.pop(None, None)
        return list(found)

    def below(self, definition):
        """The definitions that a definition names itself."""
        named = self.named(definition.body(), definition.module, *self.imports[definition.module])
        return [it for it in named if it is not definition]

    def closure(self, roots, closed=()):
        """What these definitions rest on, themselves included: each before those that it names, as a reader meets them. Of a closed
        definition nothing that it names is followed."""
        order, waiting = {}, list(reversed(list(roots)))
        while waiting:
            definition = waiting.pop()
            if definition not in order:
                order[definition] = None
                if definition not in closed:
                    waiting += reversed([it for it in self.below(definition) if it not in order])
        return list(order)

    def origin(self, path, seen=()):
        """Where a name is from that no definition of specs/ has: it is passed on from prelude to prelude."""
        module, _, name = path.rpartition(".")
        names = self.imports.get(module, ({}, {}))[0]
        return self.origin(names[name], (*seen, path)) if name in names and path not in seen else path

    def types_named(self, definition):
        """The types of the code that a definition names: the crate, the file of src/ and the name of each."""
        names = self.imports[definition.module][0]
        for word in dict.fromkeys(NAME.findall(definition.body())):
            for candidate in dict.fromkeys((word, word.partition(".")[0])):
                found = re.fullmatch(r"(\w+)\.specs\.declared\.([\w.]+)\.(\w+)\.\3", self.origin(names[candidate])) if candidate in names else None
                if found:
                    yield found[1], found[2].replace(".", "/"), found[3]

    def find(self, name):
        """The definition of a name, with its module or, if only one crate has it, without; else None."""
        if "." in name:
            return self.resolve(name)
        found = {it for (module, own), it in self.definitions.items() if own == name and module.count(".") >= 2}
        return found.pop() if len(found) == 1 else None

    def top(self):
        """The definitions that the contract of the top call names."""
        with open(os.path.join(CRATES, "uipd", "src", "run_told.rt"), encoding="utf8") as file:
            text = file.read()
        call = re.search(r"pub fn run_told\b.*?^\{", text, re.S | re.M)
        return self.named(call.group(0), "", *imports_of(text))


def counted(found):
    return f"{len(found)} definitions in {len({d.path for d in found})} files, {sum(len(d.lines) for d in found)} lines"


def by_file(definitions):
    """A line for each file: its definitions in their order, and how many lines they have."""
    files = collections.defaultdict(list)
    for definition in definitions:
        files[definition.place()].append(definition)
    for place, found in sorted(files.items()):
        found.sort(key=lambda it: it.start)
        yield f"{place} ({sum(len(it.lines) for it in found)}): " + ", ".join(it.name for it in found)
