"""Names: those of the module while its lines are matched, and those of C."""
import hashlib
import re

from .forms import FLAGS, GLOBAL, require
from .values import KEYWORDS


class Quoted:
    """The quoted names of the modules, which have plain ones while the lines are matched."""

    def __init__(self):
        self.plain = {}

    def hide(self, text):
        require("hidden." not in text and ".plus." not in text, "a name of the module contains `hidden.` or `.plus.`")

        def of(found):
            return self.plain.setdefault(found[1], f"hidden.{len(self.plain)}")
        text = re.sub(r'(?<=[@%])"([^"]*)"', of, text)
        text = re.sub(r'^"([^"]*)"(?=:)', of, text, flags=re.M)
        text = re.sub(rf"inttoptr \(i64 ptrto(?:int|addr) \(ptr ({GLOBAL}) to i64\) to ptr\)", r"\1", text)
        text = re.sub(rf"inttoptr \(i64 add {FLAGS}\(i64 ptrto(?:int|addr) \(ptr ({GLOBAL}) to i64\), i64 (\d+)\) to ptr\)", r"\1.plus.\2", text)
        # the address of a part of a constant becomes a name
        return re.sub(rf"getelementptr {FLAGS}\(i8, ptr ({GLOBAL}), i64 (\d+)\)", r"\1.plus.\2", text)

    def shown(self, text):
        quoted = {plain: name for name, plain in self.plain.items()}
        return re.sub(r"\bhidden\.\d+\b", lambda found: quoted[found[0]], text)


def snake(word):
    return re.sub(r"(?<=[a-z0-9])(?=[A-Z])", "_", word).lower()


def short_name(path):
    """The C name of a path: crate, modules, type and function, without a word that the next one repeats."""
    words = []
    for part in re.sub(r"::<.*?>(?=::|$)", "", path).split("::"):
        part = snake(re.sub(r"\W+", "_", part).strip("_"))
        while words and (part == words[-1] or part.startswith(f"{words[-1]}_")) and len(words) > 1:
            words.pop()
        if words and len(words) == 1 and (words[0] == part or words[0].endswith(f"_{part}")):
            continue
        words.append(part)
    return "_".join(words)


EXPORTS = "the exports"


def crate_of(path):
    """The crate of a function; a path of one word is that of an export."""
    return path.split("::")[0] if "::" in path else EXPORTS


class Names:
    """The C names of the functions and constants of several modules: one name for each symbol, and no name for two."""

    def __init__(self, quoted, reserved):
        self.quoted, self.of, self.taken = quoted, {}, set(KEYWORDS | reserved)

    def path(self, name):
        """The path of a function, as the module spells it."""
        return self.quoted.shown(name)[1:]

    def add(self, name, text):
        if name not in self.of:
            unique, count = text, 1
            while unique in self.taken:
                count += 1
                unique = f"{text}_{count}"
            self.taken.add(unique)
            self.of[name] = unique

    def add_function(self, name, is_of_header):
        text = short_name(self.path(name))
        self.add(name, f"module_{text}" if is_of_header else text)

    def constant(self, data, align):
        """The name of a constant, by its bytes: modules number theirs differently."""
        words = re.sub(r"\W+", "_", data.decode("latin-1"), flags=re.A).strip("_")[:24].lower()
        key = (data, align)
        self.add(key, f"text_{words}" if len(words) > 1 and words.isascii() else f"bytes_{hashlib.sha256(data).hexdigest()[:8]}")
        return self.of[key]
