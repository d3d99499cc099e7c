"""Breaks the lines of a crate's proofs that are too long to read: `dev.py fold CRATE ..`.

A line of imports becomes several of the same module. In a term a line ends before an arrow or an operator, before an argument, or after
`in`, `;` or `↦`: where the fewest brackets are open, and as near the edge as that allows. `rt fmt` then indents the parts, and gives each
field and each case a line if one of them is broken. Both are repeated until no line is too long or none gets shorter. Only spaces and
line ends change, besides the repeated words of an import; `fold` compares the words, and puts a file back if they differ.
"""
import os
import re
import subprocess
import sys

from repository import TOP, Crates, folder

MOST = 160              # columns of a line that stays
EDGE = 140              # columns of a line that is made
LEAST = 40              # columns of the part before a break, besides its indentation
ROUNDS = 12
IMPORT = re.compile(r"(\s*(?:unfoldable )?(?:pub )?(?:unfoldable )?use [^\s{}]+\{)([^{}]*)\}\s*$")
OPENS, CLOSES = "([{⟨", ")]}⟩"
# What a break gains at an arrow, an operator or a part of a list; and what no line begins or ends with, since it belongs to its neighbour.
GAINS = [(20, re.compile(r"\| "), re.compile(r"[;,]$")), (14, re.compile(r"→(?:\s|$)"), re.compile(r"(?:\bin|↦)$")),
         (10, re.compile(r"[×⊎∙](?:\s|$)"), None), (5, re.compile(r"(?:≡|\+\+|∷|&&|\|\|)(?:\s|$)"), None)]
NEVER_BEFORE = re.compile(r"\[ |[=:.,;)\]}⟩]|(?:in|as|where|then|else|↦|use|refl)(?:\s|$)")
NEVER_AFTER = re.compile(r"(?:^|[\s({\[])(?:λ|let|elim|as|record|pub|module|abbrev|unfoldable|unfolding|open|use|rw|simp|\|)$"
                         r"|[({\[⟨]$|λ [^.]*$")


def words(text):
    """The words of a source without its spaces: what a change of the layout keeps. Imports are those of each module."""
    imports, rest = {}, []
    for line in text.split("\n"):
        found = IMPORT.match(line)
        if found:
            imports.setdefault(found[1].strip(), []).extend(it.strip() for it in found[2].split(","))
        else:
            rest.append(re.sub(r"\s+", "", line))
    # If `rt fmt` gives each part of a list a line, it writes a `|` before the first case, and a `;` or `,` after the last field or term.
    return imports, re.sub(r"\[\|", "[", re.sub(r"[;,]([})])", r"\1", "".join(rest)))


def folded_import(line):
    """The lines for an import, each of the same module."""
    found = IMPORT.match(line)
    lines, names = [], []
    for name in (it.strip() for it in found[2].split(",")):
        if names and len(found[1] + ", ".join(names + [name])) + 1 > EDGE:
            lines.append(names)
            names = []
        names.append(name)
    return [f"{found[1]}{', '.join(it)}}}" for it in lines + [names]]


def weights(line):
    """What a break after each sign costs for the brackets that are open there: more in a list, each part of which gets a line."""
    found, open_ones, cost = [], [], 0
    lists = set()
    for at, sign in enumerate(line):
        if sign in OPENS:
            open_ones.append(at)
        elif sign in CLOSES and open_ones:
            open_ones.pop()
        elif sign in ",;|" and open_ones:
            lists.add(open_ones[-1])
    open_ones = []
    for at, sign in enumerate(line):
        if sign in OPENS:
            open_ones.append(34 if at in lists else 18)
            cost += open_ones[-1]
        elif sign in CLOSES:
            cost -= open_ones.pop() if open_ones else 18
        found.append(cost)
    return found


def breaks(line):
    """Where a line may be broken, and what that costs."""
    costs = weights(line)
    quoted = False
    for at, sign in enumerate(line):
        if sign == '"' and line[at - 1:at] != "\\":
            quoted = not quoted
        if quoted:
            continue
        if line.startswith("-- ", at) or line.startswith("{-", at):
            return
        if sign == " " and line[:at].strip():
            head, tail = line[:at].rstrip(), line[at + 1:]
            if head.endswith(" [") and tail.strip():            # the cases of an `elim`, each of which `rt fmt` gives a line
                yield at, costs[len(head) - 2] - 14
            elif tail.strip() and not NEVER_BEFORE.match(tail) and not NEVER_AFTER.search(head):
                gain = max((gain for gain, before, after in GAINS if before.match(tail) or (after and after.search(head))), default=0)
                yield at, costs[at] - gain


def best_break(line, low):
    """The column where to break a line, or none. Few open brackets count most, then what begins or ends there, then the columns used."""
    indent = len(line) - len(line.lstrip())
    found = [(cost + 0.4 * (EDGE - at), at) for at, cost in breaks(line) if indent + low <= at <= EDGE and len(line) - at > 8]
    return min(found)[1] if found else None


def folded_line(line, low):
    at = None if line.lstrip().startswith(("use ", "--", "infix", "open ", "mod ")) else best_break(line, low)
    if at is None:
        return [line]
    indent = " " * (len(line) - len(line.lstrip()) + 4)
    return [line[:at].rstrip(), indent + line[at:].lstrip()]


def folded(text, low):
    out = []
    for line in text.split("\n"):
        if IMPORT.match(line):
            out += folded_import(line) if len(line) > EDGE else [line]
        else:
            out += folded_line(line, low) if len(line) > MOST else [line]
    return "\n".join(out)


def sources(name):
    """The paths of a crate's proofs."""
    for top, _, names in os.walk(os.path.join(TOP, folder(name), "proofs")):
        yield from (os.path.join(top, it) for it in sorted(names) if it.endswith(".antt"))


def text_of(path):
    with open(path, encoding="utf8") as file:
        return file.read()


def put(path, text):
    with open(path, "w", encoding="utf8") as file:
        file.write(text)


def too_long(text):
    return sum(len(line) > MOST for line in text.split("\n"))


def layout(name):
    """Runs `rt fmt` in a crate's folder. Returns what it prints if it fails."""
    done = subprocess.run(["rt", "fmt"], cwd=os.path.join(TOP, folder(name)), text=True, check=False,
                          stdout=subprocess.PIPE, stderr=subprocess.STDOUT)
    return done.stdout if done.returncode else ""


def fold_crate(name):
    before = {path: text_of(path) for path in sources(name)}
    for at in range(ROUNDS):
        changed = False
        for path in before:
            text = text_of(path)
            new = folded(text, LEAST if at < ROUNDS // 2 else 8)
            if new != text:
                put(path, new)
                changed = True
        fault = layout(name) if changed else ""
        if fault:
            for path, text in before.items():
                put(path, text)
            return f"{name}: put back, since rt fmt failed: {fault.strip()[-300:]}"
        if not changed:
            break
    lost = [path for path, text in before.items() if words(text) != words(text_of(path))]
    for path in lost:
        put(path, before[path])
    texts = {path: text_of(path) for path in before}
    count = sum(texts[path] != text for path, text in before.items())
    left = sum(map(too_long, texts.values()))
    return "\n".join([f"{name}: {count} files folded, {left} lines of over {MOST} columns are left"]
                     + [f"{name}: put back, since its words differ: {os.path.relpath(path, TOP)}" for path in lost])


def main(names):
    known = Crates().below
    lost = [it for it in names if it not in known]
    if lost or not names:
        sys.exit(f"dev.py fold: crates.txt has no crate {lost[0]}" if lost else "dev.py fold CRATE ..")
    for name in names:
        print(fold_crate(name), flush=True)
