"""Counts words in the prose that the field does not use as this repository once did, and fails if a count has risen.

Prose is what a reader reads: pages, comments, and the messages of scripts. Code blocks and quoted code are not prose.
The counts are stored in dev/words.txt, by page and by crate. `python3 dev.py words` prints their sums.
"""
import collections
import os
import re
import subprocess
import sys
import tempfile

from repository import TOP, tracked

STORED = "dev/words.txt"
# Each word with its inflections, and what to write. A longer one comes first, since each text is counted once.
PATTERNS = [
    ("want of memory", r"wants? of memory|memory (?:is|was) wanting", "out of memory"),
    ("so many", r"so many|so much", "n, the number of"),
    ("let go", r"lets? go|letting go", "discarded, freed"),
    ("comes to", r"comes? to|came to|coming to", "results in"),
    ("goes on", r"goes? on|went on|going on|gone on", "continues"),
    ("handed", r"handed|handing|hands (?:it|them|this|what|on|out|over|back)", "passed, given"),
    ("tell", r"tells?|told|telling", "report, print, state"),
    ("say", r"says?|said|saying", "send, write, state"),
    ("hear", r"hears?|heard|hearing", "receive, deliver"),
    ("stand", r"stands?|stood|standing", "is, represents"),
    ("behind", r"behind", "after"),
    ("front", r"fronts?", "prefix, first part"),
    ("wants", r"wants?|wanted|wanting", "needs"),
    ("fine", r"fine", "successful"),
]
NAMES = [name for name, _, _ in PATTERNS]
INSTEAD = {name: instead for name, _, instead in PATTERNS}
WORD = re.compile("|".join(rf"(?P<w{at}>\b(?:{text})\b)" for at, (_, text, _) in enumerate(PATTERNS)), re.I)
STRING = re.compile(r'"""(?:.*?)"""|"(?:[^"\\\n]|\\.)*"|\'(?:[^\'\\\n]|\\.)*\'|`(?:[^`\\]|\\.)*`', re.S)
NO_PROSE = (STORED, "dev/words.py", "dev/test.py")


# ---- the prose of a file

def of_page(text):
    """A Markdown page without its code blocks, generated lists, quoted code and targets of links."""
    text = re.sub(r"<!-- (?:count|text|code|crates)\b.*?<!-- end -->|<!--.*?-->", " ", text, flags=re.S)
    text = re.sub(r"^[ \t]*```.*?^[ \t]*```", " ", text, flags=re.S | re.M)
    lines, is_code, was_blank = [], False, True
    for line in text.split("\n"):
        is_code = bool(line.strip()) and line.startswith("    ") and (is_code or was_blank and not is_item(lines))
        was_blank = not line.strip()
        if not is_code:
            lines.append(line)
    return re.sub(r"\]\([^)]*\)", "]", "\n".join(lines))


def is_item(lines):
    """Whether the last paragraph of these lines belongs to a list, in which indented lines are prose."""
    last = next((line for line in reversed(lines) if line.strip()), "")
    return bool(re.match(r"\s*(?:[-*+]|\d+\.) |\s{2,}\S", last))


def of_manual(text):
    """A manual page without its requests, its examples and what is set in bold."""
    text = re.sub(r"^\.nf$.*?^\.fi$", " ", text, flags=re.S | re.M)
    text = re.sub(r"\\fB.*?\\f[RP]", " ", text)
    return "\n".join(line for line in text.split("\n") if not re.match(r"[.'](?!SH)", line))


def of_rattle(text):
    return "\n".join(re.findall(r"(?:^|\s)//+!?(.*)", text))


def of_antt(text):
    return "\n".join(re.findall(r"(?:^|\s)--+(?=\s)(.*)", text))


def of_shell(text):
    """Comments, and the messages that a script prints."""
    comments = "\n".join(re.findall(r"(?:^|\s)#+(?!!)(.*)", text))
    return comments + "\n" + of_strings(re.sub(r"(?m)(?:^|\s)#.*", "", text))


def of_c(text):
    comments = "\n".join(re.findall(r"/\*(.*?)\*/", text, re.S) + re.findall(r"(?:^|[^:])//(.*)", text))
    return comments + "\n" + of_strings(re.sub(r"(?s)/\*.*?\*/|(?m:(?:^|(?<=[^:]))//.*)", "", text))


def of_html(text):
    return re.sub(r"(?s)<(script|style).*?</\1>|<!--|-->|<[^>]*>", " ", text)


def of_strings(text):
    """The strings of a script that are sentences: those with a space."""
    found = [it for it in STRING.findall(text) if re.search(r"\w \w", it)]
    return "\n".join(re.sub(r"\$?\{[^{}]*\}", " ", it.replace("`", '"')) for it in found)


KINDS = {".md": of_page, ".1": of_manual, ".rt": of_rattle, ".antt": of_antt, ".py": of_shell, ".sh": of_shell, "": of_shell,
         ".c": of_c, ".h": of_c, ".S": of_c, ".js": of_c, ".mjs": of_c, ".css": of_c, ".html": of_html}


def prose(path, text):
    """The prose of a file, without what stands in back quotes."""
    kind = KINDS.get(os.path.splitext(path)[1])
    if kind is None or path in NO_PROSE or path.startswith("examples/site/"):
        return ""
    return re.sub(r"``.*?``|`[^`\n]*`|`[^`]*`", " ", kind(text), flags=re.S)


# ---- the counts

def place_of(path):
    """The row of a file: a page by its path, a crate's sources by the crate, other sources by their folder."""
    parts = path.split("/")
    if path.endswith((".md", ".1")) or path.startswith("include/"):
        return path
    if parts[0] == "crates":
        return "/".join(parts[:2])
    return parts[0] if len(parts) > 1 else path


def group_of(place):
    if place.startswith("crates/"):
        return "crate pages" if place.endswith(".md") else "comments of crates"
    if place.startswith(("docs/", "include/", "web")):
        return place.split("/")[0] + "/"
    return place if place in ("README.md", "CONTRIBUTING.md") else "scripts and examples"


def count(top, paths):
    """For each place the count of each word."""
    found = collections.defaultdict(collections.Counter)
    for path in paths:
        with open(os.path.join(top, path), encoding="utf8", errors="replace") as file:
            text = file.read()
        for match in WORD.finditer(prose(path, text)):
            found[place_of(path)][NAMES[int(match.lastgroup[1:])]] += 1
    return found


def stored():
    """The counts of dev/words.txt, or None if there is no such file."""
    try:
        with open(os.path.join(TOP, STORED), encoding="utf8") as file:
            lines = [line for line in file.read().splitlines() if line and not line.startswith("#")]
    except OSError:
        return None
    rows = collections.defaultdict(collections.Counter)
    for line in lines:
        place, _, rest = line.partition(": ")
        for number, name in re.findall(r"(\d+) ([a-z ]+)", rest):
            rows[place][name] = int(number)
    return rows


def faults():
    """A line for each count that has risen since it was stored."""
    before = stored()
    if before is None:
        return [f"{STORED}:1: no counts are stored; `python3 dev.py words write` stores them"]
    now = count(TOP, tracked())
    risen = [(place, name, number) for place in sorted(now) for name, number in now[place].items() if number > before[place][name]]
    return [f'{place}: "{name}" {number} times, {before[place][name]} before: write {INSTEAD[name]}, as the sense is' for place, name, number in risen]


def write(found):
    lines = ["# Words that the prose of this repository is losing, counted by page and crate.",
             "# `python3 dev.py words` fails if a count has risen; `python3 dev.py words write` stores the counts of now."]
    for place in sorted(found):
        lines.append(f"{place}: " + ", ".join(f"{found[place][name]} {name}" for name in sorted(found[place])))
    with open(os.path.join(TOP, STORED), "w", encoding="utf8") as file:
        file.write("\n".join(lines) + "\n")


def show(found):
    """The sums by group, and by word."""
    groups, by_word = collections.Counter(), collections.Counter()
    for place, counter in found.items():
        groups[group_of(place)] += sum(counter.values())
        by_word.update(counter)
    for name, number in sorted(groups.items(), key=lambda it: -it[1]):
        print(f"{name:22} {number:6,}")
    print(f"{'in all':22} {sum(groups.values()):6,}")
    print(", ".join(f"{name} {by_word[name]:,}" for name in sorted(NAMES, key=lambda it: -by_word[it])))


def lines_with(place):
    """Prints each line of prose of a page or crate that has one of the words."""
    for path in tracked():
        if place not in (path, place_of(path)):
            continue
        with open(os.path.join(TOP, path), encoding="utf8", errors="replace") as file:
            text = file.read()
        counted = collections.Counter(line.strip() for line in prose(path, text).split("\n") if WORD.search(line))
        for number, line in enumerate(text.split("\n"), 1):
            bare = next((it for it in counted if it and re.sub(r"`[^`]*`", " ", line).strip().endswith(it)), None)
            if bare:
                print(f"{path}:{number}: {line.strip()}")


def at_commit(commit):
    """The counts of another commit."""
    with tempfile.TemporaryDirectory() as room:
        archive = subprocess.run(["git", "archive", commit], cwd=TOP, stdout=subprocess.PIPE, check=False)
        if archive.returncode:
            sys.exit(f"dev.py: git has no commit {commit}")
        subprocess.run(["tar", "-x", "-C", room], input=archive.stdout, check=True)
        paths = [os.path.relpath(os.path.join(at, name), room) for at, _, names in os.walk(room) for name in names]
        return count(room, paths)


def main(words):
    if words[:1] == ["at"] and len(words) == 2:
        return show(at_commit(words[1]))
    if words[:1] == ["in"] and len(words) == 2:
        return lines_with(words[1].rstrip("/"))
    found = count(TOP, tracked())
    if words == ["write"]:
        write(found)
    elif words:
        sys.exit("dev.py: words, words write, words at COMMIT, or words in PLACE")
    show(found)
    risen = faults()
    for line in risen:
        print(line)
    sys.exit(1 if risen else 0)
