"""Compares the documents with the sources, and wraps the prose of Markdown pages."""
import os
import re
import subprocess
import sys

import add
import calls
import counts
import trusted
import words
from repository import TOP, read, tracked

MOST_IN_A_CHAIN = 8
# A crate at the end of a longer chain, with the length allowed (docs/DECISIONS.md): ARP is below the device on Ethernet.
LONGER_CHAINS = {"uip_c": 9, "uip_app_c": 9, "uip_both_c": 9}
WIDTH = 100
# The most lines of a page that must stay short; the most kB (1,024 bytes) of the texts of docs/ in all, and of them by hand.
MOST_LINES = {"README.md": 120, "include/uip.h": 580}
MOST_KB, MOST_KB_BY_HAND = 300, 170
# Names in documents that no source has: words of the kit, of std and of the system.
OUTSIDE = set("""
    rt rattle python3 valgrind qemu-system-aarch64 tshark dnsmasq telnet inetutils curl stty strace node chromium git
    main clang gcc g++ cc man sh make ip qemu Linux std core alloc usize u8 u16 u32 u64 i32 true false main()
    arping slipif once_cell memchr2 cC nC mps2-an386
""".split())
# Folders that a build makes, folders of the kit, and content types are not paths of the repository.
NO_PATH = re.compile(r"(.*/)?out/.*|rattle/.*|(text|image|font|audio|application)/.*|[A-Z]+(/[A-Z]+)+|\d+(/\d+)+")
KIT = re.compile(r"rattle-kit-\w+")
# Files whose words name nothing: pages, data, and the stored counts of words.
NO_SOURCE = (".md", ".png", ".img", ".slip", ".xz", ".pcap", ".wasm", "dev/words.txt")


class Documents:
    """The Markdown pages and the words of all sources."""

    def __init__(self, crates):
        self.crates, self.faults, self.anchors_of, self.files_of = crates, [], {}, None
        self.files = tracked()
        self.pages = [it for it in self.files if it.endswith(".md")]
        self.stems = {os.path.splitext(os.path.basename(it))[0] for it in self.files}
        self.names = {os.path.basename(it) for it in self.files} | self.stems
        self.places = set(self.files) | {"/".join(it.split("/")[:n]) for it in self.files for n in range(1, it.count("/") + 1)}
        self.words_of = {it: set(re.findall(r"[A-Za-z_][\w'-]*|\w+", read(it))) for it in self.files if not it.endswith(NO_SOURCE)}
        self.words = set().union(*self.words_of.values())
        self.words |= {part for it in self.words for part in re.split(r"[-']", it)}

    def fault(self, page, number, text):
        self.faults.append(f"{page}:{number}: {text}")

    def is_path(self, page, text, crates):
        """Whether the repository has a path: at the top, beside the page, in docs/, or in one of these crates. A page of no crate may
        name a folder that each crate has. A source may lack its ending, and its folder after the crate's name, as in `uip_slip/Frames`."""
        text = text.rstrip("/").split("#")[0]
        crate, _, rest = text.partition("/")
        if crate in ("specs", "src", "proofs", "must-fail") and not page.startswith("crates/"):
            crates = self.crates.below
        paths = [os.path.join(at, text) for at in ("", os.path.dirname(page), "docs", "crates", *(f"crates/{it}" for it in crates))]
        paths += [f"crates/{crate}/{part}/{rest}" for part in ("specs", "src", "proofs")]
        return any(os.path.normpath(it) + end in self.places for it in paths for end in ("", ".antt", ".rt", ".edit", ".md"))

    def is_name(self, text):
        """Whether each part of a name as `Type::call` or `Module.name` is a word of a source."""
        parts = [it for it in re.split(r"::|\.|\(\)|[<>,&]", text) if it]
        return all(it in self.words or it in self.names or it in OUTSIDE or it.isdigit() or KIT.fullmatch(it) for it in parts)

    def is_member(self, text):
        """Whether a name as `Type::call` has both words in one source, or the second in a file of the first name."""
        pair = re.fullmatch(r"([A-Z][\w']*)(?:::|\.)([A-Za-z_][\w']*)(?:\(\))?", text)
        if not pair or text in self.names:
            return True
        return any({pair[1], pair[2]} <= words or pair[2] in words and os.path.splitext(os.path.basename(path))[0] == pair[1]
                   for path, words in self.words_of.items())

    def see_names(self, page, number, line, crates):
        """Compares the names and paths in back quotes with the sources; a path of a crate is a path of one of these crates."""
        for text in re.findall(r"`([^`]+)`", line):
            if re.search(r"NAME|CRATE|FILE|FUNCTION|TYPE|[*]|^/", text):
                continue
            if re.fullmatch(r"[\w.-]+(/[\w.-]+)+/?", text):
                if not NO_PATH.fullmatch(text) and not self.is_path(page, text, crates):
                    self.fault(page, number, f"there is no {text}")
            elif re.fullmatch(r"[A-Za-z_][\w'-]*((::|\.)[A-Za-z_][\w'-]*)*(\(\))?", text) and not self.is_name(text):
                self.fault(page, number, f"no source has the name {text}")
            elif not self.is_member(text):
                self.fault(page, number, f"no source has both parts of {text}")
        for target in re.findall(r"\]\(([^)\s]+)\)", line):
            path, _, anchor = target.partition("#")
            there = os.path.normpath(os.path.join(os.path.dirname(page), path)) if path else page
            if re.match(r"[a-z]+:", target):
                continue
            if not os.path.exists(os.path.join(TOP, there)):
                self.fault(page, number, f"the link to {target} has no target")
            elif anchor and there.endswith(".md") and anchor not in self.anchors(there):
                self.fault(page, number, f"{there} has no heading #{anchor}")

    def anchors(self, page):
        """The anchors of a page: those of its headings, as hosts of repositories make them, and those with an id."""
        if page not in self.anchors_of:
            text = re.sub(r"^```.*?^```", "", read(page), flags=re.S | re.M)
            heads = re.findall(r"^#+ +(.*?) *$", text, re.M)
            slugs = {re.sub(r"[^\w\- ]", "", re.sub(r"\]\([^)]*\)", "", it).lower()).replace(" ", "-") for it in heads}
            self.anchors_of[page] = slugs | set(re.findall(r'<a id="([^"]+)"', text))
        return self.anchors_of[page]

    def see_files(self, page, number, line):
        """In a table headed by `file of` a folder, each name in the first column is a file of that folder."""
        cells = [it.strip() for it in line.strip().strip("|").split("|")]
        head = re.fullmatch(r"files? of `([\w/-]+)`", cells[0], re.I)
        if head or not line.startswith("|"):
            self.files_of = head[1] if head else None
        elif self.files_of:
            for name in re.findall(r"`([^`]+)`", cells[0]):
                folders = (self.files_of, os.path.join(os.path.dirname(page), self.files_of))
                if not any(os.path.normpath(f"{at}/{name}{end}") in self.places for at in folders for end in ("", ".antt", ".rt")):
                    self.fault(page, number, f"{self.files_of} has no file {name}")

    def crates_in(self, text):
        return {it for it in re.findall(r"\w+", text) if it in self.crates.below}

    def see_page(self, page):
        in_code = in_list = False
        lines = read(page).splitlines()
        about = self.crates_in(page) | self.crates_in(" ".join(lines[:12]))
        latest = set()
        for number, line in enumerate(lines, 1):
            latest = self.crates_in(line) or latest
            in_code ^= line.startswith("```")
            in_list = (in_list or line.startswith("<!-- ")) and not line.startswith("<!-- end")
            if in_code or line.startswith(("    ", "```")):
                continue
            if not in_list:
                self.see_names(page, number, line, latest | about)
                self.see_files(page, number, line)
                if len(line) > WIDTH and not line.startswith(("|", "#")) and " " in line.strip()[:WIDTH] and "](" not in line:
                    self.fault(page, number, f"{len(line)} columns; at most {WIDTH} are allowed")
            timed = re.search(r"\b\d+( to \d+)? (s|seconds)\b.*\bcheck|\bcheck\w*\b[^.]*\b\d+( to \d+)? (s|seconds)\b", line)
            if timed and "easured:" not in line:
                self.fault(page, number, "seconds of a check are printed by dev.py, and not written by hand")

    def see_crates(self):
        table = read("docs/ARCHITECTURE.md")
        for name in self.crates.below:
            page = f"crates/{name}/README.md"
            if page not in self.places:
                self.fault(page, 1, "the crate has no page")
                continue
            if not re.search(rf"^\| \[`{name}`\]\(\.\./crates/{name}/README\.md\) \|", table, re.M):
                self.fault("docs/ARCHITECTURE.md", 1, f"the table of crates has no row for {name}: `python3 dev.py trusted write` makes it")
            if not re.match(rf"# `{name}`: \S", read(page)):
                self.fault(page, 1, f"the heading of the page is not `# {name}:` in back quotes, with what it is")
            sources = [it for it in self.files if it.startswith(f"crates/{name}/src/")]
            has_tests = any("#[test]" in read(it) for it in sources)
            for number, line in enumerate(read(page).splitlines(), 1):
                speaks = re.search(r"\b(own tests|crate's (own )?tests|its tests|src/tests)\b", line) and "cross_tests" not in line
                if speaks and not has_tests:
                    self.fault(page, number, "it mentions the crate's tests, but the crate has none")
        for name in sorted({it.split("/")[1] for it in self.files if it.startswith("crates/")} - set(self.crates.below)):
            self.fault("crates.txt", 1, f"crates/{name} is not listed")
        for name, chain in self.crates.chains().items():
            most = LONGER_CHAINS.get(name, MOST_IN_A_CHAIN)
            if len(chain) > most:
                self.fault("crates.txt", 1, f"a chain of {len(chain)} crates; at most {most} are allowed: {' '.join(chain)}")
            elif name in LONGER_CHAINS and len(chain) < most:
                self.fault("dev/documents.py", 1, f"the chain to {name} has {len(chain)} crates, and LONGER_CHAINS allows {most}")

    def see_sizes(self):
        for page, most in MOST_LINES.items():
            lines = read(page).count("\n") if page in self.places else 0
            if lines > most:
                self.fault(page, lines, f"{lines} lines; at most {most} are allowed")
        for size, most, what in zip(sizes(self.files), (MOST_KB, MOST_KB_BY_HAND), ("in all", "by hand"), strict=True):
            if size > 1024 * most:
                self.fault("docs", 0, f"{size / 1024:.1f} kB of text {what}; at most {most} are allowed")

    def see_all(self):
        for page in self.pages:
            self.see_page(page)
        self.see_crates()
        self.see_sizes()


def sizes(files):
    """The bytes of the texts of docs/: in all, and without what `dev.py trusted write` makes."""
    texts = {it: read(it) for it in files if re.fullmatch(r"docs/[^/]+\.(md|\d)", it)}
    made = re.compile(r"<!-- (?:crates|text)[^\n]*-->\n.*?<!-- end -->", re.S)
    by_hand = [made.sub("", text) for page, text in texts.items() if page != "docs/DEFINITIONS.md"]
    return [sum(len(text.encode()) for text in some) for some in (texts.values(), by_hand)]


def wrapped(text):
    """A Markdown text with its prose wrapped: paragraphs and items of lists, each item with its own indent."""
    out, block, indent = [], [], ""

    def flush():
        if block:
            words = re.findall(r"(?:`[^`]*`|\[[^\]]*\]\([^)]*\)|<!--.*?<!-- end -->|\S)+", " ".join(block))
            line = block[0][:len(block[0]) - len(block[0].lstrip())] + words[0]
            for word in words[1:]:
                if len(line) + 1 + len(word) > WIDTH and not re.match(r"[-*+#|>]$|\d+\.$", word):
                    out.append(line)
                    line = indent + word
                else:
                    line += " " + word
            out.append(line)
            block.clear()

    in_fence = in_mark = False
    for line in text.split("\n"):
        fence, mark = line.lstrip().startswith("```"), re.match(r"<!-- (\w+)", line)
        item = re.match(r"(\s*)(?:[-*+]|\d+\.) ", line)
        stays = re.match(r"\s*[|#>]|!\[|<", line) or (re.match(r" {4}|\t", line) and not block)
        if in_fence or in_mark or fence or mark or not line.strip() or stays:
            flush()
            out.append(line)
            in_fence ^= fence
            if mark and not in_fence:
                in_mark = mark.group(1) != "end" and "<!-- end -->" not in line
            continue
        if item:
            flush()
            indent = " " * len(item.group(0))
        elif not block:
            indent = re.match(r"\s*", line).group(0)
        block.append(line.rstrip() if not block else line.strip())
    flush()
    return "\n".join(out)


def wrap(pages):
    for page in pages:
        with open(page, encoding="utf8") as file:
            text = file.read()
        if wrapped(text) != text:
            with open(page, "w", encoding="utf8") as file:
                file.write(wrapped(text))
            print(f"wrapped {page}")


def see_kit():
    """Warns if `rt version` prints a kit that CONTRIBUTING.md does not name: by its whole name, or by its number with its letter."""
    try:
        done = subprocess.run(["rt", "version"], stdout=subprocess.PIPE, stderr=subprocess.DEVNULL, text=True, timeout=60, check=False)
    except (OSError, subprocess.TimeoutExpired):
        return
    kit = KIT.search(done.stdout)
    named = set(re.findall(r"[\w-]+", read("CONTRIBUTING.md")))
    if kit and not named.intersection((kit[0], kit[0].removeprefix("rattle-kit-"))):
        print(f"warning: the kit here is {kit[0]}, which CONTRIBUTING.md does not name")


def docs(crates):
    documents = Documents(crates)
    documents.see_all()
    faults = documents.faults + add.faults(crates) + calls.faults(crates) + words.faults() + counts.faults() + trusted.faults()
    for line in faults:
        print(line)
    failed = bool(faults)
    for script in (["examples/image.py"], ["bench/peers/tables.py", "check"]):
        failed |= subprocess.run([sys.executable, *script], cwd=TOP, check=False).returncode != 0
    see_kit()
    if not failed:
        kept = "{:.0f} kB, of them {:.0f} by hand".format(*(size / 1024 for size in sizes(documents.files)))
        print(f"the documents agree with the sources; docs/ has texts of {kept}")
    return int(failed)
