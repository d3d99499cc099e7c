#!/usr/bin/env python3
"""Tests dev.py on a small repository of its own, in which faults are planted: each has to be found, and nothing else.

    python3 dev/test.py
"""
import os
import shutil
import subprocess
import sys
import tempfile

import counts

HERE = os.path.dirname(os.path.abspath(__file__))
KIT = "The kit is rattle-kit-13 with the letters 13b and 13y.\n"
TABLE = KIT + "\n## How to add something\n\n| thing | places |\n|---|---|\n| a counter | `python3 dev.py add counter` |\n"
FILES = {
    "crates.txt": "# the wire\nlow:\n# above\nhigh: low\n",
    "README.md": "# A page\n\nIt sends what it has.\n\n    it tells and says and hears\n\n```\nit stands\n```\n\nAlso `it tells`.\n",
    "CONTRIBUTING.md": TABLE,
    "docs/ARCHITECTURE.md": "# Architecture\n",
    "docs/page.1": ".TH PAGE\n.SH NAME\nIt \\fBtells\\fP it.\n.B says\n.nf\nit stands\n.fi\nIt was said once.\n",
    "crates/low/README.md": "# `low`: the wire's numbers\n",
    "crates/low/src/lib.rt": "mod low;\n\npub use low::{Low, free, lost};\n",
    "crates/low/src/low.rt": """/// The numbers that were handed over.
pub struct Low {
    /// The counters.   [add: counter]
    pub net: [u32; 2],
}

impl Low {
    pub fn used(&self) -> u32 {
        self.net[0]
    }

    pub fn edited(&self) -> u32 {
        self.net[1]
    }

    pub fn unused(&self) -> u32 {
        self.inner()
    }

    pub fn inner(&self) -> u32 {
        self.net[0] + 1
    }

    fn private(&self) -> u32 {
        1
    }
}

pub fn free() -> u32 {
    1
}

pub fn lost() -> u32 {
    let url = "http://tell/";   // it is told
    2
}
""",
    "crates/low/specs/Low.antt": "-- what was said so far\n-- of the counter   [add: counter]\nlow : N\n",
    "crates/low/must-fail/wrong.edit": "file: src/low.rt\nold:         self.net[1]\nnew:         self.net[0]\n",
    "crates/high/README.md": "# `high`\n",
    "crates/high/src/lib.rt": "use low::{Low, free};\n\nfn go(low: &Low) -> u32 {\n    low.used() + free()\n}\n",
}
RT = """#!/usr/bin/env python3
import os, subprocess, sys, tempfile
if sys.argv[1] == "version":
    print("rattle-kit-13x logic")
elif sys.argv[1] == "ci":
    busy = "import time\\nwhile time.process_time() < 1.5: pass"
    edit = tempfile.mkdtemp(prefix="rt-edit-")
    for words, place in ((["low"], "crates/low"), (["high", "--test"], "crates/high"), (["low"], edit), (["low"], edit)):
        subprocess.run([sys.executable, "-c", busy, "check", "--crate-name", *words], cwd=place)
    print("2 passed, 1 failed")
    sys.exit(7)
elif sys.argv[1] == "fmt":
    with open("proofs/Long.antt", encoding="utf8") as file:
        text = file.read()
    with open("proofs/Long.antt", "w", encoding="utf8") as file:
        file.write(text.replace("this_is_lost ", ""))
    if "this_is_refused" in text:
        print("no layout")
        sys.exit(2)
"""


class Trial:
    """A repository in a folder of its own, and how many expectations failed."""

    def __init__(self, room):
        self.room, self.failed, self.count = os.path.join(room, "repository"), 0, 0
        for path, text in FILES.items():
            self.write(path, text)
        shutil.copytree(HERE, os.path.join(self.room, "dev"), ignore=shutil.ignore_patterns("__pycache__", "words.txt", "test.py"))
        shutil.copy(os.path.join(HERE, "../dev.py"), self.room)
        bin_folder = os.path.join(room, "bin")
        os.makedirs(bin_folder)
        with open(os.path.join(bin_folder, "rt"), "w", encoding="utf8") as file:
            file.write(RT)
        os.chmod(os.path.join(bin_folder, "rt"), 0o755)
        self.environment = {**os.environ, "PATH": f"{bin_folder}:{os.environ['PATH']}"}
        for words in (["init", "-q"], ["add", "-A"], ["-c", "user.name=a", "-c", "user.email=a@b", "commit", "-qm", "first"]):
            subprocess.run(["git", *words], cwd=self.room, check=True)

    def write(self, path, text):
        full = os.path.join(self.room, path)
        os.makedirs(os.path.dirname(full), exist_ok=True)
        with open(full, "w", encoding="utf8") as file:
            file.write(text)

    def run(self, *words):
        done = subprocess.run([sys.executable, "dev.py", *words], cwd=self.room, env=self.environment, capture_output=True, text=True, check=False)
        return done.returncode, done.stdout, done.stderr

    def see(self, is_good, text):
        self.count += 1
        if not is_good:
            self.failed += 1
            print(f"WRONG: {text}")


def words(trial):
    status, out, _ = trial.run("words")
    trial.see(status == 1 and "no counts are stored" in out, f"words without a store: {out}")
    status, out, _ = trial.run("words", "write")
    stored = open(os.path.join(trial.room, "dev/words.txt"), encoding="utf8").read()
    rows = [line for line in stored.splitlines() if not line.startswith("#") and not line.startswith(("dev", "dev.py"))]
    trial.see(rows == ["crates/low: 1 handed, 1 say, 1 tell", "docs/page.1: 1 say"], f"the stored counts are {rows}")
    trial.see(status == 0 and trial.run("words")[0] == 0, "words after a store")
    trial.write("README.md", FILES["README.md"] + "\nIt has told it, and what comes to it.\n")
    status, out, _ = trial.run("words")
    trial.see(status == 1 and 'README.md: "tell" 1 times' in out and '"comes to" 1 times' in out and out.count("before: write") == 2,
              f"words after a rise: {out}")
    trial.write("README.md", FILES["README.md"])
    trial.see(trial.run("words")[0] == 0, "words after the fall")


def tags(trial):
    status, out, _ = trial.run("add", "counter")
    expected = ("crates/low/src/low.rt:3: The counters.\n    pub net: [u32; 2],\n"
                "crates/low/specs/Low.antt:2: what was said so far of the counter\n    low : N\n")
    trial.see((status, out) == (0, expected), f"add counter: {out}")
    trial.see("[add: nothing]" in trial.run("add", "nothing")[2], "add of no tag")
    trial.write("CONTRIBUTING.md", TABLE.replace("add counter", "add state"))
    out = trial.run("docs")[1]
    trial.see("CONTRIBUTING.md:7: no source has the tag [add: state]" in out and "does not name `dev.py add counter`" in out, f"docs: {out}")
    trial.write("CONTRIBUTING.md", TABLE)
    trial.see("[add:" not in trial.run("docs")[1], "docs with its tags")


def calls(trial):
    lines = [line for line in trial.run("calls")[1].splitlines() if "exception" not in line]
    names = [line.split()[1] for line in lines]
    trial.see(names == ["low::Low::unused", "low::lost"], f"unused calls: {names}")
    text = FILES["crates/high/src/lib.rt"]
    trial.write("crates/high/src/lib.rt", text.replace("free()", "free() + lost() + low.unused()").replace("free}", "free, lost}"))
    trial.see(not [line for line in trial.run("calls")[1].splitlines() if "neither" in line], "calls that are used")
    trial.write("crates/high/src/lib.rt", text)
    # a namesake is no caller: a function of the crate itself, a method of another type, a word of a C program
    other = "\npub struct Other;\n\nimpl Other {\n    pub fn unused(&self) -> u32 {\n        1\n    }\n}\n\nfn lost() -> u32 {\n    3\n}\n"
    trial.write("crates/high/src/lib.rt", text.replace("use low::{Low, free};", "use low::{free, take_low};").replace("low: &Low", "other: &Other")
                .replace("low.used() + free()", "free() + lost() + other.unused()") + other)
    trial.write("a.c", "int lost(void) { return 0; }\n")
    names = {line.split()[1] for line in trial.run("calls")[1].splitlines() if "neither" in line}
    trial.see({"low::Low::unused", "low::lost"} <= names, f"calls that only a namesake calls: {names}")
    trial.write("crates/high/src/lib.rt", text)


def documents(trial):
    """Pages: a table of files, links to headings, names of two parts, the rows of crates, and generated texts."""
    trial.write("crates/high/src/lib.rt", "fn go() {}\n")
    trial.write("docs/files.md", "# Files\n\n## The `low` crate\n\n| file of `crates/low/specs` | what |\n|---|---|\n| `Low` | it |\n"
                "| `used` | a word of a source, and no file |\n\n| word | what |\n|---|---|\n| `used` | a call |\n\n"
                "See [this](#the-low-crate), [that](files.md#no-such) and [more](#files).\n\n`Low::used` is there, and `Low.go` is not.\n")
    out = [line for line in trial.run("docs")[1].splitlines() if line.startswith("docs/files.md")]
    trial.write("crates/high/src/lib.rt", FILES["crates/high/src/lib.rt"])
    trial.see(out == ["docs/files.md:8: crates/low/specs has no file used", "docs/files.md:14: docs/files.md has no heading #no-such",
                      "docs/files.md:16: no source has both parts of Low.go"],
              f"a page with a wrong file and a wrong heading: {out}")
    trial.write("crates/low/specs/More.antt", "-- a number\npub more : N\n")
    trial.write("docs/files.md", "# Files\n\n<!-- text: low.specs.More: more -->\n<!-- end -->\n\n<!-- crates --><!-- end -->\n")
    trial.see("docs/files.md:4: it differs from the sources" in trial.run("docs")[1], "a page whose generated text is not written")
    trial.run("trusted", "write")
    with open(os.path.join(trial.room, "docs/files.md"), encoding="utf8") as file:
        text = file.read()
    trial.see("-- a number\nmore : N\n```" in text and "| **the wire** | |\n| [`low`](../crates/low/README.md) | the wire's numbers |" in text,
              f"the generated texts: {text}")
    trial.see("docs/files.md" not in trial.run("docs")[1], "a page whose generated text is written")
    trial.write("crates/low/specs/More.antt", "-- a number\npub more : M\n")
    trial.see("docs/files.md:6: it differs from the sources" in trial.run("docs")[1], "a definition that has changed")
    os.remove(os.path.join(trial.room, "crates/low/specs/More.antt"))
    trial.see("the heading of the page is not" in trial.run("docs")[1], "a crate's page without what the crate is")
    os.remove(os.path.join(trial.room, "docs/files.md"))


def long_pages(trial):
    """README and the texts of docs/ are short; of docs/ a generated page, and a generated part of one, count in all and not by hand."""
    words = "a word " * 8 + "\n"
    kept = open(os.path.join(trial.room, "README.md"), encoding="utf8").read()
    trial.write("README.md", kept + "\n" * 121)
    trial.write("docs/long.md", words * (170 * 1024 // len(words) - 10))
    trial.write("docs/DEFINITIONS.md", words * (120 * 1024 // len(words)))
    out = trial.run("docs")[1]
    trial.see("lines; at most 120 are allowed" in out and "of text" not in out, f"a long README: {out[:400]}")
    trial.write("README.md", kept)
    trial.write("docs/long.1", words * 20)
    out = trial.run("docs")[1]
    trial.see("kB of text by hand; at most 170" in out and "in all" not in out and "lines; at most" not in out, f"docs by hand: {out}")
    trial.write("docs/long.1", "<!-- crates -->\n" + words * 20 + "<!-- end -->\n")
    out = trial.run("docs")[1]
    trial.see("of text" not in out, f"a generated part counts as one by hand: {out}")
    trial.write("docs/DEFINITIONS.md", words * (131 * 1024 // len(words)))
    out = trial.run("docs")[1]
    trial.see("kB of text in all; at most 300" in out and "by hand" not in out, f"docs in all: {out[:400]}")
    for page in ("long.md", "long.1", "DEFINITIONS.md"):
        os.remove(os.path.join(trial.room, "docs", page))


def gate(trial):
    gate_py = open(os.path.join(HERE, "gate.py"), encoding="utf8").read()
    trial.write("dev/gate.py", gate_py.replace("PROGRESS = 20 ", "PROGRESS = 0 "))
    status, out, said = trial.run("ci")
    trial.see(status == 7 and "2 passed, 1 failed" in out, f"the status of the gate is {status}")
    rows = {line.split()[1]: [float(it) for it in line.split()[2:]] for line in said.splitlines() if line.startswith(("gate: low", "gate: high"))}
    good = set(rows) == {"low", "high"} and all(abs(seen - wanted) < 0.012 for name, wanted_row in
           (("low", [0.025, 0, 0.05, 0, 0.075]), ("high", [0, 0.025, 0, 0, 0.025])) for seen, wanted in zip(rows[name], wanted_row))
    trial.see(good, f"the minutes are {rows}")
    lines = [line.split(", ")[:2] for line in said.splitlines() if line.startswith("progress: ")]
    trial.see(["progress: 1 of 2 crates checked", "1 checks of 1 edits"] in lines, f"the progress is silent while edits are tried: {lines}")
    trial.write("dev/gate.py", gate_py)
    trial.see(trial.run("gate")[1].count("low") == 1, "the table of the last run")
    trial.write("log", "rt: low proved\nrt: must-fail low/wrong.edit: refused\n")
    out = trial.run("gate", "log")[1]
    trial.see("1 of 2 crates proved, 1 edits tried" in out and "no times" in out, f"a log without times: {out}")


def shape(trial):
    """Lines of imports, and clauses that are too long."""
    lines = sum(text.count("\n") for path, text in FILES.items() if path.endswith((".rt", ".antt")))
    uses = f"imports: 2 of {lines} lines, {200 / lines:.2f} %; with 0 of clauses"
    out = trial.run("counts")[1]
    trial.see(uses in out and "clauses: 0 of 0 have" in out, f"counts: {out}")
    spec = FILES["crates/low/specs/Low.antt"]
    trial.write("crates/low/specs/Low.antt", spec + "use A.{a}\nunfoldable pub use B.{b}\npub use C.{c}\n" + "x : N\n" * 30)
    code = "\nghost use D.{d};\n\nfn long()\n    requires { a }\n    ensures both { b + {" + "c" * 95 + "} +\n        " + "d" * 95 + " }\n{\n}\n"
    trial.write("crates/low/src/low.rt", FILES["crates/low/src/low.rt"] + code)
    out = trial.run("counts")[1]
    trial.see("imports: 5 of " in out and "with 1 of clauses" in out and "clauses: 0 of 2 have" in out, f"counts with more: {out}")
    trial.see("are imports" not in trial.run("docs")[1], "docs with few imports")
    trial.write("crates/low/specs/Low.antt", spec + "use A.{a}\n" * 60)
    trial.write("crates/low/src/low.rt", FILES["crates/low/src/low.rt"] + code.replace("d" * 95, "d" * 105) * 39)
    out = trial.run("docs")[1]
    trial.see(f"lines are imports, more than {counts.MOST_IMPORTS:g} %" in out and "crates: 39 clauses have over 200 characters, and 38 may" in out
              and out.count("both, ") == 39, f"docs with a bad shape: {out}")
    trial.write("crates/low/specs/Low.antt", spec)
    trial.write("crates/low/src/low.rt", FILES["crates/low/src/low.rt"])


LONG = """-- A comment is never broken, however long it is: its words would be read as others. It has more than one hundred and sixty columns, as this one.
use A.B.{{{0}}}
f : (first second third : List ℕ) (number : ℕ) → IsInOrder first second → IsInOrder second third → length first + length second ≡ number → IsInOrder first third ⊎ Empty
f first second third number = elim (compare number (length first + length second + length third)) as (λ b. IsInOrder first third) [ zero ↦ absurd (wrong {1}) | suc n ↦ right n ]
"""
SHORT = """-- A comment is never broken, however long it is: its words would be read as others. It has more than one hundred and sixty columns, as this one.
use A.B.{{{0}}}
use A.B.{{{2}}}
f : (first second third : List ℕ) (number : ℕ) → IsInOrder first second → IsInOrder second third → length first + length second ≡ number
    → IsInOrder first third ⊎ Empty
f first second third number = elim (compare number (length first + length second + length third)) as (λ b. IsInOrder first third) [
    zero ↦ absurd (wrong {1}) | suc n ↦ right n ]
"""


def folds(trial):
    """Long lines of proofs: where they are broken, and that a file is put back if its words change or rt fmt refuses it."""
    path = os.path.join(trial.room, "crates/low/proofs/Long.antt")
    names = [f"name_{n}" for n in range(10, 36)]
    for word, result in (("h", "1 files folded, 0 lines"), ("this_is_lost h", "put back, since its words differ: crates/low/proofs/Long.antt"),
                         ("this_is_refused h", "low: put back, since rt fmt failed: no layout")):
        text = LONG.format(", ".join(names), word)
        trial.write("crates/low/proofs/Long.antt", text)
        out = trial.run("fold", "low")[1]
        with open(path, encoding="utf8") as file:
            now = file.read()
        wanted = SHORT.format(", ".join(names[:14]), word, ", ".join(names[14:])) if word == "h" else text
        trial.see(result in out and now == wanted, f"fold with {word}: {out}{now}")
    trial.see("crates.txt has no crate none" in trial.run("fold", "none")[2], "fold of a crate that is not listed")
    shutil.rmtree(os.path.dirname(path))


def further(trial):
    trial.see("the kit here is rattle-kit-13x" in trial.run("docs")[1], "a kit that is not named")
    trial.write("CONTRIBUTING.md", TABLE.replace("13y", "13x"))
    trial.see("the kit here" not in trial.run("docs")[1], "a kit that is named")
    status, _, said = trial.run("flash")
    trial.see(status == 1 and "the board is not built" in said, f"flash without a board: {said}")
    trial.see(trial.run("check", "none")[2] == "dev.py: crates.txt has no crate none\n", "a crate that is not listed")
    trial.see(trial.run("above", "low")[1].split()[0::4] == ["low", "high"], "the crates above")
    trial.see(trial.run("frobnicate")[0] == 2 and trial.run("--help")[0] == 0, "the words of dev.py")


def main():
    with tempfile.TemporaryDirectory() as room:
        trial = Trial(room)
        for part in (words, tags, calls, documents, long_pages, gate, shape, folds, further):
            part(trial)
    print(f"dev.py: {trial.count} expectations, {trial.failed} failed")
    sys.exit(1 if trial.failed else 0)


main()
