"""The repository: its files, and the lines of crates.txt."""
import os
import re
import subprocess

TOP = os.path.dirname(os.path.dirname(os.path.abspath(__file__)))


def read(path):
    """The text of a file; a path is relative to the top of the repository."""
    with open(os.path.join(TOP, path), encoding="utf8", errors="replace") as file:
        return file.read()


def folder(name):
    return os.path.join(TOP, "crates", name)


def tracked():
    """The files of the repository that git tracks, or would add."""
    words = ["git", "ls-files", "-co", "--exclude-standard"]
    listed = subprocess.run(words, cwd=TOP, stdout=subprocess.PIPE, text=True, check=True)
    return [it for it in listed.stdout.splitlines() if os.path.isfile(os.path.join(TOP, it))]


def store(name):
    """The path of a file in the folder of git, which is never committed."""
    done = subprocess.run(["git", "rev-parse", "--absolute-git-dir"], cwd=TOP, stdout=subprocess.PIPE, text=True, check=False)
    return os.path.join(done.stdout.strip() or TOP, name)


class Crates:
    """The lines of crates.txt: the crates that each one uses, and the comment (its layer) above it."""

    def __init__(self):
        self.below, self.layer = {}, {}
        head = ""
        for line in read("crates.txt").splitlines():
            if line.startswith("#"):
                head = line[1:].strip()
            elif ":" in line:
                name, _, deps = line.partition(":")
                name = name.split()[0]
                self.below[name] = deps.split()
                self.layer[name] = head

    def above(self, names):
        """These crates and all that use one of them, lowest first."""
        found = set(names)
        for name in self.in_order():
            if found.intersection(self.below[name]):
                found.add(name)
        return [name for name in self.in_order() if name in found]

    def in_order(self):
        """The crates, each after those that it uses."""
        order = []

        def visit(name):
            if name in self.below and name not in order:
                for lower in self.below[name]:
                    visit(lower)
                order.append(name)

        for name in self.below:
            visit(name)
        return order

    def chains(self):
        """For each crate the longest chain that ends with it, lowest first."""
        chains = {}
        for name in self.in_order():
            lower = [chains[it] for it in self.below[name] if it in chains]
            chains[name] = max(lower, key=len, default=[]) + [name]
        return chains

    def longest_chain(self):
        """The longest chain of crates, lowest first."""
        return max(self.chains().values(), key=len)

    def edits(self, name):
        """The paths of a crate's must-fail edits."""
        at = os.path.join(folder(name), "must-fail")
        names = sorted(os.listdir(at)) if os.path.isdir(at) else []
        return [f"crates/{name}/must-fail/{it}" for it in names if re.fullmatch(r"[\w.-]+\.edit", it)]
