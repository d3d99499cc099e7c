"""The processor time of `rt ci` by crate, and its progress.

`rt ci` prints no times. So a watcher samples the processes that it starts: the name of the crate is in their words, and the
folder that they run in shows whether they prove, test, try an edit, or run a program. It changes nothing of the run. The times
are those that Linux counts for each process; `rt` itself, its guards and what ends between two samples are in `rest`.
"""
import collections
import os
import re
import subprocess
import sys
import tempfile
import threading
import time

from repository import TOP, Crates, store

EVERY = 0.5            # seconds between two samples
PROGRESS = 20          # seconds between two lines of progress, at least
SILENCE = 300          # seconds after which a line is printed, even if nothing has ended
KINDS = ("proof", "tests", "edits", "programs")
TICKS = os.sysconf("SC_CLK_TCK")
STORED = "lowunbisa-gate"


# ---- processes

def processes():
    """Each process: its parent, its own seconds, and those with the children that it waited for."""
    found = {}
    for name in os.listdir("/proc"):
        if not name.isdigit():
            continue
        try:
            with open(f"/proc/{name}/stat", encoding="utf8", errors="replace") as file:
                fields = file.read().rpartition(")")[2].split()
        except OSError:
            continue
        times = [int(it) / TICKS for it in fields[11:15]]
        found[int(name)] = (int(fields[1]), sum(times), times[2] + times[3])
    return found


def words_of(pid):
    try:
        with open(f"/proc/{pid}/cmdline", "rb") as file:
            words = file.read().decode(errors="replace").split("\0")
        return words, os.readlink(f"/proc/{pid}/cwd")
    except OSError:
        return [], ""


def task_of(words, place):
    """What a process that rt started does: its crate and its kind."""
    room = re.escape(tempfile.gettempdir())
    program = next((it for it in words if re.match(rf"{room}/rt-run-\w+/bin/", it)), None)
    if program:
        return re.sub(r"_tests$", "", os.path.basename(program)), "programs"
    if "--crate-name" not in words[:-1]:
        return None
    crate = words[words.index("--crate-name") + 1]
    if re.match(rf"{room}/rt-edit", place):
        return crate, "edits"
    return crate, "tests" if "--test" in words else "programs" if "--crate-checked" in words else "proof"


class Watch:
    """The times of what one `rt ci` starts, by crate and kind."""

    def __init__(self, parent):
        self.parent, self.top = parent, None
        self.started, self.crates = time.monotonic(), Crates()
        self.spent = collections.Counter()      # (crate, kind): seconds
        self.live = {}                          # pid of a child of rt: [task, seconds at its last sample]
        self.reaped, self.rest, self.first, self.tried = 0.0, 0.0, 0.0, 0
        self.ended = {kind: set() for kind in KINDS}

    def find(self, found):
        """The process of `rt ci`: the parent itself, or a child of it."""
        for pid in [self.parent, *(pid for pid, it in found.items() if it[0] == self.parent)]:
            words = words_of(pid)[0]
            if any(os.path.basename(it) == "rt" for it in words[:3]) and "ci" in words[1:4]:
                self.top, self.reaped = pid, found[pid][2]
                return

    def sample(self):
        """Takes one sample; False if the run has ended."""
        found = processes()
        if self.top is None:
            self.find(found)
            return True
        if self.top not in found:
            return False
        children = {pid for pid, it in found.items() if it[0] == self.top}
        gone = [pid for pid in self.live if pid not in children]
        self.settle(gone, found[self.top][2] - self.reaped)
        self.reaped, self.rest = found[self.top][2], found[self.top][1] - found[self.top][2]
        below = collections.defaultdict(list)
        for pid, it in found.items():
            below[it[0]].append(pid)
        for pid in children:
            task = task_of(*words_of(pid))
            if task or pid in self.live:
                self.live[pid] = [task or self.live[pid][0], tree_seconds(pid, found, below)]
        return True

    def settle(self, gone, reaped):
        """Adds what ended to its crate: the time that Linux then counted for rt's children, shared out as it was last seen."""
        seen = sum(self.live[pid][1] for pid in gone)
        for pid in gone:
            task, seconds = self.live.pop(pid)
            self.spent[task] += seconds + max(reaped - seen, 0) / len(gone)
            self.ended[task[1]].add(task[0])
            self.tried += task[1] == "edits"
        if not gone:
            self.spent[None] += reaped

    def seconds(self):
        """The seconds so far, of what runs too."""
        spent = collections.Counter(self.spent)
        for task, seconds in self.live.values():
            spent[task] += seconds
        spent[None] += self.rest
        return spent

    def counts(self):
        """How many crates are checked, how many checks of edits have ended, and how many tests and programs."""
        working = {task[0] for task, _ in self.live.values() if task[1] == "proof"}
        return len(self.ended["proof"] - working), self.tried, len(self.ended["tests"] | self.ended["programs"])

    def progress(self):
        done = self.counts()[0]
        edits = sum(len(self.crates.edits(name)) for name in self.crates.below)
        minutes, busy = (time.monotonic() - self.started) / 60, sum(self.seconds().values()) / 60
        return (f"progress: {done} of {len(self.crates.below)} crates checked, {self.tried} checks of {edits} edits, "
                f"{minutes:.0f} minutes, {busy:.0f} processor minutes")


def tree_seconds(pid, found, below):
    """The seconds of a process and of all below it, ended ones among them."""
    return found[pid][1] + sum(tree_seconds(it, found, below) for it in below[pid])


# ---- the table

def table_of(spent, crates, elapsed):
    """The lines of the table, in the order of crates.txt."""
    lines = [f"gate: {'crate':16} {' '.join(f'{kind:>8}' for kind in KINDS)} {'sum':>8}   (processor minutes)"]
    names = [name for name in crates if any(spent[name, kind] for kind in KINDS)]
    for name in names:
        row = [spent[name, kind] / 60 for kind in KINDS]
        lines.append(f"gate: {name:16} {' '.join(f'{it:8.2f}' for it in row)} {sum(row):8.2f}")
    sums = [sum(spent[name, kind] for name in names) / 60 for kind in KINDS]
    whole = sum(spent.values()) / 60
    lines.append(f"gate: {'sum':16} {' '.join(f'{it:8.2f}' for it in sums)} {sum(sums):8.2f}")
    lines.append(f"gate: {'rest':16} {whole - sum(sums):.2f} processor minutes; in all {whole:.1f} in {elapsed / 60:.1f} minutes")
    return lines


def read_plain(text):
    """What a log of `rt ci` without times has: the crates that were proved, and their edits."""
    proved = re.findall(r"^rt: (\w+) proved$", text, re.M)
    tried = re.findall(r"^rt: must-fail (\w+)/", text, re.M)
    crates = Crates().below
    lines = [f"{name:16} {'proved' if name in proved else 'not proved':10} {tried.count(name):4} edits tried" for name in crates]
    lines.append(f"{len(set(proved))} of {len(crates)} crates proved, {len(tried)} edits tried")
    return lines + ["This log has no times: `python3 dev.py ci 2>&1 | tee LOG` writes one that has them."]


def show(path):
    """Prints the table of a log, or of the last run that was watched in this clone."""
    place = path or store(STORED)
    try:
        with open(place, encoding="utf8", errors="replace") as file:
            text = file.read()
    except OSError as error:
        why = "no run was watched in this clone: `python3 dev.py ci` runs and watches one" if path is None else error.strerror
        sys.exit(f"dev.py: {why}")
    rows = [line.removeprefix("gate: ") for line in text.splitlines() if line.startswith("gate: ")]
    print("\n".join(rows or read_plain(text)))


# ---- watching

def follow(watch, is_over):
    """Samples until the run has ended, and prints its progress on standard error."""
    printed, last = time.monotonic(), watch.counts()
    while not is_over():
        if not watch.sample():
            break
        counts, silence = watch.counts(), time.monotonic() - printed
        if (counts != last and silence >= PROGRESS) or silence >= SILENCE:
            printed, last = time.monotonic(), counts
            print(watch.progress(), file=sys.stderr, flush=True)
        time.sleep(EVERY)
    lines = table_of(watch.seconds(), watch.crates.below, time.monotonic() - watch.started)
    with open(store(STORED), "w", encoding="utf8") as file:
        file.write("\n".join(lines) + "\n")
    return lines


def watch(parent):
    """Watches the `rt ci` that is a child of this process, until it has ended."""
    parent = int(parent)
    if os.path.isdir("/proc/self"):
        print("\n".join(follow(Watch(parent), lambda: not os.path.exists(f"/proc/{parent}"))), file=sys.stderr, flush=True)


def ci():
    """Runs `rt ci` at the top of the repository, watches it, and ends with its status."""
    run = subprocess.Popen(["rt", "ci"], cwd=TOP)
    lines, done = [], threading.Event()
    seen = threading.Thread(target=lambda: lines.extend(follow(Watch(run.pid), done.is_set)))
    if os.path.isdir("/proc/self"):
        seen.start()
    status = run.wait()
    done.set()
    if seen.ident:
        seen.join()
    print("\n".join(lines), file=sys.stderr, flush=True)
    sys.exit(status)
