"""Which definitions a statement rests on: all that a reader must believe of it. It follows the names of specs/ through their imports.

    python3 dev.py trusted              compares the generated texts of pages with the sources (status 1 if they differ)
    python3 dev.py trusted write        writes them again: docs/DEFINITIONS.md, and the marks of the other pages
    python3 dev.py trusted NAME ..      what a definition rests on, by file: step, HonestPeer, or link_world.specs.Headline.Tick
    python3 dev.py trusted text NAME    the same word for word, each definition before those that it names
    python3 dev.py trusted all          what the contract of the program's top call rests on (`run_told` of crates/uipd/src/run_told.rt)
    python3 dev.py trusted commands     how much each command and each law rests on
    python3 dev.py trusted constants    the constants of the code that these definitions name, with the values that theorems pin
    python3 dev.py trusted environment  the traits of a link, a sink and a shelf, with the clauses of their calls
    python3 dev.py trusted names        definitions that another crate cites and that have a namesake in another crate (status 1)

The text between a mark and `<!-- end -->` on a page of docs/ or of a crate is written from the sources:

    <!-- count: NAME .. -->              how many definitions, files and lines these definitions rest on
    <!-- text: MODULE: NAME, NAME -->    these definitions, word for word
    <!-- code: CRATE/src/FILE.rt: NAME -->   a function, word for word; without a NAME the whole file
    <!-- crates -->                      a row for each crate: the heading of its page
"""
import collections
import glob
import os
import re
import sys

import definitions
from repository import TOP, Crates, read
from sources import CRATES, Sources, by_file, counted, imports_of

MARK = re.compile(r"<!-- (count|text|code|crates)(?:: (.*?))? -->.*?<!-- end -->", re.S)
# The commands of uipd, each with what the arms of `TaskRuns` rest on that name these definitions; and the laws, each with its statement.
COMMANDS = (
    ("serve, ether, desk", "uipd.specs.SiteServing.SiteServes"), ("replay", "link_replay.specs.Ending.ReplayEnds"),
    ("load", "link_replay.specs.Ending.LoadEnds"), ("check", "site_commands.specs.Due.check_due"),
    ("pack", "site_commands.specs.Due.pack_due"), ("upgrade", "site_commands.specs.Due.upgrade_due"),
    ("page", "site_commands.specs.Due.page_due"), ("dump", "trace.specs.DumpText.dump_text"),
    ("pcap", "trace.specs.CaptureText.capture_file"), ("slip", "trace.specs.Converting.Converts"),
    ("resolve", "uipd.specs.ReportedRunning.ResolveRuns"),
)
LAWS = (
    "node_laws.specs.TraceConforms.EveryTraceOfPagesConforms", "node_laws.specs.TraceConforms.EveryTraceConforms",
    "node_laws.specs.TraceConforms.TraceConforms", "line_laws.specs.Lines.EveryLineConforms", "node_laws.specs.HonestPeers.HonestPeer",
    "node_laws.specs.LossyPeers.ArrivesUnderLoss",
    "node_laws.specs.Timers.RetransmitsOrResets", "node_laws.specs.Windows.WindowsAreRespected", "uip_c.specs.HandleLaws.CallsFromCConform",
    "uip_c.specs.HandleLaws.FramesFromCConform", "link_replay.specs.Promises.KeepsPromises", "link_world.specs.Headline.DamageIsLoss",
    "link_world.specs.Honest.HonestLink", "desk_laws.specs.DeskWorlds.DeskServes", "httpd.specs.HttpdRepresents.HttpdRepresents",
    "telnet_shell.specs.DeskPorts.IsTwoApplications", "web_pages.specs.Pages.pages_of", "uip_node.specs.Node.step",
)
TOP_CALL = "crates/uipd/src/run_told.rt"
ENVIRONMENT = ("uip_edge/src/link.rt", "uip_edge/src/sink.rt", "uip_edge/src/shelf.rt")


def root_of(sources, name):
    root = sources.find(name)
    if root is None:
        sys.exit(f"dev.py: no definition {name}, or several: write the module too, as uip_node.specs.Node.step")
    return root


def top(sources):
    """The definitions that the contract of the program's top call names; none if there is no such program."""
    if not os.path.isfile(os.path.join(TOP, TOP_CALL)):
        return []
    text = read(TOP_CALL)
    call = re.search(r"pub fn run_told\b.*?^\{", text, re.S | re.M)
    return sources.named(call.group(0), "", *imports_of(text))


def arms_of(sources, name):
    """The definitions that those arms of `TaskRuns` name which name this one; if none does, this one."""
    table, wanted = root_of(sources, "uipd.specs.Running.TaskRuns"), root_of(sources, name)
    task, roots = root_of(sources, "uipd.specs.Words.Task"), []
    for line in table.lines:
        named = sources.named(line, table.module, *sources.imports[table.module])
        if wanted in named:
            roots += [it for it in named if it not in (table, task)]
    return roots or [wanted]


# ---- the marks of a page

def printed(sources, module, names):
    """Definitions word for word."""
    texts = [root_of(sources, f"{module}.{name.strip()}").text() for name in names.split(",")]
    return "\n".join(["```", "\n\n".join(texts), "```"])


def code_of(place):
    """A function of a file with the comment above it, moved to the left edge; or the whole file."""
    path, _, name = place.partition(": ")
    text = read("crates/" + path)
    if name:
        found = re.search(rf"^( *)(?:///[^\n]*\n *)*(?:pub )?fn {name}\b.*?^\1}}$", text, re.S | re.M)
        if not found:
            sys.exit(f"dev.py: {path} has no function {name}")
        text = re.sub(rf"^{found.group(1)}", "", found.group(0), flags=re.M)
    return "\n".join(["```", text.rstrip("\n"), "```"])


def crate_rows():
    """A row for each crate, in the order of crates.txt: its layer, and what the heading of its page states."""
    crates, layer = Crates(), None
    rows = ["| crate | what it is |", "|---|---|"]
    for name in crates.below:
        if crates.layer[name] != layer:
            layer = crates.layer[name]
            rows.append(f"| **{layer}** | |")
        path = f"crates/{name}/README.md"
        lines = read(path).split("\n") if os.path.isfile(os.path.join(TOP, path)) else [""]
        rows.append(f"| [`{name}`](../{path}) | {lines[0].partition(': ')[2]} |")
    return "\n".join(rows)


def with_marks(page, sources):
    """The page with the text of each mark as the sources have it."""
    lines = {
        "count": lambda rest: counted(sources.closure([root_of(sources, it) for it in rest.split()])),
        "text": lambda rest: "\n" + printed(sources, *rest.split(": ", 1)) + "\n",
        "code": lambda rest: "\n" + code_of(rest) + "\n",
        "crates": lambda rest: "\n" + crate_rows() + "\n",
    }

    def filled(found):
        kind, rest = found.group(1), (found.group(2) or "").strip()
        text = re.sub(r"[ \t]*\[add: [a-z, -]*\]", "", lines[kind](rest))    # the tags of `dev.py add`
        return f"<!-- {kind}{': ' + rest if rest else ''} -->{text}<!-- end -->"

    return MARK.sub(filled, page)


def pages(sources):
    """Each generated page with its text: docs/DEFINITIONS.md, and the pages of docs/ and of crates that have marks. And the faults found on the way."""
    new, lost = definitions.page(sources)
    found = {definitions.PAGE: new}
    for path in sorted(glob.glob(os.path.join(TOP, "docs", "*.md")) + glob.glob(os.path.join(CRATES, "*", "*.md"))):
        name = os.path.relpath(path, TOP)
        if name != definitions.PAGE and MARK.search(read(name)):
            try:
                found[name] = with_marks(read(name), sources)
            except SystemExit as fault:
                lost.append(f"{name}:1: {fault}")
    return found, lost


def compare(sources):
    """The faults of the generated texts: one for each page that differs from the sources, at its first line that differs."""
    found, lost = pages(sources)
    for name, new in found.items():
        old = read(name) if os.path.isfile(os.path.join(TOP, name)) else ""
        if old != new:
            at = next((at for at, (was, now) in enumerate(zip(old.split("\n"), new.split("\n")), 1) if was != now), 1)
            lost.append(f"{name}:{at}: it differs from the sources: `python3 dev.py trusted write` writes it again")
    return lost


def write(sources):
    found, lost = pages(sources)
    for name, new in found.items():
        with open(os.path.join(TOP, name), "w", encoding="utf8") as file:
            file.write(new)
    ends(lost)


# ---- namesakes

def cited_elsewhere():
    """The definitions of specs/ that a file of another crate imports by name."""
    cited = set()
    for path in glob.glob(CRATES + "/*/*/**/*", recursive=True):
        if not path.endswith((".antt", ".rt")) or "/out/" in path:
            continue
        with open(path, encoding="utf8") as file:
            names = imports_of(re.sub(r"^ +", "", file.read(), flags=re.M))[0]
        here = os.path.relpath(path, CRATES).split("/")[0]
        for place in names.values():
            crate, _, rest = place.partition(".")
            if crate != here and rest.startswith("specs.") and ".declared." not in place:
                cited.add((crate, place.rpartition(".")[2]))
    return cited


# Names that two crates define: the same relation at two levels, or words of the guard's crates, of a client, of arrival and of moves that
# wait for their own.
KNOWN_NAMESAKES = {"Refines", "reset_by", "sent_at", "fresh", "is_of", "on_wire", "passes", "BringsBytes", "KeepsU32", "Writing"}


def namesakes(sources):
    """The names that two crates define, of which one is cited from another crate, with the files that define them. Operators, which go by
    the type of what they are between, are left out."""
    places = collections.defaultdict(dict)
    for definition in sources.definitions.values():
        if "pub " in definition.lines[0] and "◌" not in definition.name:
            places[definition.name][definition.module.split(".")[0]] = definition.path
    cited = cited_elsewhere()
    twice = {name: found for name, found in places.items() if len(found) > 1 and any((crate, name) in cited for crate in found)}
    return [f"{name}: " + ", ".join(sorted(found.values())) for name, found in sorted(twice.items()) if name not in KNOWN_NAMESAKES]


# ---- the commands

def rests_on(sources, names):
    for name in names:
        found = sources.closure([root_of(sources, name)])
        print("\n".join(by_file(found)))
        print(counted(found))


def commands(sources):
    rows = [(name, arms_of(sources, root)) for name, root in COMMANDS]
    rows += [("all commands", top(sources))] + [(it.rpartition(".")[2], [root_of(sources, it)]) for it in LAWS]
    for name, roots in rows:
        print(f"{name:28} {counted(sources.closure(roots))}")


def environment():
    for path in ENVIRONMENT:
        print(re.search(r"^(?:///.*\n)+pub trait .*?^}", read("crates/" + path), re.S | re.M)[0], end="\n\n")


def ends(lines):
    """Prints these faults, and ends with status 1 if there are any."""
    print("\n".join(lines), end="\n" if lines else "")
    sys.exit(1 if lines else 0)


def constants(sources):
    for crate, name, value in definitions.constants_in(sources, sources.closure(top(sources)))[0]:
        print(f"{crate:16} {name:20} {value:12,}")


def main(words):
    if set(words) & {"-h", "--help"}:
        sys.exit(print(__doc__))
    sources = Sources()
    plain = {
        (): lambda: ends(compare(sources)),
        ("write",): lambda: write(sources),
        ("all",): lambda: print("\n".join(by_file(sources.closure(top(sources))))),
        ("commands",): lambda: commands(sources),
        ("constants",): lambda: constants(sources),
        ("environment",): environment,
        ("names",): lambda: ends(namesakes(sources)),
    }
    if tuple(words) in plain:
        plain[tuple(words)]()
    elif words[0] == "text" and len(words) == 2:
        print("\n".join(definitions.blocks(sources.closure([root_of(sources, words[1])]))))
    else:
        rests_on(sources, words)


def faults():
    """What `dev.py docs` reports: generated texts that differ from the sources, constants without a theorem, and namesakes."""
    sources = Sources()
    lost = definitions.constants_in(sources, sources.closure(top(sources)))[1]
    return compare(sources) + lost + [f"a name of two crates: {it}" for it in namesakes(sources)]
