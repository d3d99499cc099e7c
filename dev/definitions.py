"""The page docs/DEFINITIONS.md: what must be believed of the theorems, in order, word for word from the sources."""
import collections
import glob
import os
import re
import textwrap

from repository import read
from sources import CRATES, counted

PAGE = "docs/DEFINITIONS.md"
HEAD = """# What must be believed, in order

Each theorem of [GUARANTEE](GUARANTEE.md) is a statement in the language of the prover. It means what
its definitions mean, and no tool checks that these mean what they should: you decide that by
reading. This page has them word for word: each statement, and after it the definitions that it
names, file by file. What an earlier section has is not repeated.

`python3 dev.py trusted write` writes this page from `crates/*/specs/` and `dev/notation.md`, and
`python3 dev.py docs` fails if it differs. `python3 dev.py trusted text NAME` prints what any other
definition rests on, in this form.
"""
# Definitions of which the first alone is printed. The trace is that of `step`, whatever it does, and the conclusion names no transition.
# The guard chooses the events of the trace by `guarded`, and its lens shifts numbers by a hash: no conclusion depends on which.
CLOSED = ("uip_node.specs.Node.step", "guarded_node.specs.Guarded.guarded", "guarded_node.specs.Verdicts.verdict_on",
          "sip_hash.specs.SipHash.sip_hash")
# What is printed first of what a statement rests on: its conclusion, before its hypotheses.
FIRST = {"node_laws.specs.TraceConforms.EveryTraceOfPagesConforms": ("node_laws.specs.TraceConforms.TraceConforms",
                                                                     "app_events.specs.Pages.IsPaged", "uip_node.specs.Laws.HasBytes")}
# The sections: the heading, the statements, and a sentence about them.
SECTIONS = (
    ("The guarantee on every trace", ("node_laws.specs.TraceConforms.EveryTraceOfPagesConforms",),
     "The law `every_trace_of_pages_conforms` of `node_laws` proves it. The trace is that of `step`, the transition of a node, of which"
     " only the first definition is printed: the conclusion names no transition, and the code is proved to send exactly what `step`"
     " sends. `python3 dev.py trusted text step` prints the rest of it."),
    ("The page of the web server", ("web_pages.specs.Pages.pages_of",),
     "The pages of a site, for which `page_laws` and `pages_are_bytes` of `web_pages` prove the hypotheses of that theorem."),
    ("Arrival, retransmission and windows",
     ("node_laws.specs.LossyPeers.ArrivesUnderLoss", "node_laws.specs.Timers.RetransmitsOrResets", "node_laws.specs.Windows.WindowsAreRespected"),
     "The laws are `arrives_under_loss`, `retransmits_or_resets` and `windows_are_respected` of `node_laws`."),
    ("Calls from C", ("uip_device.specs.Keeping.CallsConform", "frame_device.specs.FrameKeeping.FramesConform",
                      "guard_laws.specs.Through.ArrivesThroughGuard"),
     "The laws `calls_from_c_keep_the_promise` and `frames_from_c_keep_the_promise` of `uip_c` conclude the first two of the calls on"
     " a handle: `CallsConform` on a serial line and for datagrams, `FramesConform` on Ethernet. The first law also concludes"
     " `ArrivesOnWire` of what comes on the wire, and `TraceConforms` in its numbers (`ConformOnWire`, which `python3 dev.py trusted"
     " text ConformOnWire` prints). The law `arrives_through_guard` of `guard_laws` is the third, for any node with a guard."),
)


def page(sources):
    """The text of the page, and the faults: a statement that no source has, or a constant that no theorem pins."""
    closed = [sources.resolve(it) for it in CLOSED]
    out, seen = [HEAD, read("dev/notation.md")], {}
    gone = [f"dev/definitions.py:1: no definition {it}" for _, names, _ in SECTIONS for it in names if sources.resolve(it) is None]
    for number, (heading, names, about) in enumerate(SECTIONS, 1):
        roots = [it for it in map(sources.resolve, names) if it]
        firsts = [sources.resolve(it) for name in names for it in FIRST.get(name, ())]
        found = dict.fromkeys((roots[:1] if firsts else []) + sources.closure([it for it in firsts if it] + roots, closed))
        out += [f"## {number} {heading}", "", prose(f"{about} They rest on {counted(sources.closure(roots))}."), ""]
        out += blocks([it for it in found if it not in seen])
        seen.update(dict.fromkeys(found))
    types, constants, lost = types_in(sources, seen), *constants_in(sources, seen)
    number = len(SECTIONS)
    out += [f"## {number + 1} Types of the code", "", prose("Records and enums of the code, in Rust, that these definitions name. Read"
            " their integers as natural numbers, and their arrays and slices as lists."), ""]
    out += [line for crate, text in types for line in (f"*`{crate}`*", "", "```", text, "```", "")]
    out += [f"## {number + 2} Constants", "", prose("A theorem of its crate (`constant_values`) pins each: if the constant changes,"
            " the proof fails."), "", "| constant | value | of |", "|---|---|---|"]
    out += [f"| `{name}` | {value:,} | `{crate}` |" for crate, name, value in constants]
    return "\n".join(out) + "\n", gone + lost


def prose(text):
    return textwrap.fill(text, 100, break_long_words=False, break_on_hyphens=False)


def blocks(definitions):
    """Definitions by file, the files in the order in which they are needed."""
    files = collections.defaultdict(list)
    for it in definitions:
        files[it.place()].append(it)
    for place, found in files.items():
        yield from (f"*`{place}`*", "", "```", "\n\n".join(dict.fromkeys(it.text() for it in found)), "```", "")


def types_in(sources, definitions):
    """The types of the code that definitions name, each crate's in one text, without what is derived."""
    found = {place: None for it in definitions for place in sources.types_named(it)}
    texts = collections.defaultdict(list)
    for crate, file, name in found:
        with open(os.path.join(CRATES, crate, "src", file + ".rt"), encoding="utf8") as source:
            match = re.search(rf"^((?:///[^\n]*\n)*)(?:#\[[^\n]*\n)*(pub (?:struct|enum) {name}\b.*?(?:^}}|;$))", source.read(), re.S | re.M)
        if match:
            text = re.sub(r"^ *///? \[add: [^\n]*\n", "", match[1] + match[2], flags=re.M)
            texts[crate].append(re.sub(r"[ \t]*\[add: [a-z, -]*\]", "", text))
    return [(crate, "\n\n".join(it)) for crate, it in texts.items()]


# [add: counter] a definition that names a counter's number lists it in docs/DEFINITIONS.md, if that page has the definition
def constants_in(sources, definitions):
    """The constants of the code that definitions name, with the values that the theorems of their crates pin; and those without one."""
    pinned, named = {}, set()
    for path in glob.glob(CRATES + "/*/specs/ConstantValues.antt"):
        crate = os.path.relpath(path, CRATES).split("/")[0]
        with open(path, encoding="utf8") as file:
            pinned.update({(crate, name): int(value) for name, value in re.findall(r"^  pub \w+ : (\w+) ≡ (\d+)$", file.read(), re.M)})
    for it in definitions:
        for word in set(re.findall(r"\b[A-Z][A-Z0-9_]+\b", it.body())):
            place = sources.imports[it.module][0].get(word, "")
            if ".TheConstants." in place:
                named.add((place.split(".")[0], word))
    lost = [f"{crate}: no theorem pins {name}" for crate, name in sorted(named) if (crate, name) not in pinned]
    return [(crate, name, pinned[crate, name]) for crate, name in sorted(named) if (crate, name) in pinned], lost
