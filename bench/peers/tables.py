#!/usr/bin/env python3
"""Writes the figures of figures.json into the documents, or compares them.

    python3 bench/peers/tables.py            writes each table and each row that has figures of uIP and lwIP beside ours
    python3 bench/peers/tables.py check      status 1 if a document has another figure

`dev.py docs` runs the comparison. run.py writes figures.json.
"""
import json
import os
import re
import sys

HERE = os.path.dirname(os.path.abspath(__file__))
TOP = os.path.abspath(os.path.join(HERE, "..", ".."))
FIGURES = os.path.join(HERE, "figures.json")
MAIN = ("ours", "uip", "lwip")
SMALL = {"m4": "Cortex-M4", "m0": "Cortex-M0+", "rv32": "rv32imac"}

with open(os.path.join(HERE, "..", "lines", "lines.json"), encoding="utf-8") as lines_file:
    LINES = json.load(lines_file)
SEGMENTS = "uIP and Lowunbisa have one segment under way, lwIP up to four"
NOT_ALIKE = {
    "ping84": "uIP does not test its checksum, and sums none of its bytes", "ping1006": "the same", "small": "", "big": SEGMENTS,
    "big536": "the same", "big100": "the same", "escapes": "the same", "ten": "the same",
    "script": "uIP may send another text again; lwIP's page has no include, and counts other things",
}
ON_SMALL = {"ping84": "an echo request of 84 bytes", "ping1006": "an echo request of 1006 bytes", "small": "a file of one byte",
            "page": "1,460 bytes of a page of 20,000", "script": "a script page with all generators"}
MEMORY = {"flash": "flash", "ram": "RAM in all", "static": "static memory, with the ring of 512",
          "stack": "stack at most, with an interrupt"}

MEASURED = {"ours": "this stack on", "peers": "uIP and lwIP on", "uipd": "`uipd` on"}


def number(value, unit="request"):
    if value is None:
        return "not measured"
    return f"{value:,.1f}" if unit == "byte" else f"{value:,.0f}"


def row(label, values, unit="request", last=None):
    """A row whose least figure is bold."""
    shown = [number(value, unit) for value in values]
    least = min((value for value in values if value is not None), default=None)
    cells = [f"**{text}**" if value is not None and text == number(least, unit) else text for text, value in zip(shown, values)]
    return "| " + " | ".join([label, *cells, *([last] if last is not None else [])]) + " |"


def head(*columns):
    return "| " + " | ".join(columns) + " |\n" + "|---" * len(columns) + "|"


def x86_table(figures):
    spent, lines = figures["instructions"]["x86-64"], []
    for name, line in LINES.items():
        text = line["what"] + (", each byte" if line["unit"] == "byte" else "")
        lines.append(row(text, [spent[stack].get(name) for stack in ("uipd", *MAIN)], line["unit"], NOT_ALIKE[name]))
    return "\n".join([head("x86-64, instructions", "`uipd`", "uip.c", "uIP", "lwIP", "not alike"), *lines])


def small_tables(figures):
    blocks = []
    for processor, title in SMALL.items():
        spent, memory = (figures[kind].get(processor, {}) for kind in ("instructions", "memory"))
        lines = [row(text, [spent.get(stack, {}).get(name) for stack in MAIN]) for name, text in ON_SMALL.items()]
        lines += [row(text, [memory.get(stack, {}).get(what) for stack in MAIN]) for what, text in MEMORY.items()]
        blocks.append("\n".join([head(f"{title}, gcc -Os: instructions and bytes", "uip.c", "uIP", "lwIP"), *lines]))
    return "\n\n".join(blocks)


def forms_table(figures):
    """uIP in its other forms."""
    m4, x86, memory = figures["instructions"]["m4"], figures["instructions"]["x86-64"], figures["memory"]["m4"]
    stacks = ("uip", "uip_apart", "uip_whole")
    lines = [row(text, [spent.get(stack, {}).get(name) for stack in stacks]) for text, spent, name in (
        ("x86-64: a file of one byte", x86, "small"), ("x86-64: a script page", x86, "script"),
        ("Cortex-M4: a file of one byte", m4, "small"), ("Cortex-M4: an echo request of 84 bytes", m4, "ping84"))]
    lines += [row(f"Cortex-M4: {text}", [memory[stack][what] for stack in stacks]) for what, text in list(MEMORY.items())[:2]]
    return "\n".join([head("uIP", "as many pieces in a segment as fit", "each piece alone", "with IPv6, UDP, opening"), *lines])


def versions(figures):
    """What was measured with what, and when."""
    titles, dates = {"x86-64": "x86-64", **SMALL}, figures["dates"]
    lines = [f"- {what}: {words}" for what, words in figures["versions"].items()]
    lines += [f"- {title}: {', '.join(f'{name} {dates[processor][key]}' for key, name in MEASURED.items() if key in dates[processor])}"
              for processor, title in titles.items() if processor in dates]
    return "\n".join(lines)


BLOCKS = {"x86-64": x86_table, "small": small_tables, "forms": forms_table, "versions": versions}


# ---- rows and blocks of documents

def readme_rows(figures):
    """The rows of README's table that have figures, by the text of their first cell."""
    m4, x86, memory = figures["instructions"]["m4"], figures["instructions"]["x86-64"], figures["memory"]["m4"]
    both = [f"{memory[stack]['flash']:,}, {memory[stack]['ram']:,}" for stack in MAIN]
    return {
        "Cortex-M4: bytes of flash, and of RAM": both,
        "Cortex-M4: instructions for an echo request of 84 bytes": [number(m4[stack]["ping84"]) for stack in MAIN],
        "Cortex-M4: for a file of one byte": [number(m4[stack]["small"]) for stack in MAIN],
        "Cortex-M4: for 1,460 bytes of a page": [number(m4[stack]["page"]) for stack in MAIN],
        "x86-64: for a file of one byte": [number(x86[stack]["small"]) for stack in MAIN],
    }


ROWS = {"README.md": readme_rows}
BLOCKS_OF = {"bench/peers/README.md": BLOCKS}
DOCUMENTS = (*ROWS, *BLOCKS_OF)


class Missing(Exception):
    """A document has not the row or the block that it must have."""


def with_figures(name, text, figures):
    """The text of a document with these figures."""
    for label, cells in (ROWS[name](figures) if name in ROWS else {}).items():
        text, count = re.subn(rf"^\| {re.escape(label)} \|.*$", lambda found: f"| {label} | {' | '.join(cells)} |", text, flags=re.M)
        if count != 1:
            raise Missing(f"{name} has {count} rows that begin with `{label}`")
    for block, table in BLOCKS_OF.get(name, {}).items():
        begin, end = f"<!-- figures: {block} -->\n", "<!-- to here -->\n"
        before, found, rest = text.partition(begin)
        if not found or end not in rest:
            raise Missing(f"{name} has no block that begins with {begin.strip()}, or it has no end")
        text = before + begin + table(figures) + "\n" + end + rest.partition(end)[2]
    return text


def differences(read, figures):
    """What is wrong in the documents. `read` returns the text of one."""
    found = []
    for name in DOCUMENTS:
        try:
            text = read(name)
            if with_figures(name, text, figures) != text:
                found.append(f"{name} has other figures than bench/peers/figures.json: `python3 bench/peers/tables.py` writes them")
        except Missing as error:
            found.append(str(error))
    return found


def read_document(name):
    with open(os.path.join(TOP, name), encoding="utf-8") as file:
        return file.read()


def load():
    with open(FIGURES, encoding="utf-8") as file:
        return json.load(file)


def write_all():
    figures = load()
    for name in DOCUMENTS:
        text = with_figures(name, read_document(name), figures)
        with open(os.path.join(TOP, name), "w", encoding="utf-8") as file:
            file.write(text)


def main():
    if sys.argv[1:] == ["check"]:
        sys.exit("\n".join(differences(read_document, load())) or 0)
    if sys.argv[1:]:
        sys.exit(__doc__)
    write_all()


if __name__ == "__main__":
    main()
