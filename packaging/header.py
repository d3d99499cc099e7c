#!/usr/bin/env python3
"""Reads the comments of include/uip.h, and writes manual pages or what Doxygen reads.

    python3 packaging/header.py man FOLDER VERSION HEADER     a page for each call, NAME.3, and uip.3 for all
    python3 packaging/header.py doxygen HEADER                the header with comments for Doxygen, on standard output

A comment belongs to the declaration in the line after its end. `/* ---- 5 Open and close ----` begins a section. In a comment a block that is
indented by two spaces or more is a list: a term, two spaces, and its text.
"""
import os
import re
import sys

COMMENT = re.compile(r"^/\*(.*?)\*/\n", re.M | re.S)
SECTION = re.compile(r"^ ?---- (\d+) (.*?) -{3,}")
SUMMARY = 100       # columns of the first sentence in NAME


class Block:
    """A comment and what it belongs to."""

    def __init__(self, text, after):
        lines = [re.sub(r"^ ?\*? ?", "", line).rstrip() if number else line.strip() for number, line in enumerate(text.split("\n"))]
        self.lines, self.declaration = lines, after
        head = SECTION.match(text.split("\n")[0])
        self.number, self.title = (head[1], head[2]) if head else ("", "")
        if head:
            self.lines = lines[1:]
        call = re.match(r"[^;{=]*?\b(\w+)\(", after) if not after.startswith("#") else None
        self.call = call[1] if call else ""

    def paragraphs(self):
        """The paragraphs: each a text, or a list of items (term, text), or lines to be kept as they are. A list may follow a text at once."""
        group = []
        for line in [*self.lines, ""]:
            if group and (not line or is_item(line) != is_item(group[0])):
                yield paragraph(group)
                group = []
            if line:
                group.append(line)

    def summary(self):
        """The first sentence."""
        first = next((it for it in self.paragraphs() if isinstance(it, str)), "")
        return first.split(". ")[0].rstrip(".")


def is_item(line):
    """Whether a line is of a list: its term, or more of its text."""
    return line.startswith("  ")


def paragraph(group):
    if not is_item(group[0]):
        return group if any(re.search(r"\S {3,}\S", line) for line in group) else " ".join(line.strip() for line in group)
    indent = min(len(line) - len(line.lstrip()) for line in group)
    items = []
    for line in group:
        item = re.match(r"(\S+(?: \S+)*?) {2,}(\S.*)", line[indent:])
        if line[indent] != " " and item:
            items.append([item[1], item[2]])
        elif line[indent] == " " and items:
            items[-1][1] += " " + line.strip()
        else:
            return [line[indent:] for line in group]
    return [tuple(item) for item in items]


def declaration_after(text, at):
    """The declaration that begins at this place, to its semicolon or brace; nothing after a blank line."""
    rest = text[at:]
    if rest.startswith(("\n", "#", "/*")) or not rest:
        return rest.split("\n", 1)[0] if rest.startswith("#define") else ""
    end = re.search(r"[;{]", rest)
    return re.sub(r"\s+", " ", rest[:end.start()]).strip() if end else ""


def blocks(text):
    return [(found, Block(found[1], declaration_after(text, found.end()))) for found in COMMENT.finditer(text)]


# ---- manual pages

def roff(text):
    indent = len(text) - len(text.lstrip(" "))
    text = "\\ " * indent + text.lstrip(" ").replace("\\", "\\e").replace("-", "\\-")
    return ("\\&" + text) if text[:1] in ".'" else text


def page(name, summary, synopsis, body, version, see):
    lines = [f'.TH {name.upper()} 3 "" "Lowunbisa {version}" "Library Functions"', ".SH NAME", f"{roff(name)} \\- {roff(summary)}"]
    if synopsis:
        lines += [".SH SYNOPSIS", ".nf", ".B #include <uip.h>", "", *(f".B {roff(line)}" for line in synopsis), ".fi"]
    return "\n".join([*lines, ".SH DESCRIPTION", *body, ".SH SEE ALSO", roff(see), ""])


def wrapped(declaration):
    """A declaration over lines of at most 76 columns, cut after a comma."""
    lines, line = [], declaration.replace("UIP_INLINE ", "") + ";"
    while len(line) > 76 and "," in line[:76]:
        cut = line[:76].rindex(",") + 1
        lines.append(line[:cut])
        line = "    " + line[cut:].strip()
    return [*lines, line]


def body_of(block):
    lines, kept = [], []
    for it in block.paragraphs():
        if isinstance(it, str):
            lines += [".PP", roff(it)]
        elif isinstance(it[0], str):
            lines += [".PP", ".nf", *map(roff, it), ".fi"]
        else:
            for term, text in it:
                if term in ("Status", "Result"):
                    kept += [f".SH {term.upper()}", roff(text)]
                else:
                    lines += [".TP", f".I {roff(term)}", roff(text)]
    return lines + kept


def whole(block):
    """A comment as it is."""
    return [".nf", *map(roff, block.lines), ".fi"]


def write_pages(folder, version, header):
    with open(header, encoding="utf8") as file:
        found = [block for _, block in blocks(file.read())]
    os.makedirs(folder, exist_ok=True)
    calls = [block for block in found if block.call.startswith("uip_") and block.declaration.endswith(")")
             and not block.call.endswith("_area")]
    pages = {it.call: page(it.call, it.summary()[:1].lower() + it.summary()[1:], wrapped(it.declaration), body_of(it), version, "uip(3)")
             for it in calls}
    rules = next((it for it in found if it.title == "Rules"), None)
    body = [line if line != ".fi" else ".fi" for line in whole(found[0])] + ([".SH RULES", *whole(rules)] if rules else [])
    pages["uip"] = page("uip", "TCP/IP node with a small web server", [], body, version, ", ".join(f"{it.call}(3)" for it in calls))
    for name, text in pages.items():
        with open(os.path.join(folder, name + ".3"), "w", encoding="utf8") as file:
            file.write(text)
    return sorted(pages)


# ---- Doxygen

def comment_for(block):
    lines = []
    for it in block.paragraphs():
        lines.append("")
        if isinstance(it, str):
            lines.append(it.replace("#", "\\#"))
        elif isinstance(it[0], str):
            lines += ["@verbatim", *it, "@endverbatim"]
        else:
            for term, text in it:
                text = text.replace("#", "\\#")
                names = term.replace(" ", "")
                is_argument = all(re.search(rf"\b{re.escape(one)}\b", block.declaration) for one in names.split(","))
                lines.append(f"@par {term}\n{text}" if term in ("Status", "Result") else
                             f"@param {names} {text}" if is_argument and block.call else f"- **{term}** {text}")
    if any(line.startswith("@param") for line in lines) and "uip_device *device" in block.declaration:
        lines.append("@param device the device")
    return "\n".join(lines)


def doxygen(header):
    with open(header, encoding="utf8") as file:
        text = file.read()
    out, at, is_first, is_open = [], 0, True, False
    for found, block in blocks(text):
        out.append(text[at:found.start()])
        at = found.end()
        if is_first:
            verbatim = "\n".join(block.lines)
            out.append(f"/** @file\n@brief The C interface of Lowunbisa, a TCP/IP node with a small web server\n@verbatim\n{verbatim}\n@endverbatim */\n")
        elif block.number:
            out.append("/** @} */\n" if is_open else "")
            out.append(f"/** @defgroup section{block.number} {block.number} {block.title}\n@{{\n{comment_for(block)} */\n")
            is_open = True
        elif block.declaration:
            out.append(f"/** {comment_for(block).strip()} */\n")
        else:
            out.append(found[0])
        is_first = False
    ended = "".join(out) + text[at:]
    ended = re.sub(r"(?<=[,;\w)]) +/\* ([^*\n]*?) \*/$", lambda it: " /**< " + it[1].replace("#", "\\#") + " */", ended, flags=re.M)
    return ended.replace("#ifdef __cplusplus\n}\n", ("/** @} */\n" if is_open else "") + "#ifdef __cplusplus\n}\n")


def main():
    if len(sys.argv) == 5 and sys.argv[1] == "man":
        print(f"{len(write_pages(*sys.argv[2:]))} manual pages")
    elif len(sys.argv) == 3 and sys.argv[1] == "doxygen":
        sys.stdout.write(doxygen(sys.argv[2]))
    else:
        print(__doc__)
        sys.exit(2)


if __name__ == "__main__":
    main()
