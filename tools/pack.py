#!/usr/bin/env python3
"""Packs a folder into the image of a site, and checks images, without the program.

    python3 tools/pack.py FOLDER OUT [/NAME=TYPE ..]      packs every file of FOLDER, each with its content type; TYPE is that of /NAME
    python3 tools/pack.py list OUT /NAME=FILE ..          packs these files in this order, as `uipd pack` does
    python3 tools/pack.py check IMAGE                     prints what `uipd check` prints

OUT is an image, or C source if its name ends with .h or .c: then it defines site_image[], SITE_IMAGE_LEN in bytes, and SITE_IMAGE_FILES. Files
and folders whose name begins with a dot are left out. The names are sorted. If a list or an image is bad, nothing is written, and the first
fault is printed as `bad site WHY ENTRY`; the status is then 6. docs/FORMATS.md defines images and faults.

A device knows the types of .html, .shtml, .txt, .css, .png, .gif and .jpg. With FOLDER other files get a type by their ending, as .js and
.svg: --help lists them all. The case of its letters does not matter. A script that begins with { or [ is application/json. A type on the
command line has precedence. `list` gives none.

These mistakes are no faults, and a warning on standard error names each. The status stays 0.

    - a function that no device has, or a number of a value that is none
    - words of a line that its directive ignores
    - `%!` in a file whose name ends in .html or .htm, where it is text
    - a file without a type, which browsers download: no table has its ending
    - a value and a call right after it: if the value is empty, the reply waits for a tick
    - `value-json` in a script of type text/html, or of XML: it leaves `<` as it is, so a value can run a script in the page
    - a script of type text/html that begins with { or [, which is probably JSON
"""
import os
import sys

LONGEST_IMAGE, MOST_FILES, LONGEST_NAME, LONGEST_TYPE, LONGEST_PAGE = 1 << 24, 1024, 64, 64, (1 << 30) - 1
MAGICS = {b"UIPSITE1": 1, b"UIPSITE2": 2}
HEAD = 53                             # bytes of a reply before its content type
TYPE_HEAD = len("Content-type: ") + len("\r\n\r\n")
TYPES = {".html": "text/html", ".shtml": "text/html", ".txt": "text/plain", ".css": "text/css", ".png": "image/png", ".gif": "image/gif",
         ".jpg": "image/jpeg"}
UNKNOWN = b"application/octet-stream"
# What FOLDER gives to other endings, in lower case. web/site.js has the same table.
TYPES_OF_FOLDERS = {
    ".js": "text/javascript", ".mjs": "text/javascript", ".json": "application/json", ".map": "application/json",
    ".webmanifest": "application/manifest+json", ".wasm": "application/wasm", ".xml": "text/xml", ".csv": "text/csv", ".md": "text/plain",
    ".htm": "text/html", ".svg": "image/svg+xml", ".ico": "image/x-icon", ".jpeg": "image/jpeg", ".webp": "image/webp", ".avif": "image/avif",
    ".woff2": "font/woff2", ".woff": "font/woff", ".ttf": "font/ttf", ".pdf": "application/pdf", ".mp3": "audio/mpeg", ".wav": "audio/wav",
}
CALLS = {b"file-stats": 10, b"tcp-connections": 1030, b"net-stats": 220, b"ticks": 10}    # the greatest lengths of their text
ARGUMENTS = {b"file-stats": 1, b"tcp-connections": 0, b"net-stats": 0, b"ticks": 0, b"value": 1, b"value-json": 1, b"value-html": 1}
BAD_SITE = 6


class Fault(Exception):
    """The first fault: its word and the number of the entry, from 1; 0 for the whole image."""

    def __init__(self, why, entry=0):
        super().__init__(f"bad site {why} {entry}")
        self.why, self.entry = why, entry


class File:
    def __init__(self, name, content, kind=b""):
        self.name, self.content, self.kind = name, content, kind

    def is_script(self):
        return self.name.endswith(b".shtml")

    def content_type(self):
        """The type that its reply names: its own, or what the library gives by the end of its name."""
        ends = (kind.encode() for end, kind in TYPES.items() if self.name.endswith(end.encode()))
        return self.kind or next(ends, UNKNOWN)


def require(is_so, why, entry=0):
    if not is_so:
        raise Fault(why, entry)


def is_name(name):
    return 1 <= len(name) <= LONGEST_NAME and name[:1] == b"/" and all(0x21 <= byte <= 0x7E and byte != 0x3F for byte in name)


def is_type(kind):
    return len(kind) <= LONGEST_TYPE and all(0x20 <= byte <= 0x7E for byte in kind)


# ---- scripts

def directives(script):
    """The place and the inner part of each directive of a script, and the bytes of all text between them."""
    found, text, at = [], 0, 0
    while (start := script.find(b"%!", at)) >= 0:
        text += start - at
        end = script.find(b"\n", start)
        end, at = (len(script), len(script)) if end < 0 else (end, end + 1)
        part = script[start + 2:end]
        found.append((start, part[:-1] if part.endswith(b"\r") else part))
    return found, text + len(script) - at


def words_of(text):
    return [word for word in text.split(b" ") if word]


def first_word(text):
    return next(iter(words_of(text)), b"")


def page_length(file, contents, entry):
    """The greatest length of a file's page."""
    length = HEAD + TYPE_HEAD + len(file.content_type())
    if not file.is_script():
        return length + len(file.content)
    found, text = directives(file.content)
    parts = [part for _, part in found]
    length += text
    includes = [first_word(part[1:]) for part in parts if part.startswith(b":")]
    for name in includes:
        require(name in contents, "include", entry)
        length += len(contents[name])
    length += sum(CALLS.get(first_word(part), 0) for part in parts if not part.startswith(b":"))
    require(length <= LONGEST_PAGE, "page", entry)
    return length


def page_lengths(files):
    contents = {file.name: file.content for file in files}
    return [page_length(file, contents, entry) for entry, file in enumerate(files, 1)]


# ---- warnings

def warning_of(part):
    """What the inner part of a directive does that its maker may not expect, or an empty text."""
    is_include = part.startswith(b":")
    words = words_of(part[1:] if is_include else part)
    if not words:
        return ""
    if is_include:
        ignored = words[1:]
    elif words[0] in ARGUMENTS:
        ignored = words[1 + ARGUMENTS[words[0]]:]
    else:
        return f"no function is named {shown(words[0])}: the directive gives nothing"
    if not is_include and words[0].startswith(b"value") and not is_value_number(words[1:2]):
        return f"\"{shown(b' '.join(words[1:2]))}\" is no number from 0 to 15: the directive gives nothing"
    return f"ignored, since a directive takes the rest of its line: {shown(b' '.join(ignored))}" if ignored else ""


def is_value_number(words):
    return bool(words) and words[0] in {b"%d" % number for number in range(16)}


def shown(text):
    return text.decode("utf-8", "replace")


def is_value_call(part):
    words = words_of(part)
    return words[:1] in ([b"value"], [b"value-html"], [b"value-json"]) and is_value_number(words[1:2])


def is_json_call(part):
    return is_value_call(part) and first_word(part) == b"value-json"


def is_next(content, at, after):
    """Whether the directive at the second place begins where the one at the first ends."""
    return content.find(b"\n", at) + 1 == after


def close_warnings(file):
    """The places of values with a call right after them."""
    found = directives(file.content)[0]
    return [(at, "no text follows before the next call: if this value is empty, the reply waits for a tick")
            for (at, part), (after, call) in zip(found, found[1:])
            if is_value_call(part) and words_of(call) and not call.startswith(b":") and is_next(file.content, at, after)]


def json_start(content):
    """The sign with which JSON begins, if the content does."""
    start = content.lstrip()[:1]
    return start if start in (b"{", b"[") else b""


def type_warning(file):
    """The place and the text of what a script's page may do by its content type, or nothing."""
    media = file.content_type().split(b";")[0].strip().lower()
    calls = [at for at, part in directives(file.content)[0] if is_json_call(part)]
    cure = f"pack the folder with {shown(file.name)}=application/json"
    if calls and (b"html" in media or b"xml" in media):
        return [(calls[0], f"value-json leaves < as it is, and the type is {shown(media)}: a value that others set can run a script in the page; "
                           f"{cure}, or use value-html")]
    start = json_start(file.content)
    if media == b"text/html" and start:
        return [(file.content.find(start), f"{shown(start)} begins the page, which is probably JSON, and its type is text/html: {cure}")]
    return []


def warnings(file):
    """The warnings of a file, each with the number of its line, or 0 for the whole file."""
    if file.content_type() == UNKNOWN and not file.kind:
        return [(0, f"browsers download it, since no table has the ending of its name: name its type, {shown(file.name)}=TYPE")]
    if file.is_script():
        found = [(at, warning_of(part)) for at, part in directives(file.content)[0]] + close_warnings(file) + type_warning(file)
    elif file.name.lower().endswith((b".html", b".htm")) and b"%!" in file.content:
        found = [(file.content.find(b"%!"), "%! is text here: the name of a script ends in .shtml")]
    else:
        found = []
    return [(1 + file.content.count(b"\n", 0, at), text) for at, text in sorted(found) if text]


def print_warnings(files):
    for file in files:
        for line, text in warnings(file):
            place = f", line {line}" if line else ""
            print(f"pack.py: warning: {shown(file.name)}{place}: {text}", file=sys.stderr)


# ---- images

def entry_bytes(file, version):
    kind = bytes([len(file.kind)]) + file.kind if version == 2 else b""
    return bytes([len(file.name)]) + file.name + kind + len(file.content).to_bytes(4, "big") + file.content


def pack(files):
    """The image of a list, of version 2 if a file has a type of its own, or the list's first fault."""
    version = 2 if any(file.kind for file in files) else 1
    size = 10 + sum((5 if version == 1 else 6 + len(file.kind)) + len(file.name) + len(file.content) for file in files)
    require(size <= LONGEST_IMAGE, "long")
    require(len(files) <= MOST_FILES, "many")
    earlier = set()
    for entry, file in enumerate(files, 1):
        require(is_name(file.name), "name", entry)
        require(file.name not in earlier, "twice", entry)
        require(is_type(file.kind), "kind", entry)
        earlier.add(file.name)
    page_lengths(files)
    image = b"UIPSITE%d" % version + len(files).to_bytes(2, "big")
    return image + b"".join(entry_bytes(file, version) for file in files)


class Reader:
    """What remains of an image."""

    def __init__(self, image):
        self.image, self.at = image, 0

    def take(self, count, entry):
        require(self.at + count <= len(self.image), "cut", entry)
        self.at += count
        return self.image[self.at - count:self.at]

    def number(self, count, entry):
        return int.from_bytes(self.take(count, entry), "big")


def read_entry(reader, version, entry, earlier):
    length = reader.number(1, entry)
    require(1 <= length <= LONGEST_NAME, "name", entry)
    name = reader.take(length, entry)
    require(is_name(name), "name", entry)
    require(name not in earlier, "twice", entry)
    kind = b""
    if version == 2:
        length = reader.number(1, entry)
        require(length <= LONGEST_TYPE, "kind", entry)
        kind = reader.take(length, entry)
        require(is_type(kind), "kind", entry)
    return File(name, reader.take(reader.number(4, entry), entry), kind)


def read(image):
    """The files of an image, or its first fault."""
    require(len(image) <= LONGEST_IMAGE, "long")
    require(image[:8] in MAGICS, "magic")
    reader = Reader(image)
    version = MAGICS[reader.take(8, 0)]
    count = reader.number(2, 0)
    require(count <= MOST_FILES, "many")
    files, names = [], set()
    for entry in range(1, count + 1):
        files.append(read_entry(reader, version, entry, names))
        names.add(files[-1].name)
    require(reader.at == len(image), "rest")
    page_lengths(files)
    return files


# ---- the command

def usage():
    """The words of the command, and the types that FOLDER gives."""
    kinds = list(dict.fromkeys(TYPES_OF_FOLDERS.values()))
    rows = [f"    {kind:26}{' '.join(end for end in TYPES_OF_FOLDERS if TYPES_OF_FOLDERS[end] == kind)}" for kind in kinds]
    return "\n".join([__doc__, "The types by FOLDER:", "", *rows])


def names_in(folder):
    names = []
    for place, folders, files in os.walk(folder):
        folders[:] = [name for name in folders if not name.startswith(".")]
        names += [os.path.relpath(os.path.join(place, name), folder).replace(os.sep, "/") for name in files if not name.startswith(".")]
    return sorted(names)


def read_file(path):
    with open(path, "rb") as file:
        return file.read()


def files_of(pairs):
    """The files of a list of names and paths. Reading stops with a fault when there are more bytes than an image may have."""
    files, total = [], 0
    for name, path in pairs:
        files.append(File(os.fsencode(name), read_file(path)))
        total += len(files[-1].content)
        require(total <= LONGEST_IMAGE, "long")
    return files


def source(image):
    """C source that defines the image, its length and the number of its files."""
    rows = [" ".join(f"{byte}," for byte in image[at:at + 24]) for at in range(0, len(image), 24)]
    return "\n".join(["/* The image of a site, written by tools/pack.py. */", f"enum {{ SITE_IMAGE_LEN = {len(image)}, SITE_IMAGE_FILES = {int.from_bytes(image[8:10], 'big')} }};",
                      "static const unsigned char site_image[SITE_IMAGE_LEN] = {", *(f"    {row}" for row in rows), "};", ""])


def write(path, files):
    image = pack(files)
    with open(path, "wb") as file:
        file.write(source(image).encode() if path.endswith((".h", ".c")) else image)
    print_warnings(files)
    print(f"{path}: {len(files)} files, an image of {len(image)} bytes")


def folder_type(file):
    """The type of its own that a file of a folder gets: JSON for a script that begins so, else by the ending of its name, or an empty text if
    the library knows that ending."""
    if file.is_script() and json_start(file.content):
        return "application/json"
    ending = os.path.splitext(os.fsdecode(file.name))[1]
    known = {} if ending in TYPES else {**TYPES, **TYPES_OF_FOLDERS}
    return known.get(ending.lower(), "") if ending.lower() != ".shtml" else ""


def files_in(folder, words):
    """The files of a folder with their types: that of a word /NAME=TYPE, or else by folder_type."""
    if not os.path.isdir(folder):
        sys.exit(f"pack.py: no folder {folder}")
    kinds = dict(word.split("=", 1) for word in words if "=" in word)
    names = names_in(folder)
    unknown = [word for word in words if word.split("=", 1)[0] not in {f"/{name}" for name in names} or "=" not in word]
    if unknown:
        sys.exit(f"pack.py: {unknown[0]} is not /NAME=TYPE of a file in {folder}")
    files = files_of((f"/{name}", os.path.join(folder, name)) for name in names)
    for file in files:
        file.kind = os.fsencode(kinds.get(os.fsdecode(file.name), folder_type(file)))
    return files


def check(path):
    files = read(read_file(path))
    print_warnings(files)
    for file, length in zip(files, page_lengths(files)):
        print(file.name.decode(), length)
    print(f"files {len(files)}")


def main():
    words = sys.argv[1:]
    if words[:1] in (["-h"], ["--help"]):
        return print(usage())
    if len(words) < 2:
        sys.exit(usage())
    try:
        if words[0] == "check" and len(words) == 2:
            check(words[1])
        elif words[0] == "list":
            write(words[1], files_of(word.partition("=")[::2] for word in words[2:]))
        else:
            write(words[1], files_in(words[0], words[2:]))
    except Fault as fault:
        print(fault)
        sys.exit(BAD_SITE)
    except OSError as error:
        sys.exit(f"pack.py: {error.filename}: {error.strerror}")


if __name__ == "__main__":
    main()
