"""Builds each stack for each processor: as a firmware of a board, and as a program of Linux whose instructions are counted (`hosted`).
All get the same compiler, options, board, link script, clock, copying functions and site. No stack has a C library on a small processor.
"""
import os
import re
import shutil
import subprocess
import sys

from sources import HERE, OUT, run, write

TOP = os.path.abspath(os.path.join(HERE, "..", ".."))
sys.path[:0] = [os.path.join(TOP, "tools")]
import pack

BOARD = os.path.join(TOP, "examples", "board")
GLUE = os.path.join(HERE, "glue")
MTU, RING = 1500, 512
SECTIONS = ["-ffunction-sections", "-fdata-sections", "-fomit-frame-pointer"]

# What is compiled of each stack. The first is this one.
STACKS = {
    "ours": "Lowunbisa (dist/uip.c)",
    "uip": "uIP: as many pieces of a page in a segment as fit",
    "uip_apart": "uIP: each piece of a page in a segment of its own, as its httpd sends",
    "uip_whole": "uIP with IPv6, UDP and connections that it opens, as in that package",
    "lwip": "lwIP",
}
LWIP_FILES = ["core/" + name + ".c" for name in (
    "init def inet_chksum ip mem memp netif pbuf stats sys altcp altcp_alloc altcp_tcp tcp tcp_in tcp_out timeouts ipv4/icmp ipv4/ip4 "
    "ipv4/ip4_addr").split()] + ["apps/http/fs.c", "apps/http/httpd.c", "netif/slipif.c"]


class Processor:
    """A processor with its compiler. `board` is the folder of its board in boards/."""

    def __init__(self, name, title, tools, words, board=None, core=None, qemu=None, machine=None):
        self.name, self.title, self.tools, self.words, self.board, self.core = name, title, tools, words, board, core
        self.qemu, self.machine = qemu, machine

    def tool(self, name):
        return self.tools + name

    def compiler(self):
        return run([self.tool("gcc"), "--version"]).split("\n")[0]


def cortex(name, title, core):
    return Processor(name, title, "arm-none-eabi-", ["-mcpu=" + core, "-mthumb", "-mfloat-abi=soft"], "mps2-an386", core, "qemu-arm",
                     ["qemu-system-arm", "-M", "mps2-an386", "-nic", "none"])


PROCESSORS = [
    Processor("x86-64", "x86-64", "", ["-O2"]),
    cortex("m4", "Cortex-M4", "cortex-m4"),
    cortex("m0", "Cortex-M0+", "cortex-m0plus"),
    Processor("rv32", "rv32imac", "riscv64-unknown-elf-", ["-march=rv32imac_zicsr", "-mabi=ilp32"], "virt-rv32", "rv32imac", "qemu-riscv32",
              ["qemu-system-riscv32", "-M", "virt", "-bios", "none"]),
]


# ---- the site

def files_of(image):
    """The files of an image, by name."""
    at, files = 10, {}
    for _ in range(int.from_bytes(image[8:10], "big")):
        name = image[at + 1:at + 1 + image[at]]
        at += 1 + image[at]
        length = int.from_bytes(image[at:at + 4], "big")
        files[name] = image[at + 4:at + 4 + length]
        at += 4 + length
    return files


def lwip_script(script, files):
    """A script page with the tags of lwIP's httpd: with the text of an included file, since httpd includes none."""
    def tag(found):
        word, other = found[2], found[3]
        if found[1]:
            return files.get(word, b"")
        hits = b"h%d" % list(files).index(other) if other else b""
        tags = {b"ticks": b"ticks", b"net-stats": b"net", b"tcp-connections": b"conns", b"file-stats": hits}
        return b"<!--#" + tags[word] + b"-->" if word in tags else b""
    return re.sub(rb"%!(:?) *([^ \n]*) *([^ \n]*)[^\n]*\n", tag, script)


def image_for(stack, image):
    """The image of the site for a stack: lwIP has other scripts."""
    files = files_of(image)
    if stack != "lwip":
        return image
    changed = [pack.File(name, lwip_script(content, files) if name.endswith(b".shtml") else content) for name, content in files.items()]
    return pack.pack(changed)


# ---- compiling

class Build:
    """One stack for one processor, in a folder of its own: a firmware, and two programs."""

    def __init__(self, processor, stack, sources):
        self.processor, self.stack, self.sources, self.has_library = processor, stack, sources, not processor.board
        self.folder = os.path.join(OUT, "build", f"{processor.name}-{stack}")
        shutil.rmtree(self.folder, ignore_errors=True)
        os.makedirs(self.folder)
        self.words = [processor.tool("gcc"), *processor.words, *SECTIONS, f"-DMTU={MTU}", f"-DRING={4096 if self.has_library else RING}"]
        if not self.has_library:
            self.words += ["-Os", "-ffreestanding", "-fcallgraph-info=su"]

    def include(self, is_hosted):
        """The folders of headers: the stubs come where there is no C library."""
        folders = [os.path.join(TOP, "ports", "same")] if is_hosted else []
        folders += [BOARD, GLUE]
        if self.stack == "ours":
            folders.append(os.path.join(TOP, "dist"))
        elif self.stack == "lwip":
            code = os.path.join(self.sources["lwip"], "src")
            folders += [os.path.join(GLUE, "lwip"), os.path.join(code, "include"), code]
        else:
            folders += [os.path.join(GLUE, "uip"), os.path.join(OUT, "uip_stubs"), self.uip_folder()]
        words = ["-I" + folder for folder in folders]
        if self.has_library:
            return words
        own = run([self.processor.tool("gcc"), "-print-file-name=include"]).strip()
        return ["-nostdinc", *words, "-isystem", os.path.join(OUT, "library_stubs"), "-isystem", own]

    def uip_folder(self):
        return self.sources["uip_whole" if self.stack == "uip_whole" else "uip"]

    def compile(self, path, *words, name=None, is_hosted=False):
        """The object file of a source."""
        target = os.path.join(self.folder, (name or re.sub(r"\W", "_", os.path.relpath(path, TOP)[-60:])) + ".o")
        run([*self.words, *words, *self.include(is_hosted), "-c", path, "-o", target])
        return target

    def stack_words(self):
        """The words for a stack and its main."""
        if self.stack == "ours":
            return []
        if self.stack == "lwip":
            return ["-w", *(["-DSPEED"] if self.has_library else [])]
        return ["-w", *{"uip": ["-DJOINED"], "uip_apart": [], "uip_whole": ["-DJOINED", "-DWHOLE"]}[self.stack]]

    def stack_objects(self):
        """The stack itself, with the functions that a C library would have."""
        if self.stack == "ours":
            objects = [self.compile(os.path.join(TOP, "dist", "uip.c"), "-DUIP_NO_ETHERNET")]
        elif self.stack == "lwip":
            objects = [self.compile(os.path.join(self.sources["lwip"], "src", name), *self.stack_words()) for name in LWIP_FILES]
        else:
            objects = [self.compile(os.path.join(self.uip_folder(), "uip.c"), *self.stack_words())]
        if self.has_library:
            return objects
        own = [os.path.join(BOARD, "runtime.c")] + ([] if self.stack == "ours" else [os.path.join(GLUE, "library.c")])
        return objects + [self.compile(path, "-fno-builtin") for path in own]

    def main(self, name, *words, is_hosted=True):
        """The loop of a firmware. The hosted board comes before the real one, whose header it keeps out."""
        path = os.path.join(BOARD if self.stack == "ours" else os.path.join(GLUE, "lwip" if self.stack == "lwip" else "uip"), "main.c")
        board = ["-include", os.path.join(GLUE, "hosted", "board.h")] if is_hosted else []
        return self.compile(path, *board, *self.stack_words(), *words, name=name + "_main", is_hosted=is_hosted)

    def site(self, kind, image):
        """The site, and this stack's heap for this number of files."""
        path = os.path.join(self.folder, kind + ".img")
        with open(path, "wb") as file:
            file.write(image_for(self.stack, image))
        objects = [self.compile(os.path.join(BOARD, "site.S"), f'-DSITE="{path}"', name=kind + "_site")]
        if self.stack == "ours":
            words = ["-include", os.path.join(TOP, "dist", "uip.h"), f"-DUIP_HEAP_SIZE=UIP_MEMORY({len(files_of(image))})"]
            objects.append(self.compile(os.path.join(TOP, "support", "heap.c"), *words, name=kind + "_heap"))
        return objects

    def link(self, name, objects, *words):
        target = os.path.join(self.folder, name)
        library = [] if self.has_library else ["-nostdlib", "-lgcc", "-Wl,-z,noexecstack"]
        as_for_libgcc = [word.replace("_zicsr", "") for word in self.words]    # with zicsr gcc takes the libgcc of 64 bits
        run([*as_for_libgcc, "-Wl,--gc-sections", "-o", target, *objects, *library, *words])
        return target

    def programs(self, objects, image):
        """Two programs: one that writes its output, and one that is counted."""
        objects = objects + self.site("hosted", image)
        start = [] if self.has_library else self.script("0x20000", "4M", "0x10000000", "4M")
        return [self.link(name, [self.main(name, *words), *objects], *start) for name, words in (("live", ()), ("count", ("-DCOUNT",)))]

    def firmware(self, objects, image):
        board = self.compile(os.path.join(TOP, "boards", self.processor.board, "board.c"), "-DLOOP_WAITS")
        ring = self.compile(os.path.join(BOARD, "ring.c"))
        objects = [self.main("firmware", is_hosted=False), board, ring, *objects, *self.site("firmware", image)]
        with open(os.path.join(TOP, "boards", self.processor.board, "board.mk"), encoding="utf-8") as file:
            board = dict(line.strip().split("=", 1) for line in file if "=" in line)
        places = [board[name] for name in ("FLASH_AT", "FLASH_LEN", "RAM_AT", "RAM_LEN")]
        return self.link("firmware", objects, *self.script(*places))

    @staticmethod
    def script(*places):
        """The link script of boards/, with its addresses and sizes."""
        names = "flash_at flash_len ram_at ram_len stack_len boot_len".split()
        sizes = [f"-Wl,--defsym={name}={value}" for name, value in zip(names, [*places, "8192", "0"])]
        return ["-T", os.path.join(TOP, "boards", "link.ld"), *sizes]
