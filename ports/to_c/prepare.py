"""Prepares a kept module for the translation: the kit's clang optimises it for size."""
import re
import subprocess

from .forms import ANY, ATTRIBUTES, META, NAME, STRUCT, VALUE, parts_of, require

# A loop of few rounds is written out where that is short: at most 24 rounds are looked at, and up to four times as much is short where most of
# a round is known beforehand, as in a loop that adds to one counter of twenty.
UNROLL = [word for option in ("threshold=30", "max-iteration-count-to-analyze=24", "max-percent-threshold-boost=400")
          for word in ("-mllvm", f"-unroll-{option}")]
CLANG = ("--target=x86_64-unknown-linux-gnu", "-Os", "-mllvm", "-force-attribute=optsize", "-fno-vectorize", "-fno-slp-vectorize", *UNROLL,
         "-S", "-emit-llvm", "-x", "ir", "-", "-o", "-")
LOAD = re.compile(rf"  ({NAME}) = load ptr, ptr (\S+), align (\d+)(.*)")
ADDRESS = "!uip_address"    # the mark of a load of an address; clang drops a mark that it does not know where it changes what a load means
STORE = re.compile(r"  store ptr (\S+), ptr (\S+), align (\d+)")


def without_addresses(text, are_addresses=False):
    """The module with no address in memory: each is stored and loaded as a number. So clang takes no eight bytes of data for an address, which
    has four on a processor of 32 bits. In a kept module what is loaded as an address is one, and has a mark."""
    out, node = [], 1 + max((int(it) for it in re.findall(r"^!(\d+) = ", text, re.M)), default=-1)
    mark = f", {ADDRESS} !{node}" if are_addresses else ""
    for line in text.split("\n"):
        if found := LOAD.fullmatch(line):
            name = f"%in.{len(out)}"
            out += [f"  {name} = load i64, ptr {found[2]}, align {found[3]}{mark}", f"  {found[1]} = inttoptr i64 {name} to ptr"]
        elif found := STORE.fullmatch(line):
            name = f"%out.{len(out)}"
            out += [f"  {name} = ptrtoint ptr {found[1]} to i64", f"  store i64 {name}, ptr {found[2]}, align {found[3]}"]
        else:
            out.append(line)
    return "\n".join([*out, f"!{node} = !{{}}", ""])


def with_switches(text):
    """A switch stays a switch: no table of addresses is made of it, which would be relocated."""
    return re.sub(r"^attributes #\d+ = \{ ", r'\g<0>"no-jump-tables"="true" ', text, flags=re.M)


def without_calls(text, calls):
    """The module without these exports."""
    names = "|".join(calls)
    text, count = re.subn(rf"^define ([^@]*)@({names})\(", r"define internal \1@\2(", text, flags=re.M)
    require(count == len(calls), f"the exports {' '.join(calls)}")
    return text


def optimised(text, clang):
    run = subprocess.run([clang, *CLANG], input=text, capture_output=True, text=True, check=False)
    require(run.returncode == 0, f"clang: {run.stderr.strip()}")
    return run.stdout
