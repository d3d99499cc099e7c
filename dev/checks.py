"""Checks of crates with their seconds, and the layers of crates.txt."""
import os
import subprocess
import sys
import time

from repository import folder, read


def last_seconds(name):
    try:
        return f"{float(read(os.path.join(folder(name), 'out', 'seconds'))):.0f} s"
    except (OSError, ValueError):
        return "not checked here"


def above(crates, names):
    for name in crates.above(names):
        print(f"{name:16} {last_seconds(name)}")


def layers(crates):
    for head in dict.fromkeys(crates.layer.values()):
        names = [name for name in crates.below if crates.layer[name] == head]
        print(f"{head}:")
        for name in names:
            print(f"    {name:16} {last_seconds(name)}")
    chain = crates.longest_chain()
    print(f"the longest chain has {len(chain)} crates: {' '.join(chain)}")


def check(crates, names, alone):
    chosen = [it for it in crates.in_order() if it in names] if alone else crates.above(names)
    for at, name in enumerate(chosen, 1):
        started = time.time()
        for words in (["rt", "fmt"], ["rt", "check"], ["rt", "must-fail", name]):
            print(f"{at} of {len(chosen)}: {name:16} {' '.join(words)} ..", flush=True)
            status = subprocess.run(words, cwd=folder(name), stdout=subprocess.PIPE, stderr=subprocess.STDOUT, text=True)
            if status.returncode:
                print(status.stdout)
                sys.exit(f"dev.py: {' '.join(words)} failed in crates/{name}")
        seconds = time.time() - started
        os.makedirs(os.path.join(folder(name), "out"), exist_ok=True)
        with open(os.path.join(folder(name), "out", "seconds"), "w", encoding="utf8") as file:
            file.write(f"{seconds:.1f}\n")
        print(f"{at} of {len(chosen)}: {name:16} {seconds:.0f} s, proved, and its edits refused", flush=True)
