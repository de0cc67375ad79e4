#!/usr/bin/env python3
"""Runs the gate from nothing and prints what it takes, crate by crate, as a table for docs/GATE.md.

    bench/gate.py [--kept] [NAME ..]

It runs `rt ci --anew` (with --kept: `rt ci`) at the top of the repository, and looks at the processes
below it twice a second: each check belongs to a crate, and is its proof, that of its tests, or an edit.
Times are processor seconds, user and system. The last lines give the processor time of the whole run,
its wall time and the number of processors. The machine should be idle otherwise.
"""
import os
import resource
import subprocess
import sys
import time
from collections import defaultdict

TICKS = os.sysconf("SC_CLK_TCK")


def children_of():
    below = defaultdict(list)
    for name in os.listdir("/proc"):
        if name.isdigit():
            try:
                with open(f"/proc/{name}/stat") as stat:
                    rest = stat.read().rsplit(")", 1)[1].split()
            except OSError:
                continue
            below[int(rest[1])].append(int(name))
    return below


def descendants(root):
    below, found, left = children_of(), [], [root]
    while left:
        process = left.pop()
        found.append(process)
        left.extend(below.get(process, []))
    return found


def look(process):
    """The crate and kind of a check, and the processor seconds that it has taken."""
    try:
        with open(f"/proc/{process}/cmdline") as file:
            words = file.read().split("\0")
        with open(f"/proc/{process}/stat") as file:
            stat = file.read().rsplit(")", 1)[1].split()
        where = os.readlink(f"/proc/{process}/cwd")
    except OSError:
        return None
    if "--crate-name" not in words or not words[0].endswith("rattle"):
        return None
    crate = words[words.index("--crate-name") + 1]
    if "/rt-edit" in where:
        kind = "edits"
    elif "--test" in words:
        kind = "tests"
    else:
        kind = "proof"
    return crate, kind, (int(stat[11]) + int(stat[12])) / TICKS


def lines_of(crate):
    total = 0
    for folder, _, files in os.walk(os.path.join("crates", crate)):
        if "/out" in folder:
            continue
        for file in files:
            if file.endswith((".rt", ".antt")):
                with open(os.path.join(folder, file), encoding="utf-8") as text:
                    total += sum(1 for _ in text)
    return total


def main():
    os.chdir(os.path.join(os.path.dirname(os.path.abspath(__file__)), ".."))
    words = [word for word in sys.argv[1:] if word != "--kept"]
    command = ["rt", "ci"] + ([] if "--kept" in sys.argv else ["--anew"]) + words
    start = time.time()
    run = subprocess.Popen(command, stdout=sys.stderr)
    seen = {}
    while run.poll() is None:
        for process in descendants(run.pid):
            found = look(process)
            if found:
                seen[(process, found[0], found[1])] = found[2]
        time.sleep(0.5)
    spent = defaultdict(lambda: defaultdict(float))
    for (_, crate, kind), seconds in seen.items():
        spent[crate][kind] += seconds
    print("| Crate | Lines | Proof | Tests | Edits |\n|---|---|---|---|---|")
    for crate in sorted(spent, key=lambda name: -sum(spent[name].values())):
        row = spent[crate]
        print(f"| `{crate}` | {lines_of(crate)} | " + " | ".join(f"{row[kind]:.0f}" for kind in ("proof", "tests", "edits")) + " |")
    used = resource.getrusage(resource.RUSAGE_CHILDREN)
    print(f"\nProcessor seconds of the whole run: {used.ru_utime + used.ru_stime:.0f}")
    print(f"Wall seconds: {time.time() - start:.0f}, processors: {os.cpu_count()}")
    return run.returncode


if __name__ == "__main__":
    sys.exit(main())
