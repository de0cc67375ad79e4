#!/usr/bin/env python3
"""Runs a long search and prints how much memory it holds as it goes on.

    bench/memory.py PROGRAM MODEL [SECONDS [WORD ..]]

PROGRAM is the proved `updr` (crates/updr/out/updr). `updr updr MODEL WORD ..` runs for SECONDS, 300 where they aren't
given, or until it ends; then it is ended. Each tenth of that time a line tells the seconds by the clock, the processor
seconds and the megabytes that are resident.
"""
import os
import subprocess
import sys
import time

TICKS = os.sysconf("SC_CLK_TCK")
PAGE = os.sysconf("SC_PAGE_SIZE")


def taken(process):
    """Processor seconds and resident megabytes of a process."""
    with open(f"/proc/{process}/stat") as file:
        fields = file.read().rsplit(")", 1)[1].split()
    return (int(fields[11]) + int(fields[12])) / TICKS, int(fields[21]) * PAGE / (1 << 20)


def main():
    if len(sys.argv) < 3:
        sys.exit(__doc__)
    program, model = sys.argv[1:3]
    seconds = float(sys.argv[3]) if len(sys.argv) > 3 else 300
    child = subprocess.Popen([program, "updr", model, *sys.argv[4:]], stdout=subprocess.DEVNULL)
    begin = time.monotonic()
    for _ in range(10):
        try:
            child.wait(seconds / 10)
        except subprocess.TimeoutExpired:
            used, megabytes = taken(child.pid)
            print(f"{time.monotonic() - begin:.0f} s, {used:.0f} processor seconds, {megabytes:.0f} MB", flush=True)
        else:
            print(f"ended with status {child.returncode} after {time.monotonic() - begin:.0f} s")
            return
    child.kill()
    child.wait()


main()
