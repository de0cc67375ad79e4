#!/usr/bin/env python3
"""Runs the program with standard output or standard error closed or full, and with little memory.

    bench/devices.py PROGRAM

PROGRAM is the proved `updr` (crates/updr/out/updr). Wanted is status 15 where a line couldn't be put, with its line on
standard error where that takes one; with little memory, status 16 with its line, or the answer of a run with enough.
It prints a line a run, and ends with status 1 where an answer is otherwise.
"""
import os
import resource
import subprocess
import sys

HERE = os.path.dirname(os.path.abspath(__file__))
EXAMPLES = os.path.join(HERE, "..", "examples")
GRAB = os.path.join(EXAMPLES, "grab.pyv")
GRAB_BREAKS = os.path.join(EXAMPLES, "grab-breaks.report")
CANNOT_WRITE, OUT_OF_MEMORY = 15, 16
COMMANDS = [["check", GRAB, GRAB_BREAKS], ["verify", GRAB], ["bmc", GRAB], ["updr", GRAB]]


def close_out():
    os.close(1)


def close_both():
    os.close(1)
    os.close(2)


def with_devices(program, words):
    """What is wrong with the answers where standard output, or both, can't be written."""
    with open("/dev/full", "w") as full:
        for name, given in [
            ("out is full", {"stdout": full, "stderr": subprocess.PIPE}),
            ("out is closed", {"preexec_fn": close_out, "stderr": subprocess.PIPE}),
            ("out and err are full", {"stdout": full, "stderr": full}),
            ("out and err are closed", {"preexec_fn": close_both}),
        ]:
            done = subprocess.run([program, *words], **given)
            is_well = done.returncode == CANNOT_WRITE and (done.stderr is None or done.stderr.count(b"\n") == 1)
            yield name, done.returncode, is_well


def with_memory(program, words):
    """The same with an address space of 16 to 512 MB."""
    plain = subprocess.run([program, *words], capture_output=True)
    for megabytes in (16, 32, 64, 128, 256, 512):
        size = megabytes << 20
        done = subprocess.run(
            [program, *words], capture_output=True, preexec_fn=lambda: resource.setrlimit(resource.RLIMIT_AS, (size, size))
        )
        is_refused = done.returncode == OUT_OF_MEMORY and not done.stdout and done.stderr.count(b"\n") == 1
        is_same = (done.returncode, done.stdout, done.stderr) == (plain.returncode, plain.stdout, plain.stderr)
        yield f"{megabytes} MB", done.returncode, is_refused or is_same


def main():
    if len(sys.argv) != 2:
        sys.exit(__doc__)
    program, good = os.path.abspath(sys.argv[1]), True
    for words in COMMANDS:
        for name, status, is_well in [*with_devices(program, words), *with_memory(program, words)]:
            good = good and is_well
            print(f"{words[0]}, {name}: status {status}{'' if is_well else ', which isn’t wanted'}")
    sys.exit(0 if good else 1)


main()
