#!/usr/bin/env python3
"""Runs the program on the examples and their reports, cut at each byte and with bytes replaced.

    bench/cuts.py PROGRAM [EVERY]

PROGRAM is the proved `updr` (crates/updr/out/updr). Each model of examples/ is cut at each byte, or each EVERYth, and has
each such byte replaced by a few others; so has each report. Models are handed to `verify` and to
`updr --frames 2 --steps 50 --weight 20000`, reports to `check` with their model. Wanted is a status of the table in
docs/REPORTS.md, from 10 on exactly one line on standard error and nothing on standard output, below 10 nothing on
standard error, and an answer within ten seconds. It prints the number of runs for each status, the runs a minute, the
longest run, and each run that is otherwise; it ends with status 1 where there is one.
"""
import os
import subprocess
import sys
import tempfile
import time
from collections import Counter
from concurrent.futures import ThreadPoolExecutor

HERE = os.path.dirname(os.path.abspath(__file__))
EXAMPLES = os.path.join(HERE, "..", "examples")
STATUSES = {*range(0, 9), *range(10, 19)}
MOST_SECONDS = 10
# What a byte is replaced by: an end, a space, a letter, a digit, an open bracket, and a byte of no text.
OTHERS = [b"\n", b" ", b"N", b"0", b"(", b"\xff"]
SEARCH = ["--frames", "2", "--steps", "50", "--weight", "20000"]


def variants(text, every):
    """The text cut at each place, and with the byte there replaced."""
    for place in range(0, len(text), every):
        yield text[:place]
        for other in OTHERS:
            if text[place : place + 1] != other:
                yield text[:place] + other + text[place + 1 :]


def read(name):
    with open(os.path.join(EXAMPLES, name), "rb") as file:
        return file.read()


def model_of(report, models):
    """The model that a report of examples/ is of: the longest whose name begins the report's."""
    return max((name for name in models if report.startswith(name[:-4])), key=len)


def jobs(every):
    """What is run: the words before the file, the file's text, and the words after it."""
    names = sorted(os.listdir(EXAMPLES))
    models = [name for name in names if name.endswith(".pyv")]
    for name in models:
        for text in variants(read(name), every):
            yield ["verify"], text, []
            yield ["updr"], text, SEARCH
    for name in names:
        if name.endswith(".report"):
            model = os.path.join(EXAMPLES, model_of(name, models))
            for text in variants(read(name), every):
                yield ["check", model], text, []


def run(program, job, folder):
    """Runs one job; gives its status, the seconds it took, and what is wrong with its answer, if anything."""
    before, text, after = job
    with tempfile.NamedTemporaryFile(dir=folder) as file:
        file.write(text)
        file.flush()
        begin = time.monotonic()
        try:
            done = subprocess.run(
                [program, *before, file.name, *after], capture_output=True, timeout=6 * MOST_SECONDS
            )
        except subprocess.TimeoutExpired:
            return None, time.monotonic() - begin, "no answer"
        seconds = time.monotonic() - begin
    return done.returncode, seconds, fault(done, seconds)


def fault(done, seconds):
    if done.returncode not in STATUSES:
        return "a status that isn't in the table"
    if done.returncode < 10 and done.stderr:
        return f"a line on standard error: {done.stderr!r}"
    if done.returncode >= 10 and (done.stdout or done.stderr.count(b"\n") != 1 or not done.stderr.endswith(b"\n")):
        return f"not one line on standard error: {done.stdout!r} {done.stderr!r}"
    return f"{seconds:.1f} seconds" if seconds > MOST_SECONDS else None


def main():
    if len(sys.argv) not in (2, 3):
        sys.exit(__doc__.strip())
    program, every = os.path.abspath(sys.argv[1]), int(sys.argv[2]) if len(sys.argv) == 3 else 1
    statuses, wrong, longest, begin = Counter(), 0, 0.0, time.monotonic()
    with tempfile.TemporaryDirectory() as folder, ThreadPoolExecutor(os.cpu_count()) as pool:
        todo = list(jobs(every))
        for job, (status, seconds, said) in zip(todo, pool.map(lambda job: run(program, job, folder), todo)):
            statuses[status] += 1
            longest = max(longest, seconds)
            if said:
                wrong += 1
                print(f"{' '.join(map(os.path.basename, job[0] + job[2]))} of {job[1]!r}: {said}", flush=True)
    minutes = (time.monotonic() - begin) / 60
    print("runs of each status: " + ", ".join(f"{status}: {n}" for status, n in sorted(statuses.items(), key=str)))
    print(f"{len(todo)} runs, {len(todo) / minutes:.0f} a minute, the longest {longest:.1f} seconds, {wrong} otherwise")
    sys.exit(1 if wrong else 0)


main()
