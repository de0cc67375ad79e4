#!/usr/bin/env python3
"""Runs the program with each request for memory refused in turn.

    bench/refused.py PROGRAM [WORD]

PROGRAM is the proved `updr` (crates/updr/out/updr). Where a WORD is given, only the commands that have it are run, as
`demo` or `--free`. Request number N is refused, for N from 1 to the first run in which nothing is refused; above 5,000
each hundredth. Wanted is status 16 with its line on standard error and nothing on standard output, or the answer of the
run without refusal. With `--free` the history depends on which worker comes first, so in place of that answer one of
the statuses 0 to 5 is wanted, nothing on standard error, and a report that `check` finds to hold; and since the number of
requests depends on it too, the runs end once 64 in a row had nothing refused. It prints a line a command: how many
requests were refused, how many runs answered 16 and how many as wanted without, and the seconds; then each run that
answered otherwise. It ends with status 1 where there is one. The library that refuses is bench/refuse.c, which `cc`
compiles.
"""
import os
import subprocess
import sys
import tempfile
import time
from concurrent.futures import ThreadPoolExecutor

HERE = os.path.dirname(os.path.abspath(__file__))
EXAMPLES = os.path.join(HERE, "..", "examples")
# Up to this number each request is refused, then each hundredth.
EACH = 5000
# How many runs are made at a time.
BATCH = 64
OUT_OF_MEMORY = (16, b"", b"updr: out of memory\n")
HOLDS = (0, b"holds\n", b"")
GRAB = os.path.join(EXAMPLES, "grab.pyv")
LOCK = """sort node
mutable relation held(node)
init !held(N)
transition grab(n: node)
  modifies held
  & (forall M. !held(M))
  & (new(held(N)) <-> held(N) | N = n)
safety [one] held(N1) & held(N2) -> N1 = N2
"""


def run(words, library=None, number=0, mark=None):
    environment = dict(os.environ)
    if library:
        environment |= {"LD_PRELOAD": library, "REFUSE_AT": str(number), "REFUSE_MARK": mark}
    done = subprocess.run(words, capture_output=True, env=environment, timeout=120)
    return done.returncode, done.stdout, done.stderr


def refuse(words, library, number, folder):
    """The answer with this request refused, and whether one was."""
    mark = os.path.join(folder, f"refused-{number}")
    answer = run(words, library, number, mark)
    refused = os.path.exists(mark)
    if refused:
        os.remove(mark)
    return answer, refused


def numbers():
    """The requests that are refused, in order."""
    number = 1
    while True:
        yield number
        number += 1 if number < EACH else 100


class Same:
    """An answer is well where it is that of the run without refusal."""

    def __init__(self, words):
        self.wanted = run(words)

    def is_well(self, answer):
        return answer == self.wanted


class Holding:
    """An answer is well where it is a report of a search that `check` finds to hold."""

    def __init__(self, words, folder):
        self.program, self.model = words[0], words[2]
        self.report = os.path.join(folder, "report")
        self.judged = {}

    def is_well(self, answer):
        status, text, line = answer
        if text not in self.judged:
            with open(self.report, "wb") as file:
                file.write(text)
            self.judged[text] = run([self.program, "check", self.model, self.report]) == HOLDS
        return status <= 5 and not line and self.judged[text]


def try_command(words, library, folder, pool):
    """Refuses each request of a command; gives the runs that answered otherwise than wanted."""
    begin = time.monotonic()
    is_free = "--free" in words
    wanted = Holding(words, folder) if is_free else Same(words)
    refusals, wells, wrong, number = 0, 0, [], numbers()
    while True:
        batch = [(n, pool.submit(refuse, words, library, n, folder)) for _, n in zip(range(BATCH), number)]
        answers = [(n, *future.result()) for n, future in batch]
        for n, answer, refused in answers:
            if answer == OUT_OF_MEMORY and refused:
                refusals += 1
            elif wanted.is_well(answer):
                wells += refused
            else:
                wrong.append((n, answer))
        marks = [refused for _, _, refused in answers]
        if not any(marks) if is_free else not all(marks):
            break
    seconds = time.monotonic() - begin
    shown = " ".join(os.path.basename(word) for word in words[1:])
    print(
        f"{shown}: {refusals + wells} refused, {refusals} answered 16, {wells} as without, "
        f"{len(wrong)} otherwise, {seconds:.0f} seconds",
        flush=True,
    )
    for n, answer in wrong[:10]:
        print(f"  request {n}: {answer}")
    return wrong


def main():
    if len(sys.argv) not in (2, 3):
        sys.exit(__doc__.strip())
    program = os.path.abspath(sys.argv[1])
    with tempfile.TemporaryDirectory() as folder, ThreadPoolExecutor(os.cpu_count()) as pool:
        library, lock = os.path.join(folder, "refuse.so"), os.path.join(folder, "lock.pyv")
        subprocess.run(["cc", "-shared", "-fPIC", "-O1", "-o", library, os.path.join(HERE, "refuse.c")], check=True)
        with open(lock, "w", encoding="utf-8") as file:
            file.write(LOCK)
        commands = [
            ["check", GRAB, os.path.join(EXAMPLES, "grab-breaks.report")],
            ["verify", GRAB],
            ["verify", lock],
            ["bmc", GRAB],
            ["updr", lock, "--workers", "1"],
            ["updr", GRAB, "--workers", "1"],
            ["demo", "1"],
            ["updr", lock, "--free", "--workers", "1"],
            ["updr", lock, "--free", "--workers", "2"],
            ["updr", GRAB, "--free", "--workers", "2"],
        ]
        chosen = [words for words in commands if sys.argv[2:] == [] or sys.argv[2] in words]
        wrong = [it for words in chosen for it in try_command([program, *words], library, folder, pool)]
    sys.exit(1 if wrong else 0)


main()
