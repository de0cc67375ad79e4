#!/usr/bin/env python3
"""Compares two built programs on the same questions, and prints how many times as fast the second is.

    bench/ratios.py BEFORE AFTER [RUNS]

BEFORE and AFTER are two builds of `updr` (crates/updr/out/updr of two revisions). Each question is asked of both in turn,
RUNS times (3 where it isn't given), and the least processor seconds (user and system) of each count, so that what else
the machine does tells little. Both have to give the same bytes and status. It ends with status 1 where they don't.
"""
import os
import subprocess
import sys

HERE = os.path.dirname(os.path.abspath(__file__))
EXAMPLES = os.path.join(HERE, "..", "examples")
QUESTIONS = [
    "bmc lock-server-forgets.pyv",
    "bmc peterson-late-flag.pyv",
    "bmc cache-early.pyv",
    "bmc two-phase-commit-hasty.pyv",
    "bmc lock-server.pyv",
    "updr lock-server.pyv --workers 1",
    "updr two-phase-commit.pyv --workers 1",
    "updr peterson.pyv --workers 1",
    "updr cache.pyv --workers 1",
    "updr sharded-store.pyv --workers 1",
]


def ask(program, words):
    """The answer, and the processor seconds that it took."""
    process = subprocess.Popen([program, *words], stdout=subprocess.PIPE, stderr=subprocess.STDOUT, cwd=EXAMPLES)
    text = process.stdout.read()
    _, status, usage = os.wait4(process.pid, 0)
    process.returncode = os.waitstatus_to_exitcode(status)
    return (process.returncode, text), usage.ru_utime + usage.ru_stime


def compare(programs, words, runs):
    """Prints the line of a question; gives whether both programs answer the same."""
    answers, least = [None, None], [float("inf"), float("inf")]
    for _ in range(runs):
        for place, program in enumerate(programs):
            answers[place], seconds = ask(program, words)
            least[place] = min(least[place], seconds)
    same = answers[0] == answers[1]
    ratio = least[0] / max(least[1], 0.001)
    print(
        f"{' '.join(words)}: {least[0]:.2f} and {least[1]:.2f} seconds, {ratio:.1f} times as fast"
        + ("" if same else ", with ANOTHER ANSWER"),
        flush=True,
    )
    return same


def main():
    if len(sys.argv) not in (3, 4):
        sys.exit(__doc__.strip())
    programs = [os.path.abspath(path) for path in sys.argv[1:3]]
    runs = int(sys.argv[3]) if len(sys.argv) == 4 else 3
    same = [compare(programs, question.split(), runs) for question in QUESTIONS]
    sys.exit(0 if all(same) else 1)


main()
