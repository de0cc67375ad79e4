#!/usr/bin/env python3
"""Runs the program on models and reports at each limit and one past it, and prints the memory that it took.

    bench/limits.py PROGRAM

PROGRAM is the proved `updr` (crates/updr/out/updr). A line a run: what stands at its limit, the status, the seconds
and the most memory that was resident. It ends with status 1 where a status is otherwise than wanted, or where a run
took more than 2 GB, or more than 4 GB with sixteen workers.
"""
import os
import subprocess
import sys
import tempfile
import time

GB = 1 << 30
FILE_BYTES = 1_048_576
TOKENS = 200_000
# Tokens of the model PLAIN, and of each `safety p(X) | true`.
TOKENS_OF_PLAIN, TOKENS_OF_PIECE = 14, 7
NESTING = 200
HEIGHT = 6
SORTS, SYMBOLS, TRANSITIONS = 64, 256, 256
ARGUMENTS, PARAMETERS, BINDERS, DISTINCT = 8, 16, 64, 16
SORT_SIZE = 4_294_967_295
# A model whose search keeps much, and ends above the greatest weight.
RING = os.path.join(os.path.dirname(os.path.abspath(__file__)), "..", "examples", "ring.pyv")
# The most constants of one sort with which a query of `heavy` stays within the greatest weight.
CONSTANTS = 158

PLAIN = "sort n\nmutable relation p(n)\ninit !p(X)\n"


def listed(pattern, count):
    return ", ".join(pattern.format(k) for k in range(count))


def lines(pattern, count):
    return "".join(pattern.format(k) + "\n" for k in range(count))


def filled(size):
    """A model of this many bytes, nearly all of them a comment."""
    return PLAIN + "#" + "x" * (size - len(PLAIN) - 1)


def tokens(count):
    """A model of this many tokens: pieces, and an axiom with as many negations as are missing."""
    pieces, rest = divmod(count - TOKENS_OF_PLAIN - 2, TOKENS_OF_PIECE)
    last = f"axiom {'!' * rest}true\n"
    return PLAIN + "safety p(X) | true\n" * pieces + last


def nested(depth):
    return PLAIN + "safety " + "(" * depth + "true" + ")" * depth + "\n"


def doubled(height):
    """Equivalences inside each other, to this height."""
    text = "p(X)"
    for _ in range(height):
        text = f"({text}) <-> true"
    return PLAIN + f"safety {text}\n"


def heavy(constants):
    """A model whose first query weighs about the cube of the number of its constants."""
    return (
        "sort n\nmutable relation p(n)\n" + lines("immutable constant c{}: n", constants)
        + "init !p(X)\ntransition t(x: n) modifies p\n  new(p(X)) <-> p(X) | X = x\nsafety !p(c0) | true\n"
    )


def many_heavy(constants):
    """A lock server with constants besides, whose search asks many heavy queries."""
    return (
        "sort node\nmutable relation server\nmutable relation held(node)\n"
        + lines("immutable constant c{}: node", constants)
        + "init server\ninit !held(N)\n"
        "transition take(n: node) modifies server, held\n"
        "  & server & !new(server) & (new(held(N)) <-> held(N) | N = n)\n"
        "transition back(n: node) modifies server, held\n"
        "  & held(n) & new(server) & (new(held(N)) <-> held(N) & N != n)\n"
        "safety held(X) & held(Y) -> X = Y\n"
    )


def counting(bits):
    """A counter of this many bits, which violates its safety at the last number."""
    steps = "".join(
        f"  & (new(b{k}) <-> (b{k} <-> !({' & '.join([f'b{j}' for j in range(k)] or ['true'])})))\n" for k in range(bits)
    )
    return (
        lines("mutable relation b{}", bits) + lines("init !b{}", bits)
        + f"transition tick() modifies {listed('b{}', bits)}\n" + steps
        + f"safety !({' & '.join(f'b{k}' for k in range(bits))})\n"
    )


def safe_report(variables):
    bound = listed("V{}:n", variables)
    return f"report 1\nverdict safe 1\nclause 2 forall {bound}. !p(V0)\nnumbers 0 1 1\ndone\n"


def sized_report(size):
    return f"report 1\nverdict unsafe 0\nworld 1\nsort n {size}\nfixed\ncopy 0\nq 0\nend\nnumbers 0 0 0\ndone\n"


SMALL = "sort n\nmutable relation q\ninit !q\nsafety q\n"


def runs():
    """What is run: its name, the words, with a model and a report in place of A and R, and the status that is wanted."""
    verify = ["verify", "A"]
    for name, text, at, past in [
        ("bytes of a file", filled, FILE_BYTES, 11),
        ("tokens", tokens, TOKENS, 12),
        ("nesting", nested, NESTING, 12),
        ("height of <->", doubled, HEIGHT, 12),
        ("sorts", lambda n: lines("sort s{}", n), SORTS, 13),
        ("symbols", lambda n: lines("immutable relation r{}", n), SYMBOLS, 13),
        ("transitions", lambda n: lines("transition t{}() true", n), TRANSITIONS, 13),
        ("arguments", lambda n: f"sort n\nmutable relation p({listed('n', n)})\n", ARGUMENTS, 13),
        ("parameters", lambda n: f"sort n\ntransition t({listed('x{}: n', n)}) true\n", PARAMETERS, 13),
        ("binders", lambda n: PLAIN + f"axiom forall {listed('x{}: n', n)}. true\n", BINDERS, 13),
        ("terms of distinct", lambda n: PLAIN + lines("immutable constant c{}: n", n)
            + f"axiom distinct({listed('c{}', n)})\n", DISTINCT, 13),
    ]:
        yield name, verify, text(at), None, {0, 5, 7}
        yield f"{name}, one more", verify, text(at + 1), None, {past}
    yield "weight", ["updr", "A"], heavy(CONSTANTS), None, {0}
    yield "weight, one constant more", ["updr", "A"], heavy(CONSTANTS + 1), None, {5}
    for workers in ("4", "16"):
        words = ["updr", "A", "--batch", "64", "--steps", "3", "--workers", workers]
        yield f"queries of a million, {workers} workers", words, many_heavy(100), None, {4}
    with open(RING) as file:
        ring = file.read()
    for workers in ("4", "16"):
        yield f"a long search, {workers} workers", ["updr", "A", "--workers", workers], ring, None, {5}
    # The last number of six bits is 63 steps away, that of seven bits 127.
    yield "frames", ["updr", "A", "--frames", "64"], counting(6), None, {1}
    yield "frames, more", ["updr", "A", "--frames", "64"], counting(7), None, {3}
    yield "depth", ["bmc", "A", "--depth", "32"], counting(5), None, {1}
    yield "depth, more", ["bmc", "A", "--depth", "32"], counting(6), None, {0}
    yield "size of a sort in a report", ["check", "A", "R"], SMALL, sized_report(SORT_SIZE), {0}
    yield "size of a sort, one more", ["check", "A", "R"], SMALL, sized_report(SORT_SIZE + 1), {18}
    for variables in (100, 1_000, 10_000, 90_000):
        yield f"clause of {variables} variables", ["check", "A", "R"], PLAIN, safe_report(variables), {0, 5, 6}


def run(program, words, model, report, folder):
    """The status, the seconds, and the most bytes that were resident."""
    names = {"A": os.path.join(folder, "model"), "R": os.path.join(folder, "report")}
    for name, text in (("A", model), ("R", report)):
        if text is not None:
            with open(names[name], "w") as file:
                file.write(text)
    begin = time.monotonic()
    child = subprocess.Popen(
        [program, *(names.get(word, word) for word in words)], stdout=subprocess.DEVNULL, stderr=subprocess.DEVNULL
    )
    _, status, used = os.wait4(child.pid, 0)
    child.returncode = os.waitstatus_to_exitcode(status)
    return child.returncode, time.monotonic() - begin, used.ru_maxrss * 1024


def main():
    if len(sys.argv) != 2:
        sys.exit(__doc__)
    program, good = os.path.abspath(sys.argv[1]), True
    with tempfile.TemporaryDirectory() as folder:
        for name, words, model, report, wanted in runs():
            status, seconds, memory = run(program, words, model, report, folder)
            most = 4 * GB if "16 workers" in name else 2 * GB
            is_well = status in wanted and memory <= most
            good = good and is_well
            note = "" if is_well else f"  wanted: status {sorted(wanted)}, at most {most / GB:.0f} GB"
            print(f"{name}: status {status}, {seconds:.2f} s, {memory / (1 << 20):.0f} MB{note}", flush=True)
    sys.exit(0 if good else 1)


main()
