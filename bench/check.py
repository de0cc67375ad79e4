#!/usr/bin/env python3
"""Prints seconds and megabytes of `updr check` on models and reports of growing size.

First build the program: `rt run -- check A R` in crates/updr.
"""
import os
import subprocess
import sys
import tempfile
import time

TOP = os.path.join(os.path.dirname(os.path.abspath(__file__)), "..")
PROGRAM = os.path.join(TOP, "crates", "updr", "out", "updr")


def model(inits):
    """A model with so many inits; comments fill it up to 1 MiB where there is room."""
    lines = ["sort node", "mutable relation held(node)"]
    lines += ["init !held(N)"] * inits
    lines += [
        "transition grab(n: node)",
        "  modifies held",
        "  new(held(N)) <-> held(N) | N = n",
        "safety held(N) -> !held(N)",
    ]
    return "\n".join(lines) + "\n"


def wide(members):
    """A model with one init of so many members, each of which is closed by itself."""
    body = " & ".join(f"!held(N{k % 60})" for k in range(members))
    return model(0).replace("transition", f"init {body}\ntransition", 1)


def equal(bodies):
    """A model with so many axioms, each a chain of equalities that ends in a constant."""
    chain = " & ".join(f"A{k} = A{k + 1}" for k in range(50)) + " & A50 = one"
    lines = ["immutable constant one: node"] + [f"axiom {chain} -> A0 = one"] * bodies
    return model(1).replace("init", "\n".join(lines) + "\ninit", 1)


def report(size, steps, fixed=()):
    """Node after node is grabbed; the safety fails at once."""
    lines = ["report 1", f"verdict unsafe {steps}", f"world {steps + 1}", f"sort node {size}", "fixed", *fixed]
    for copy in range(steps + 1):
        values = " ".join("1" if k < copy else "0" for k in range(size))
        lines += [f"copy {copy}", f"held {values}"]
    return "\n".join(lines + ["end", "numbers 0 0 0", "done"]) + "\n"


def run(name, model_text, report_text):
    with tempfile.TemporaryDirectory() as folder:
        paths = []
        for word, text in (("model", model_text), ("report", report_text)):
            path = os.path.join(folder, word)
            with open(path, "w") as file:
                file.write(text)
            paths.append(path)
        began = time.monotonic()
        child = subprocess.Popen([PROGRAM, "check", *paths], stdout=subprocess.PIPE, stderr=subprocess.STDOUT)
        text = child.stdout.read().decode().strip()
        _, _, usage = os.wait4(child.pid, 0)
        seconds = time.monotonic() - began
        print(
            f"{name:34} {len(model_text):8} + {len(report_text):8} bytes"
            f" {seconds:7.2f} s {usage.ru_maxrss / 1024:7.1f} MB  {text}"
        )


def main():
    if not os.path.exists(PROGRAM):
        sys.exit("build crates/updr first")
    for inits in (7500, 15000, 30000):
        run(f"{inits} inits, 2 nodes", model(inits), report(2, 1))
    for members in (8000, 16000, 32000):
        run(f"1 init of {members} members", wide(members), report(2, 1))
    for bodies in (200, 400, 800):
        run(f"{bodies} chains of 51 equalities", equal(bodies), report(1, 0, ["one 0"]))
    for steps in (16, 32, 64):
        run(f"{steps} steps, 500 nodes", model(1), report(500, steps))
    for size in (65536, 131072, 262144, 523000):
        run(f"no step, {size} nodes", model(1), report(size, 0))


main()
