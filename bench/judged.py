#!/usr/bin/env python3
"""Prints seconds of `check` on reports of about 1 MiB, reading and judging together.

    bench/judged.py

First build the program: `rt run` in crates/updr. Each report is read to its end, and then
- a violating run of 64 steps over 88 nodes is judged by its tables alone, and holds;
- a safe report of clauses about few nodes is wrong at its first clause, after one query;
- a safe report whose clauses have many variables has a query above the limit at its first clause;
- a report with a fault at its last line is refused there.
"""
import os
import subprocess
import tempfile
import time

HERE = os.path.dirname(os.path.abspath(__file__))
PROGRAM = os.path.join(HERE, "..", "crates", "updr", "out", "updr")
SIZE = 1_000_000
MODEL = """sort node
mutable relation p(node)
mutable relation r(node, node)
init p(N)
transition idle() true
safety !r(N, N)
"""
END = "numbers 0 0 0\ndone\n"


def run_report():
    nodes, copies = 88, 65
    tables = "p" + " 1" * nodes + "\nr" + " 1" * (nodes * nodes) + "\n"
    world = f"world {copies}\nsort node {nodes}\nfixed\n"
    world += "".join(f"copy {k}\n{tables}" for k in range(copies)) + "end\n"
    return f"report 1\nverdict unsafe {copies - 1}\n{world}{END}"


def clauses_report(clause):
    return "report 1\nverdict safe 1\n" + clause * (SIZE // len(clause)) + END


def few_variables():
    return clauses_report("clause 2 forall V0:node, V1:node. V0 = V1 | !p(V0) | !r(V0, V1)\n")


def many_variables():
    variables = 4_000
    bound = ", ".join(f"V{k}:node" for k in range(variables))
    said = " | ".join(f"V{k} = V{variables - 1 - k} | !p(V{k})" for k in range(variables))
    return clauses_report(f"clause 2 forall {bound}. {said}\n")


def with_fault(report):
    return report[: -len("done\n")] + "dune\n"


def seconds(words):
    start = time.time()
    answer = subprocess.run([PROGRAM, *words], capture_output=True, text=True, check=False)
    return time.time() - start, (answer.stdout + answer.stderr).strip().splitlines()[0]


def main():
    reports = {
        "a run of 64 steps": run_report(),
        "clauses of two variables": few_variables(),
        "clauses of 4,000 variables": many_variables(),
        "a fault at the end": with_fault(few_variables()),
    }
    with tempfile.TemporaryDirectory() as folder:
        model = os.path.join(folder, "model.pyv")
        with open(model, "w", encoding="ascii") as file:
            file.write(MODEL)
        for name, report in reports.items():
            path = os.path.join(folder, "a.report")
            with open(path, "w", encoding="ascii") as file:
                file.write(report)
            took, answer = seconds(["check", model, path])
            print(f"{name:<30} {len(report):>8} bytes {took:7.3f} s  {answer.replace(path, 'REPORT')}")


if __name__ == "__main__":
    main()
