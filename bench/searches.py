"""Times searches for invariants, and `check` of what they report.

  python3 bench/searches.py PROGRAM [SECONDS]

PROGRAM is the proved `updr` (crates/updr/out/updr). The models are the lock server of examples/ and the generated lock
servers of 1 to 4 relations; each is searched with 1 and with 4 workers, at most SECONDS (300 where it isn't given), and
the two reports have to be equal. It prints a line a model: seconds with 1 worker and with 4 and the most memory of both, the
status, the numbers of the report, and the seconds of `check`, which has to answer `holds`. The line that `demo` prints for a
generated model has to tell that model's length, the status and the numbers of its report. It ends with status 1 where something
is otherwise.
"""
import os
import subprocess
import sys
import tempfile
import time
from dataclasses import dataclass
from typing import Optional

HERE = os.path.dirname(os.path.abspath(__file__))
LOCK_SERVER = os.path.join(HERE, "..", "examples", "lock-server.pyv")


def model(count):
    """The generated lock server of this many relations of nodes."""
    last = count - 1
    relations = "".join(f"mutable relation r{k}(node)\n" for k in range(count))
    inits = "".join(f"init !r{k}(N)\n" for k in range(count))
    moves = "".join(
        f"transition move{k}(n: node)\n  modifies r{k}, r{k + 1}\n  & r{k}(n)\n"
        f"  & (new(r{k}(N)) <-> r{k}(N) & N != n)\n"
        f"  & (new(r{k + 1}(N)) <-> r{k + 1}(N) | N = n)\n"
        for k in range(last)
    )
    return (
        f"sort node\nmutable relation server\n{relations}init server\n{inits}"
        "transition take(n: node)\n  modifies server, r0\n  & server\n  & !new(server)\n"
        f"  & (new(r0(N)) <-> r0(N) | N = n)\n{moves}"
        f"transition back(n: node)\n  modifies server, r{last}\n  & r{last}(n)\n  & new(server)\n"
        f"  & (new(r{last}(N)) <-> r{last}(N) & N != n)\n"
        f"safety [one] r{last}(X) & r{last}(Y) -> X = Y\n"
    )


@dataclass
class Ran:
    """What the program answered: its status, or None where the time was over; its output; seconds, kilobytes."""

    status: Optional[int]
    output: str
    seconds: float
    memory: int


def run(limit, *words):
    """Runs the program on the words, at most so many seconds."""
    begin = time.monotonic()
    with tempfile.NamedTemporaryFile("r") as memory:
        measured = ["/usr/bin/time", "-f", "%M", "-o", memory.name, "timeout", "-s", "KILL", str(limit), *words]
        done = subprocess.run(measured, stdout=subprocess.PIPE, text=True)
        seconds = time.monotonic() - begin
        status = None if done.returncode in (137, -9) else done.returncode
        return Ran(status, done.stdout, seconds, int(memory.read().split()[-1]))


def numbers(report):
    """The line of numbers of a report."""
    return next((line for line in report.splitlines() if line.startswith("numbers ")), "no numbers")


def search(program, name, path, folder, limit):
    """Searches a model with 1 and with 4 workers, judges the report, and prints the line; gives the first answer, and
    whether all is well."""
    first = run(limit, program, "updr", path, "--workers", "1")
    if first.status is None:
        print(f"{name}: past {limit} seconds with one worker")
        return first, True
    second = run(limit, program, "updr", path, "--workers", "4")
    report = os.path.join(folder, "report")
    with open(report, "w", encoding="utf-8") as out:
        out.write(first.output)
    judged = run(limit, program, "check", path, report)
    same = (first.status, first.output) == (second.status, second.output)
    holds = judged.output == "holds\n"
    print(
        f"{name}: 1 worker {first.seconds:.2f} s {first.memory} KB, 4 workers {second.seconds:.2f} s {second.memory} KB, "
        f"status {first.status}, {numbers(first.output)}, check {judged.output.strip() or judged.status} "
        f"{judged.seconds:.2f} s{'' if same else ', REPORTS DIFFER'}",
        flush=True,
    )
    return first, same and holds


def demonstrate(program, count, text, first, limit):
    """Whether `demo` tells of the model of this many relations what its report does."""
    if first.status is None:
        return True
    productive, frontier, clauses = numbers(first.output).split()[1:]
    wanted = (
        f"demo {count} bytes {len(text)} status {first.status} "
        f"productive {productive} frontier {frontier} clauses {clauses}\n"
    )
    ran = run(limit, program, "demo", str(count))
    same = (ran.status, ran.output) == (first.status, wanted)
    print(f"demo {count}: {ran.seconds:.2f} s {ran.memory} KB, {'as its report' if same else 'DIFFERS: ' + ran.output}")
    return same


def main(program, limit=300):
    well = True
    with tempfile.TemporaryDirectory() as folder:
        for count in range(1, 5):
            path = os.path.join(folder, f"generated-{count}.pyv")
            with open(path, "w", encoding="utf-8") as out:
                out.write(model(count))
            first, good = search(program, f"generated lock server, {count} relations", path, folder, limit)
            well &= good & demonstrate(program, count, model(count), first, limit)
        well &= search(program, "lock server", LOCK_SERVER, folder, limit)[1]
    return 0 if well else 1


if __name__ == "__main__":
    sys.exit(main(sys.argv[1], *map(int, sys.argv[2:3])))
