#!/usr/bin/env python3
"""Writes formulas in the CNF format of DIMACS to standard output.

  pigeons P H            P pigeons in H holes
  random V C SEED        C clauses of three literals over V variables
  chain N                N implications behind a clause of one literal
  many N V C SEED        N formulas as `random` writes them, one behind the other
  first V C SEED         the same formula, with its first clause proposed behind it
  implied N M            N implications in a row, and M proposed ones that follow in three steps
"""
import random
import sys


def pigeons(count, holes):
    def var(pigeon, hole):
        return pigeon * holes + hole + 1

    clauses = [[var(p, h) for h in range(holes)] for p in range(count)]
    for hole in range(holes):
        for second in range(count):
            for first in range(second):
                clauses.append([-var(first, hole), -var(second, hole)])
    return count * holes, clauses


def drawn(variables, count, seed):
    source = random.Random(seed)

    def clause():
        picked = source.sample(range(1, variables + 1), 3)
        return [var if source.random() < 0.5 else -var for var in picked]

    return variables, [clause() for _ in range(count)]


def chain(count):
    return count + 1, [[1]] + [[-at, at + 1] for at in range(1, count + 1)]


def implied(count, proposed):
    clauses = [[-at, at + 1] for at in range(1, count + 1)]
    starts = (at % (count - 2) + 1 for at in range(proposed))
    return (count + 1, clauses), [[-at, at + 3] for at in starts]


def propose(clauses):
    for clause in clauses:
        print("a", *clause, 0)


def write(formula):
    variables, clauses = formula
    print("p cnf", variables, len(clauses))
    for clause in clauses:
        print(*clause, 0)


def main():
    if len(sys.argv) < 2:
        sys.exit(__doc__)
    kind, numbers = sys.argv[1], [int(word) for word in sys.argv[2:]]
    if kind == "pigeons":
        write(pigeons(*numbers))
    elif kind == "random":
        write(drawn(*numbers))
    elif kind == "chain":
        write(chain(*numbers))
    elif kind == "many":
        count, variables, clauses, seed = numbers
        for at in range(count):
            write(drawn(variables, clauses, seed + at))
    elif kind == "first":
        formula = drawn(*numbers)
        write(formula)
        propose(formula[1][:1])
    elif kind == "implied":
        formula, proposed = implied(*numbers)
        write(formula)
        propose(proposed)
    else:
        sys.exit(__doc__)


main()
