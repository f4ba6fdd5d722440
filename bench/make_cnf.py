#!/usr/bin/env python3
"""Writes formulas in the DIMACS form into a folder: random 3-SAT near the threshold, pigeons in too few holes, and
circuits that agree (the sum and the product of two numbers of bits, in both orders). Its seeds are fixed.

    bench/make_cnf.py FOLDER
"""
import argparse
import itertools
import random


def write(folder, name, variables, clauses):
    with open(f"{folder}/{name}.cnf", "w") as file:
        file.write(f"p cnf {variables} {len(clauses)}\n")
        for clause in clauses:
            file.write(" ".join(map(str, clause)) + " 0\n")


def random_3sat(variables, seed):
    """4.26 clauses a variable, each of three distinct variables."""
    source = random.Random(seed)
    clauses = []
    for _ in range(round(4.26 * variables)):
        chosen = source.sample(range(1, variables + 1), 3)
        clauses.append([v if source.random() < 0.5 else -v for v in chosen])
    return variables, clauses


def pigeons(holes):
    """One pigeon more than there are holes."""
    def sits(pigeon, hole):
        return pigeon * holes + hole + 1
    clauses = [[sits(p, h) for h in range(holes)] for p in range(holes + 1)]
    for hole in range(holes):
        for p, q in itertools.combinations(range(holes + 1), 2):
            clauses.append([-sits(p, hole), -sits(q, hole)])
    return holes * (holes + 1), clauses


class Circuit:
    """Gates as clauses. A literal is a number; `None` is a false constant."""

    def __init__(self):
        self.variables = 0
        self.clauses = []

    def fresh(self):
        self.variables += 1
        return self.variables

    def word(self, width):
        return [self.fresh() for _ in range(width)]

    def both(self, a, b):
        if a is None or b is None:
            return None
        out = self.fresh()
        self.clauses += [[-out, a], [-out, b], [out, -a, -b]]
        return out

    def either(self, a, b):
        if a is None or b is None:
            return a or b
        out = self.fresh()
        self.clauses += [[out, -a], [out, -b], [-out, a, b]]
        return out

    def differ(self, a, b):
        if a is None or b is None:
            return a or b
        out = self.fresh()
        self.clauses += [[-out, a, b], [-out, -a, -b], [out, -a, b], [out, a, -b]]
        return out

    def sum(self, a, b):
        """The sum modulo two to the width, by a chain of full adders."""
        carry, out = None, []
        for x, y in zip(a, b):
            half = self.differ(x, y)
            out.append(self.differ(half, carry))
            carry = self.either(self.both(x, y), self.both(half, carry))
        return out

    def product(self, a, b):
        """The product modulo two to the width: the rows of `a`, shifted, by the bits of `b`."""
        width = len(a)
        total = [None] * width
        for place, bit in enumerate(b):
            row = [None] * place + [self.both(x, bit) for x in a[: width - place]]
            total = self.sum(total, row)
        return total

    def unequal(self, a, b):
        self.clauses.append([self.differ(x, y) for x, y in zip(a, b)])


def commutes(operation, width):
    """Two numbers whose result in one order differs from that in the other."""
    circuit = Circuit()
    a, b = circuit.word(width), circuit.word(width)
    circuit.unequal(operation(circuit, a, b), operation(circuit, b, a))
    return circuit.variables, circuit.clauses


def chain(last):
    """A chain of implications from a true variable to a contradiction, its even links last to first, then its odd ones."""
    clauses = [[-(i + 1), i + 2] for i in range(last - 2, -1, -2)]
    clauses += [[-(i + 1), i + 2] for i in range(last - 1, 0, -2)]
    clauses += [[-last, -(last + 1)], [1]]
    return last + 1, clauses


def write_all(folder):
    for variables in (100, 125, 150, 175, 200):
        for seed in range(6):
            write(folder, f"random{variables}-{seed}", *random_3sat(variables, 1000 * variables + seed))
    for holes in (7, 8, 9):
        write(folder, f"pigeons{holes}", *pigeons(holes))
    for width in (4, 5, 6, 7):
        write(folder, f"sum{width}", *commutes(Circuit.sum, width))
        write(folder, f"product{width}", *commutes(Circuit.product, width))
    write(folder, "chain400000", *chain(400_000))


def main():
    options = argparse.ArgumentParser(description=__doc__, formatter_class=argparse.RawDescriptionHelpFormatter)
    options.add_argument("folder", metavar="FOLDER")
    write_all(options.parse_args().folder)


if __name__ == "__main__":
    main()
