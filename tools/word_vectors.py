#!/usr/bin/env python3
"""Prints the rows of tools/tests/questions/words.txt: values of SMT-LIB's operators on bit vectors, as z3 gives them.

    tools/word_vectors.py

It needs z3 on the path. Those that no file can have, rotations by 203, stand in crates/sy_vectors/src/words.rt instead.
"""
import argparse
import random
import subprocess

WIDTHS = [1, 8, 32, 63, 64]
PAIRS = [
    "bvand", "bvor", "bvxor", "bvnand", "bvnor", "bvxnor", "bvadd", "bvsub", "bvmul", "bvudiv", "bvurem", "bvsdiv",
    "bvsrem", "bvsmod", "bvshl", "bvlshr", "bvashr", "bvcomp",
]
DIVISIONS = ["bvudiv", "bvurem", "bvsdiv", "bvsrem", "bvsmod"]
SHIFTS = ["bvshl", "bvlshr", "bvashr"]
ORDERS = ["bvult", "bvule", "bvugt", "bvuge", "bvslt", "bvsle", "bvsgt", "bvsge"]

# worked by hand, at width 4
PAIRS_OF_FOUR = [
    ("bvsdiv", 0b1001, 0b0010), ("bvsrem", 0b1001, 0b0010), ("bvsmod", 0b1001, 0b0010), ("bvsmod", 0b0111, 0b1110),
    ("bvsmod", 0b1001, 0b1110), ("bvsdiv", 0b1001, 0b0000), ("bvsdiv", 0b0111, 0b0000), ("bvsrem", 0b1001, 0b0000),
    ("bvsmod", 0b1001, 0b0000), ("bvudiv", 0b0101, 0b0000), ("bvurem", 0b0101, 0b0000), ("bvashr", 0b1000, 0b0001),
    ("bvashr", 0b1000, 0b0100), ("bvshl", 0b0011, 0b0100),
]


def vector(width, bits):
    return f"(_ bv{bits} {width})"


def solved(terms):
    """z3's values of the terms, as (width, number), or as a bool."""
    script = "".join(f"(simplify {term})\n" for term in terms)
    written = subprocess.run(["z3", "-in"], input=script, capture_output=True, text=True, check=True).stdout.split()
    values = []
    for word in written:
        if word.startswith("#x"):
            values.append((4 * (len(word) - 2), int(word[2:], 16)))
        elif word.startswith("#b"):
            values.append((len(word) - 2, int(word[2:], 2)))
        else:
            values.append({"true": True, "false": False}[word])
    assert len(values) == len(terms), (len(values), len(terms))
    return values


def operand(rng, width):
    """A number of the width, often with its top bit set."""
    return rng.choice([rng.randrange(2**width), 2**width - 1 - rng.randrange(min(2**width, 100)), rng.randrange(min(2**width, 100))])


def pair(name, width, s, t):
    return (name, width, s, width, t, f"({name} {vector(width, s)} {vector(width, t)})")


def pairs_of_four():
    return [pair(name, 4, s, t) for name, s, t in PAIRS_OF_FOUR]


def ordinary(rng, names):
    """A row an operator and width; no divisor is 0 and no shift moves all bits out."""
    rows = []
    for name in names:
        for width in WIDTHS:
            s, t = operand(rng, width), operand(rng, width)
            if name in DIVISIONS:
                t = max(t, 1)
            if name in SHIFTS:
                t = rng.randrange(min(width, 2**width))
            rows.append(pair(name, width, s, t))
    return rows


def by_zero():
    rows = []
    for name in DIVISIONS:
        for width, s in [(1, 1), (8, 200), (32, 77), (63, 2**62 + 5), (64, 2**63 + 9)]:
            rows.append(pair(name, width, s, 0))
    for width in WIDTHS:
        rows.append(pair("bvsdiv", width, 2 ** (width - 1), 2**width - 1))
        rows.append(pair("bvsmod", width, 2 ** (width - 1), 2**width - 1))
    return rows


def far_shifts():
    rows = []
    for name in SHIFTS:
        for width, s, t in [(1, 1, 1), (8, 200, 8), (32, 2**31, 32), (63, 2**62, 2**62), (64, 2**63, 64)]:
            rows.append(pair(name, width, s, t))
    return rows


def joined(rng):
    rows = []
    for v, w in [(1, 1), (8, 8), (32, 32), (63, 1), (1, 63), (8, 56)]:
        s, t = operand(rng, v), operand(rng, w)
        rows.append(("concat", v, s, w, t, f"(concat {vector(v, s)} {vector(w, t)})"))
    return rows


def singles(rng):
    rows = [
        ("rotate_left,1", 4, 0b1001, f"((_ rotate_left 1) {vector(4, 0b1001)})"),
        ("extract,2,1", 4, 0b1100, f"((_ extract 2 1) {vector(4, 0b1100)})"),
    ]
    for width in WIDTHS:
        def row(name, term, s):
            rows.append((name, width, s, f"({term} {vector(width, s)})"))

        s = operand(rng, width)
        row("bvnot", "bvnot", s)
        row("bvneg", "bvneg", s)
        row("bvneg", "bvneg", 2 ** (width - 1))
        high = rng.randrange(width)
        low = rng.randrange(high + 1)
        row(f"extract,{high},{low}", f"(_ extract {high} {low})", operand(rng, width))
        copies = 64 // width
        row(f"repeat,{copies}", f"(_ repeat {copies})", operand(rng, width) | 1)
        by = 64 - width
        row(f"zero_extend,{by}", f"(_ zero_extend {by})", 2**width - 1)
        row(f"sign_extend,{by}", f"(_ sign_extend {by})", 2 ** (width - 1))
        row(f"sign_extend,{by}", f"(_ sign_extend {by})", 2 ** (width - 1) - 1)
        for by in [rng.randrange(width), width, 203]:
            s = operand(rng, width)
            row(f"rotate_left,{by}", f"(_ rotate_left {by})", s)
            row(f"rotate_right,{by}", f"(_ rotate_right {by})", s)
    return rows


def orders(rng):
    rows = []
    for name in ORDERS:
        for width in WIDTHS:
            s = operand(rng, width)
            t = rng.choice([s, operand(rng, width), s ^ 2 ** (width - 1)])
            rows.append((name, width, s, t, f"({name} {vector(width, s)} {vector(width, t)})"))
    return rows


def values(rows):
    return zip(rows, solved([row[-1] for row in rows]))


def print_singles(rows):
    for (operator, width, s, _), value in values(rows):
        print(f"{operator} {width}:{s} {value[0]}:{value[1]}")


def print_pairs(rows):
    for (operator, v, s, w, t, _), value in values(rows):
        print(f"{operator} {v}:{s} {w}:{t} {value[0]}:{value[1]}")


def print_orders(rows):
    for (operator, width, s, t, _), value in values(rows):
        print(f"{operator} {width}:{s} {width}:{t} {str(value).lower()}")


def main():
    argparse.ArgumentParser(description=__doc__, formatter_class=argparse.RawDescriptionHelpFormatter).parse_args()
    rng = random.Random(64)
    print_singles(singles(rng))
    print_pairs(ordinary(rng, PAIRS[:6]))
    print_pairs(pairs_of_four() + ordinary(rng, ["bvadd", "bvsub", "bvmul", "bvcomp"]))
    print_pairs(ordinary(rng, DIVISIONS))
    print_pairs(by_zero())
    print_pairs(ordinary(rng, SHIFTS) + far_shifts() + joined(rng))
    print_orders(orders(rng))


if __name__ == "__main__":
    main()
