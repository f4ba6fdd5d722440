#!/usr/bin/env python3
"""Prints the rows of tools/tests/questions/integers.txt, with values from z3.

    tools/integer_vectors.py

A left associative operator is written out pair by pair, as SMT-LIB defines it, so that each partial
value is seen: the row has `none` where one of them lies outside -2^127 to 2^127 - 1. SMT-LIB leaves
division by 0 open; here `div` gives 0 and `mod` the dividend, and those rows don't ask z3. Rows that no file can have
stand in crates/sy_vectors/src/integers.rt instead: divisions by 0 and by -2^127, and comparisons with a difference out of
range. Those of `abs`, `div` and `mod` stand in both.
"""
import argparse
import subprocess

LEAST, MOST = -2**127, 2**127 - 1
M = 2**126

ARITHMETIC = [
    ("neg", [0]), ("neg", [5]), ("neg", [-5]), ("neg", [MOST]), ("neg", [LEAST]), ("neg", [LEAST + 1]),
    ("abs", [0]), ("abs", [7]), ("abs", [-7]), ("abs", [LEAST]), ("abs", [LEAST + 1]), ("abs", [MOST]),
    ("+", [2, 3]), ("+", [-2, 3]), ("+", [1, 2, 3]), ("+", [MOST, 1]), ("+", [MOST, 1, -1]),
    ("+", [MOST, -1, 1]), ("+", [LEAST, -1]), ("+", [LEAST, MOST]), ("+", [LEAST, LEAST]), ("+", [1, 2, 3, 4]),
    ("+", [M, M]), ("+", [M, M - 1]), ("+", [-M, -M]),
    ("-", [5, 3]), ("-", [3, 5]), ("-", [10, 3, 2]), ("-", [10, 3, 2, 1]), ("-", [LEAST, 1]), ("-", [-MOST, 1]),
    ("-", [0, LEAST]), ("-", [-1, LEAST]), ("-", [LEAST, 1, -1]), ("-", [MOST, -1]), ("-", [LEAST, LEAST]),
    ("*", [6, 7]), ("*", [-6, 7]), ("*", [-6, -7]), ("*", [2, 3, 4]), ("*", [2**64, 2**63]), ("*", [2**64, -2**63]),
    ("*", [2**64, 2**62]), ("*", [LEAST, -1]), ("*", [LEAST, 1]), ("*", [2**64, 2**64, 0]), ("*", [0, 2**64, 2**64]),
    ("*", [-1, LEAST]), ("*", [MOST, -1]),
    ("div", [7, 2]), ("div", [-7, 2]), ("div", [7, -2]), ("div", [-7, -2]), ("div", [6, 3]), ("div", [-6, 3]), ("div", [6, -3]),
    ("div", [-6, -3]), ("div", [1, 5]), ("div", [-1, 5]), ("div", [-1, -5]), ("div", [1, -5]), ("div", [100, 7, 3]), ("div", [-100, 7, -3]),
    ("div", [LEAST, -1]), ("div", [LEAST, 1]), ("div", [LEAST, 2]), ("div", [LEAST, LEAST]), ("div", [MOST, LEAST]), ("div", [LEAST, MOST]),
    ("div", [MOST, -1]), ("div", [LEAST + 1, -1]), ("div", [MOST, -2]), ("div", [LEAST, -2]), ("div", [LEAST, -3]), ("div", [-7, 2, -2]),
    ("div", [7, 0]), ("div", [-7, 0]), ("div", [7, 0, 3]), ("div", [LEAST, 2, -1]), ("div", [LEAST, -1, 0]),
    ("mod", [7, 2]), ("mod", [-7, 2]), ("mod", [7, -2]), ("mod", [-7, -2]), ("mod", [6, 3]), ("mod", [-6, 3]), ("mod", [1, 5]),
    ("mod", [-1, 5]), ("mod", [-1, -5]), ("mod", [LEAST, -1]), ("mod", [LEAST, LEAST]), ("mod", [LEAST, MOST]), ("mod", [MOST, LEAST]),
    ("mod", [MOST, -2]), ("mod", [LEAST, -2]), ("mod", [LEAST, 3]), ("mod", [LEAST, -3]), ("mod", [-1, MOST]), ("mod", [-1, -MOST]),
    ("mod", [7, 0]), ("mod", [-7, 0]), ("mod", [LEAST, 0]),
]

TESTS = [
    ("<=", [1, 1]), ("<=", [2, 1]), ("<=", [1, 2, 3]), ("<=", [1, 3, 2]), ("<=", [LEAST, MOST]), ("<=", [2, 1, 3]), ("<=", [1, 2, 2, 1]),
    ("<", [1, 1]), ("<", [1, 2]), ("<", [1, 2, 2]), ("<", [-2, -1, 0]), ("<", [MOST, LEAST]), ("<", [3, 1, 2]),
    (">=", [1, 1]), (">=", [1, 2]), (">=", [3, 2, 1]), (">=", [3, 1, 2]), (">=", [MOST, LEAST]), (">=", [1, 2, 1]),
    (">", [1, 1]), (">", [2, 1]), (">", [3, 2, 2]), (">", [0, -1, -2]), (">", [LEAST, MOST]), (">", [1, 3, 2]),
    ("=", [1, 1]), ("=", [1, 2]), ("=", [4, 4, 4]), ("=", [4, 4, 5]), ("=", [5, 4, 4]), ("=", [LEAST, MOST]),
    ("distinct", [1, 1]), ("distinct", [1, 2]), ("distinct", [1, 2, 1]), ("distinct", [1, 2, 3]), ("distinct", [1, 2, 3, 2]), ("distinct", [1, 1, 2]),
]

T, F = True, False
TRUTHS = [
    ("not", [T]), ("not", [F]),
    ("and", [T]), ("and", [F]), ("and", [T, T]), ("and", [T, F]), ("and", [T, T, F]), ("and", [T, T, T]), ("and", [F, T, T]),
    ("or", [T]), ("or", [F]), ("or", [F, F]), ("or", [F, T]), ("or", [F, F, T]), ("or", [F, F, F]),
    ("xor", [T, T]), ("xor", [T, F]), ("xor", [F, F]), ("xor", [T, T, T]), ("xor", [T, T, F]), ("xor", [T, F, T, T]),
    ("=>", [T, F]), ("=>", [F, F]), ("=>", [T, T]), ("=>", [F, T, F]), ("=>", [F, F, F]), ("=>", [T, T, F]),
    ("=>", [T, F, F]), ("=>", [F, T, F, F]),
    ("=", [T, T]), ("=", [T, F]), ("=", [F, F, F]), ("=", [F, F, T]), ("=", [T, F, T]),
    ("distinct", [T, F]), ("distinct", [T, T]), ("distinct", [T, F, T]),
    ("ite", [T, T, F]), ("ite", [F, T, F]), ("ite", [T, F, T]), ("ite", [F, F, T]),
]


def smt(word):
    return "-" if word == "neg" else word


def written(value):
    if isinstance(value, bool):
        return "true" if value else "false"
    return str(value) if value >= 0 else f"(- {-value})"


def ask(name, arguments):
    text = "(simplify (" + " ".join([name] + [written(a) for a in arguments]) + "))\n"
    answer = subprocess.run(["z3", "-in"], input=text, capture_output=True, text=True, check=True).stdout.strip()
    if answer in ("true", "false"):
        return answer == "true"
    return -int(answer[3:-1]) if answer.startswith("(- ") else int(answer)


def step(op, x, y):
    if y == 0 and op == "div":
        return 0
    if y == 0 and op == "mod":
        return x
    return ask(smt(op), [x, y])


def number(op, arguments):
    if len(arguments) == 1:
        value = ask(smt(op), arguments)
        return value if LEAST <= value <= MOST else None
    value = arguments[0]
    for other in arguments[1:]:
        value = step(op, value, other)
        if not LEAST <= value <= MOST:
            return None
    return value


def word(value):
    return "none" if value is None else str(value).lower()


def rows(table, answer):
    for op, arguments in table:
        print(op, *map(word, arguments), word(answer(op, arguments)))


def main():
    argparse.ArgumentParser(description=__doc__, formatter_class=argparse.RawDescriptionHelpFormatter).parse_args()
    rows(ARITHMETIC, number)
    rows(TESTS, ask)
    rows(TRUTHS, ask)


if __name__ == "__main__":
    main()
