#!/usr/bin/env python3
"""Times mode `check`: how long replies take to be read, and what a verdict costs beside the decision in mode `solve`.

    bench/checks.py [--sygus PROGRAM] [--runs N] [NAME ..]

With `read` files of 4 MiB with 16 problems and replies are read; one reply too many stands behind them, so that none
is judged. With `judge` questions of `identities.py` and `intsolve.py`, each a problem whose function has one body,
are asked in mode `solve`, and that body is judged in mode `check`. Without names both are done, and without --sygus
the program is built by ./sygus. The least processor seconds of three runs count, or of --runs. The status is 1 where
a file takes more than 2 seconds to be read, or a verdict more than 1.2 times the decision.
"""
import argparse
import os
import sys
import tempfile

import identities
import intsolve
from runs import run, sygus

LONGEST, COUNT = 4_194_304, 16
MOST_SECONDS, MOST_RATIO = 2, 1.2
# Questions whose decision takes long enough to be measured.
WIDE = [("square-of-sum", 64), ("remainder-by-8", 32), ("sum-by-xor-and", 32), ("maximum", 64), ("or-by-sum", 64)]
WHOLE = [("max", 5), ("max", 7), ("step", 6), ("bounds", 100), ("bits", 4), ("remainder", 1000), ("common", 9)]


def files(front, reply, size):
    """A problem that is asked sixteen times, and the replies, whose bodies have so many bytes."""
    asked = front + "(check-synth)\n" * COUNT
    body = reply((size - len(asked)) // COUNT - 200)
    return f"{asked}{f'((define-fun f ((x Int)) Int {body}))' * COUNT}\nfail\n"


FRONT = "(set-logic LIA)\n(synth-fun f ((x Int)) Int)\n"


def sum_of(size):
    return f"(+ {'x ' * (size // 2 - 2)})"


def deep(size):
    depth = 1190
    return f"{'(+ x ' * depth}x{')' * depth}"


def nested(size):
    """Sums as deep as may be, beside each other."""
    one = f"{'(- ' * 1190}x{')' * 1190}"
    return f"(+ {one * (size // len(one) - 1)} x)"


def bound(size):
    return f"(let ({''.join(f'(a{number:05} x)' for number in range(size // 12))}) (+ {'a00007 ' * (size // 60)} x))"


def chosen(size):
    one = "(ite (<= x 170141183460469231731687303715884105727) (- x 5) (+ x (* 3 x)))"
    return f"(+ {one * (size // len(one) - 1)} x)"


def defined():
    """Definitions as many as may be declared, each of which a reply names."""
    definitions = "".join(f"(define-fun g{number} ((x Int)) Int (+ x {number}))\n" for number in range(4_000))
    calls = "".join(f"(g{number} x)" for number in range(4_000))
    return files(FRONT + definitions, lambda size: f"(+ {calls} {'x ' * ((size - len(calls)) // 2 - 4)})", LONGEST - 40)


def constrained():
    """A long problem and long replies."""
    constraint = "(constraint (>= (+ (f 1) 2 3 4 5 6 7 8 9) (* 5 (f 2))))\n"
    return files(FRONT + constraint * (LONGEST // 2 // len(constraint)), sum_of, LONGEST - 40)


def commented():
    return files(FRONT, lambda size: f"; {'a comment ' * (size // 11)}\nx", LONGEST - 40)


FILES = {
    "one long sum a reply": lambda: files(FRONT, sum_of, LONGEST - 40),
    "sums beside each other, 1,190 deep": lambda: files(FRONT, nested, LONGEST - 40),
    "names bound by let": lambda: files(FRONT, bound, LONGEST - 40),
    "choices and long numbers": lambda: files(FRONT, chosen, LONGEST - 40),
    "calls of 4,000 definitions": defined,
    "half of it constraints": constrained,
    "comments": commented,
    "small bodies, 1,190 deep": lambda: files(FRONT, deep, 0),
}


def least(words, runs):
    """The run of the least processor time."""
    return min((run(words, 60) for _ in range(runs)), key=lambda ended: ended.seconds)


def read(program, folder, runs):
    print("| 16 problems and replies | bytes | s | MiB |\n|---|---|---|---|")
    slow = 0
    for name, make in FILES.items():
        path = os.path.join(folder, "replies.sl")
        with open(path, "w") as file:
            file.write(make())
        ended = least([program, "--mode", "check", path], runs)
        if ended.status != 7 or "check-synth 17 " not in ended.errors or not ended.errors.endswith("26 ReplyCount\n"):
            sys.exit(f"{name}: status {ended.status}: {ended.errors[:200]}")
        slow += ended.seconds > MOST_SECONDS
        print(f"| {name} | {os.path.getsize(path):,} | {ended.seconds:.2f} | {ended.memory >> 10} |", flush=True)
    return slow


def questions(folder):
    """The names and the files of problems whose functions have one body, and the words for sygus."""
    for name, width in WIDE:
        identity = next(it for it in identities.IDENTITIES if it[0] == name)
        path = identities.write_files(folder, identity, width)[0]
        yield f"{name}, {width} bits", path, ["--clauses", identities.LEARNED]
    for family, number in WHOLE:
        path = os.path.join(folder, f"{family}-{number}.sl")
        with open(path, "w") as file:
            file.write(intsolve.file_of(family, number))
        yield f"{family} {number}", path, ["--nodes", str(intsolve.MOST)]


def judge(program, folder, runs):
    print("| Question | `solve` ms | `check` ms | ratio |\n|---|---|---|---|")
    slow = 0
    for name, path, words in questions(folder):
        solved = least([program, *words, path], runs)
        with open(path, "a") as file:
            file.write(solved.output)
        checked = least([program, "--mode", "check", *words, path], runs)
        if checked.output != "check-synth 1 holds\n":
            sys.exit(f"{name}: {solved.output}{solved.errors}{checked.output}{checked.errors}")
        ratio = checked.seconds / solved.seconds
        slow += ratio > MOST_RATIO
        print(f"| {name} | {1000 * solved.seconds:.0f} | {1000 * checked.seconds:.0f} | {ratio:.2f} |", flush=True)
    return slow


def main():
    options = argparse.ArgumentParser(description=__doc__, formatter_class=argparse.RawDescriptionHelpFormatter)
    options.add_argument("--sygus", metavar="PROGRAM")
    options.add_argument("--runs", metavar="N", type=int, default=3)
    options.add_argument("names", metavar="NAME", nargs="*")
    options = options.parse_args()
    parts = {"read": read, "judge": judge}
    if not set(options.names) <= set(parts):
        sys.exit(f"the names are {' and '.join(parts)}")
    program = sygus(options.sygus)
    with tempfile.TemporaryDirectory() as folder:
        slow = sum(parts[name](program, folder, options.runs) for name in options.names or parts)
    return 1 if slow else 0


if __name__ == "__main__":
    sys.exit(main())
