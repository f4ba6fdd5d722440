#!/usr/bin/env python3
"""Runs `sygus --mode drill` on numbers, and prints the middle and the greatest time.

    bench/drill.py [--sygus PROGRAM] [--count COUNT]

The numbers are 0, 10,000,019, 20,000,038 and so on, a hundred without --count. Without --sygus it builds the program by
./sygus. From each number a problem of 1,000 closed examples is made: a function of a byte is to be found that is the
complement of its argument below a bound, and one more than its argument from there on. The line of each run should say
that all examples are met. The number's file is made here, too, and solved, and the answer is checked at all examples. The
status is 1 where a line or an answer is wrong.
"""
import argparse
import os
import re
import statistics
import sys
import tempfile

from runs import run, sygus

STEP = 10_000_019

HEAD = """(set-logic BV)
(synth-fun f ((x (_ BitVec 8))) (_ BitVec 8)
  ((S (_ BitVec 8)) (C Bool))
  ((S (_ BitVec 8) (x (bvnot x) (bvadd x #x01) (ite C S S)))
   (C Bool ((bvult x #x{:02x})))))
"""


def examples_of(number):
    """The arguments of the number's examples, with the values that are wanted there."""
    state, bound = number, number % 256
    for _ in range(1000):
        state = (state * 6364136223846793005 + 1442695040888963407) % 2**64
        argument = state >> 56
        yield argument, 255 - argument if argument < bound else (argument + 1) % 256


def file_of(number):
    constraints = "".join(f"(constraint (= (f #x{a:02x}) #x{b:02x}))\n" for a, b in examples_of(number))
    return HEAD.format(number % 256) + constraints + "(check-synth)\n"


def value(tokens, x):
    """The value of the body whose tokens these are, from left to right, at the argument x."""
    token = tokens.pop(0)
    if token == "x":
        return x
    if token.startswith("#x"):
        return int(token[2:], 16)
    operator, arguments = tokens.pop(0), []
    while tokens[0] != ")":
        arguments.append(value(tokens, x))
    tokens.pop(0)
    if operator == "ite":
        return arguments[1] if arguments[0] else arguments[2]
    return {"bvnot": lambda a: 255 - a, "bvadd": lambda a, b: (a + b) % 256, "bvult": lambda a, b: a < b}[operator](*arguments)


def is_right(answer, number):
    found = re.fullmatch(r"\(\n\(define-fun f \(\(x \(_ BitVec 8\)\)\) \(_ BitVec 8\) (.*)\)\n\)\n", answer)
    if not found:
        return False
    tokens = re.findall(r"[()]|[^\s()]+", found[1])
    return all(value(list(tokens), a) == b for a, b in examples_of(number))


def main():
    options = argparse.ArgumentParser(description=__doc__, formatter_class=argparse.RawDescriptionHelpFormatter)
    options.add_argument("--sygus", metavar="PROGRAM")
    options.add_argument("--count", metavar="COUNT", type=int, default=100)
    options = options.parse_args()
    program = sygus(options.sygus)
    times, wrong = [], []
    with tempfile.TemporaryDirectory() as folder:
        path = os.path.join(folder, "drill.sl")
        for number in range(0, options.count * STEP, STEP):
            drilled = run([program, "--mode", "drill", str(number)])
            times.append(drilled.seconds)
            with open(path, "w") as file:
                file.write(file_of(number))
            solved = run([program, path])
            if drilled.output != f"drill {number}: 1000 examples, 1000 met\n" or not is_right(solved.output, number):
                wrong.append(number)
                print(f"{number}: {drilled.output.strip()}; {solved.output.strip()}")
    print(f"{len(times)} numbers, {len(wrong)} wrong; the middle time is {statistics.median(times):.3f} s, the greatest {max(times):.3f} s")
    sys.exit(1 if wrong else 0)


if __name__ == "__main__":
    main()
