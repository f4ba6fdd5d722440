#!/usr/bin/env python3
"""Runs `sygus` beside cvc5 and z3 on the question whether an identity of bit vectors holds.

    bench/identities.py [--sygus PROGRAM] [--limit SECONDS] [NAME ..]

With no name it takes every identity, at 8, 16, 32 and 64 bits. Without --sygus it builds the program by ./sygus. Its file
is a problem whose constraint is the identity and whose function has one body, so that its answer is that body where the
solver of bit vectors, `sy_bits`, proves the identity, and nothing else is to be found. Each program runs at most three times
a file, each with so many processor seconds, 30 without --limit, and the least time of its whole process counts; a run that
takes longer than a second isn't repeated. The last columns are the time of `sygus` by that of the other. A solver that
isn't installed is left out. Last stand the identities for which `sygus` takes more than twice the time of the faster one;
the status is 1 where there are such.
"""
import argparse
import os
import shutil
import sys
import tempfile

from runs import answer, run, sygus

RUNS = 3
WIDTHS = (8, 16, 32, 64)
LEARNED = "400000"

# name, and two terms over x, y and z; {n} stands for the number n in the width at hand, and {top} for the last bit's place
IDENTITIES = [
    ("and-commutes", "(bvand x y)", "(bvand y x)"),
    ("xor-commutes", "(bvxor x y)", "(bvxor y x)"),
    ("add-commutes", "(bvadd x y)", "(bvadd y x)"),
    ("or-associates", "(bvor x (bvor y z))", "(bvor (bvor x y) z)"),
    ("xor-associates", "(bvxor x (bvxor y z))", "(bvxor (bvxor x y) z)"),
    ("add-associates", "(bvadd x (bvadd y z))", "(bvadd (bvadd x y) z)"),
    ("and-over-or", "(bvand x (bvor y z))", "(bvor (bvand x y) (bvand x z))"),
    ("and-over-xor", "(bvand x (bvxor y z))", "(bvxor (bvand x y) (bvand x z))"),
    ("product-over-sum", "(bvmul x (bvadd y {1}))", "(bvadd x (bvmul x y))"),
    ("square-of-sum", "(bvmul (bvadd x y) (bvadd x y))", "(bvadd (bvadd (bvmul x x) (bvmul {2} (bvmul x y))) (bvmul y y))"),
    ("difference-of-squares", "(bvmul (bvadd x y) (bvsub x y))", "(bvsub (bvmul x x) (bvmul y y))"),
    ("horner-form", "(bvadd (bvmul (bvadd (bvmul x y) z) y) x)", "(bvadd (bvadd (bvmul x (bvmul y y)) (bvmul z y)) x)"),
    ("times-10", "(bvmul x {10})", "(bvadd (bvshl x {3}) (bvshl x {1}))"),
    ("remainder-by-2", "(bvurem x {2})", "(bvand x {1})"),
    ("remainder-by-4", "(bvurem x {4})", "(bvand x {3})"),
    ("remainder-by-8", "(bvurem x {8})", "(bvand x {7})"),
    ("sign-by-shift", "(bvashr x x)", "(bvashr x {top})"),
    ("shift-over-add", "(bvshl (bvadd x y) {1})", "(bvadd (bvshl x {1}) (bvshl y {1}))"),
    ("shift-is-times-2", "(bvshl x {1})", "(bvmul x {2})"),
    ("shift-is-times-8", "(bvshl x {3})", "(bvmul x {8})"),
    ("shift-is-by-4", "(bvlshr x {2})", "(bvudiv x {4})"),
    ("sum-by-xor-and", "(bvadd x y)", "(bvadd (bvxor x y) (bvshl (bvand x y) {1}))"),
    ("sum-by-or-and", "(bvadd x y)", "(bvadd (bvor x y) (bvand x y))"),
    ("difference-by-xor", "(bvsub x y)", "(bvsub (bvxor x y) (bvshl (bvand (bvnot x) y) {1}))"),
    ("or-by-sum", "(bvor x y)", "(bvadd (bvand x (bvnot y)) y)"),
    ("xor-by-difference", "(bvxor x y)", "(bvsub (bvor x y) (bvand x y))"),
    ("negation-by-not", "(bvneg x)", "(bvadd (bvnot x) {1})"),
    ("absolute-value", "(ite (bvslt x {0}) (bvneg x) x)", "(bvsub (bvxor x (bvashr x {top})) (bvashr x {top}))"),
    ("maximum", "(ite (bvult x y) y x)", "(bvxor x (bvand (bvxor x y) (bvneg (ite (bvult x y) {1} {0}))))"),
]


def at_width(term, width):
    """The term over vectors of the width."""
    for number in (0, 1, 2, 3, 4, 7, 8, 10):
        term = term.replace(f"{{{number}}}", f"#b{number:0{width}b}")
    return term.replace("{top}", f"#b{width - 1:0{width}b}")


def write_files(folder, identity, width):
    """The question in the two languages: whether the sides are equal, and values at which they differ."""
    name, left, right = identity
    equal = f"(= {at_width(left, width)} {at_width(right, width)})"
    problem = os.path.join(folder, f"{name}-{width}.sl")
    with open(problem, "w") as file:
        file.write("(set-logic BV)\n(synth-fun f () Bool ((Body Bool)) ((Body Bool (true))))\n")
        file.writelines(f"(declare-var {variable} (_ BitVec {width}))\n" for variable in "xyz")
        file.write(f"(constraint {equal})\n(check-synth)\n")
    question = os.path.join(folder, f"{name}-{width}.smt2")
    with open(question, "w") as file:
        file.write("(set-logic QF_BV)\n")
        file.writelines(f"(declare-const {variable} (_ BitVec {width}))\n" for variable in "xyz")
        file.write(f"(assert (not {equal}))\n(check-sat)\n")
    return problem, question


def is_proved(ended):
    """Whether a run says that the sides are equal: `sygus` by its only body, the others by what they say of the question."""
    return answer(ended) == "definitions" or ended.output.startswith("unsat")


def measure(words, limit):
    """The run of the least time; none where one took too long."""
    best = None
    for _ in range(RUNS):
        ended = run(words, limit)
        if ended.is_over:
            return None
        if not is_proved(ended):
            sys.exit(f"{' '.join(words)}: {ended.output}{ended.errors}")
        if best is None or ended.seconds < best.seconds:
            best = ended
        if ended.seconds > 1:
            break
    return best


def milliseconds(ended, limit):
    return f"over {limit} s" if ended is None else f"{1000 * ended.seconds:.1f}"


def ratio(ended, other, limit):
    if other is None:
        return ""
    if ended is None:
        return f"> {limit / other.seconds:.0f}"
    return f"{ended.seconds / other.seconds:.1f}"


def is_slow(ended, others):
    """Whether a run takes more than twice the time of the faster one of the others that ended."""
    times = [other.seconds for other in others if other is not None]
    return bool(times) and (ended is None or ended.seconds > 2 * min(times))


def main():
    parser = argparse.ArgumentParser(description=__doc__, formatter_class=argparse.RawDescriptionHelpFormatter)
    parser.add_argument("--sygus", metavar="PROGRAM")
    parser.add_argument("--limit", metavar="SECONDS", type=int, default=30)
    parser.add_argument("names", metavar="NAME", nargs="*")
    options = parser.parse_args()
    unknown = set(options.names) - {name for name, *_ in IDENTITIES}
    if unknown:
        parser.error(f"no such identity: {', '.join(sorted(unknown))}")
    limit = options.limit
    others = [name for name in ("cvc5", "z3") if shutil.which(name)]
    program = sygus(options.sygus)
    heads = ["Identity", "bits", "`sygus` ms"]
    heads += [name + " ms" for name in others] + ["by " + name for name in others]
    print("| " + " | ".join(heads) + " |")
    print("|" + "---|" * len(heads))
    slow, count = [], 0
    with tempfile.TemporaryDirectory() as folder:
        for identity in IDENTITIES:
            if options.names and identity[0] not in options.names:
                continue
            for width in WIDTHS:
                problem, question = write_files(folder, identity, width)
                own = measure([program, "--clauses", LEARNED, problem], limit)
                their = [measure([name, question], limit) for name in others]
                cells = [identity[0], str(width), milliseconds(own, limit)]
                cells += [milliseconds(other, limit) for other in their] + [ratio(own, other, limit) for other in their]
                print("| " + " | ".join(cells) + " |", flush=True)
                count += 1
                slow += [f"{identity[0]} over {width} bits"] if is_slow(own, their) else []
    print(f"\nmore than twice the time of the faster one: {len(slow)} of {count}" + ":" * bool(slow), ", ".join(slow))
    sys.exit(1 if slow else 0)


if __name__ == "__main__":
    main()
